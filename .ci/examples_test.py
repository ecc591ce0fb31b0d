"""Tests examples.py: each page here has one block, which has to pass or to fail for the reason named."""

import sys

sys.dont_write_bytecode = True
import examples

# The words after ```, the commands, what they are to print, and a part of what is said of them ("" where they are right).
CASES = [
    ("sh", "echo a", "a\n", ""),
    ("sh", "echo a", "b\n", "printed"),
    ("sh", "true", "a\n", "printed"),
    ("sh", "echo a", "", "printed"),
    ("sh", "false", "", "ended with status 1"),
    ("sh", "false\ntrue", "", "ended with status 1"),
    ("sh", "false | true", "", "ended with status 1"),
    ("sh", "true | (exit 3) | true", "", "ended with status 3"),
    ("sh", 'echo "$(false)"', "\n", "ended with status 1"),
    ("sh", "cat <(cat nowhere 2> said)", "", "ended with status 1"),
    ("sh", "f() { false; true; }\nf", "", "ended with status 1"),
    ("sh", "for i in 1 2; do false; done; true", "", "ended with status 1"),
    ("sh", "(false; true) | cat", "", "ended with status 1"),
    ("sh", "false && true", "", "ended with status 1"),
    ("sh", "false || true", "", ""),
    ("sh", "yes | sed -n 1q", "", "ended with status 141"),
    ("sh", "echo a >&2", "", "wrote on standard error"),
    ("sh", "echo a >&2", "a\n", "wrote on standard error"),
    ("sh", "echo a >&2 | cat", "", "wrote on standard error"),
    ("sh status 3", "(exit 3)", "", ""),
    ("sh status 3", "(exit 3) | cat\ntrue", "", ""),
    ("sh status 3", "echo a >&2; (exit 3)", "a\n", ""),
    ("sh status 3", "echo a >&2; (exit 3)", "", "printed"),
    ("sh status 3", "true", "", "didn't end with status 3"),
    ("sh status 3", "(exit 3)\nfalse", "", "ended with status 1"),
    ("sh status 3", "false", "", "didn't end with status 3"),
    ("sh report", "echo a >&2; echo b", "a\nb\n", ""),
    ("sh report", "echo a >&2; false", "a\n", "ended with status 1"),
    ("sh report", "echo a >&2; echo b", "b\n", "printed"),
    ("sh", "exit 0", "", "the shell ended in example 1 of 1"),
    ("sh", "echo 'a", "", "the shell ended in example 1 of 1"),
    ("sh status 0", "true", "", "a block of commands is"),
    ("sh status", "true", "", "a block of commands is"),
    ("sh by hand", "false", "", ""),
    ("sh by hand", "false", "a\n", "no block of commands is before this one"),
    ("text", "false", "", ""),
]


def main() -> int:
    """Tries each case, and a page whose block has no end."""
    failed = False
    pages = [(f"```{words}\n{commands}\n```\n" + (f"```\n{wanted}```\n" if wanted else ""), said) for words, commands, wanted, said in CASES]
    pages.append(("```sh\ntrue\n", "this block has no end"))
    pages.append(("```sh\na=1\ncd /\n```\n```sh\necho $a $PWD\n```\n```\n1 /\n```\n", ""))
    for text, said in pages:
        found = "\n".join(examples.run("page", text))
        if (said not in found) or bool(said) != bool(found):
            print(f"checks: examples.py says of\n{text}\n{found or 'nothing'}\nand not {said or 'nothing'}", file=sys.stderr)
            failed = True
    return 1 if failed else 0


sys.exit(main())
