#!/usr/bin/env python3
"""refused_growths.py [PROGRAM]

Runs seven commands of the built program with each of its allocations refused in turn, the first to the last of those that it makes
with ample memory. A run has to end with status 5, the line `refused memory` last on the report, and no octet on the output (the
commands here write at their end); or as with ample memory, where what was refused could be done without. It prints how many
there are of each. It wants a C compiler, and stands outside the gate."""
import os, subprocess, sys, tempfile

TOP = os.path.dirname(os.path.dirname(os.path.abspath(__file__)))

SHIM = r"""
#define _GNU_SOURCE
#include <dlfcn.h>
#include <stdlib.h>
#include <errno.h>
#include <stdio.h>
static long made, refused = -1;
static int refuses(void) {
    if (refused < 0) { const char *word = getenv("REFUSED_GROWTH"); refused = word ? atol(word) : 0; }
    return ++made == refused;
}
__attribute__((destructor)) static void tell(void) {
    const char *name = getenv("COUNTED_GROWTHS");
    FILE *file = name ? fopen(name, "w") : 0;
    if (file) { fprintf(file, "%ld", made); fclose(file); }
}
void *malloc(size_t size) {
    static void *(*next)(size_t);
    if (!next) next = dlsym(RTLD_NEXT, "malloc");
    if (refuses()) { errno = ENOMEM; return 0; }
    return next(size);
}
void *realloc(void *old, size_t size) {
    static void *(*next)(void *, size_t);
    if (!next) next = dlsym(RTLD_NEXT, "realloc");
    if (refuses()) { errno = ENOMEM; return 0; }
    return next(old, size);
}
int posix_memalign(void **made, size_t align, size_t size) {
    static int (*next)(void **, size_t, size_t);
    if (!next) next = dlsym(RTLD_NEXT, "posix_memalign");
    if (refuses()) return ENOMEM;
    return next(made, align, size);
}
void *aligned_alloc(size_t align, size_t size) {
    static void *(*next)(size_t, size_t);
    if (!next) next = dlsym(RTLD_NEXT, "aligned_alloc");
    if (refuses()) { errno = ENOMEM; return 0; }
    return next(align, size);
}
"""

NORTH = bytes.fromhex('22000ae0190c01000080')
LOSING = bytes.fromhex('300008a0190ca100')
SECONDS = bytes.fromhex('d1000c800100800101800200')
TARGET = bytes.fromhex('30001efdd0190c350000a0190040000e0005783c6501042c60820820002a')
LINE = b'block 048 { record { 010 { SAC 25 SIC 12 } } }\n'

# The words and the input.
RUNS = [
    (['canon', 'E'], NORTH),
    (['migrate', '048-P1', '048-P2'], LOSING * 2),
    (['convert', 'Y1', 'Y3'], SECONDS),
    (['build', '048-P1'], LINE),
    (['check', 'F'], b''),
    (['show', '048-P1'], TARGET),
    (['salvage', '048-P1'], LOSING + b'\x30\x00\x05\x80\x19'),
]


def run(program, words, given, shim, refused):
    """The status, the output and the report, and how many allocations were made."""
    counted = shim + '.count'
    env = dict(os.environ, LD_PRELOAD=shim, REFUSED_GROWTH=str(refused), COUNTED_GROWTHS=counted)
    done = subprocess.run([program] + words, input=given, capture_output=True, env=env, cwd=os.path.join(TOP, 'samples'))
    with open(counted) as file:
        return (done.returncode, done.stdout, done.stderr), int(file.read())


def growths(program, words, given, shim):
    """How many allocations are answered as want of memory where they are refused, how many are done without, and the status."""
    whole, made = run(program, words, given, shim, 0)
    answered = without = 0
    for number in range(1, made + 1):
        got, _ = run(program, words, given, shim, number)
        if got == whole:
            without += 1
        elif got == (5, b'', b'refused memory\n'):
            answered += 1
        else:
            sys.exit('%s: with allocation %d refused: status %d, output %r, report %r' % ((' '.join(words), number) + got))
    return answered, without, whole[0]


def main():
    program = sys.argv[1] if len(sys.argv) > 1 else os.path.join(TOP, 'crates/asterix/out/asterix')
    with tempfile.TemporaryDirectory() as folder:
        source, shim = os.path.join(folder, 'shim.c'), os.path.join(folder, 'shim.so')
        with open(source, 'w') as file:
            file.write(SHIM)
        subprocess.run(['cc', '-O1', '-shared', '-fPIC', '-o', shim, source, '-ldl'], check=True)
        for words, given in RUNS:
            answered, without, status = growths(program, words, given, shim)
            print('%-24s %4d answered as want of memory, %d done without; with ample memory status %d' % (' '.join(words), answered, without, status))


main()
