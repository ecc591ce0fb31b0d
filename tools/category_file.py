"""Category files and expansion files as asterix-why reads them: their tokens, and what stands at each path. A file of which the grammar
isn't that of this reader is read as far as it goes."""
import re

TOKEN = re.compile(rb'"[^"\n]*"|[{}]|[^\s"{}#]+|(#[^\n]*)')
# One octet more than a category file may have.
LARGEST = 1048577


def tokens_of(text):
    """The tokens of a text: where each begins, and its octets."""
    return [(found.start(), found.group()) for found in TOKEN.finditer(text) if found.group(1) is None]


def place(text, at):
    return f"{text.count(10, 0, at) + 1}:{at - text.rfind(10, 0, at)}"


class Node:
    """What stands at a path of a file: the tokens of its name and of its kind, its bits where they are fixed, and
    whether an FX bit is one of them."""

    def __init__(self, path, name, begin, end, bits, is_place, has_fx=False):
        self.path, self.name, self.begin, self.end, self.bits, self.is_place = path, name, begin, end, bits, is_place
        self.has_fx = has_fx


class Spec:
    """A category file or an expansion file, read as far as its grammar holds."""

    def __init__(self, name):
        self.name, self.nodes, self.category, self.uap, self.at = name, [], "", [], 0
        with open(name, "rb") as file:
            self.text = file.read(LARGEST)
        self.tokens = tokens_of(self.text)
        try:
            self.read()
        except (IndexError, ValueError):
            pass

    def word(self):
        self.at += 1
        return self.tokens[self.at - 1][1].decode("latin1")

    def peek(self):
        return self.tokens[self.at][1].decode("latin1")

    def read(self):
        kind = self.word()
        self.category = self.word()
        if kind == "expansion":
            return self.expansion()
        self.at += 4
        while self.peek() != "}":
            self.at += 1
            name = self.word()
            self.at += 1
            self.node(f"{self.category}/{name}", self.at - 2, True)
        self.at += 3
        while self.peek() != "}":
            self.uap.append((self.at, self.word()))
        return None

    def expansion(self):
        self.at += 2
        begin = self.at
        form = self.word()
        self.at += 2 if form == "fixed" else 1
        self.slots(f"{self.category}/RE", True)
        self.nodes.append(Node(f"{self.category}/RE", begin, begin, self.at, None, True))

    def node(self, path, name, is_place):
        begin = self.at
        bits = self.kind(path, is_place)
        self.nodes.append(Node(path, name, begin, self.at, bits, is_place))

    def kind(self, path, is_place):
        word = self.word()
        if word in ("extended", "closed"):
            return self.parts(path, is_place, word == "extended")
        if word in ("counted", "wide"):
            self.at += 1
            self.node(f"{path}/body", self.at, False)
            self.at += 1
        elif word == "byfx":
            begin = self.at
            bits = self.fixed(self.word(), f"{path}/body", False)
            self.nodes.append(Node(f"{path}/body", begin, begin, self.at, bits + 1, False, True))
        elif word == "compound":
            self.at += 1
            self.slots(path, is_place)
        elif word != "explicit":
            return self.fixed(word, path, is_place)
        return None

    def slots(self, path, is_place):
        while self.peek() != "}":
            name = self.word()
            if name != "-":
                self.node(f"{path}/{name}", self.at - 1, is_place)
        self.at += 1

    def parts(self, path, is_place, last_has_fx):
        self.at += 1
        number = 0
        while self.peek() != "}":
            begin = self.at
            self.at += 2
            bits = self.members(path, is_place)
            has_fx = last_has_fx or self.peek() != "}"
            self.nodes.append(Node(f"{path}/part{number}", begin, begin, self.at, bits + has_fx, False, has_fx))
            number += 1
        self.at += 1

    def fixed(self, word, path, is_place):
        if word == "group":
            self.at += 1
            return self.members(path, is_place)
        if word != "element":
            raise ValueError(word)
        width, content = int(self.word()), self.word()
        self.at += {"integer": 1, "quantity": 4}.get(content, 0)
        if content == "table":
            while self.word() != "}":
                pass
        return width

    def members(self, path, is_place):
        bits = 0
        while self.peek() != "}":
            begin, name = self.at, self.word()
            if name == "spare":
                width = int(self.word())
                self.nodes.append(Node(f"{path}/spare", begin, begin, self.at, width, False))
            else:
                width = self.fixed(self.word(), f"{path}/{name}", is_place)
                self.nodes.append(Node(f"{path}/{name}", begin, begin + 1, self.at, width, is_place))
            bits += width
        self.at += 1
        return bits

    def places(self):
        """The paths that an expression may name."""
        names = {name for _, name in self.uap}
        return [one.path for one in self.nodes if one.is_place and one.path.split("/")[1] in names]

    def where(self, token):
        """The file's name, line and column of a token, or of the file's end."""
        at = self.tokens[token][0] if token < len(self.tokens) else len(self.text)
        return f"{self.name}:{place(self.text, at)}"

    def kept(self, node):
        """The tokens of a node's kind by which two editions are compared: without the entries of tables."""
        words = [(at, self.tokens[at][1]) for at in range(node.begin, node.end)]
        kept, inside = [], False
        for at, word in words:
            inside = inside and word != b"}"
            if not inside:
                kept.append((at, word))
            inside = inside or (word == b"{" and words[at - node.begin - 1][1] == b"table")
        return kept
