"""Terms and rules, read from the tokens of a command that the program has read already (docs/grammar.md)."""
import sys

sys.setrecursionlimit(20000)

ASKS_FOR_TWO = (b"#CHECK", b"#ASSERT")
QUERIES = (*ASKS_FOR_TWO, b"#INFER", b"#EVAL")


class Unread(Exception):
    """The command's form isn't one that this script takes apart."""


class Term:
    """A term or a pattern: its form, its parts, and its tokens, from the first to before the last, brackets round it included."""

    __slots__ = ("form", "first", "last", "brackets", "binder", "parts", "mode", "parent", "size")

    def __init__(self, form, first, last, parts=(), binder=None):
        self.form, self.first, self.last, self.parts, self.binder = form, first, last, parts, binder
        self.brackets, self.mode, self.parent, self.size = 0, None, None, 1


class Rule:
    """A rule: its context as pairs of a name's token and an annotation or None, the left side's head and arguments, the right side."""

    def __init__(self, first, context, left, right, last):
        self.first, self.context, self.left, self.right, self.last = first, context, left, right, last
        self.head, self.arguments = left, []
        while self.head.form == "application":
            self.arguments = list(self.head.parts[1:]) + self.arguments
            self.head = self.head.parts[0]


class Reader:
    """Reads from a place among the tokens on."""

    def __init__(self, words, at=0):
        self.words, self.at = words, at

    def sign(self, offset=0):
        return self.words[self.at + offset].text if self.at + offset < len(self.words) else b""

    def is_name(self, offset=0):
        at = self.at + offset
        return at < len(self.words) and self.words[at].kind in ("name", "quoted") and self.words[at].text not in (b"def", b"thm")

    def expect(self, sign):
        if self.sign() != sign:
            raise Unread
        self.at += 1

    def term(self):
        first = self.at
        if self.is_name() and self.sign(1) == b"=>":
            self.at += 2
            return Term("abstraction", first, *self.behind(lambda: (None, self.term())), first)
        is_bracketed = self.is_named_argument()
        if is_bracketed or (self.is_name() and self.sign(1) == b":"):
            self.at += 3 if is_bracketed else 2
            binder = self.at - 2
            domain = self.application(self.atom)
            if is_bracketed:
                self.expect(b")")
            form = {b"->": "product", b"=>": "abstraction"}.get(self.sign())
            if form is None:
                raise Unread
            self.at += 1
            return Term(form, first, *self.behind(lambda: (domain, self.term())), binder)
        whole = self.application(self.atom)
        if self.sign() != b"->":
            return whole
        self.at += 1
        return Term("product", first, *self.behind(lambda: (whole, self.term())))

    def behind(self, read):
        """What is read, behind the place where it ends."""
        parts = read()
        return self.at, parts

    def is_named_argument(self):
        """Whether `(x : A) ->` stands here; `(x : A => t)` and `(x : A -> B)` are terms in brackets."""
        if self.sign() != b"(" or self.sign(2) != b":" or not self.is_name(1):
            return False
        depth = 0
        for at in range(self.at, len(self.words)):
            depth += {b"(": 1, b")": -1}.get(self.words[at].text, 0)
            if depth == 1 and self.words[at].text in (b"->", b"=>"):
                return False
            if depth == 0:
                return at + 1 < len(self.words) and self.words[at + 1].text == b"->"
        return False

    def application(self, atom):
        first = self.at
        parts = [atom()]
        while self.is_name() or self.sign() == b"(" or (atom == self.pattern_atom and self.sign() == b"{"):
            parts.append(atom())
        return parts[0] if len(parts) == 1 else Term("application", first, self.at, tuple(parts))

    def bracketed(self, read):
        first = self.at
        self.at += 1
        inside = read()
        self.expect(b")")
        inside.first, inside.last, inside.brackets = first, self.at, inside.brackets + 1
        return inside

    def atom(self):
        if self.sign() == b"(":
            return self.bracketed(self.term)
        if not self.is_name():
            raise Unread
        self.at += 1
        return Term("name", self.at - 1, self.at)

    def pattern(self):
        first = self.at
        if self.is_name() and self.sign(1) == b"=>":
            self.at += 2
            return Term("abstraction", first, *self.behind(lambda: (None, self.pattern())), first)
        return self.application(self.pattern_atom)

    def pattern_atom(self):
        first = self.at
        if self.sign() == b"(":
            return self.bracketed(self.pattern)
        if self.sign() == b"{":
            self.at += 1
            inside = self.term()
            self.expect(b"}")
            return Term("guard", first, self.at, (inside,))
        return self.atom()

    def rule(self):
        first = self.at
        if self.sign() == b"{":
            self.at += 2
            self.expect(b"}")
        self.expect(b"[")
        context = []
        while self.sign() != b"]":
            if context:
                self.expect(b",")
            if not self.is_name():
                raise Unread
            named, annotation = self.at, None
            self.at += 1
            if self.sign() == b":":
                self.at += 1
                annotation = self.term()
            context.append((named, annotation))
        self.at += 1
        left = self.application(self.pattern_atom)
        self.expect(b"-->")
        return Rule(first, context, left, self.term(), self.at)

    def rules(self):
        found = [self.rule()]
        while self.sign() in (b"[", b"{"):
            found.append(self.rule())
        self.expect(b".")
        return found


class Query:
    """A query: its word, the term before its sign, the sign, and the term behind it; of a query of one term no sign."""

    def __init__(self, words):
        reader = Reader(words, 1)
        self.word, self.sign, self.right = words[0].text, None, None
        if self.word in ASKS_FOR_TWO:
            self.left, self.sign = reader.application(reader.atom), reader.sign()
            if self.sign not in (b":", b"=="):
                raise Unread
            reader.at += 1
            self.right = reader.term()
        else:
            self.left = reader.term()
        reader.expect(b".")


class Declaration:
    """A declaration, definition or theorem: its parameters as pairs of a name's token and a type, its type and its body."""

    def __init__(self, words):
        reader = Reader(words)
        reader.at += 2 if reader.sign() in (b"def", b"thm") else 1
        self.parameters, self.typ, self.body = [], None, None
        while reader.sign() == b"(":
            named = reader.at + 1
            reader.at += 2
            reader.expect(b":")
            self.parameters.append((named, reader.term()))
            reader.expect(b")")
        if reader.sign() == b":":
            reader.at += 1
            self.typ = reader.term()
        if reader.sign() == b":=":
            reader.at += 1
            self.body = reader.term()
        reader.expect(b".")
