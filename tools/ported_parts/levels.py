"""Limits that need no types: levels, arguments of one application, bytes of a command (docs/grammar.md)."""
from .finding import Finding
from .library import MOST_BYTES, MOST_DEEP
from .directives import QUERIES

CUT = "cut it by definitions: `def part := t.` in front, for a closed part t"
ENDS_TERMS = (b":", b":=", b"==", b",", b"]", b"-->")


class Count:
    """The level and the number of arguments that a token stands at, token by token."""

    def __init__(self, words):
        self.words = words
        self.in_rules = words[0].text in (b"[", b"{")
        self.level, self.base, self.atoms, self.round = 0, 0, 0, []
        # Parameters stand in front of the first colon or body of a declaration.
        self.is_before_type = not self.in_rules and words[0].text not in QUERIES

    def open(self):
        self.atom()
        self.round.append((self.level, self.atoms))
        self.level, self.atoms = self.level + 1, 0

    def close(self):
        if not self.round:
            return
        inner = self.level
        self.level, self.atoms = self.round.pop()
        if self.is_before_type and not self.round:
            self.base = min(inner, self.level + 1)
            self.level, self.atoms = self.base, 0

    def atom(self):
        self.atoms += 1

    def take(self, it, behind):
        """Counts a token."""
        if it.text == b"(" or it.text == b"{" and self.in_rules:
            self.open()
        elif it.text == b")" or it.text == b"}" and self.in_rules:
            self.close()
        elif it.text in (b"->", b"=>"):
            self.level, self.atoms = self.level + 1, 0
        elif it.text in ENDS_TERMS or it.text == b"[":
            self.end_term()
        elif it.kind in ("name", "quoted", "odd") and behind not in (b":", b"=>"):
            self.atom()

    def end_term(self):
        self.atoms = 0
        if not self.round:
            self.level, self.is_before_type = self.base, False


def of_limits(words):
    """The first level and the first argument past the limit, and a command that has too many bytes."""
    found = []
    if words[-1].end - words[0].start > MOST_BYTES:
        found.append(Finding(words[0].start, "a command of more than %d bytes" % MOST_BYTES, CUT))
    if len(words) <= MOST_DEEP:
        return found
    count = Count(words)
    for it, behind in zip(words, [it.text for it in words[1:]] + [b""]):
        count.take(it, behind)
        if count.level > MOST_DEEP:
            return found + [Finding(it.start, "level 1,001", CUT)]
        outer = count.round[-1][1] if it.text == b"(" and count.round else count.atoms
        if outer > MOST_DEEP + 1:
            return found + [Finding(it.start, "argument 1,001", CUT)]
    return found
