"""A place that is to be written otherwise."""
from where_parts.texts import BLANKS, readable


class Finding:
    """A place in a file: what stands there, what to write, the kind for the summary, and the changes of bytes that do it: triples of a
    start, an end and what stands there then. Changes are given where they are safe: the file means the same afterwards, and nothing
    else has to be looked at. Else they are None."""

    __slots__ = ("at", "what", "instead", "changes", "kind")

    def __init__(self, at, what, instead, changes=None, kind=None):
        self.at, self.what, self.instead, self.changes = at, what, instead, changes
        self.kind = (what, instead) if kind is None else kind

    @property
    def is_safe(self):
        return self.changes is not None


def named(token):
    """A token as a terminal may have it."""
    return readable(token.text)


def without(text, token):
    """The change that takes a token away, and the blanks behind it."""
    return token.start, BLANKS.match(text, token.end).end(), b""
