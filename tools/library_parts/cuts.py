"""The bytes of a file, cut into commands and directives and these into tokens (docs/syntax.md), in a time that grows as the file."""
import re

from where_parts.texts import behind_blanks, behind_comment

BYTE = rb"[A-Za-z0-9_!?']"
RUN = rb"(?!')" + BYTE + rb"++"
QUOTED = rb"\{\|[^\n]*?\|\}"
WILDCARD = rb"_(?!" + BYTE + rb")"
QUALIFIED = rb"(?!_\.)" + RUN + rb"\.(?:(?!" + WILDCARD + rb")" + RUN + rb"|" + QUOTED + rb")"
# A run commits to a qualified name where what begins a second part stands behind its dot.
PLAIN = WILDCARD + rb"|" + RUN + rb"(?!\.(?:\{\||" + WILDCARD + rb"))"
WORD = rb"\#[A-Za-z]++"
SIGN = rb"-->|->|=>|==|:=|[:,)\[\]}]|\((?!;)|\{(?!\|)"
BLANKS = rb"[ \t\r\n]"
PIECE = re.compile(rb"(?:" + rb"|".join([BLANKS + rb"++", QUALIFIED, PLAIN, QUOTED, WORD, SIGN]) + rb")*+")
TOKEN = re.compile(BLANKS + rb"*+(?:(%s)|(%s|%s)|(%s)|(%s|\.))" % (QUALIFIED, PLAIN, QUOTED, WORD, SIGN))
KINDS = (None, "qualified", "name", "word", "sign")
# Names alone: the parts of one, all that may be spelt in a text with comments, and the modules of qualified names in one without.
SPELT = re.compile(QUOTED + rb"|" + RUN)
SPELT_ANYWHERE = re.compile(rb"(?=(" + QUOTED + rb"))|" + BYTE + rb"++")
MODULES = re.compile(QUOTED + rb"|(" + RUN + rb")\.(?:" + RUN + rb"|" + QUOTED + rb")|" + RUN)
MODULE_NAME = re.compile(rb"(?!" + WILDCARD + rb")" + RUN)


class Item:
    """A command or directive: its first byte, the place behind its dot, its comments, and whether it has a dot; what has none goes
    up to the end of the text, and can't be read."""

    __slots__ = ("start", "end", "comments", "is_whole")

    def __init__(self, start, end, comments, is_whole):
        self.start, self.end, self.comments, self.is_whole = start, end, comments, is_whole


def items(text):
    """The commands and directives of a text, in order."""
    at = 0
    while True:
        start = at = behind_blanks(text, at)
        if start == len(text):
            return
        comments = []
        while True:
            at = PIECE.match(text, at).end()
            if text.startswith(b".", at):
                break
            behind = behind_comment(text, at) if text.startswith(b"(;", at) else None
            if behind is None:
                yield Item(start, len(text), comments, False)
                return
            comments.append((at, behind))
            at = behind
        at += 1
        yield Item(start, at, comments, True)


def tokens(text, item):
    """The tokens of a whole command: each its kind, its bytes, and where they begin and end."""
    found, before = [], 0
    if item.comments:
        text, before = blanked(text, item), item.start
        matches = TOKEN.finditer(text)
    else:
        matches = TOKEN.finditer(text, item.start, item.end)
    for it in matches:
        kind = it.lastindex
        start, end = it.span(kind)
        found.append((KINDS[kind], text[start:end], start + before, end + before))
    return found


def blanked(text, item):
    """The bytes of a command, with blanks in the place of its comments."""
    parts, at = [], item.start
    for start, end in item.comments:
        parts += [text[at:start], b" " * (end - start)]
        at = end
    return b"".join(parts + [text[at : item.end]])
