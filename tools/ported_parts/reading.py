"""The tokens of a file, by one regular expression, as commands. What begins no token of this language is a token here too: of a name
with odd bytes the whole word."""
import re

from where_parts.texts import Token, behind_comment

NAMED = rb"[A-Za-z0-9_!?][A-Za-z0-9_!?']*+"
QUOTED_NAME = rb"\{\|[^\n]*?\|\}"
# What somebody writes in a name besides the bytes of names: letters outside ASCII, and operators that are no part of a sign.
ODD_BYTE = rb"(?:[+*/&@^~<>$%\x80-\xff]|-(?!-?>)|=(?![=>]))"
WORD = rb"(?:[A-Za-z0-9_!?']|ODD)(?:[A-Za-z0-9_!?'#]|ODD)*+".replace(b"ODD", ODD_BYTE)
GROUPS = ("", "name", "sign", "dot", "quoted", "word", "comment", "lambda", "mark", "odd", "string", "broken", "byte")
NAME, SIGN, DOT, QUOTED, DIRECTIVE, COMMENT = range(1, 7)
SPELT = re.compile(
    rb"""[ \t\r\n]*+(?:
    ((?>NAMED(?:\.(?:NAMED|QUOTED))?))(?!\#|ODD|\.(?:'|ODD))
    |(-->|->|=>|==|:=|[:,\[\])}]|\((?!;)|\{(?!\|))
    |(\.)
    |(QUOTED)
    |(\#[A-Za-z]++)
    |(\(;)
    |(\\)
    |(\xef\xbb\xbf)
    |(WORD(?:\.(?:WORD|QUOTED))?)
    |("[^"\n]*")
    |(\{\|[^{|]*\|\})
    |(.)
    )""".replace(b"WORD", WORD).replace(b"NAMED", NAMED).replace(b"QUOTED", QUOTED_NAME).replace(b"ODD", ODD_BYTE),
    re.X | re.S,
)
# Behind a quoted name: a name that belongs to it, where no command begins with it.
QUALIFYING = re.compile(
    rb"\.(?!(?:def|thm|private|injective|defacu?)(?![A-Za-z0-9_!?']))(?:NAMED|QUOTED)(?![ \t\r\n]*:)".replace(b"NAMED", NAMED).replace(
        b"QUOTED", QUOTED_NAME
    )
)


class Words:
    """A command: the bytes of its tokens, the places behind them, and their kinds, by number."""

    __slots__ = ("texts", "ends", "kinds")

    def __init__(self):
        self.texts, self.ends, self.kinds = [], [], []

    def tokens(self):
        """The tokens as the other scripts have them."""
        kinds = [GROUPS[kind] for kind in self.kinds]
        return [Token(kind, text, end - len(text)) for kind, text, end in zip(kinds, self.texts, self.ends)]

    def start(self):
        return self.ends[0] - len(self.texts[0])


def is_prefix(texts, at):
    """Whether a prefix stands here: `\\`, or a `!` with a variable and its type behind it."""
    if texts[at] == b"\\":
        return True
    return texts[at] == b"!" and texts[at + 2 : at + 3] == [b":"] and texts[at + 1] not in (b":", b"(", b")", b"->", b"=>")


def has_open_prefix(texts):
    """Whether a prefix among these tokens waits for its dot."""
    if b"\\" not in texts and b"!" not in texts:
        return False
    return sum(is_prefix(texts, at) for at in range(len(texts))) > texts.count(b".")


def commands(text):
    """The commands of a text; a dot behind the variable of a prefix ends none, nor one behind the quoted name of a module."""
    begun, start = Words(), 0
    while start is not None:
        resumed, start = start, None
        for spelt in SPELT.finditer(text, resumed):
            kind = spelt.lastindex
            if kind == COMMENT:
                start = behind_comment(text, spelt.start(kind))
                break
            if kind == DOT and (is_qualifying(text, begun, spelt.start(kind)) or has_open_prefix(begun.texts)):
                kind = SIGN
            begun.texts.append(spelt[spelt.lastindex])
            begun.ends.append(spelt.end())
            begun.kinds.append(kind)
            if kind == DOT:
                yield begun
                begun = Words()
    if begun.texts:
        yield begun


def is_qualifying(text, begun, dot):
    """Whether a dot stands between a quoted name and a name that belongs to it."""
    return bool(begun.kinds) and begun.kinds[-1] == QUOTED and begun.ends[-1] == dot and bool(QUALIFYING.match(text, dot))
