"""The bytes of a file: its tokens, the ends of its commands, its lines and columns."""
import re

NAME_BYTES = rb"[A-Za-z0-9_!?][A-Za-z0-9_!?']*"
TOKEN = re.compile(
    rb"""(?P<blank>[ \t\r\n]+)|(?P<quoted>\{\|[^\n]*?\|\})|(?P<word>\#[A-Za-z]+)
    |(?P<name>NAME(?:\.(?:NAME|\{\|[^\n]*?\|\}))?)
    |(?P<sign>-->|->|=>|==|:=|\{(?!\|)|[:.,()\[\]}])""".replace(b"NAME", NAME_BYTES),
    re.X,
)
COMMENT_SIGN = re.compile(rb"\(;|;\)")
BLANKS = re.compile(rb"[ \t\r\n]*")
# What the ends of commands are found by: everything else is passed over.
LANDMARK = re.compile(rb"\(;|\{\||\.")
IN_NAME = re.compile(rb"[A-Za-z0-9_!?']")
KEYWORDS = {b"Type", b"def", b"thm"}
WORDS_OUTSIDE = {b"defac", b"defacu", b"injective", b"private"}
SHOWN_BYTES = 200
CONTROL = re.compile("[\x00-\x08\x0b-\x1f\x7f-\x9f]")
HALF_ESCAPED = re.compile(r"\\(?:x[0-9a-f]?)?$")
# What a terminal shows nothing of, or shows what stands behind it otherwise for: a byte order mark, blanks without width, directions.
UNSEEN = re.compile("[\u00ad\u200b-\u200f\u2028-\u202e\u2060-\u2069\ufeff]")


class Token:
    """A token: its kind (quoted, word, name or sign), its bytes, and where they stand."""

    __slots__ = ("kind", "text", "start", "end")

    def __init__(self, kind, text, start):
        self.kind, self.text, self.start, self.end = kind, text, start, start + len(text)

    def is_name(self):
        return self.kind in ("name", "quoted") and self.text not in KEYWORDS


class Place:
    """A place that is at fault: its first byte, the bytes there, what is said of it, and a name whose declaration helps."""

    def __init__(self, at, text, said, declared=None):
        self.at, self.text, self.said, self.declared = at, text, said, declared
        self.term, self.types, self.hints = None, [], []


def behind_comment(text, start):
    """The place behind the comment that begins here; None where it isn't closed."""
    depth = 0
    for sign in COMMENT_SIGN.finditer(text, start):
        depth += 1 if sign.group() == b"(;" else -1
        if depth == 0:
            return sign.end()
    return None


def behind_blanks(text, start):
    """The place behind blanks and whole comments."""
    while True:
        start = BLANKS.match(text, start).end()
        behind = behind_comment(text, start) if text.startswith(b"(;", start) else None
        if behind is None:
            return start
        start = behind


def tokens(text, start, end=None):
    """The tokens from a place on, up to an end or to the first byte that begins none, and the place where they stop."""
    found, end = [], len(text) if end is None else end
    while start < end:
        if text.startswith(b"(;", start):
            behind = behind_comment(text, start)
            if behind is None:
                break
            start = behind
            continue
        spelt = TOKEN.match(text, start, end)
        if spelt is None:
            break
        if spelt.lastgroup != "blank":
            found.append(Token(spelt.lastgroup, spelt.group(), start))
        start = spelt.end()
    return found, start


def is_within_name(text, dot):
    """Whether this dot stands in a qualified name."""
    if not IN_NAME.match(text, dot - 1) if dot else True:
        return False
    return bool(IN_NAME.match(text, dot + 1)) or text.startswith(b"{|", dot + 1)


def command_ends(text, most):
    """The places behind the dots of the first commands, at most so many, of a text whose commands can be read."""
    ends, start = [], 0
    while len(ends) < most:
        mark = LANDMARK.search(text, start)
        if mark is None:
            break
        start = mark.end()
        if mark.group() == b"(;":
            start = behind_comment(text, mark.start())
            if start is None:
                break
        elif mark.group() == b"{|":
            closed = text.find(b"|}", start)
            if closed < 0:
                break
            start = closed + 2
        elif not is_within_name(text, mark.start()):
            ends.append(start)
    return ends


def place(text, at):
    """The line and the column of a byte, both from 1; the column counts bytes."""
    return text.count(b"\n", 0, at) + 1, at - (text.rfind(b"\n", 0, at) + 1) + 1


def escaped(spelt):
    """A character by the numbers of its bytes."""
    return "".join("\\x%02x" % it for it in spelt.group().encode())


def readable(text):
    """The text as a terminal may have it: what controls one is written by its number, and what isn't seen by those of its bytes."""
    text = CONTROL.sub(lambda it: "\\x%02x" % ord(it.group()), text.decode("utf-8", "backslashreplace"))
    return UNSEEN.sub(escaped, text)


def cut(text, most=SHOWN_BYTES):
    """A text on one line, its first bytes where it is long or where many of them are written by number."""
    text = b" ".join(text[: 8 * most].split())
    shown = readable(text if len(text) <= most else text[:most])
    return shown if len(text) <= most and len(shown) <= most + 3 else HALF_ESCAPED.sub("", shown[:most]) + " ..."


def cut_line(line, at):
    """A line with no more than some bytes of it, those round a place in it."""
    line = line.rstrip(b"\r")
    most = SHOWN_BYTES if len(readable(line[max(0, at - SHOWN_BYTES) :][: 2 * SHOWN_BYTES])) <= 3 * SHOWN_BYTES else SHOWN_BYTES // 4
    if len(line) <= most:
        return readable(line)
    first = max(0, min(at - most // 2, len(line) - most))
    last = first + most
    return ("... " if first else "") + readable(line[first:last]) + (" ..." if last < len(line) else "")
