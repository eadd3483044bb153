"""Directives, and queries that aren't of this language."""
from where_parts.library import PLAIN
from where_parts.texts import KEYWORDS, WORDS_OUTSIDE, readable

from .finding import Finding, named

CLAIMS = {
    b"#CHECKNOT": "delete it: nothing says here that something fails",
    b"#ASSERTNOT": "delete it: nothing says here that something fails",
    b"#CONV": "`#CHECK t == u` for `#CONV t, u`",
}
QUERIES = (b"#CHECK", b"#ASSERT", b"#EVAL", b"#INFER")
QUESTIONS = (b"#WHNF", b"#STEP", b"#PRINT", b"#GDT")
BLANK = "a blank behind the dot, which ends the command"
PLAIN_MODULE = "a plain name for this module and for its file"


def of_directive(words, library):
    """`#NAME` and `#REQUIRE`."""
    first, name = words[0], words[1].text if len(words) > 1 else b""
    is_plain = len(words) == 3 and PLAIN.match(name) is not None and name not in KEYWORDS | WORDS_OUTSIDE
    what = readable(b" ".join(it.text for it in words[:2]))
    if is_plain and first.text == b"#NAME" and name in library.missing:
        instead = "the name %s.dk for this file: a module is named by its file" % readable(name)
        return [Finding(first.start, what, instead, kind=("#NAME", ""))]
    if is_plain:
        return []
    if len(words) > 3 and b"." in name:
        dot = words[1].start + name.index(b".") + 1
        return [Finding(first.start, what, BLANK, [(dot, dot, b" ")], ("a dot without a blank", BLANK))]
    if first.text == b"#REQUIRE":
        return [Finding(first.start, what, PLAIN_MODULE, kind=("#REQUIRE", PLAIN_MODULE))]
    instead = "delete it: a module is named by its file"
    whole = [(first.start, words[-1].end, b"")] if len(words) <= 3 else None
    return [Finding(first.start, what, instead, whole, ("#NAME", instead))]


def of_query(words):
    """What stands in brackets behind the word of a query: a strategy, or a number of steps."""
    if len(words) < 2 or words[1].text != b"[":
        return []
    closed = next((k for k, it in enumerate(words) if it.text == b"]"), len(words) - 1)
    spelt = b"".join(it.text for it in words[1 : closed + 1])
    is_whole = words[0].text == b"#EVAL" and spelt == b"[SNF]"
    instead = "without it: " + ("a value is a normal form" if is_whole else "a value is a normal form, a type is as it is found")
    return [Finding(words[1].start, readable(spelt), instead, [(words[1].start, words[closed].end, b"")] if is_whole else None)]


def of_other_word(words):
    """Words that begin with `#` and aren't of this language."""
    first = words[0]
    if first.text in QUESTIONS:
        return [Finding(first.start, named(first), "delete the command: it asks and claims nothing", [(first.start, words[-1].end, b"")])]
    if first.text == b"#SNF":
        return [Finding(first.start, "#SNF", "`#EVAL`", [(first.start, first.end, b"#EVAL")])]
    return [Finding(first.start, named(first), CLAIMS.get(first.text, "delete the command"))]
