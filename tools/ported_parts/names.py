"""Names: bytes that begin no token, dots without a blank behind them, names of other modules that are declared, `Kind`, wildcards."""
from where_parts.name_faults import named_in_terms
from where_parts.terms import Unread
from where_parts.texts import Token, cut, readable

from .directives import BLANK, PLAIN_MODULE
from .finding import Finding, named
from .library import MOST_IN_A_NAME, declared_by, is_opaque
from .signs import top

ASCII_ODD = frozenset("_!?'+*/&@^~<>$%-=#")
# What stands for a sign or a word of the language in other ones.
SIGNS = {"→": "->", "⇒": "=>", "↦": "=>", "⟶": "-->", "↪": "-->", "≔": ":=", "≡": "=="}
SPECIAL = frozenset("λΠ∀∃") | frozenset(SIGNS)
WORDS = (b"def", b"thm", b"injective", b"private", b"defac", b"defacu")
IN_QUOTES = "%s, at each place of the name"


def of_bytes(words):
    """Words with odd bytes, and bytes that begin nothing."""
    makers = {"odd": odd, "mark": mark, "broken": broken, "byte": single, "string": single}
    return [makers[it.kind](it) for it in words if it.kind in makers]


def mark(token):
    return Finding(token.start, "\\xef\\xbb\\xbf", "a byte order mark: delete it", [(token.start, token.end, b"")])


def broken(token):
    return Finding(token.start, cut(token.text), "a newline in a quoted name", kind=("a newline in a quoted name", ""))


def single(token):
    instead = "no token begins with this"
    return Finding(token.start, named(token), instead, kind=("a byte that begins no token", ""))


def odd(token):
    """A name with odd bytes, perhaps of another module."""
    front, dot, behind = token.text.partition(b".")
    if dot and is_odd(front):
        return Finding(token.start, named(token), PLAIN_MODULE, kind=("a module with an odd name", PLAIN_MODULE))
    name = behind if dot else front
    quoted = (front + dot if dot else b"") + b"{|" + name + b"|}"
    spelt = letters_of(name)
    if spelt in SIGNS:
        return Finding(token.start, named(token), "`%s`" % SIGNS[spelt], kind=("a sign of other languages", ""))
    instead = IN_QUOTES % readable(quoted)
    if is_name(spelt):
        return Finding(token.start, named(token), instead, [(token.start, token.end, quoted)], ("a name with odd bytes", "quotes"))
    return Finding(token.start, named(token), instead + ", where this is one", kind=("odd bytes", "quotes, where this is a name"))


def letters_of(name):
    try:
        return name.decode()
    except UnicodeDecodeError:
        return name.decode("latin-1")


def is_odd(name):
    return not letters_of(name).isascii() or any(it in ASCII_ODD and it not in "_!?'" for it in letters_of(name))


def is_name(spelt):
    """Whether nobody can have meant anything but one name: letters and digits, with signs between them."""
    if any(it in SPECIAL for it in spelt):
        return False
    return any(it.isalnum() for it in spelt) and all(it.isalnum() or it in ASCII_ODD for it in spelt)


def of_names(words, module):
    """Dots without a blank behind them, names of other modules that are declared, long names, and `Kind`."""
    found, texts = [], [it.text for it in words]
    declared, colon = declared_by(texts), top(words, b":")
    for at, it in enumerate(words):
        if it.kind not in ("name", "quoted", "odd"):
            continue
        front, dot, name = it.text.partition(b".") if it.kind != "quoted" else (it.text, b"", b"")
        behind = texts[at + 1] if at + 1 < len(words) else b""
        if max(len(front), len(name)) > MOST_IN_A_NAME + 4 * (it.kind == "quoted"):
            found.append(Finding(it.start, cut(it.text), "a shorter name, at each place of it", kind=("a long name", "")))
        if it.text == b"Kind" and not module.has_declared(b"Kind"):
            found.append(Finding(it.start, "Kind", "`Type`, or nothing: Kind can't be written"))
        elif it.kind == "quoted" and behind == b"." and at + 1 < len(words) - 1:
            found.append(Finding(it.start, named(it) + ".", PLAIN_MODULE, kind=("a module in quotes", PLAIN_MODULE)))
        elif dot and (front == b"Type" or name in WORDS):
            found.append(glued(it, True))
        elif dot and it.text == declared and at <= texts.index(it.text) and behind != b".":
            found.append(qualified(it, front, name, module))
        elif dot and behind == b":" and is_behind_colon(words, at, colon):
            found.append(glued(it, module.has_declared(front)))
    return found


def is_behind_colon(words, at, colon):
    """Whether a declaration can't go on with a colon here."""
    return colon is not None and colon < at or any(it.text in (b":=", b"-->", b"==") for it in words[:at])


def glued(token, is_safe):
    dot = token.start + token.text.index(b".") + 1
    return Finding(token.start, named(token), BLANK, [(dot, dot, b" ")] if is_safe else None, ("a dot without a blank", BLANK))


def qualified(token, front, name, module):
    """A name with a dot that is declared."""
    if front in (module.module, module.title):
        instead = "%s alone: a module declares its own names" % readable(name)
    else:
        instead = IN_QUOTES % readable(b"{|" + front + b"." + name + b"|}")
    return Finding(token.start, named(token), instead, kind=("a declared name with a dot", "quotes"))


def of_wildcards(words):
    """Wildcards in terms."""
    texts = [it.text for it in words]
    if b"_" not in texts or is_opaque(texts) or any(it.kind in ("byte", "string", "broken") for it in words):
        return []
    read = [Token("quoted", it.text, it.start) if it.kind == "odd" else it for it in words]
    name = declared_by(texts)
    declared = next((it for it in read if it.text == name), None)
    try:
        given = named_in_terms(read, declared)
    except (Unread, IndexError):
        return []
    in_terms = [it for it, instead in given if it.text == b"_" and instead == b"Type"]
    return [Finding(it.start, "_", "the term: nothing is filled in") for it in in_terms]
