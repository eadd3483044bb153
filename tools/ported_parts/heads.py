"""How a command begins: words in front of the declared name, braces round it, a body without `def`, rules without a context."""
from where_parts.texts import WORDS_OUTSIDE, readable

from .finding import Finding, named, without
from .library import is_opaque
from .signs import top

RULES_OF_ITS_OWN = "`def` with rules of its own: there is no matching modulo associativity and commutativity"
BODY = ("a body without def", "`def` in front")
HAS_RULES = "since the symbol has rules"
HIDDEN = "; a `def` hides what left sides find in its arguments: where a rule is then E21, write the variable in place of `_`"


def of_command(words, module, library):
    """What the first tokens of a command are."""
    texts = [it.text for it in words]
    at = 0
    while at < len(words) and texts[at] in WORDS_OUTSIDE:
        at += 1
    found = [of_word(words, k, at, module, library) for k in range(at)]
    if is_opaque(texts[at:]):
        return found + [opaque(words[at:])]
    if at or texts[0] in (b"[", b"{", b"def", b"thm"):
        return found
    if b"-->" in texts:
        return [Finding(words[0].start, "a rule without a context", "`[x, y]` in front, with the rule's variables, `[]` where it has none")]
    return bare(words)


def of_word(words, at, behind, module, library):
    """A word of other languages in front of the name that stands at a place."""
    it = words[at]
    if it.text in (b"defac", b"defacu"):
        return Finding(it.start, named(it), RULES_OF_ITS_OWN)
    name = words[behind].text if behind < len(words) else b""
    if it.text == b"injective" and name not in (b"def", b"thm"):
        if library.is_head(module, name):
            return with_rules(it, "`def` in its place, ", [(it.start, it.end, b"def")], name, library)
        if top(words, b":=") is not None:
            return Finding(it.start, "injective", "`def` in its place: it has a body", [(it.start, it.end, b"def")])
    return Finding(it.start, named(it), "delete the word", [without(module.text, it)])


def with_rules(token, front, changes, name, library):
    """A `def` for a symbol that has rules; it is safe where no left side looks into the symbol."""
    what = "injective" if token.text == b"injective" else named(token)
    kind = what if what == "injective" else "rules for a symbol without def"
    if library.is_looked_into(name):
        return Finding(token.start, what, front + HAS_RULES + HIDDEN, kind=(kind, front + HAS_RULES + HIDDEN))
    return Finding(token.start, what, front + HAS_RULES, changes, (kind, front + HAS_RULES))


def opaque(words):
    """Braces round a declared name."""
    what = readable(b" ".join(it.text for it in words[:2])) + " }"
    opened, closed = words[0], words[2]
    body, typ = top(words, b":="), top(words, b":")
    if body is None:
        instead, changes = "without the braces", [(opened.start, opened.end, b""), (closed.start, closed.end, b"")]
    elif typ is None or typ > body:
        instead, changes = "`thm`, the name without braces, and its type", None
    else:
        instead, changes = "`thm` and the name without braces", [(opened.start, opened.end, b"thm "), (closed.start, closed.end, b"")]
    return Finding(opened.start, what, instead, changes, ("{ name }", instead))


def bare(words):
    """A declaration that begins with its name, and has a body."""
    first = words[0]
    if top(words, b":=") is None:
        return []
    return [Finding(first.start, named(first), "`def` in front: it has a body", [(first.start, first.start, b"def ")], BODY)]


def static(name, library):
    """The name of a declaration without a body or `def`, where rules have it as their head."""
    return with_rules(name, "`def` in front, ", [(name.start, name.start, b"def ")], name.text, library)
