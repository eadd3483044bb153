"""Signs in the terms of a command: prefixes, lets, brackets round the variable of an abstraction."""
from .finding import Finding, without
from .reading import is_prefix

# Behind these a term begins.
FRONTS = (b":=", b"(", b"->", b"=>", b"-->", b"==", b"[", b",")
LET = "a `def` of its own for the let, or its value in its place"


def depths(words):
    """How many brackets are open at each token; at a bracket, as many as round it."""
    depth, found = 0, []
    for it in words:
        depth -= it.text == b")"
        found.append(depth)
        depth += it.text == b"("
    return found


def top(words, sign):
    """The first place of a sign outside of brackets, or None."""
    at = depths(words)
    return next((k for k, it in enumerate(words) if it.text == sign and at[k] == 0), None)


def is_in_left_side(words, at):
    """Whether a token stands in the left side of a rule."""
    before = [it.text for it in words[:at] if it.text in (b"]", b"-->")]
    return words[0].text in (b"[", b"{") and before[-1:] == [b"]"]


def begins_term(words, at):
    """Whether a term begins here, rather than an argument: what stands in front is a sign."""
    front = words[at - 1].text if at else b""
    if front == b":":
        return at - 1 == top(words, b":") and words[0].text not in (b"[", b"{")
    return front in FRONTS or front == b"." and at > 1


def has_arrow(words):
    """Whether an arrow stands outside of brackets."""
    at = depths(words)
    return any(it.text in (b"->", b"=>") and at[k] == 0 for k, it in enumerate(words))


def lets(words):
    """The places of the `:=` in brackets."""
    at = depths(words)
    return {k for k, it in enumerate(words) if it.text == b":=" and at[k] > 0}


def prefixes(words):
    """The prefixes `\\` and `!`, each with the place of its dot; None where it isn't seen."""
    texts, opened, dots = [it.text for it in words], [], {}
    for at, it in enumerate(words):
        if is_prefix(texts, at):
            opened.append(at)
            dots[at] = None
        elif it.text == b"." and opened:
            dots[opened.pop()] = at
    return dots


def of_prefix(text, words, at, dot):
    """A prefix: `\\x : A. t` or `! x : A. B`."""
    it = words[at]
    sign, what = (b"=>", "\\") if it.text == b"\\" else (b"->", "!")
    instead = "`x : A => t` for `\\x : A. t`" if what == "\\" else "`x : A -> B` for `! x : A. B`"
    instead += "; brackets round an A that is an arrow"
    return Finding(it.start, what, instead, changes_of_prefix(text, words, at, dot, sign))


def changes_of_prefix(text, words, at, dot, sign):
    """The changes that are safe: a term begins at the prefix, and a type stands between its colon and its dot; None where it isn't so."""
    if dot is None or not begins_term(words, at) or is_in_left_side(words, at):
        return None
    changes = [without(text, words[at]), (words[dot].start, words[dot].end, b" " + sign)]
    domain = words[at + 3 : dot]
    if dot == at + 2:
        return changes if sign == b"=>" else None
    if not domain or words[at + 2].text != b":" or depths(domain)[-1] != 0 or any(it.text in (b".", b":=") for it in domain):
        return None
    if has_arrow(domain):
        changes += bracketed(domain)
    return changes


def bracketed(words):
    """The changes that put brackets round some tokens."""
    return [(words[0].start, words[0].start, b"("), (words[-1].end, words[-1].end, b")")]


def of_brackets(text, words, at):
    """An abstraction whose arrow stands here, with brackets round its variable and type; None where it isn't one."""
    opened = opening(words, at - 1)
    if opened is None or opened + 2 >= at or words[opened + 2].text != b":" or any(opened < k < at for k in lets(words)):
        return None
    if is_in_left_side(words, at):
        return Finding(words[opened].start, "(x : A) =>", "`x =>`: in a left side a variable has no type")
    changes = None
    if begins_term(words, opened):
        changes, domain = [(words[opened].start, words[opened].end, b"")], words[opened + 3 : at - 1]
        if has_arrow(domain):
            changes.append((domain[0].start, domain[0].start, b"("))
        else:
            changes.append((words[at - 1].start, words[at - 1].end, b""))
    return Finding(words[opened].start, "(x : A) =>", "`x : A =>`, without the brackets; brackets round an A that is an arrow", changes)


def opening(words, closed):
    """The place of the bracket that is closed here."""
    depth = 0
    for at in range(closed, -1, -1):
        depth += {b")": 1, b"(": -1}.get(words[at].text, 0)
        if depth == 0:
            return at
    return None


def of_signs(text, words):
    """Prefixes, lets, and brackets round the variable of an abstraction."""
    found = [of_prefix(text, words, at, dot) for at, dot in prefixes(words).items()]
    found += [Finding(words[at].start, ":= in brackets", LET) for at in sorted(lets(words))]
    arrows = [at for at, it in enumerate(words) if at and it.text == b"=>" and words[at - 1].text == b")"]
    return found + [it for it in (of_brackets(text, words, at) for at in arrows) if it is not None]
