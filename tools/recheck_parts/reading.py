"""Commands of a file (docs/syntax.md, docs/grammar.md), as tuples with names. Limits of sizes and levels aren't looked at.

A term is `("name", x)`, `("qname", m, x)`, `("_",)`, `("Type",)`, `("guard", t)`, `("app", f, a)`, or a product or an abstraction,
`("prod", x, A, B)` and `("abs", x, A, t)`: x is None where it has no name, A where it isn't written."""
import functools
import re

RUN, QUOTED = rb"[A-Za-z0-9_!?][A-Za-z0-9_!?']*", rb"\{\|[^\n]*?\|\}"
NAMES = rb"(?P<qname>(?P<module>%s)\.(?P<symbol>%s|%s))|(?P<name>%s|%s)" % (RUN, RUN, QUOTED, RUN, QUOTED)
SIGNS = rb"(?P<sign>#[A-Za-z]+|:=|-->|->|=>|==|[:.,()\[\]{}])"
TOKEN = re.compile(rb"(?P<blank>[ \t\r\n]+|\(;)|%s|%s" % (NAMES, SIGNS))
COMMENT = re.compile(rb"(?P<blank>\(;|;\))")
WORDS = (b"_", b"Type", b"def", b"thm", b"defac", b"defacu", b"injective", b"private")
# Whether a declaration of each sort may have a type and a body.
FORMS = {"static": [(True, False)], "thm": [(True, True)], "def": [(True, False), (True, True), (False, True)]}


class Refused(Exception):
    pass


def demand(holds):
    """Refuses the command where this isn't so."""
    if not holds:
        raise Refused("reading")


def tokens(data):
    """The tokens: names as `("name", x)` and `("qname", m, x)`, any other as its text alone."""
    at = depth = 0
    while at < len(data) or depth:
        found = COMMENT.search(data, at) if depth else TOKEN.match(data, at)
        demand(found and found.groupdict().get("symbol") != b"_")
        at, text = found.end(), found.group()
        depth += {b"(;": 1, b";)": -1}.get(text, 0)
        if found.lastgroup == "qname":
            yield ("qname", *found.group("module", "symbol"))
        elif found.lastgroup == "name" and text not in WORDS:
            yield ("name", text)
        elif found.lastgroup != "blank":
            yield (text.decode(),)


def commands(data):
    """The commands and directives, in order, of their tokens, those in brackets being one: `("()", [..])`."""
    words, around = [], []
    for it in tokens(data):
        if it[0] in ("(", "[", "{"):
            around.append((it[0], words))
            words = []
        elif it[0] in (")", "]", "}"):
            sign, outer = around.pop() if around else ("", [])
            demand(sign + it[0] in ("()", "[]", "{}"))
            outer.append((sign + it[0], words))
            words = outer
        elif it[0] == ".":
            demand(words and not around)
            yield command(words)
            words = []
        else:
            words.append(it)
    demand(not words and not around)


def cut(words, *signs):
    """What stands in front of the first of these signs, that token, and what stands behind; None for both where there is none."""
    at = next((k for k, it in enumerate(words) if it[0] in signs), None)
    return (words, None, None) if at is None else (words[:at], words[at], words[at + 1 :])


def split(words, sign):
    front, found, behind = cut(words, sign)
    return [front] + (split(behind, sign) if found else [])


def command(words):
    first = words[0][0]
    if first in ("[]", "{}"):
        return ("rules", list(rules(words)))
    if first in ("#NAME", "#REQUIRE"):
        demand(not name_of(words[1:]).startswith(b"{|"))
        return (first, words[1][1])
    if first in ("#INFER", "#EVAL"):
        return ("query", [term(words[1:])])
    if first in ("#CHECK", "#ASSERT"):
        left, sign, right = cut(words[1:], ":", "==")
        demand(sign)
        return ("query", [application(left), term(right)])
    sort = first if first in FORMS else "static"
    front, defined, body = cut(words[sort != "static" :], ":=")
    front, colon, typ = cut(front, ":")
    demand((colon is not None, defined is not None) in FORMS[sort] and all(it[0] == "()" for it in front[1:]))
    typ, body = colon and term(typ), defined and term(body)
    for x, a in [typed(it[1], "_") for it in front[:0:-1]]:
        demand(a)
        typ, body = typ and ("prod", x, a, typ), body and ("abs", x, a, body)
    return ("declare", sort, name_of(front[:1]), typ, body)


def rules(words):
    """The context, the left side and the right side of each rule."""
    while words:
        name, context, words = cut(words, "[]")
        demand(context and [it[0] for it in name] in ([], ["{}"]))
        for it in name:
            name_of(it[1], "qname")
        left, arrow, words = cut(words, "-->")
        demand(arrow)
        right = cut(words, "[]", "{}")[0]
        words = words[len(right) :]
        yield [typed(it) for it in split(context[1], ",") if context[1]], application(left, True), term(right)


def typed(words, *kinds):
    """A name, or a token of one of these kinds, and the type behind it, None where there is none."""
    x, colon, typ = cut(words, ":")
    return name_of(x, *kinds), colon and term(typ)


def name_of(words, *kinds):
    """The only token, a name or of one of these kinds: its name, None where it has none."""
    demand(len(words) == 1 and words[0][0] in ("name", *kinds))
    return words[0][-1] if len(words[0]) > 1 else None


def term(words, is_left=False):
    """A term; of a left side, a pattern."""
    front, arrow, behind = cut(words, "->", "=>")
    if arrow is None:
        return application(words, is_left)
    if arrow == ("->",) and len(front) == 1 and front[0][0] == "()":
        inside = [it[0] for it in front[0][1]]
        front = front[0][1] if ":" in inside and not {"->", "=>"} & set(inside) else front
    x, colon, typ = cut(front, ":")
    demand(not is_left or (arrow == ("=>",) and colon is None))
    if arrow == ("->",) and colon is None:
        return ("prod", None, application(front), term(behind))
    return ("prod" if arrow == ("->",) else "abs", name_of(x, "_"), colon and application(typ), term(behind, is_left))


def application(words, is_left=False):
    demand(words)
    return functools.reduce(lambda f, a: ("app", f, a), [atom(it, is_left) for it in words])


def atom(word, is_left):
    if word[0] == "()":
        return term(word[1], is_left)
    if word[0] == "{}" and is_left:
        return ("guard", term(word[1]))
    demand(word[0] in ("name", "qname", "_") or (word[0] == "Type" and not is_left))
    return word
