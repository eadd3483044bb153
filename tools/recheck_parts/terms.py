"""Terms: equal terms are one object; each knows its number of nodes and how many outer variables it may mention."""
import functools

# How many binders stand above each part of a term: `note` is an abstraction whose variable has an annotation.
BINDERS = {"app": (0, 0), "prod": (0, 1), "note": (0, 1), "abs": (1,)}


class Term:
    """Its tag, its parts, each with the number of binders above it, or what a leaf has: its number, of a guard its term."""
    __slots__ = ("tag", "a", "b", "parts", "size", "free")

    def __init__(self, tag, a=None, b=None):
        self.tag, self.a, self.b = tag, a, b
        self.parts = tuple(zip((a, b), BINDERS.get(tag, ())))
        self.size, self.free = 1, a + 1 if tag == "var" else 0
        for part, binders in self.parts:
            self.size += part.size
            self.free = max(self.free, part.free - binders)


term = functools.cache(Term)
STAR, KIND, ANY = term("star"), term("kind"), term("any")


def rebuild(t, leaf, node=term):
    """The term with each leaf replaced by `leaf(it, binders above it)`, and put together by `node`."""
    known = {}

    def go(t, depth):
        if not t.parts:
            return leaf(t, depth)
        if (t, depth) not in known:
            known[t, depth] = node(t.tag, *[go(part, depth + binders) for part, binders in t.parts])
        return known[t, depth]
    return go(t, 0)


def nodes(t):
    """The nodes of a term, with the number of binders above each; those that are alike once."""
    seen, todo = set(), [(t, 0)]
    while todo:
        t, depth = todo.pop()
        if (t, depth) not in seen:
            seen.add((t, depth))
            yield t, depth
            todo += [(part, depth + binders) for part, binders in t.parts]


def shift(t, by):
    return rebuild(t, lambda v, d: term("var", v.a + by) if v.tag == "var" and v.a >= d else v) if by and t.free else t


def put_in(body, u):
    """The body with u for its variable 0."""
    def leaf(v, d):
        if v.tag != "var" or v.a < d:
            return v
        return shift(u, d) if v.a == d else term("var", v.a - 1)
    return rebuild(body, leaf) if body.free else body


def filled(t, terms):
    """Rule variables replaced by their terms, where they have one, each shifted below the binders."""
    return rebuild(t, lambda v, d: shift(terms[v.a], d) if v.tag == "rvar" and v.a in terms else v) if terms else t


def erased(t):
    """The term without the annotations of its abstractions."""
    return rebuild(t, lambda v, _: v, lambda tag, *parts: term("abs", parts[1]) if tag == "note" else term(tag, *parts))


def spine(t):
    """The head and the arguments of a term; of a left side too."""
    arguments = []
    while t.tag == "app":
        arguments.append(t.b)
        t = t.a
    return t, arguments[::-1]


def outside(t, depth, variables):
    """The term over a binder for each of these variables, the last one innermost, in place of the `depth` innermost ones; None
    where it mentions another of them."""
    if any(v.tag == "var" and d <= v.a < d + depth and v.a - d not in variables for v, d in nodes(t)):
        return None

    def leaf(v, d):
        if v.tag != "var" or v.a < d:
            return v
        behind = len(variables) + v.a - depth
        return term("var", behind if v.a - d >= depth else d + len(variables) - 1 - variables.index(v.a - d))
    return rebuild(t, leaf)
