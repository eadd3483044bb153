"""The part of a command against its items: steps, items, and the rules of typing that ask for them (docs/certificates.md)."""
import functools
import itertools
import re

from .terms import KIND, STAR, erased, filled, nodes, outside, put_in, shift, spine, term

MOST_BYTES = 1_073_741_824
NUMBER = rb" (0|[1-9][0-9]{0,19})"
LINES = {letter: re.compile(b"%s%s%s\n" % (letter.encode(), NUMBER * count, word))
         for letter, count, word in (("c", 1, b""), ("r", 1, b""), ("j", 2, b""), ("b", 1, b""), ("f", 3, b""), ("e", 2, b" ([=lrtx])"))}


class Rejected(Exception):
    pass


def demand(holds):
    """Rejects the part where this isn't so."""
    if not holds:
        raise Rejected()
    return holds


class Certificate:
    """The bytes of a certificate, and how many of them are taken."""

    def __init__(self, name):
        text, self.at, self.is_read = b"", 0, True
        try:
            with open(name, "rb") as file:
                pieces = iter(lambda: file.read(1 << 20), b"")
                text = b"".join(itertools.islice(pieces, (MOST_BYTES >> 20) + 1))
        except OSError:
            self.is_read = False
        self.text, self.is_longer = text[:MOST_BYTES], len(text) > MOST_BYTES

    def begins(self, *fronts):
        return self.text.startswith(fronts, self.at)

    def take(self, letter):
        """The numbers of the next line, which must be of this kind, and the word of an `e`."""
        found = demand(LINES[letter].match(self.text, self.at))
        self.at = found.end()
        values = [int(it) if it.isdigit() else it.decode() for it in found.groups()]
        demand(all(it in "=lrtx" if isinstance(it, str) else it < 2**64 for it in values))
        return values

    def take_first(self):
        self.at = demand(re.match(b"dk certificate 1\n", self.text)).end()

    def take_last(self):
        demand(self.text[self.at : self.at + 5] == b"end\n" and not self.is_longer)


class Node:
    """A node of a term, with its number and what stands above it: from one step to the next it goes no farther than it must."""

    def __init__(self, t):
        self.t, self.number, self.above = t, 0, []

    def go(self, place):
        while self.above and not self.number <= place < self.number + self.t.size:
            tag, parts, second, self.number = self.above.pop()
            parts[second] = self.t
            self.t = term(tag, *parts)
        demand(place < self.number + self.t.size)
        while place != self.number:
            parts = [part for part, _ in self.t.parts]
            second = place > self.number + parts[0].size
            self.above.append((self.t.tag, parts, second, self.number))
            self.t, self.number = parts[second], self.number + 1 + second * parts[0].size


def matched(p, t, depth=0):
    """The rule variables and guards of a pattern, from left to right, each with its part of t and the binders above; t must be an
    instance."""
    (head, patterns), (other, arguments) = spine(p), spine(t)
    if head.tag == "rvar":
        part = demand(outside(t, depth, [x.a for x in patterns]))
        yield head, functools.reduce(lambda body, _: term("abs", body), patterns, part), depth
    elif head.tag == "guard":
        yield head, t, depth
    elif head.tag == "abs":
        demand(t.tag == "abs")
        yield from matched(head.a, t.a, depth + 1)
    elif head.tag != "any":
        demand(head is other and len(arguments) == len(patterns))
        for q, a in zip(patterns, arguments):
            yield from matched(q, a, depth)


def may_bind(t, u):
    return t.tag == "rvar" and u.free == 0 and all(v is not t for v, _ in nodes(u))


class Part:
    """The check of one part: `s` are the bindings of a rule, `types` those of its rule variables."""

    def __init__(self, theory, certificate):
        self.entries, self.certificate, self.s, self.types = theory.entries, certificate, {}, {}

    def check(self, number, command):
        """Takes the part of a command; the type of a definition that declares none."""
        demand(self.certificate.take("c") == [number])
        typ = None
        if command[0] == "rules":
            for rule in command[1]:
                self.rule(*rule)
        elif command[0] == "declare" and command[3]:
            self.reduced(self.infer([], command[3]), "star", "kind")
            if command[4]:
                self.fits([], command[4], erased(command[3]))
        elif command[0] == "declare":
            typ = self.infer([], command[4])
            demand(typ is not KIND)
        demand(not self.certificate.begins(b"r ", b"j ", b"e "))
        return typ

    # ---- steps

    def steps(self, count, t):
        node = Node(t)
        for _ in range(count):
            if self.certificate.begins(b"b "):
                node.go(*self.certificate.take("b"))
                demand(node.t.tag == "app" and node.t.a.tag == "abs")
                node.t = put_in(node.t.a.a, node.t.b)
            else:
                place, number, conditions = self.certificate.take("f")
                node.go(place)
                node.t = self.fired(node.t, number, conditions)
        node.go(0)
        return node.t

    def fired(self, t, number, count):
        head, arguments = spine(t)
        rules = self.entries[head.a].rules if head.tag == "sym" else []
        demand(number < len(rules) and len(rules[number][0]) == len(arguments))
        patterns, right = rules[number]
        captures, conditions, guards = {}, [], []
        for leaf, part, depth in itertools.chain(*map(matched, patterns, arguments)):
            if leaf.tag == "guard":
                guards.append((leaf, part, depth))
            elif leaf.a in captures:
                conditions.append((captures[leaf.a], part))
            else:
                captures[leaf.a] = part
        conditions += [(part, shift(filled(erased(leaf.a), captures), depth)) for leaf, part, depth in guards]
        demand(count == len(conditions))
        for pair in conditions:
            self.join(*pair)
        return filled(right, captures)

    # ---- items

    def reduced(self, t, *tags):
        """The reduct of a term, where some are given of one of these tags."""
        t = self.steps(*self.certificate.take("r"), t)
        demand(not tags or t.tag in tags)
        return t

    def join(self, t, u):
        left, right = self.certificate.take("j")
        demand(self.steps(left, t) is self.steps(right, u))

    def solve(self, t, u):
        """Takes the equation of t and u into the bindings."""
        left, right, word = self.certificate.take("e")
        t = self.under(self.steps(left, self.under(t)))
        u = self.under(self.steps(right, self.under(u)))
        if word == "=":
            return demand(t is u)
        bound = "l" if may_bind(t, u) else "r" if may_bind(u, t) else None
        if word in "lr":
            demand(word == bound)
            k, by = (t.a, u) if word == "l" else (u.a, t)
            self.s = {**{j: filled(v, {k: by}) for j, v in self.s.items()}, k: by}
        else:
            pairs = self.pairs(t, u)
            demand(bound is None and (pairs is None) == (word == "x"))
            demand(word == "t" or not (self.is_rigid(t) and self.is_rigid(u)))
            for pair in pairs or []:
                self.solve(*pair)

    def under(self, t):
        return filled(t, self.s)

    def has_parts(self, head):
        return head.tag in ("var", "prod", "abs") or (head.tag == "sym" and self.entries[head.a].sort != "def")

    def is_rigid(self, t):
        head = spine(t)[0]
        return head in (STAR, KIND) or self.has_parts(head)

    def pairs(self, t, u):
        """The pairs of parts of two terms of one head; None where it isn't one, or one that may unfold."""
        (h, xs), (g, ys) = spine(t), spine(u)
        if not self.has_parts(h) or len(xs) != len(ys) or (h is not g and (h.tag != g.tag or not h.parts)):
            return None
        return [(a, b) for (a, _), (b, _) in zip(h.parts, g.parts)] + list(zip(xs, ys))

    # ---- typing

    def infer(self, context, t):
        if t is STAR:
            return KIND
        if t.tag == "sym":
            return self.entries[t.a].typ
        if t.tag == "var":
            return shift(context[-1 - t.a], t.a + 1)
        if t.tag == "rvar":
            return shift(self.types[t.a], len(context))
        if t.tag == "app":
            arrow = self.reduced(self.infer(context, t.a), "prod")
            self.fits(context, t.b, arrow.a)
            return put_in(arrow.b, erased(t.b))
        demand(t.tag in ("prod", "note"))
        domain = erased(t.a)
        self.reduced(self.infer(context, t.a), "star")
        typ = self.infer(context + [domain], t.b)
        if t.tag == "prod":
            return self.reduced(typ, "star", "kind")
        demand(typ is not KIND)
        return term("prod", domain, typ)

    def fits(self, context, t, typ):
        if t.tag not in ("abs", "note"):
            return self.join(self.infer(context, t), typ)
        arrow = self.reduced(typ, "prod")
        if t.tag == "note":
            self.reduced(self.infer(context, t.a), "star")
            self.join(erased(t.a), arrow.a)
        self.fits(context + [arrow.a], t.a if t.tag == "abs" else t.b, arrow.b)

    # ---- rules

    def rule(self, head, notes, patterns, right):
        self.s, self.types, self.guards, self.wildcards = {}, {}, [], itertools.count(len(notes))
        _, typ = self.walk_spine([], head, self.infer([], head), patterns)
        self.types = {k: self.under(t) for k, t in self.types.items()}
        for k, note in enumerate(notes):
            if note and k in self.types:
                self.join(self.under(erased(note)), self.types[k])
        for context, t, expected in self.guards:
            self.fits([self.under(a) for a in context], self.under(t), self.under(expected))
        self.fits([], self.under(right), self.under(typ))

    def walk_spine(self, context, t, typ, patterns):
        for p in patterns:
            arrow = self.reduced(self.under(typ), "prod")
            u = self.walk(context, p, arrow.a)
            t, typ = term("app", t, u), put_in(arrow.b, u)
        return t, typ

    def walk(self, context, p, expected):
        """The pattern as a term, against the type that is expected."""
        head, patterns = spine(p)
        if head.tag == "any":
            variables = [term("var", x) for x in reversed(range(len(context)))]
            return self.occurrence(context, term("rvar", next(self.wildcards)), variables, expected)
        if head.tag == "rvar":
            return self.occurrence(context, head, patterns, expected)
        if head.tag == "guard":
            t = shift(erased(head.a), len(context))
            self.guards.append((context, t, expected))
            return t
        if head.tag == "abs":
            arrow = self.reduced(self.under(expected), "prod")
            return term("abs", self.walk(context + [arrow.a], head.a, arrow.b))
        t, typ = self.walk_spine(context, head, self.infer(context, head), patterns)
        self.solve(typ, expected)
        return t

    def occurrence(self, context, head, variables, expected):
        """A rule variable applied to these: where it stands first its type is found, else its equations are solved."""
        if head.a not in self.types:
            under, places = [self.under(a) for a in context], [x.a for x in variables]
            domains = [self.outside(self.infer(under, x), len(under), places[:k]) for k, x in enumerate(variables)]
            typ = self.outside(self.under(expected), len(under), places)
            self.types[head.a] = functools.reduce(lambda to, domain: term("prod", domain, to), reversed(domains), typ)
        else:
            typ = shift(self.types[head.a], len(context))
            for x in variables:
                arrow = self.reduced(self.under(typ), "prod")
                self.solve(self.infer(context, x), arrow.a)
                typ = put_in(arrow.b, x)
            self.solve(typ, expected)
        return functools.reduce(lambda f, x: term("app", f, x), variables, head)

    def outside(self, typ, depth, variables):
        """The type behind the binders of these variables, of which alone it may speak."""
        return outside(typ, depth, variables) or demand(outside(self.reduced(typ), depth, variables))
