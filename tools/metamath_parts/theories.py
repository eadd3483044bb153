"""Names, and what all theorems share: typecodes, axioms, evidence. Each is declared where it is first needed."""
import re

PLAIN = re.compile(r"[A-Za-z0-9_]+\Z")
RESERVED = {"_", "Type", "def", "thm", "defac", "defacu", "injective", "private"}


def spelt(*parts):
    """The name for a label or a symbol, or for what belongs to several: other parts, other names.

    Symbols have no `$`, labels neither `$` nor `'`, and no label is a symbol. What is plain has none of these signs, so joints are
    seen, quoted or plain; no part is empty, so two `$` are none."""
    if all(map(PLAIN.match, parts)) and parts[0] not in RESERVED:
        return "'".join(parts)
    return "{|%s|}" % "$".join(parts).replace("|}", "|$$}")


class Theory:
    """What was declared of a database. The names that a declaration binds end with `'`, as no other name does."""

    def __init__(self, database, out):
        self.database, self.out = database, out

    def once(self, name, kind_of):
        if name not in self.out.home:
            self.out.write(name, "%s : %s." % (name, kind_of()))
        return name

    def kind(self, typecode):
        return self.once(spelt(typecode), lambda: "Type")

    def turnstile(self):
        return self.once(spelt(self.database.turnstile), lambda: "%s -> Type" % self.kind(self.database.proved))

    def apart(self, kind, other):
        """The types of evidence that two expressions share no variable."""
        return self.once(spelt(kind, other), lambda: "%s -> %s -> Type" % (self.kind(kind), self.kind(other)))

    def turned(self, kind, other):
        there, back, names = self.apart(kind, other), self.apart(other, kind), (self.kind(kind), self.kind(other))
        return self.once(spelt(kind, other, "turned"), lambda: "x' : %s -> y' : %s -> %s x' y' -> %s y' x'" % (*names, there, back))

    def grown(self, kind, label):
        """The constructor of evidence that something is apart from an axiom's expression: apart from each part of it."""
        frame = self.database.frames[label]
        kinds = [self.database.typecodes[it] for it in frame.variables]

        def declared():
            names = ["y%d'" % at for at in range(len(kinds))]
            parts = ["x' : " + self.kind(kind)] + ["%s : %s" % (it, self.kind(of)) for it, of in zip(names, kinds)]
            parts += ["%s x' %s" % (self.apart(kind, of), it) for it, of in zip(names, kinds)]
            whole = self.text((label, *names), {it: it for it in names})
            return " -> ".join([*parts, "%s x' %s" % (self.apart(kind, frame.kind), whole)])

        return self.once(spelt(label, kind), declared)

    def new(self, kind, others):
        """What gives a proof a variable that is apart from some expressions, of these typecodes."""

        def declared():
            names, goal = ["u%d'" % at for at in range(len(others))], self.turnstile() + " g'"
            inner = ["z' : " + self.kind(kind)] + ["%s z' %s" % (self.apart(kind, of), it) for it, of in zip(names, others)]
            outer = ["g' : " + self.kind(self.database.proved)] + ["%s : %s" % (it, self.kind(of)) for it, of in zip(names, others)]
            return " -> ".join([*outer, "(%s)" % " -> ".join([*inner, goal]), goal])

        counts = [it for of in dict.fromkeys(others) for it in (of, str(others.count(of)))]
        return self.once(spelt(self.database.turnstile, kind, "new", *counts), declared)

    def text(self, tree, values):
        """A tree as an argument, each variable as its value."""
        if isinstance(tree, str):
            return values[tree]
        name = spelt(tree[0])
        return "(%s %s)" % (name, " ".join([self.text(it, values) for it in tree[1:]])) if tree[1:] else name

    def claim(self, tree, values):
        return "%s %s" % (self.turnstile(), self.text(tree, values))

    def premises(self, frame):
        """What an assertion takes, as names with their types: variables, hypotheses, evidence."""
        kinds, values = self.database.typecodes, {it: spelt(it) for it in frame.variables}
        given = [(values[it], self.kind(kinds[it])) for it in frame.variables]
        given += [(spelt(label), self.claim(tree, values)) for label, tree in frame.hyps.items()]
        return given + [(spelt(*it), "%s %s %s" % (self.apart(*map(kinds.get, it)), *map(spelt, it))) for it in frame.pairs]

    def conclusion(self, frame):
        return self.kind(frame.kind) if frame.is_syntax else self.claim(frame.tree, {it: spelt(it) for it in frame.variables})

    def declare(self, frame):
        """An axiom, one of syntax too, or a theorem whose proof isn't shown."""
        given = ["%s : %s" % it for it in self.premises(frame)]
        self.once(spelt(frame.label), lambda: " -> ".join([*given, self.conclusion(frame)]))
