"""A theorem's proof as a term: each expression and step once, steps that are used again as theorems of their own."""
from metamath_parts.databases import Unread
from metamath_parts.theories import spelt

DEEPEST = 300  # brackets in one another before a step becomes a theorem of its own
UNKNOWN = "{|$?|}"  # declared nowhere


class Node:
    """An expression (which has a typecode, and the label or variable in front of it), a proof or evidence. `needs` has a bit for
    each local name in it, `text` is it as an argument."""

    def __init__(self, head, parts=(), needs=0, kind=None, label=None, claim=None):
        self.head, self.parts, self.needs, self.kind, self.label, self.claim = head, parts, needs, kind, label, claim
        self.text, self.depth, self.uses = head, 0, 0
        for it in parts:
            self.needs |= it.needs

    def write(self):
        if self.parts:
            self.text = "(%s %s)" % (self.head, " ".join([it.text for it in self.parts]))
            self.depth = 1 + max([it.depth for it in self.parts])


class Proof:
    """One theorem, whose proof is gone through on Metamath's stack. It is written as it stands, right or wrong."""

    def __init__(self, theory, frame):
        self.theory, self.out, self.database, self.frame = theory, theory.out, theory.database, frame
        self.nodes, self.steps, self.stack = {}, [], []
        self.locals, self.variables, self.pairs, self.hyps = [], {}, {}, {}  # a local: 0 to 2 for what it is, its bit, name, type
        self.scope, self.active = set(self.database.pairs), {it[0] for it in self.database.active}
        self.values = {it: self.variable(it).text for it in frame.variables}
        for label, tree in frame.hyps.items():
            self.hyps[label] = self.assume(1, spelt(label), theory.claim(tree, self.values), [*self.variables.values()])
        for it in frame.pairs:
            self.distinct(*it)
        self.own = len(self.locals)

    def assume(self, what, name, claim, nodes=(), **fields):
        self.locals.append((what, len(self.locals), name, claim))
        return Node(name, (), sum({it.needs for it in nodes}) | 1 << len(self.locals) - 1, **fields)

    def variable(self, name):
        if name not in self.variables:
            kind = self.database.typecodes[name]
            self.variables[name] = self.assume(0, spelt(name), self.theory.kind(kind), kind=kind, label=name)
        return self.variables[name]

    def distinct(self, *names):
        """Evidence that two variables are distinct, as a local name."""
        nodes = [self.variables[it] for it in names]
        self.pairs[names] = self.assume(2, spelt(*names), self.apart(*nodes), nodes)

    def apart(self, one, other):
        return "%s %s %s" % (self.theory.apart(one.kind, other.kind), one.text, other.text)

    def once(self, head, parts, claim=None, label=None):
        """The one node of a head with these parts: a step, or an expression, which has a label."""
        if (head, parts) not in self.nodes:
            self.nodes[head, parts] = Node(head, parts, 0, label and self.database.frames[label].kind, label, claim)
            if label:
                self.nodes[head, parts].write()
            else:
                self.steps.append(self.nodes[head, parts])
        return self.nodes[head, parts]

    def instance(self, tree, values):
        if isinstance(tree, str):
            return values[tree]
        return self.once(spelt(tree[0]), tuple([self.instance(it, values) for it in tree[1:]]), None, tree[0])

    def evidence(self, one, other):
        """Evidence that two expressions share no variable, down to a local name for each pair of variables."""
        if one.kind is None or other.kind is None:
            return Node(UNKNOWN)
        if other.label in self.database.frames:
            parts = (one, *other.parts, *[self.evidence(one, it) for it in other.parts])
            return self.once(self.theory.grown(one.kind, other.label), parts, lambda: self.apart(one, other))
        if one.label not in self.database.frames:
            pair = one.label, other.label
            if not {pair, pair[::-1]} & self.pairs.keys():
                if frozenset(pair) not in self.scope or one is other:
                    return Node(spelt(*pair))  # which nothing binds
                self.distinct(*(it.label for it in sorted((one, other), key=lambda it: -it.needs)))
            if pair in self.pairs:
                return self.pairs[pair]
        head, parts = self.theory.turned(other.kind, one.kind), (other, one, self.evidence(other, one))
        return self.once(head, parts, lambda: self.apart(one, other))

    def push(self, label):
        """One step of the proof, or a saved one, on a stack of expressions and proofs."""
        used = self.database.frames.get(label)
        if isinstance(label, Node) or label in self.hyps:
            self.stack.append(self.hyps.get(label, label))
        elif label in self.active and label in self.database.floats:
            self.stack.append(self.variable(self.database.floats[label]))
        elif used is None:
            self.stack.append(Node(spelt(label) if label in self.database.labels else UNKNOWN))
        elif len(used.order) > len(self.stack):
            raise Unread("a step of %s lacks hypotheses" % label)
        else:
            taken = {it: self.stack.pop() for it in reversed(used.order)}
            self.stack.append(self.applied(used, taken, {variable: taken[it] for it, variable in used.floats.items()}))

    def applied(self, used, taken, values):
        if used.is_syntax:
            return self.instance(used.tree, values)
        parts = [*values.values(), *(taken[it] for it in used.hyps), *(self.evidence(values[u], values[v]) for u, v in used.pairs)]
        claim = lambda: self.theory.claim(used.tree, {it: node.text for it, node in values.items()})
        return self.once(spelt(used.label), tuple(parts), claim)

    def root(self):
        """What the proof comes to."""
        words, number = self.frame.proof, 0
        end = words.index(")") if words[:1] == ["("] and ")" in words else 0
        known = self.frame.order + words[1:end]
        for it in () if end else words:
            self.push(it)
        for letter in "".join(words[end + 1 :]) if end else "":
            if letter == "Z":
                known += self.stack[-1:]
            elif letter >= "U":
                number = number * 5 + ord(letter) - ord("T")
            else:
                number = number * 20 + ord(letter) - ord("A")
                self.push(known[number] if 0 <= number < len(known) else "?")
                number = 0
        if len(self.stack) != 1:
            raise Unread("a proof that leaves %d steps" % len(self.stack))
        return self.stack[0]

    def theorem(self, name, params, claim, body):
        return "thm %s%s : %s := %s." % (name, "".join([" (%s : %s)" % it[2:] for it in params]), claim, body)

    def cut(self, root):
        """Makes the texts of all steps. A step that is used again becomes a theorem of its own where that is shorter, and one that
        is too deep."""
        root.uses, made = 1, 1
        for it in reversed(self.steps):
            for part in it.parts if it.uses else ():
                part.uses += 1
        for it in [it for it in self.steps if it.uses]:
            it.write()
            if it is not root and it.parts and (it.uses > 1 or it.depth > DEEPEST):
                made += self.is_cut(it, spelt(self.frame.label, str(made)))

    def is_cut(self, node, name):
        params = sorted(it for it in self.locals if node.needs >> it[1] & 1)
        call = "(%s %s)" % (name, " ".join([it[2] for it in params])) if params else name
        if node.depth <= DEEPEST and node.uses * (len(node.text) - len(call)) <= len(node.text):
            return False
        lemma = self.theorem(name, params, node.claim(), node.text[1:-1])
        if node.depth <= DEEPEST and node.uses * (len(node.text) - len(call)) <= len(lemma):
            return False
        self.out.write(name, lemma)
        node.text, node.depth = call, 1
        return True

    def under_new(self, needs, body):
        """The body under the variables that the statement doesn't have, each with the evidence that is used."""
        kinds, goal = list(self.database.kinds), self.theory.text(self.frame.tree, self.values)
        for name, node in reversed([*self.variables.items()][len(self.frame.variables) :]):
            if node.needs & needs:
                used = [it for it in self.pairs.items() if it[0][0] == name and it[1].needs | needs == needs]
                against = sorted([(kinds.index(self.variables[pair[1]].kind), pair[1], it.text) for pair, it in used])
                new = self.theory.new(node.kind, [kinds[it[0]] for it in against])
                exprs = " ".join([goal] + [self.variables[it[1]].text for it in against])
                body = "%s %s (%s => %s)" % (new, exprs, " => ".join([node.text] + [it[2] for it in against]), body)
        return body

    def translate(self):
        root, name = self.root(), spelt(self.frame.label)
        self.cut(root)
        body = self.under_new(root.needs, root.text[1:-1] if root.parts else root.text)
        self.out.write(name, self.theorem(name, self.locals[: self.own], self.theory.conclusion(self.frame), body))
