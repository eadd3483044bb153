"""The commands scoped and shaped (docs/scoping.md, docs/rules.md), and what accepted ones add."""
import types

from .reading import Refused
from .terms import ANY, STAR, erased, nodes, spine, term


class Theory:
    """The entries of the commands, and the numbers of the names of each module."""

    def __init__(self):
        self.entries, self.names = [], {}

    def scope(self, module, command):
        """The command with numbers, its rules in their shape."""
        if command[0] == "query":
            return ("query", [self.scoped(module, t) for t in command[1]])
        if command[0] == "rules":
            rules = [self.rule(module, *rule) for rule in command[1]]
            return ("rules", [self.shape(*rule) for rule in rules])
        *front, typ, body = command
        if (module, command[2]) in self.names:
            raise Refused("E11")
        return (*front, *[t and self.scoped(module, t) for t in (typ, body)])

    def scoped(self, module, t, names=(), bound=(), is_left=False):
        """The term; of a left side, one in which a wildcard is `any` and a guard is `guard`."""
        kind = t[0]
        if kind == "name" and t[1] in bound:
            return term("var", bound[::-1].index(t[1]))
        if kind == "name" and t[1] in names:
            return term("rvar", names.index(t[1]))
        if kind in ("name", "qname"):
            name = t[1:] if kind == "qname" else (module, t[1])
            if name not in self.names:
                raise Refused("E10")
            return term("sym", self.names[name])
        if kind == "_" and not is_left:
            raise Refused("E12")
        if kind in ("_", "Type"):
            return ANY if is_left else STAR
        if kind == "guard":
            return term("guard", self.scoped(module, t[1], names))
        if kind == "app":
            return term("app", *[self.scoped(module, part, names, bound, is_left) for part in t[1:]])
        parts = [self.scoped(module, t[2], names, bound)] if t[2] else []
        parts.append(self.scoped(module, t[3], names, (*bound, t[1]), is_left))
        return term("note" if kind == "abs" and len(parts) == 2 else kind, *parts)

    def rule(self, module, context, left, right):
        names, notes = [], []
        for x, note in context:
            if x in names:
                raise Refused("E13")
            notes.append(note and self.scoped(module, note, names))
            names.append(x)
        return notes, self.scoped(module, left, names, is_left=True), self.scoped(module, right, names)

    def shape(self, notes, left, right):
        """The rule as its head, its annotations, its patterns and its right side."""
        head, patterns = spine(left)
        if head.tag != "sym":
            raise Refused("E31")
        leaves = [leaf for p in patterns for leaf in leaves_of(p)]
        found = {leaf.a for leaf in leaves if leaf.tag == "rvar"}
        terms = [right, *filter(None, notes), *[leaf.a for leaf in leaves if leaf.tag == "guard"]]
        if any(v.tag == "rvar" and v.a not in found for t in terms for v, _ in nodes(t)):
            raise Refused("E33")
        if self.entries[head.a].sort != "def":
            raise Refused("E30")
        return head, notes, patterns, right

    def enter(self, module, command, typ):
        """Adds the entry of a command; `typ` is the type of a definition that declares none."""
        if command[0] != "declare":
            self.entries.append(None)
            for head, _, patterns, right in command[1] if command[0] == "rules" else []:
                self.entries[head.a].rules.append((patterns, erased(right)))
            return
        _, sort, name, declared, body = command
        self.names[module, name] = len(self.entries)
        rules = [([], erased(body))] if sort == "def" and body else []
        self.entries.append(types.SimpleNamespace(sort=sort, typ=erased(declared) if declared else typ, rules=rules))


def leaves_of(p):
    """The rule variables, wildcards and guards of a pattern, from left to right."""
    head, arguments = spine(p)
    is_once = all(a.tag == "var" for a in arguments) and len(set(arguments)) == len(arguments)
    if arguments and head.tag not in ("sym", "var") and not (head.tag == "rvar" and is_once):
        raise Refused("E32")
    if head.tag in ("rvar", "any", "guard"):
        return [head]
    return [leaf for part in ([head.a] if head.tag == "abs" else arguments) for leaf in leaves_of(part)]
