"""Variables in the place of wildcards: where a rule is refused since its right side has another type, one variable for two parts that
types don't make one often is what was meant. Each pair of a wildcard and another wildcard or a variable is tried, and then two pairs."""
from itertools import combinations

from .texts import place, readable

MOST_RUNS = 200
NAMES = [b"a", b"b", b"c", b"t", b"u", b"v", b"x", b"y", b"z"] + [b"v%d" % k for k in range(100)]


class Part:
    """A wildcard or a variable of a left side: its token, and its name, None for a wildcard."""

    def __init__(self, token):
        self.token, self.name = token, None if token.text == b"_" else token.text


class Pairs:
    """A rule, its wildcards, and what else may stand in their places."""

    def __init__(self, program, command, rule):
        self.program, self.command, self.rule = program, command, rule
        self.words, self.runs = command.tokens, 0
        variables = {self.words[named].text for named, _ in rule.context}
        parts = [Part(it) for it in loose_names(rule.arguments, self.words) if it.text == b"_" or it.text in variables]
        self.wildcards = [it for it in parts if it.name is None]
        # A variable stands for all its places; the first is told.
        self.variables = {it.name: it for it in reversed(parts) if it.name is not None}
        firsts = list(reversed(self.variables.values()))
        self.pairs = [(it, other) for it in self.wildcards for other in firsts] + list(combinations(self.wildcards, 2))
        used = {it.text for it in self.words}
        self.fresh = [it for it in NAMES if it not in used]

    def found(self, alike):
        """What is said of the names with which the rule is accepted, those first that make two types alike; None where none are found."""
        named = self.of_classes(alike)
        if named and self.is_accepted(named):
            return self.said(named)
        for count in (1, 2):
            for some in combinations(self.pairs, count):
                if self.runs == MOST_RUNS:
                    return None
                named = self.named(some)
                if named is not None and self.is_accepted(named):
                    return self.said(named)
        return None

    def of_classes(self, classes):
        """The name for each wildcard of some classes, sets of variables and of wildcards by their columns; none where one has two
        variables."""
        named, columns = {}, {b"_%d" % place(self.command.text, it.token.start)[1]: it.token for it in self.wildcards}
        for number, names in enumerate(classes):
            variables = [it for it in names if it not in columns]
            if len(variables) > 1:
                return {}
            name = (variables or [self.fresh[number]])[0]
            named.update({columns[it].start: name for it in names if it in columns})
        return named

    def named(self, some):
        """The name for each wildcard of some pairs, by its place; None where a wildcard would have two."""
        named = {}
        for number, pair in enumerate(some):
            name = pair[1].name or self.fresh[number]
            for it in pair:
                if it.name is None and named.setdefault(it.token.start, name) != name:
                    return None
        return named

    def is_accepted(self, named):
        self.runs += 1
        command, words, rule = self.command, self.words, self.rule
        closed = words[next(k for k in range(rule.first, rule.last) if words[k].text == b"]")].start
        added = b", ".join(sorted(set(named.values()) & set(self.fresh)))
        front = command.text[words[rule.first].start : closed] + (b", " if added and rule.context else b"") + added
        parts, at = [front], closed
        for start, name in sorted(named.items()):
            parts += [command.text[at:start], name]
            at = start + 1
        text = b"".join(parts) + command.text[at : words[rule.last - 1].end] + b" .\n"
        return self.program.answer(command.before + text)[0] == b"accepted"

    def said(self, named):
        """What is said of names that are accepted: where they stand."""
        told = []
        for name in dict.fromkeys(named.values()):
            spots = [start for start, it in named.items() if it == name]
            spots += [self.variables[name].token.start] if name in self.variables else []
            places = sorted(place(self.command.text, it) for it in spots)
            spelt = ["%d" % column if len({line for line, _ in places}) == 1 else "%d:%d" % (line, column) for line, column in places]
            front = "columns " if ":" not in spelt[0] else ""
            told.append("`%s` at %s%s and %s" % (readable(name), front, ", ".join(spelt[:-1]), spelt[-1]))
        return "with %s the rule is accepted; each match then compares them" % ", and ".join(told)


def loose_names(patterns, words):
    """The tokens of names in patterns that no binder binds and that are applied to nothing, outside of guards."""
    found = []
    for it in patterns:
        if it.form == "name":
            found.append(words[it.first + it.brackets])
        elif it.form == "application":
            found += loose_names(it.parts[1:], words)
        elif it.form == "abstraction":
            found += [token for token in loose_names(it.parts[1:], words) if token.text != words[it.binder].text]
    return found
