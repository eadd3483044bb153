"""Metamath databases: statements with their scopes, assertions as frames, and strings as trees of syntax axioms."""
import re
from itertools import takewhile
from types import SimpleNamespace

WORD = re.compile(r"\$\(\s.*?\s\$\)|(\S+)", re.S)  # a comment, or a word


class Unread(Exception):
    """What stands in the way of a translation, in words."""


def statements(path):
    """The statements of a database: label or None, keyword, words up to `$.`."""
    with open(path, encoding="latin-1") as file:
        words = (it[1] for it in WORD.finditer(file.read()) if it[1])
    label = None
    for word in words:
        if word in ("${", "$}", "$c", "$v", "$f", "$e", "$d", "$a", "$p"):
            yield label, word, [] if word in ("${", "$}") else list(takewhile(lambda it: it != "$.", words))
            label = None
        elif word[0] == "$" or label:
            raise Unread("`%s` begins no statement" % word)
        else:
            label = word


class Grammar:
    """The syntax axioms as tries: one for those that begin with a variable of their own typecode, one for all others."""

    def __init__(self):
        self.typecodes, self.front, self.behind = {}, {}, {}

    def add(self, label, typecode, symbols, variables):
        places = [it for it in symbols if it in self.typecodes]
        is_left = bool(symbols) and self.typecodes.get(symbols[0]) == typecode
        if len(places) != len(variables) or is_left and len(symbols) == 1:
            raise Unread("a syntax axiom has a variable twice, or is a variable")
        node = (self.behind if is_left else self.front).setdefault(typecode, {})
        for it in symbols[is_left:]:
            node = node.setdefault((self.typecodes[it],) if it in self.typecodes else it, {})
        node.setdefault(None, []).append((label, [places.index(it) for it in variables]))

    def trees(self, typecode, symbols):
        """All trees of a string: a variable, or a label and a tree for each variable of that syntax axiom."""
        known, size = {}, len(symbols)

        def at(typecode, place):
            if (typecode, place) not in known:
                known[typecode, place] = None
                found = [(place + 1, it) for it in symbols[place : place + 1] if self.typecodes.get(it) == typecode]
                walk(self.front.get(typecode, {}), place, (), found)
                for end, tree in found:
                    walk(self.behind.get(typecode, {}), end, (tree,), found)
                known[typecode, place] = found
            if known[typecode, place] is None:
                raise Unread("syntax axioms that begin with each other's variables, or with nothing")
            return known[typecode, place]

        def walk(node, place, parts, found):
            for key, child in node.items():
                if key is None:
                    found += [(place, (label, *(parts[it] for it in order))) for label, order in child]
                elif isinstance(key, tuple):
                    for end, part in at(key[0], place):
                        walk(child, end, (*parts, part), found)
            if place < size and symbols[place] in node:
                walk(node[symbols[place]], place + 1, parts, found)

        return [tree for end, tree in at(typecode, 0) if end == size]

    def tree(self, typecode, symbols):
        found = self.trees(typecode, symbols)
        if len(found) != 1:
            raise Unread("`%s` has %d trees as a %s" % (" ".join(symbols), len(found), typecode))
        return found[0]


class Database:
    """Goes through a database once, and has all that was stated so far."""

    def __init__(self, path, turnstile):
        self.path, self.turnstile, self.proved = path, turnstile, None  # the last: the typecode of what stands behind the turnstile
        self.symbols, self.labels, self.kinds = set(), set(), {}  # the kinds: all typecodes but the turnstile
        self.frames, self.floats, self.hyps = {}, {}, {}  # by label: assertions, variables, trees
        self.grammar = Grammar()
        self.typecodes = self.grammar.typecodes
        self.active, self.pairs = [], []  # of the open scopes: label, is it a $f, variable or string; $d

    def assertions(self):
        """A frame for each $a and $p; `active` and `pairs` are then those of its scope."""
        marks = []
        for label, keyword, words in statements(self.path):
            try:
                if self.labels.intersection(words) if keyword in ("$c", "$v") else label in self.symbols:
                    raise Unread("a label that is a symbol")
                if keyword in ("$c", "$v"):
                    self.symbols.update(words)
                elif keyword == "$d":
                    self.pairs += [frozenset((it, other)) for at, it in enumerate(words) for other in words[:at]]
                elif keyword == "${":
                    marks.append((len(self.active), len(self.pairs)))
                elif keyword == "$}":
                    del self.active[marks[-1][0] :], self.pairs[marks.pop()[1] :]
                elif not label or label in self.labels:
                    raise Unread("a label is missing, or there twice")
                else:
                    self.labels.add(label)
                    if keyword in ("$a", "$p"):
                        yield self.assertion(label, words)
                    else:
                        self.assume(label, keyword == "$f", words)
            except Unread as why:
                raise Unread("%s: %s" % (label or keyword, why)) from None

    def assume(self, label, is_float, words):
        if is_float:
            self.floats[label], self.kinds[words[0]] = words[1], None
            if self.typecodes.setdefault(words[1], words[0]) != words[0]:
                raise Unread("a variable of two typecodes")
        else:
            self.hyps[label] = self.claimed(words)
        self.active.append((label, is_float, words[1] if is_float else words))

    def claimed(self, words):
        """The tree of what stands behind a turnstile."""
        if words[0] != self.turnstile:
            raise Unread("a hypothesis that something is a %s" % words[0])
        if self.proved is None:
            self.proved = next((it for it in self.kinds if self.grammar.trees(it, words[1:])), None)
        return self.grammar.tree(self.proved, words[1:])

    def assertion(self, label, words):
        """What a label stands for: its hypotheses in `order`, as a proof finds them on the stack, `variables` by label of those that
        are $f, trees by label of the others, pairs of variables that have to be distinct, its tree, and a proof or None."""
        cut = words.index("$=") if "$=" in words else len(words)
        kind, symbols, is_syntax = words[0], words[1:cut], words[0] != self.turnstile
        strings = [symbols, *(it[2] for it in self.active if not it[1])]
        used = {it for string in strings for it in string if it in self.typecodes}
        given = [it for it in self.active if not it[1] or it[2] in used]
        made = SimpleNamespace(
            label=label, kind=kind, is_syntax=is_syntax, order=[it[0] for it in given], floats={it[0]: it[2] for it in given if it[1]},
            hyps={it[0]: self.hyps[it[0]] for it in given if not it[1]}, proof=words[cut + 1 :] if cut < len(words) else None,
        )  # fmt: skip
        made.variables = list(made.floats.values())
        # In a pair the variable comes first whose typecode has no syntax axioms, else the earlier one.
        place = {it: (self.typecodes[it] in {**self.grammar.front, **self.grammar.behind}, at) for at, it in enumerate(made.variables)}
        pairs = {tuple(sorted(it, key=place.get)) for it in self.pairs if it <= used}
        made.pairs = sorted(pairs, key=lambda it: [place[part] for part in it])
        if is_syntax and (made.pairs or made.hyps):
            raise Unread("a syntax axiom under a condition")
        if is_syntax and made.proof is None:
            self.kinds[kind] = None
            self.grammar.add(label, kind, symbols, made.variables)
            made.tree = label, *made.variables
        else:
            made.tree = self.grammar.tree(kind, symbols) if is_syntax else self.claimed(words[:cut])
        self.frames[label] = made
        return made
