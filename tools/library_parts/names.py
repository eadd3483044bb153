"""The names of a command, and which of them a binder or a rule variable of it is meant by (docs/scoping.md)."""

WORDS_OUTSIDE = frozenset((b"defac", b"defacu", b"injective", b"private"))
KEYWORDS = WORDS_OUTSIDE | {b"_", b"Type", b"def", b"thm"}
ASKS_FOR_TWO, ASKS_FOR_ONE = (b"#CHECK", b"#ASSERT"), (b"#INFER", b"#EVAL")
NAMES = ("name", "qualified")


class Names:
    """The names of a command that mean symbols, as far as its form tells. Beside them the name that it declares, or of rules the
    head of each; the qualified ones whose plain name is bound at their place; and whether the grammar refuses it, as far as is seen
    here."""

    def __init__(self, words):
        self.words, self.found, self.declared, self.is_odd = words, [], [], False
        self.hidden = set()
        self.variables, self.bound = {}, {}
        self.frames, self.waiting = [], []
        first = words[0][1]
        if first in (b"[", b"{"):
            at = self.rules()
        elif first in ASKS_FOR_TWO:
            at = self.term(self.term(1, (b":", b"=="), False) + 1)
        elif first in ASKS_FOR_ONE:
            at = self.term(1)
        elif words[0][0] == "word":
            # Nothing that begins so can be read.
            at = len(words)
        else:
            at = self.declaration()
        # What is left in front of the dot has no place in the grammar.
        self.is_odd |= at != len(words) - 1
        for word in words[at:]:
            self.meet(word)

    def sign(self, at):
        return self.words[at][1] if at < len(self.words) else b""

    def meet(self, word):
        """A name that stands for a symbol where nothing binds it."""
        if word[0] == "qualified":
            self.found.append(word)
            if word[1].partition(b".")[2] in self.bound:
                self.hidden.add(word[1])
        elif word[0] == "name" and word[1] not in self.bound and word[1] not in KEYWORDS:
            self.found.append(word)

    def declares(self, at):
        """A name where only a plain one can stand, which binds or declares it."""
        self.is_odd |= self.words[at][0] == "qualified"
        return self.words[at][1]

    def bind(self, name):
        self.bound[name] = self.bound.get(name, 0) + 1
        self.frames[-1].append(name)

    def close(self):
        """Leaves a bracket; the variable of `(x : A)`, which an arrow behind it binds."""
        bound = self.bound
        for name in self.frames.pop():
            if bound[name] == 1:
                del bound[name]
            else:
                bound[name] -= 1
        return self.waiting.pop()

    def term(self, at, ends=(), has_binders=True, has_guards=False):
        """Goes through a term or a pattern; the place of the sign that ends it."""
        words, frames, waiting, outside = self.words, self.frames, self.waiting, len(self.frames) + 1
        frames.append([])
        waiting.append(None)
        while at < len(words):
            word = words[at]
            text = word[1]
            if word[0] in NAMES:
                behind = self.sign(at + 1)
                if waiting[-1] is None and (behind == b"=>" or behind == b":" and (has_binders or len(frames) > outside)):
                    waiting[-1] = self.declares(at)
                    at += behind == b":"
                else:
                    self.meet(word)
            elif text == b"(":
                frames.append([])
                waiting.append(None)
            elif text == b")":
                if len(frames) == outside:
                    break
                named = self.close()
                if named is not None and self.sign(at + 1) == b"->":
                    waiting[-1] = named
            elif text == b"." or len(frames) == outside and text in ends:
                break
            elif text in (b"->", b"=>"):
                if waiting[-1] is not None:
                    self.bind(waiting[-1])
                    waiting[-1] = None
            elif text == b"{" and has_guards:
                at = self.guard(at + 1)
            at += 1
        while len(frames) >= outside:
            self.close()
        return at

    def guard(self, at):
        """Goes through a guard, which sees rule variables and symbols alone; the place of its end."""
        bound, self.bound = self.bound, dict(self.variables)
        at = self.term(at, (b"}",))
        self.bound = bound
        return at

    def declaration(self):
        at = 1 if self.words[0][1] in (b"def", b"thm") else 0
        is_named = at < len(self.words) and self.words[at][0] in NAMES
        self.is_odd |= not is_named or self.words[at][1] in KEYWORDS
        if is_named:
            self.declares(at)
            self.declared.append(self.words[at][1])
            if self.words[at][0] == "name":
                self.meet(self.words[at])
            at += 1
        self.frames.append([])
        self.waiting.append(None)
        while self.sign(at) == b"(" and self.sign(at + 2) == b":" and self.words[at + 1][0] in NAMES:
            named = self.declares(at + 1)
            at = self.term(at + 3) + 1
            self.bind(named)
        if self.sign(at) == b":":
            at = self.term(at + 1, (b":=",))
        if self.sign(at) == b":=":
            at = self.term(at + 1)
        return at

    def rules(self):
        at = 0
        while self.sign(at) in (b"[", b"{"):
            if self.sign(at) == b"{":
                if self.words[at + 1][0] == "qualified":
                    self.found.append(self.words[at + 1])
                at += 3
            if self.sign(at) != b"[":
                break
            self.bound, self.variables = {}, {}
            self.frames.append([])
            at = self.context(at + 1)
            self.declared += [it[1] for it in self.words[at : at + 1001] if it[1] != b"("][:1]
            at = self.term(at, (b"-->",), has_guards=True)
            if self.sign(at) == b"-->":
                at = self.term(at + 1, (b"[", b"{"))
        return at

    def context(self, at):
        """Goes through the rule variables, whose annotations see those before them; the place behind them."""
        while at < len(self.words) and self.words[at][0] in NAMES:
            named = self.declares(at)
            at += 1
            if self.sign(at) == b":":
                at = self.term(at + 1, (b",", b"]"))
            self.bind(named)
            self.variables[named] = 1
            if self.sign(at) != b",":
                break
            at += 1
        return at + (self.sign(at) == b"]")
