"""Faults of rules, E30 to E35, and of types in a guard or a right side: which rule of a command, and which part of it."""
from . import rule_types
from .pairs import Pairs
from .program import Unsure, first
from .terms import Reader
from .texts import Place, cut, readable
from .walks import Walk, walk


class RuleFaults:
    """The rules of a command that is refused by a code."""

    def __init__(self, program, command, code):
        self.program, self.command, self.code = program, command, code
        self.words, self.rules = command.tokens, Reader(command.tokens).rules()

    def is_refused(self, text):
        return self.program.answer(self.command.before + text) == (b"refused", self.code)

    def number(self):
        """The number, from 0, of the rule that the code is of: with those before it the command has that code."""
        text, start = self.command.text, self.command.start
        fronts = [text[start : self.words[it.last - 1].end] + b" ." for it in self.rules]
        found = first(0, len(self.rules), lambda k: self.is_refused(fronts[k]))
        if found == len(self.rules):
            raise Unsure
        return found

    def place(self):
        if self.code in (b"E20", b"E21", b"E22", b"E23", b"E24", b"E25", b"budget"):
            return self.place_of_types()
        rule = self.rules[self.number()]
        found = {
            b"E30": self.place_of_head,
            b"E31": self.place_of_head,
            b"E32": self.place_of_no_pattern,
            b"E33": self.place_of_unmatched,
            b"E34": self.place_in_left_side,
            b"E35": self.place_in_left_side,
        }[self.code](rule)
        return found

    def place_of_types(self):
        """A guard or a right side that doesn't type; a rule is typed as a whole before the next one."""
        parts = []
        for rule in self.rules:
            for guard in guards_of(rule.left):
                parts += walk(guard.parts[0], "check", skips_annotations=True)
            parts += walk(rule.right, "check")
        place = Walk(self.program, self.command, self.code, parts).fault()
        owner = next(it for it in self.rules if place.at < self.words[it.last - 1].end)
        if place.said.endswith("is expected") and place.at == self.words[owner.right.first].start:
            place.said = "the right side has another type than the left side"
        if self.code == b"E21":
            self.add_types(place, owner)
        return place

    def add_types(self, place, rule):
        """Adds the types of a part of a right side, and the declaration of the head, and what makes the rule accepted."""
        types, classes = rule_types.types_of(self.command, rule), []
        if types is not None and place.term is rule.right:
            own = rule_types.own_type(self.program, self.command, types)
            if own is not None:
                place.types = ["expected: " + cut(types.typ), "its type: " + cut(own)]
                classes = rule_types.alike(types.typ, own)
        elif types is not None:
            place.types = rule_types.lines_of(self.program, self.command, types, place.term)
        hint = Pairs(self.program, self.command, rule).found(classes)
        place.hints = [] if hint is None else [hint]
        place.declared = place.declared or self.command.spelt(rule.head)

    def told(self, term, said, declared=None):
        return Place(self.words[term.first].start, self.command.spelt(term), said, declared)

    def place_of_head(self, rule):
        head = self.command.spelt(rule.head)
        if self.code == b"E31":
            return self.told(rule.head, "the head of this left side, and no symbol")
        return self.told(rule.head, "the head of this left side, which wasn't declared by def", head)

    # ---- left sides of a form that no rule has

    def place_of_no_pattern(self, rule):
        """Parts of the left side from left to right, with a wildcard in the place of each later one: the first that isn't a pattern."""
        variables = {self.words[named].text for named, _ in rule.context}
        parts = [it for argument in rule.arguments for it in self.pattern_parts(argument, variables, frozenset())]

        def is_refused(k):
            kept = {id(it) for it in parts[: k + 1]}
            left = b" ".join([self.command.spelt(rule.head)] + [self.pruned(it, kept) for it in rule.arguments])
            return self.is_refused(self.context(rule) + left + b" --> Type .")

        at = first(0, len(parts), is_refused)
        if at == len(parts):
            raise Unsure
        return self.told(parts[at], "this is no pattern")

    def pattern_parts(self, pattern, variables, bound):
        """A pattern and the patterns in it, but for what a rule variable or no pattern at all is applied to."""
        found = [pattern]
        if pattern.form == "abstraction":
            return found + self.pattern_parts(pattern.parts[1], variables, bound | {self.words[pattern.binder].text})
        if pattern.form == "application":
            head = self.command.spelt(pattern.parts[0])
            if pattern.parts[0].form == "name" and head != b"_" and (head in bound or head not in variables):
                for it in pattern.parts[1:]:
                    found += self.pattern_parts(it, variables, bound)
            else:
                pattern.mode = "whole"
        return found

    def pruned(self, pattern, kept):
        if id(pattern) not in kept:
            return b"_"
        if pattern.form == "abstraction":
            return b"(" + self.words[pattern.binder].text + b" => " + self.pruned(pattern.parts[1], kept) + b")"
        if pattern.form == "application" and pattern.mode != "whole":
            head = self.command.spelt(pattern.parts[0])
            return b"(" + b" ".join([head] + [self.pruned(it, kept) for it in pattern.parts[1:]]) + b")"
        return self.command.spelt(pattern) if pattern.brackets else b"(" + self.command.spelt(pattern) + b")"

    # ---- variables that the patterns lack

    def place_of_unmatched(self, rule):
        """Read off: the first variable of the context that stands in an annotation, a guard or the right side and in no pattern."""
        variables = {self.words[named].text for named, _ in rule.context}
        matched = {self.words[it.first].text for it in free_names(rule.left, self.words, False)} & variables
        used = [it for _, annotation in rule.context if annotation is not None for it in free_names(annotation, self.words, True)]
        used += [it for guard in guards_of(rule.left) for it in free_names(guard.parts[0], self.words, True)]
        used += free_names(rule.right, self.words, True)
        lacking = [it for it in used if self.words[it.first].text in variables - matched]
        if not lacking:
            raise Unsure
        return self.told(min(lacking, key=lambda it: it.first), "a rule variable that no pattern of the left side has")

    # ---- left sides that don't type

    def context(self, rule, annotated=0):
        """The context of a rule, with the annotations of its first entries."""
        entries = []
        for number, (named, annotation) in enumerate(rule.context):
            typ = b"" if annotation is None or number >= annotated else b" : " + self.command.spelt(annotation)
            entries.append(self.words[named].text + typ)
        return b"[" + b", ".join(entries) + b"] "

    def place_in_left_side(self, rule):
        """The left side shortened argument by argument; the first argument with which it is refused so, and then the place in it."""
        at = self.first_refused(rule, self.command.spelt(rule.head), rule.arguments)
        if at is None:
            return self.place_of_annotation(rule)
        head, arguments = rule.head, rule.arguments
        while True:
            pattern = arguments[at]
            inner, parts = pattern, []
            if pattern.form == "application":
                inner, parts = pattern.parts[0], list(pattern.parts[1:])
            place = self.told(pattern, self.said_of_argument(head, at), self.command.spelt(head))
            twin = self.definable(inner) if parts else None
            deeper = None if twin is None else self.first_refused(rule, b"twin'head", parts, twin)
            if deeper is None:
                return place
            head, arguments, at = inner, parts, deeper

    def said_of_argument(self, head, at):
        where = ": argument %d of %s" % (at + 1, cut(self.command.spelt(head)))
        if self.code == b"E35":
            return "the type here mentions a bound variable that the rule variable isn't applied to" + where
        return "the pattern's type isn't the one that its place has, or its head takes no more arguments" + where

    def first_refused(self, rule, head, arguments, declared=b""):
        """The number of the first argument with which the left side is refused so; None where it isn't with all."""
        spelt = [self.command.spelt(it) for it in arguments]

        def is_refused(k):
            left = b" ".join([head] + spelt[: k + 1])
            return self.is_refused(declared + self.context(rule) + left + b" --> Type .")

        at = first(0, len(arguments), is_refused)
        return None if at == len(arguments) else at

    def definable(self, head):
        """A declaration of a definable symbol with the type of this head, where it is a symbol declared with its type."""
        name = self.command.spelt(head)
        known = self.command.front.declaration(name) if head.form == "name" else None
        if known is None or b":=" in known[1]:
            return None
        text = known[1].strip()
        text = text[4:].strip() if text.startswith(b"def ") else text
        return b"def twin'head " + text[len(name) :] + b"\n" if text.startswith(name) else None

    def place_of_annotation(self, rule):
        """The first annotation of the context with which the rule is refused so."""
        left = self.command.spelt(rule.left) + b" --> Type ."
        at = first(0, len(rule.context), lambda k: self.is_refused(self.context(rule, k + 1) + left))
        if at == len(rule.context):
            raise Unsure
        named, annotation = rule.context[at]
        return self.told(annotation, "the annotation isn't the type that the left side gives to %s" % readable(self.words[named].text))


def guards_of(pattern):
    """The guards of a left side, from left to right."""
    if pattern.form == "guard":
        return [pattern]
    return [guard for it in pattern.parts if it is not None for guard in guards_of(it)]


def free_names(term, words, has_guards, bound=frozenset()):
    """The names in a term or a pattern that no binder of it binds, from left to right; those of guards where that is said."""
    if term.form == "name":
        return [] if words[term.first].text in bound else [term]
    if term.form == "guard" and not has_guards:
        return []
    found = []
    for number, it in enumerate(term.parts):
        is_under = number == 1 and term.form in ("abstraction", "product") and term.binder is not None
        if it is not None:
            found += free_names(it, words, has_guards, bound | {words[term.binder].text} if is_under else bound)
    return found
