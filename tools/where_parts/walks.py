"""The place of a fault of types, by the order in which a term is typed (docs/typing.md): from left to right, a term before its
parts, a head before its arguments.

A mark is a term that is refused wherever it stands, with a code of its own. It is put in the place of one part: where the fault
comes before that part is looked at, the program gives the command's code, else the mark's. So the last part that is looked at
before the fault is found by halving, however large the command is, and no part is judged outside of its place.
"""
from .program import Unsure, first
from .texts import Place, cut

# `Type` has no product as its type, E20; a bare abstraction as a head has no type, E23.
MARK, MARK_CODE = b"(Type Type)", b"E20"
OTHER_MARK, OTHER_CODE = b"((z => z) Type)", b"E23"


def walk(top, mode, skips_annotations=False):
    """The parts of a term in the order of typing. Each learns how it is typed (a term is inferred, checked or taken as a type), the
    part that it stands in, and how many parts it has, itself among them."""
    found, waiting = [], [(top, mode, None)]
    while waiting:
        term, mode, parent = waiting.pop()
        term.mode, term.parent = mode, parent
        found.append(term)
        inner = []
        if term.form == "application":
            inner = [(term.parts[0], "infer", term)] + [(it, "check", term) for it in term.parts[1:]]
        elif term.form == "product":
            inner = [(it, "type", term) for it in term.parts]
        elif term.form == "abstraction":
            annotation, body = term.parts
            is_typed = annotation is not None and not skips_annotations
            inner = ([(annotation, "type", term)] if is_typed else []) + [(body, "check" if mode == "check" else "infer", term)]
        waiting += reversed(inner)
    for term in reversed(found):
        if term.parent is not None:
            term.parent.size = term.parent.size + term.size
    return found


class Walk:
    """The parts of a command in the order of typing, and the program that is asked."""

    def __init__(self, program, command, code, parts):
        self.program, self.command, self.code, self.parts = program, command, code, parts
        self.mark, self.mark_code = (OTHER_MARK, OTHER_CODE) if code == MARK_CODE else (MARK, MARK_CODE)

    def answers(self, term, instead):
        """Whether the mark is met where a part is replaced; not where the command's own fault comes first."""
        words = self.command.tokens
        change = (words[term.first].start, words[term.last - 1].end, instead)
        word, code = self.program.answer(self.command.with_parts([change]))
        if word == b"refused" and code == self.mark_code:
            return True
        if word == b"refused" and code == self.code or word == b"budget" == self.code:
            return False
        raise Unsure

    def last_before_fault(self):
        """The number of the last part that is looked at before the fault."""
        behind = first(0, len(self.parts), lambda k: not self.answers(self.parts[k], self.mark))
        if behind == 0:
            raise Unsure
        return behind - 1

    def is_past(self, term):
        """Whether the fault comes when all parts have their types; this term is the last that is typed by itself."""
        return self.last_before_fault() == len(self.parts) - 1 and self.answers(term, self.applied_to_mark(term))

    def ending_with(self, number):
        """The parts that end with this one, from it outwards, but for abstractions, which have no type of their own to compare."""
        term, found = self.parts[number], []
        at = {id(it): k for k, it in enumerate(self.parts)}
        while term is not None and at[id(term)] + term.size - 1 == number:
            found.append(term)
            term = term.parent
        return found

    def largest_with_a_type(self, number):
        """The largest part ending with this one whose type is found: applied to the mark it comes to the mark. What stands round it
        is at fault, or it is with what is expected of it."""
        ending = [it for it in self.ending_with(number) if it.form != "abstraction" or it.mode == "infer"]
        behind = first(0, len(ending), lambda k: not self.answers(ending[k], self.applied_to_mark(ending[k])))
        if behind == 0:
            raise Unsure
        return ending[behind - 1]

    def applied_to_mark(self, term):
        spelt = self.command.spelt(term)
        is_closed = term.brackets or term.form in ("name", "application")
        return b"(" + (spelt if is_closed else b"(" + spelt + b")") + b" " + self.mark + b")"

    def fault(self):
        number = self.last_before_fault()
        part = self.parts[number]
        if self.code == b"E20":
            applied = self.parts[number + 1] if number + 1 < len(self.parts) else None
            if applied is None or applied.parent is None or applied.parent.form != "application":
                raise Unsure
            return self.told(applied, "one argument too many: what stands in front of it is no function")
        if self.code == b"E23":
            return self.told(part, "a bare abstraction whose type nothing says" + self.in_place(part))
        if self.code == b"E24":
            return self.told(part, "an abstraction, but no function is expected" + self.in_place(part))
        if self.code == b"budget":
            return self.told(part, "the units end here, before what comes behind it is looked at")
        found = self.largest_with_a_type(number)
        if self.code == b"E21" and found.mode == "infer":
            raise Unsure
        said = {
            b"E21": "this has another type than is expected",
            b"E22": "this stands as a type and is none",
            b"E25": "this has the type Kind, as Type and what ends in it have, and can't be a body",
        }[self.code]
        return self.told(found, said + self.in_place(found))

    def told(self, term, said):
        """The place of a term, with the declaration of the head that it is an argument of, where a symbol is."""
        declared = None
        if term.parent is not None and term.parent.form == "application":
            declared = self.command.spelt(self.command.argument(term)[0]).strip(b"() ")
        place = Place(self.command.tokens[term.first].start, self.command.spelt(term), said, declared)
        place.term = term
        return place

    def in_place(self, term):
        """What a part is to what stands round it."""
        parent = term.parent
        if parent is None:
            return ""
        if parent.form == "application":
            head, number = self.command.argument(term)
            return ": argument %d of %s" % (number, cut(self.command.spelt(head))) if number else ": the head"
        if parent.form == "abstraction" and term is parent.parts[0]:
            return ": the type that is written for the variable"
        if parent.form == "abstraction":
            return ": the body of an abstraction"
        return ": on the %s of an arrow" % ("left" if term is parent.parts[0] else "right")
