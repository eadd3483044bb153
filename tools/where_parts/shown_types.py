"""The types of a part that is at fault: the one that it has, and the one that its place wants, as `#INFER` prints them.

A part is asked about under the variables that stand round it, each with its type: parameters, variables of arrows and of abstractions
with a type, and of bare abstractions in the places where the declared type has an arrow. Where one of these types isn't seen, nothing
is said.
"""
from .terms import Reader
from .texts import cut, tokens


class Bound:
    """A variable that stands round a part: its name, and its type as it is spelt; None where that isn't seen."""

    def __init__(self, name, typ):
        self.name, self.typ = name, typ


class Asked:
    """The program asked for types in the place of a command, under the variables that stand round all of its parts."""

    def __init__(self, program, command, outer=()):
        self.program, self.command, self.outer = program, command, list(outer)

    def spelt(self, term):
        return self.command.spelt(term)

    def bound_round(self, term, declaration):
        """The variables round a part, from outside in."""
        words, inner = self.command.tokens, []
        while term.parent is not None:
            parent = term.parent
            if parent.form in ("product", "abstraction") and term is parent.parts[1] and parent.binder is not None:
                domain = parent.parts[0]
                inner.append((parent, Bound(words[parent.binder].text, None if domain is None else self.spelt(domain))))
            term = parent
        inner.reverse()
        found = list(self.outer)
        if declaration is not None:
            found += [Bound(words[named].text, self.spelt(typ)) for named, typ in declaration.parameters]
            if term is declaration.body and declaration.typ is not None:
                self.fill(declaration, [it for it in inner if self.is_at_top(it[0], declaration.body)])
        return found + [it for _, it in inner]

    def is_at_top(self, abstraction, body):
        """Whether an abstraction is the body, or the body of such a one."""
        while abstraction is not body:
            abstraction = abstraction.parent
            if abstraction is None or abstraction.form != "abstraction":
                return False
        return True

    def fill(self, declaration, abstractions):
        """The domains of the declared type, for bare abstractions that stand where it has arrows."""
        typ, words, renamed = declaration.typ, self.command.tokens, set()
        for abstraction, bound in abstractions:
            if typ.form != "product" or abstraction.form != "abstraction":
                return
            domain = typ.parts[0]
            if bound.typ is None and not renamed & {it.text for it in words[domain.first : domain.last]}:
                bound.typ = self.spelt(domain)
            if typ.binder is not None and words[typ.binder].text != bound.name:
                renamed.add(words[typ.binder].text)
            renamed.discard(bound.name)
            typ = typ.parts[1]

    def type_of(self, text, bound):
        """The printed type of a term under variables, with their names in it; None where the program doesn't tell it."""
        named = {it.text for it in tokens(text, 0)[0]}
        used = []
        for it in reversed(bound):
            if it.name in named:
                if it.typ is None:
                    return None
                used.insert(0, it)
                named |= {word.text for word in tokens(it.typ, 0)[0]}
        front = b"".join(b"%s : (%s) => " % (it.name, it.typ) for it in used)
        printed = self.program.typed(self.command.before + b"#INFER " + front + text + b".\n")
        return None if printed is None else without_products(printed, [it.name for it in used])

    def domain_of(self, text, bound):
        """The printed domain of the type of a function."""
        typ = self.type_of(text, bound)
        if typ is None:
            return None
        words = tokens(typ, 0)[0]
        term = Reader(words).term()
        return spelt_of(typ, words, term.parts[0]) if term.form == "product" else None

    def expected_of_body(self, term, declaration):
        """What the declared type wants of a part that is the body, or the body of abstractions that are it; None of any other part."""
        if declaration is None or declaration.typ is None or declaration.body is None:
            return None
        words, part, typ, named = self.command.tokens, declaration.body, declaration.typ, {}
        while part is not term:
            if part.form != "abstraction" or typ.form != "product":
                return None
            if typ.binder is not None:
                named[words[typ.binder].text] = words[part.binder].text
            part, typ = part.parts[1], typ.parts[1]
        return with_values(self.command.text, words, typ, named)

    def said_of(self, term, declaration, code):
        """The lines about the types of a part: what is expected where it stands as an argument or as a body, and its own; of an argument
        too many the type of what stands in front."""
        bound, front, lines = self.bound_round(term, declaration), self.in_front(term), []
        if code == b"E20":
            lines.append(("type of what stands in front: ", self.type_of(front, bound)))
        elif front is not None:
            lines.append(("expected: ", self.domain_of(front, bound)))
        elif code in (b"E21", b"E24"):
            lines.append(("expected: ", self.expected_of_body(term, declaration)))
        if code in (b"E21", b"E22"):
            lines.append(("its type: ", self.type_of(b"(" + self.spelt(term) + b")", bound)))
        return [said + cut(typ) for said, typ in lines if typ is not None]

    def in_front(self, term):
        """The head and the arguments in front of an argument, as they are spelt; None where it is none."""
        parent, words = term.parent, self.command.tokens
        if parent is None or parent.form != "application" or term is parent.parts[0]:
            return None
        number = next(k for k, it in enumerate(parent.parts) if it is term)
        return self.command.text[words[parent.parts[0].first].start : words[parent.parts[number - 1].last - 1].end]


def spelt_of(text, words, term):
    """A part of a printed term, without brackets of its own."""
    first, last = term.first + term.brackets, term.last - term.brackets
    return text[words[first].start : words[last - 1].end]


def with_values(text, words, term, values):
    """A term without brackets of its own, with values for its variables; None where it binds one of these again."""
    first, last = term.first + term.brackets, term.last - term.brackets
    parts, at = [], words[first].start
    named = set(values).union(*({it.text for it in tokens(value, 0)[0]} for value in values.values()))
    for number in range(first, last):
        it = words[number]
        behind = words[number + 1].text if number + 1 < last else b""
        if behind in (b":", b"=>") and it.text in named:
            return None
        parts += [text[at : it.start], values.get(it.text, it.text)]
        at = it.end
    return b" ".join(b"".join(parts).split())


def without_products(printed, names):
    """What stands behind so many arrows of a printed type, with these names for their variables."""
    words = tokens(printed, 0)[0]
    term, spelt = Reader(words).term(), {}
    for name in names:
        if term.form != "product":
            return None
        if term.binder is not None:
            spelt[words[term.binder].text] = name
        term = term.parts[1]
    parts, at = [], words[term.first].start
    for it in words[term.first : term.last]:
        parts += [printed[at : it.start], spelt.get(it.text, it.text)]
        at = it.end
    return b"".join(parts)
