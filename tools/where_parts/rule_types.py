"""The types of a rule: of what its left side binds, as the declarations of the symbols there say it, and of the left side itself. A
wildcard is named by its column. Nothing is evaluated, and nothing that equations find is put in; so what is told of them was tried: the
rule is refused with a right side of the one type and accepted with one of the other."""
from .shown_types import Asked, Bound, with_values
from .terms import Declaration, Reader, Unread
from .texts import place, tokens

MADE = b"made'here"


class Telescope:
    """What a symbol takes and gives, from its declaration: its domains and its result are found with arguments put in."""

    def __init__(self, text):
        self.text, self.words = text, tokens(text, 0)[0]
        declared = Declaration(self.words)
        if declared.typ is None:
            raise Unread
        self.parameters, self.typ, self.values = list(declared.parameters), declared.typ, {}

    def next(self):
        """The domain that is due, spelt with the arguments so far, and the name of its variable."""
        if self.parameters:
            named, domain = self.parameters[0]
            return self.spelt(domain), self.words[named].text
        if self.typ.form != "product":
            raise Unread
        binder = None if self.typ.binder is None else self.words[self.typ.binder].text
        return self.spelt(self.typ.parts[0]), binder

    def take(self, name, value):
        """Goes behind the domain that is due, with this argument."""
        if self.parameters:
            self.parameters.pop(0)
        else:
            self.typ = self.typ.parts[1]
        if name is not None:
            self.values[name] = value

    def result(self):
        return self.spelt(self.typ)

    def spelt(self, term):
        """A term of the declaration with the values of its variables."""
        found = with_values(self.text, self.words, term, self.values)
        if found is None:
            raise Unread
        return found


class RuleTypes:
    """The variables of a left side with their types, from left to right, and the type of the left side. Raises Unread where a part of
    it has another form than symbols, variables and wildcards."""

    def __init__(self, command, rule):
        self.command, self.rule = command, rule
        self.variables = {command.tokens[named].text for named, _ in rule.context}
        self.bound, self.spelt = [], {}
        self.left, self.typ = self.of_symbol(rule.head, rule.arguments)

    def names(self):
        return [it.name for it in self.bound]

    def of_symbol(self, head, arguments):
        """A symbol with its arguments, wildcards named, and its type."""
        name = self.command.spelt(head)
        known = self.command.front.declaration(name) if head.form == "name" else None
        if known is None:
            raise Unread
        telescope, parts = Telescope(known[1]), [name]
        for it in arguments:
            domain, binder = telescope.next()
            parts.append(self.of_part(it, domain))
            telescope.take(binder, parts[-1])
        return b" ".join(parts), telescope.result()

    def of_part(self, pattern, domain):
        """A part at whose place a type is due, spelt as an argument."""
        text = self.command.tokens[pattern.first + pattern.brackets].text
        if pattern.form == "name" and (text == b"_" or text in self.variables):
            return self.of_variable(pattern, text, domain)
        if pattern.form not in ("name", "application"):
            raise Unread
        head, arguments = pattern, []
        while head.form == "application":
            head, arguments = head.parts[0], list(head.parts[1:]) + arguments
        if self.command.spelt(head) in self.variables:
            raise Unread
        spelt = self.of_symbol(head, arguments)[0]
        return b"(" + spelt + b")" if arguments else spelt

    def of_variable(self, pattern, text, domain):
        token = self.command.tokens[pattern.first + pattern.brackets]
        name = text if text != b"_" else b"_%d" % place(self.command.text, token.start)[1]
        if name not in self.names():
            self.bound.append(Bound(name, domain))
        return name


def types_of(command, rule):
    """The types of a rule; None where they aren't seen."""
    try:
        return RuleTypes(command, rule)
    except Unread:
        return None


def own_type(program, command, types):
    """The printed type of the right side; None where the program doesn't confirm that it is another one than that of the left side. The
    type of the left side is none that can be written where only equations give parts of it their types; then it isn't tried."""
    own = Asked(program, command, types.bound).type_of(b"(" + command.spelt(types.rule.right) + b")", types.bound)
    if own is None or accepts(program, command, types, own):
        return None
    is_written = program.answer(command.before + declared(types, types.typ))[0] == b"accepted"
    return None if is_written and not accepts(program, command, types, types.typ) else own


def declared(types, typ):
    """The declaration of a symbol that gives a type for the variables of the left side."""
    return MADE + b" : " + b"".join(b"%s : (%s) -> " % (it.name, it.typ) for it in types.bound) + typ + b".\n"


def lines_of(program, command, types, term):
    """The lines about the types of a part of a right side."""
    return Asked(program, command, types.bound).said_of(term, None, b"E21")


def accepts(program, command, types, typ):
    """Whether the rule is accepted with a right side of this type."""
    context = b"[" + b", ".join(types.names()) + b"] "
    text = command.before + declared(types, typ) + context + types.left + b" --> " + b" ".join([MADE, *types.names()]) + b".\n"
    return program.answer(text)[0] == b"accepted"


def alike(one, other):
    """Sets of names that have to be one each so that two spelt types are alike, as far as they have the same form."""
    sides = [(text, tokens(text, 0)[0]) for text in (one, other)]
    classes = []
    for pair in differing(*(Reader(words).term() for _, words in sides), *(words for _, words in sides)):
        joined = [it for it in classes if it & pair]
        classes = [it for it in classes if not it & pair] + [pair.union(*joined)]
    return classes


def differing(one, other, words, others):
    """The pairs of names that differ, where two terms have the same form."""
    if one.form == other.form == "name":
        pair = {words[one.first + one.brackets].text, others[other.first + other.brackets].text}
        return [pair] if len(pair) == 2 else []
    if one.form != other.form or len(one.parts) != len(other.parts):
        return []
    parts = [(it, its) for it, its in zip(one.parts, other.parts) if it is not None and its is not None]
    return [pair for it, its in parts for pair in differing(it, its, words, others)]
