"""The place of a fault in a command, by the code that the report has."""
from . import name_faults, reading_faults
from .program import Unsure
from .rule_faults import RuleFaults
from .shown_types import Asked
from .terms import Declaration, Query, Unread
from .texts import Place, cut
from .walks import Walk, walk

# The place where units end is looked for where a check may take no more of them, however fast the machine is.
MOST_UNITS = 1000000
# Where the types of the part at fault are shown.
TYPED = (b"E20", b"E21", b"E22", b"E24")
READING = (b"E01", b"E02", b"E03", b"E04", b"E05", b"E06")


def parts_in_order(declaration):
    """The parts of a declaration as they are typed: its parameters' types, its type, its body."""
    parts = []
    for _, typ in declaration.parameters:
        parts += walk(typ, "type")
    if declaration.typ is not None:
        parts += walk(declaration.typ, "type")
    if declaration.body is not None:
        parts += walk(declaration.body, "infer" if declaration.typ is None else "check")
    return parts


def place_in_query(program, command, code):
    query = Query(command.tokens)
    last = query.left if query.sign in (None, b":") else query.right
    parts = {
        b":": lambda: walk(query.right, "type") + walk(query.left, "check"),
        b"==": lambda: walk(query.left, "infer") + walk(query.right, "infer"),
        None: lambda: walk(query.left, "infer"),
    }[query.sign]()
    asked = Walk(program, command, code, parts)
    if code in (b"E21", b"budget") and query.sign != b":" and asked.is_past(last):
        said = "the types are found; the units end behind that"
        if code == b"E21":
            said = "this isn't convertible with what stands in front of =="
        return Place(command.tokens[last.first].start, command.spelt(last), said)
    found = asked.fault()
    if code in TYPED:
        found.types = Asked(program, command).said_of(found.term, None, code)
    if code == b"E21" and found.at == command.tokens[query.left.first].start and found.text == command.spelt(query.left):
        found.types.insert(0, "expected: " + cut(command.spelt(query.right)))
    return found


def place_of_types(program, command, code):
    declaration = Declaration(command.tokens)
    found = Walk(program, command, code, parts_in_order(declaration)).fault()
    if code in TYPED:
        found.types = Asked(program, command).said_of(found.term, declaration, code)
    body = declaration.body
    if code == b"E23" and body is not None and body.form == "product":
        found.said += "; an arrow in the type of a variable wants brackets, `x : (A -> B) => t`"
    return found


def place_of_fault(program, command, code, library):
    """The place of the fault in a command; None where the code has none."""
    if code in READING:
        return reading_faults.place_of(program, command, code)
    if code == b"E11":
        return name_faults.place_of_twice_declared(command)
    if code == b"E13":
        return name_faults.place_of_twice_listed(command)
    if code in (b"E07", b"E08") or code == b"budget" and program.units > MOST_UNITS:
        return None
    command.rest_in_front(program, code, library)
    if code in (b"E10", b"E12"):
        return name_faults.place_of_name(program, command, code, library)
    if command.is_rules():
        return RuleFaults(program, command, code).place()
    if command.is_query():
        return place_in_query(program, command, code)
    return place_of_types(program, command, code)
