"""Faults of names, E10 to E13: which name of the command it is."""
from .hints import Hints
from .program import Unsure, first
from .terms import ASKS_FOR_TWO, Reader
from .texts import Place, place, readable


def named_in_terms(words, declared):
    """The names and wildcards of a command that aren't bound there, each with what may stand in its place: a wildcard in a left side,
    in any other place a term."""
    found, is_left, guards, at = [], False, 0, 0
    asked = sign_of_query(words)
    while at < len(words):
        text = words[at].text
        behind = words[at + 1].text if at + 1 < len(words) else b""
        is_label = text == b"{" and behind != b"" and at + 3 < len(words) and words[at + 2].text == b"}" and words[at + 3].text == b"["
        if is_label:
            at += 3
            continue
        if text == b"[":
            at = entries(words, at, found)
            is_left, guards = True, 0
            continue
        if text == b"-->":
            is_left = False
        guards += {b"{": 1, b"}": -1}.get(text, 0)
        if words[at].is_name() and (behind not in (b":", b"=>") or at + 1 == asked) and words[at] is not declared:
            found.append((words[at], b"_" if is_left and guards == 0 else b"Type"))
        at += 1
    return found


def sign_of_query(words):
    """The place of the colon that stands between the terms of a query; None where none does."""
    depth = 0
    for at, it in enumerate(words if words and words[0].text in ASKS_FOR_TWO else []):
        depth += {b"(": 1, b")": -1}.get(it.text, 0)
        if depth == 0 and it.text == b":":
            return at
    return None


def entries(words, at, found):
    """Adds the names in the annotations of a context, and answers the place behind it."""
    reader = Reader(words, at + 1)
    while reader.sign() not in (b"]", b""):
        reader.at += 1
        if reader.sign() == b":":
            reader.at += 1
            start = reader.at
            reader.term()
            inside = range(start, reader.at)
            found += [(words[k], b"Type") for k in inside if words[k].is_name() and words[k + 1].text not in (b":", b"=>")]
        if reader.sign() == b",":
            reader.at += 1
    return reader.at + 1


def place_of_name(program, command, code, library):
    """The place of an unknown name or of a wildcard: the first with which, all names behind it replaced, the command is refused so."""
    given = named_in_terms(command.tokens, None if command.is_rules() else command.declared())

    def is_refused(k):
        changes = [(it.start, it.end, instead) for it, instead in given[k + 1 :]]
        return program.answer(command.with_parts(changes)) == (b"refused", code)

    at = first(0, len(given), is_refused)
    if at == len(given):
        raise Unsure
    name = given[at][0]
    if code == b"E12":
        return Place(name.start, name.text, "a term is due here: nothing is filled in")
    found = Place(name.start, name.text, said_of_unknown(command, name))
    found.hints = Hints(command, library, library.folder + program.book if not library.is_alone() else library.name).of(name.text)
    return found


def said_of_unknown(command, name):
    declared = command.declared()
    if b"." in name.text and not name.text.startswith(b"{|"):
        return "no module that is read declares it"
    if declared is not None and name.text == declared.text and not command.is_rules():
        return "a command's own name isn't in scope in it"
    if any(it.text == name.text for it in command.tokens if it.start < name.start):
        return "nothing declares or binds it here; where a variable of this name stands before, its abstraction or arrow has ended"
    later = command.text.find(b"\n" + name.text + b" ", command.end)
    if later >= 0:
        return "nothing declares it before; line %d seems to, behind the command" % place(command.text, later + 1)[0]
    return "nothing declares or binds it"


def place_of_twice_declared(command):
    name = command.declared()
    earlier = None if name is None else command.front.declaration(name.text)
    if earlier is None:
        raise Unsure
    return Place(name.start, name.text, "line %d declares it already" % earlier[0], name.text)


def place_of_twice_listed(command):
    """The second of a name in a rule's context."""
    for rule in Reader(command.tokens).rules():
        seen = set()
        for named, _ in rule.context:
            name = command.tokens[named]
            if name.text in seen:
                return Place(name.start, name.text, "the context has %s already" % readable(name.text))
            seen.add(name.text)
    raise Unsure
