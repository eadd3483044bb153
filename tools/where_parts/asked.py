"""An answer from a report: the command that its last line names is found, and the place in it."""
import os
import re

from .answer import Answer
from .commands import Command
from .hints import TITLE
from .library import NEEDS, Library, Reported
from .places import place_of_fault
from .program import Unsure
from .terms import Unread
from .texts import readable

LAST = re.compile(rb"(refused|budget) (\d+) line (\d+) (\w+)(?: in ([^\n]+))?")
MISSING = re.compile(rb"unopened (.+)", re.S)
UNREAD = re.compile(rb"unread \d+(?: in ([^\n]+))?")


def answer_of(program, library, last, status, name):
    """The answer to the last line of a report on the library, whose FILE has this name for the user."""
    answer = Answer(name, last, status)
    said, missing, unread = LAST.fullmatch(last), MISSING.fullmatch(last), UNREAD.fullmatch(last)
    if said:
        fill(answer, program, library, said)
    elif missing and os.fsdecode(missing.group(1)) != library.name:
        fill_of_missing(answer, library, missing.group(1))
    elif missing or unread:
        book = unread.group(1) if unread else None
        answer.reason = reason_of(library.name if book is None else os.fsdecode(book))
    return answer


def reason_of(path):
    """Why a file can't be read, as the system says it; None where it can."""
    try:
        with open(path, "rb") as file:
            file.read(1)
    except OSError as fault:
        return "%s can't be read: %s" % (readable(os.fsencode(path)), fault.strerror)
    return None


def shown_name(answer, library, book):
    return answer.name if book == library.name else readable(os.fsencode(book))


def fill(answer, program, library, said):
    """What is told of a report that names a command or a directive."""
    line, code = int(said.group(3)), b"budget" if said.group(1) == b"budget" else said.group(4)
    if code == b"budget":
        program.budget = said.group(4).decode()
    reported = Reported(int(said.group(2)), line, code, None if said.group(5) is None else os.fsdecode(said.group(5)))
    spot = library.found(reported)
    command = None if spot is None else Command(spot.text, spot.number)
    if command is None or not command.is_found or command.line() != line:
        answer.reason, answer.line, answer.code = "the command is at line %d; this script can't find its text" % line, line, code
        return
    answer.text, answer.command, answer.number, answer.code = spot.text, command, reported.number, code
    answer.book = shown_name(answer, library, spot.book)
    if code in NEEDS:
        answer.found = spot.place()
    else:
        if not library.is_alone():
            program.beside(library, spot.book)
        try:
            answer.found = place_of_fault(program, command, code, library)
        except (Unsure, Unread):
            answer.is_unsure = True
    add_declaration(answer, library)


def add_declaration(answer, library):
    """Adds the declaration of the symbol that the part at fault is an argument of."""
    name = None if answer.found is None else answer.found.declared
    if not name:
        return
    answer.declaration = answer.command.front.declaration(name)
    other = library.declaration(name) if answer.declaration is None else None
    if other is not None:
        answer.declared_in, answer.declaration = readable(os.fsencode(other[0])), other[1:]


def fill_of_missing(answer, library, path):
    """What is told of a module that couldn't be opened: who needs it."""
    spot = library.missing(os.fsdecode(path))
    if spot is None or spot.need is None:
        return
    answer.text, answer.found, answer.book = spot.text, spot.place(), shown_name(answer, library, spot.book)
    title = TITLE.search(spot.text)
    if title is not None and title.group(1) == spot.need.module:
        answer.found.hints = ["the #NAME of this file says %s, and a module is named by its file: rename it" % readable(title.group(1))]
