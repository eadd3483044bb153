"""The books of a theory, FILE and the modules that it needs, and their commands in the order in which the program reads them
(docs/modules.md)."""
import os

from .cuts import MODULE_NAME, MODULES, SPELT, blanked, items, tokens
from .names import ASKS_FOR_ONE, ASKS_FOR_TWO, KEYWORDS, WORDS_OUTSIDE, Names
from where_parts.terms import Declaration, Query, Reader, Unread
from where_parts.texts import Token

DIRECTIVES = (b"#NAME", b"#REQUIRE")
MOST_OPEN, MOST_READ, MOST_BYTES = 64, 1000, 255
KINDS = {"qualified": "name", "name": "name", "word": "word", "sign": "sign"}


class Unmerged(Exception):
    """The theory has no list of commands: the line with which a report on it ends, where all in front is accepted, and the status."""

    def __init__(self, line, status):
        super().__init__(line)
        self.line, self.status = line, status


class Book:
    """A file: its name as reports spell it, its module, b"" where it has none, and its bytes."""

    def __init__(self, name, module, text):
        self.name, self.module, self.text = name, module, text
        self.at, self.line = 0, 1

    def place(self, at):
        """The line and the column of a byte; asked in ascending order, this goes through the bytes once."""
        self.line += self.text.count(b"\n", self.at, at)
        self.at = at
        return self.line, at - self.text.rfind(b"\n", 0, at)


class Theory:
    """FILE and its modules: the commands in the order of the report, each with its book, up to the first that can't be cut out."""

    def __init__(self, name):
        self.name = os.fsencode(name)
        self.folder = self.name[: self.name.rfind(b"/") + 1]
        base = self.name[len(self.folder) :]
        own = base[:-3] if base.endswith(b".dk") else b""
        self.commands, self.open, self.known, self.is_ended = [], [], set(), False
        self.books = []
        self.read(self.name, own if MODULE_NAME.fullmatch(own) else b"")

    def main(self):
        return self.books[0]

    def opened(self, name, module):
        is_main = not self.books
        try:
            with open(name, "rb") as file:
                text = file.read()
        except IsADirectoryError:
            raise Unmerged(b"unread %d" % self.due() + (b"" if is_main else b" in " + name), 3) from None
        except OSError:
            raise Unmerged(b"unopened " + name, 3) from None
        book = Book(name, module, text)
        self.books.append(book)
        return book

    def due(self):
        """The number of the command that comes next."""
        return len(self.commands) + 1

    def read(self, name, module):
        book = self.opened(name, module)
        self.open.append(book)
        for item in items(book.text):
            self.take(book, item)
            if self.is_ended:
                return
        self.known.add(module)
        self.open.pop()

    def take(self, book, item):
        """Reads what a command or directive needs, and then it stands in the list."""
        directive = directive_of(book, item)
        needs = [directive] if directive else self.needs(book, item) if directive is None and item.is_whole else []
        for module in needs:
            self.need(book, item, module, bool(directive))
        if directive is None and not self.is_ended:
            self.commands.append((book, item))
            self.is_ended = not item.is_whole

    def needs(self, book, item):
        """The modules that a command needs and that aren't read, in order; none where it can't be read, which ends the reading."""
        commented = blanked(book.text, item) if item.comments else None
        found = MODULES.findall(commented) if commented else MODULES.findall(book.text, item.start, item.end)
        if not any(it and it not in self.known and it != book.module for it in found):
            return []
        words = tokens(book.text, item)
        if not is_read(words):
            self.commands.append((book, item))
            self.is_ended = True
            return []
        return [it[1].partition(b".")[0] for number, it in enumerate(words) if it[0] == "qualified" and not is_label(words, number)]

    def need(self, book, item, module, is_directive):
        if self.is_ended or module in self.known or (module == book.module and not is_directive):
            return
        if any(it.module == module for it in self.open):
            raise self.refused(book, item, b"E14")
        if len(self.open) == MOST_OPEN:
            raise self.refused(book, item, b"E15")
        if len(self.books) - 1 == MOST_READ:
            raise self.refused(book, item, b"E16")
        self.read(self.folder + module + b".dk", module)

    def refused(self, book, item, code):
        line = b"refused %d line %d %s" % (self.due(), book.place(item.start)[0], code)
        return Unmerged(line if book is self.main() else line + b" in " + book.name, 1)


def directive_of(book, item):
    """The module that a directive requires, b"" where it requires none; None where this is none that can be read."""
    if not item.is_whole or not book.text.startswith(DIRECTIVES, item.start):
        return None
    words = tokens(book.text, item)
    if len(words) != 3 or words[0][1] not in DIRECTIVES or words[1][0] != "name":
        return None
    if words[1][1] in KEYWORDS or not MODULE_NAME.fullmatch(words[1][1]):
        return None
    return words[1][1] if words[0][1] == b"#REQUIRE" else b""


def is_label(words, number):
    """Whether this is the name of a rule, which needs nothing."""
    around = [it[1] for it in words[max(0, number - 1) : number + 3]]
    return number > 0 and len(around) == 4 and around[0] == b"{" and around[2:] == [b"}", b"["]


def is_long(name):
    """Whether a name, or a part of a qualified one, has too many bytes."""
    return len(name) > MOST_BYTES and any(len(it) > MOST_BYTES + 4 * it.startswith(b"{|") for it in SPELT.findall(name))


def is_read(words):
    """Whether a command has a form of the grammar, as far as its tokens tell."""
    if Names(words).is_odd or any(it[1] in WORDS_OUTSIDE or is_long(it[1]) for it in words):
        return False
    given = [Token(KINDS[kind], text, start) for kind, text, start, _ in words]
    try:
        if given[0].text in (b"[", b"{"):
            Reader(given).rules()
        elif given[0].kind == "word":
            Query(given)
        else:
            declared = Declaration(given)
            has_type, has_body = declared.typ is not None, declared.body is not None
            return {b"def": has_type or has_body, b"thm": has_type and has_body}.get(given[0].text, has_type and not has_body)
    except (Unread, IndexError, RecursionError):
        return False
    return given[0].kind != "word" or given[0].text in ASKS_FOR_TWO + ASKS_FOR_ONE
