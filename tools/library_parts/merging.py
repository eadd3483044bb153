"""A theory as one file: each symbol of a module under a name of its own, and where each command stands in its own file."""
import re

from .books import MOST_BYTES, Theory, is_long
from .cuts import QUALIFIED, SPELT_ANYWHERE, tokens
from .names import Names

IS_QUALIFIED = re.compile(QUALIFIED)


class Command:
    """A command of the merged file: its text there, its line there, and in its own book its text, line and column; its name as
    reports on FILE have it, and as those on the merged file do. Of rules the heads, as the merged file spells them; whether it is a
    declaration without a body."""

    __slots__ = "number text merged_line book own_text line column name merged_name is_whole heads is_bodiless".split()


class Spellings:
    """What each symbol is called: those of FILE as they are, but where a binder hides one; those of modules by a name that
    stands nowhere in the theory."""

    def __init__(self, theory):
        self.main, self.given = theory.main().module, {}
        self.taken = set().union(*(spelt_in(it.text) for it in theory.books))
        self.hidden = hidden_names(theory)

    def of(self, module, name):
        key = (module, name)
        if key not in self.given:
            is_kept = module == self.main and name not in self.hidden
            spelt = name if is_kept else next(it for it in candidates(module, name) if it not in self.taken)
            self.taken.add(spelt)
            self.given[key] = spelt
        return self.given[key]


def candidates(module, name):
    """Names that a symbol of a module may have, the first the best."""
    plain = name[2:-2] if name.startswith(b"{|") else name
    if plain is name and len(module) + 1 + len(name) <= MOST_BYTES:
        yield module + b"_" + name
    if len(module) + 1 + len(plain) <= MOST_BYTES:
        yield b"{|" + module + b"." + plain + b"|}"
    number = 2
    while True:
        end = b".%d" % number
        yield b"{|" + (module + b"." + plain)[: MOST_BYTES - len(end)] + end + b"|}"
        number += 1


def spelt_in(text):
    """All names that stand in a text, and more, since comments aren't left out."""
    return {it.group(1) or it.group() for it in SPELT_ANYWHERE.finditer(text)}


def hidden_names(theory):
    """FILE's names that stand qualified somewhere where a binder so spelt would be meant by the plain one."""
    book, found = theory.main(), set()
    if not book.module:
        return found
    for of, item in theory.commands:
        if of is book and item.is_whole and book.text.find(book.module + b".", item.start, item.end) >= 0:
            for it in Names(tokens(book.text, item)).hidden:
                module, _, name = it.partition(b".")
                if module == book.module:
                    found.add(name)
    return found


class Merged:
    """The commands of a theory as those of one file."""

    def __init__(self, name):
        self.theory = Theory(name)
        self.spellings, self.known = Spellings(self.theory), {}
        self.commands, self.line = [], 1
        for book, item in self.theory.commands:
            self.add(book, item)

    def add(self, book, item):
        it = Command()
        it.number, it.book, it.is_whole, it.merged_line = len(self.commands) + 1, book, item.is_whole, self.line
        it.line, it.column = book.place(item.start)
        it.own_text = book.text[item.start : item.end]
        it.name = it.merged_name = b"-"
        it.text, it.heads, it.is_bodiless = it.own_text, (), False
        is_read = item.is_whole and not (self.theory.is_ended and it.number == len(self.theory.commands))
        if is_read:
            self.rename(it, book, item)
        self.line += it.text.count(b"\n") + 1
        self.commands.append(it)

    def rename(self, it, book, item):
        words = tokens(book.text, item)
        named, changed = Names(words), []
        for _, text, start, end in named.found:
            spelt = self.spelt(book, text)
            if spelt != text:
                changed.append((start, end, spelt))
        if changed:
            it.text = with_changes(book.text, item, changed)
        if words[0][0] == "word":
            it.name = it.merged_name = words[0][1]
        elif named.declared:
            name = named.declared[0]
            it.merged_name = self.spelt(book, name)
            it.name = name if book is self.theory.main() else book.module + b"." + name
        if words[0][1] in (b"[", b"{"):
            it.heads = {self.spelt(book, name) for name in named.declared}
        else:
            it.is_bodiless = words[0][0] != "word" and all(word[1] != b":=" for word in words)

    def spelt(self, book, name):
        """What a name that means a symbol is spelt like in the merged file."""
        key = (book.module, name)
        if key not in self.known:
            self.known[key] = self.spelling(book, name)
        return self.known[key]

    def spelling(self, book, name):
        # What is refused for its length stays as it is.
        if is_long(name):
            return name
        if IS_QUALIFIED.fullmatch(name):
            module, _, name = name.partition(b".")
            return self.spellings.of(module, name)
        return self.spellings.of(book.module, name)

    def text(self):
        return b"".join(it.text + (b"\n" if it.is_whole else b"") for it in self.commands)

    def table(self):
        """The places: of each command its number, its line and column in its own file, that file, its line in the merged file, and
        its names in reports on both, with a tab between them."""
        lines = []
        for it in self.commands:
            fields = (b"%d" % it.number, b"%d" % it.line, b"%d" % it.column, it.book.name, b"%d" % it.merged_line, it.name, it.merged_name)
            lines.append(b"\t".join(map(field, fields)) + b"\n")
        return b"".join(lines)


def field(text):
    """Bytes as they can stand in a table: a backslash, a tab and a newline by their number."""
    return text.replace(b"\\", b"\\x5c").replace(b"\t", b"\\x09").replace(b"\n", b"\\x0a")


def with_changes(text, item, changes):
    """The text of a command with other bytes in the place of some."""
    parts, at = [], item.start
    for start, end, instead in sorted(changes):
        parts += [text[at:start], instead]
        at = end
    parts.append(text[at : item.end])
    return b"".join(parts)
