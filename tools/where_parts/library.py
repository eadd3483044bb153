"""A theory of several files: in which of them a command stands that a report counts over all, and who needs a module that can't be
read. Modules are read in the order of first need, as docs/report.md has it."""
import os
import re

from .texts import Place, behind_blanks, command_ends, place, readable, tokens

PLAIN = re.compile(rb"(?!_$)[A-Za-z0-9_!?][A-Za-z0-9_!?']*\Z")
# A rule for a symbol of another module, as far as it is seen without reading the text whole.
RULE_ELSEWHERE = re.compile(rb"\][ \t\r\n(]*[A-Za-z0-9_!?'][A-Za-z0-9_!?']*\.(?:[A-Za-z0-9_!?]|\{\|)")
NEEDED = re.compile(rb"#REQUIRE[ \t\r\n]+([A-Za-z0-9_!?']+)|([A-Za-z0-9_!?']+)\.(?=[A-Za-z0-9_!?]|\{\|)")
QUALIFIED = re.compile(rb"[A-Za-z0-9_!?']\.(?:[A-Za-z0-9_!?]|\{\|)")
DIRECTIVES = (b"#NAME", b"#REQUIRE")
READING = (b"E01", b"E02", b"E03", b"E04", b"E05", b"E06", b"E07")
NEEDS = (b"E14", b"E15", b"E16")
MOST_OPEN, MOST_READ = 64, 1000


class Need:
    """A module that a command or directive needs: its name, the token that says so."""

    def __init__(self, words, number):
        self.token = words[number]
        self.is_directive = words[0].text == b"#REQUIRE"
        self.module = self.token.text.partition(b".")[0]


def needs_of(words):
    """What a command or directive needs, in order; the name in front of a rule needs nothing."""
    if words[0].text in DIRECTIVES:
        return [Need(words, 1)] if words[0].text == b"#REQUIRE" and is_whole(words) else []
    found = []
    for number, it in enumerate(words):
        around = [k.text for k in words[number + 1 : number + 3]]
        is_label = number and words[number - 1].text == b"{" and around == [b"}", b"["]
        if it.kind == "name" and b"." in it.text and not is_label:
            found.append(Need(words, number))
    return found


def is_whole(words):
    """Whether a directive is one: a plain name stands behind its word, and a dot behind that."""
    return len(words) == 3 and words[2].text == b"." and PLAIN.match(words[1].text) is not None


class Found(Exception):
    """The command or directive that a report names: its book, the text of it, its number there, and the need at fault, if one is."""

    def __init__(self, book, text, number, need=None, said=""):
        super().__init__(number)
        self.book, self.text, self.number, self.need, self.said = book, text, number, need, said

    def place(self):
        return Place(self.need.token.start, self.need.token.text, self.said)


class Reported:
    """What the last line of a report says of a place: the number, the line and the code; its book, None where it is FILE."""

    def __init__(self, number, line, code, book):
        self.number, self.line, self.code, self.book = number, line, code, book


class Library:
    """FILE and the modules beside it."""

    def __init__(self, name):
        self.name = name
        self.folder, base = os.path.split(name)
        self.folder += "/" if self.folder and not self.folder.endswith("/") else ""
        own = os.fsencode(base[:-3]) if base.endswith(".dk") else b""
        self.own = own if PLAIN.match(own) else None
        self.texts = {}

    def path(self, module):
        return self.name if module in (None, self.own) else self.folder + os.fsdecode(module) + ".dk"

    def text(self, path):
        if path not in self.texts:
            with open(path, "rb") as file:
                self.texts[path] = file.read()
        return self.texts[path]

    def is_alone(self):
        """Whether FILE is commands alone, without directives and modules, as far as its bytes tell."""
        text = self.text(self.name)
        return b"#NAME" not in text and b"#REQUIRE" not in text and QUALIFIED.search(text) is None

    def needed_by(self, book):
        """The books that a book needs, and that these need, as far as they were read; itself among them."""
        known, waiting = set(), [book]
        while waiting:
            path = waiting.pop()
            if path not in known and path in self.texts:
                known.add(path)
                waiting += [self.path(front or behind) for front, behind in NEEDED.findall(self.texts[path])]
        return known

    def is_whole_below(self, book):
        """Whether a check of this book alone has all that its commands rest on: no other book that was read has rules for symbols of
        another module."""
        others = set(self.texts) - self.needed_by(book)
        return not any(RULE_ELSEWHERE.search(self.texts[path]) for path in others)

    def found(self, reported):
        """The place of what a report names; None where this walk doesn't come to it."""
        if self.is_alone() and reported.book is None:
            return Found(self.name, self.text(self.name), reported.number)
        try:
            LibraryWalk(self, reported).read(self.own, self.name)
        except Found as found:
            return found
        return None

    def missing(self, path):
        """Who needs the module whose file can't be opened; None where this walk doesn't come to it."""
        return self.found(Reported(-1, 0, None, path))

    def items(self, text):
        """The commands and directives of a text: the place where each begins, and its tokens where it may need something."""
        start = 0
        for end in command_ends(text, len(text)):
            first = behind_blanks(text, start)
            is_telling = text.startswith(b"#", first) or QUALIFIED.search(text, first, end)
            yield first, tokens(text, first, end)[0] if is_telling else []
            start = end
        first = behind_blanks(text, start)
        if first < len(text):
            yield first, []

    def declaration(self, name):
        """The book, line and text of the command that declares a qualified name; None where none is seen to."""
        module, dot, plain = name.partition(b".")
        if not dot or not PLAIN.match(module):
            return None
        try:
            text = self.text(self.path(module))
        except OSError:
            return None
        declared = re.compile(rb"(?:(?:def|thm)[ \t\r\n]+)?" + re.escape(plain) + rb"(?![A-Za-z0-9_!?'.])")
        start = 0
        for end in command_ends(text, len(text)):
            first = behind_blanks(text, start)
            start = end
            if declared.match(text, first):
                return self.path(module), place(text, first)[0], text[first:end]
        return None


class LibraryWalk:
    """The books in the order in which they are read, up to what a report names."""

    def __init__(self, library, reported):
        self.library, self.reported = library, reported
        self.count, self.open, self.read_so_far = 0, [], set()

    def is_named(self, path):
        """Whether a command of this book would have the number that is reported, and the book."""
        book = self.reported.book
        return path == (self.library.name if book is None else book) and self.count + 1 == self.reported.number

    def is_unread(self, path, text, first):
        """Whether what begins here is named by a code of reading."""
        return self.reported.code in READING and self.is_named(path) and place(text, first)[0] == self.reported.line

    def read(self, module, path):
        text = self.library.text(path)
        self.open.append((module, path))
        number = 0
        for number, (first, words) in enumerate(self.library.items(text), 1):
            is_directive = bool(words) and words[0].text in DIRECTIVES
            # What can't be read needs nothing; all other codes come behind the needs.
            is_read = is_directive and is_whole(words)
            if not is_read and self.is_unread(path, text, first):
                raise Found(path, text, number)
            for need in needs_of(words) if words else []:
                self.need(need, path, text, number)
            if not is_directive and self.reported.code not in READING + NEEDS and self.is_named(path):
                raise Found(path, text, number)
            self.count += not is_directive
        if self.is_named(path) and self.reported.code not in NEEDS:
            raise Found(path, text, number + 1)
        self.open.pop()

    def need(self, need, path, text, number):
        module = need.module
        at = next((k for k, (it, _) in enumerate(self.open) if it == module), None)
        if at == len(self.open) - 1 and not need.is_directive:
            return
        if at is not None:
            ring = [os.path.basename(it) for _, it in self.open[at:]]
            said = " needs ".join(ring + ring[:1]) if len(ring) > 1 else "a module doesn't require itself"
            raise Found(path, text, number, need, said)
        if module in self.read_so_far:
            return
        if len(self.open) == MOST_OPEN:
            raise Found(path, text, number, need, "%d files are open: each of them needs the next one" % MOST_OPEN)
        if len(self.read_so_far) + len(self.open) - 1 == MOST_READ:
            raise Found(path, text, number, need, "%d modules were opened before" % MOST_READ)
        wanted = self.library.path(module)
        try:
            self.library.text(wanted)
        except OSError as error:
            raise Found(path, text, number, need, "%s can't be opened: %s" % (readable(os.fsencode(wanted)), error.strerror)) from None
        self.read(module, wanted)
        self.read_so_far.add(module)
