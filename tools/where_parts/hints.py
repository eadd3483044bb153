"""What may have been meant by a name that nothing declares: the same name in quotes or without them, in a module or without one, with
other small and large letters."""
import os
import re

from .commands import DECLARED
from .texts import behind_blanks, command_ends, place, readable

TITLE = re.compile(rb"#NAME[ \t\r\n]+([A-Za-z0-9_!?']+)[ \t\r\n]*\.")


def unquoted(name):
    return name[2:-2] if name.startswith(b"{|") else name


def requoted(name):
    """The name without its quotes, or in quotes."""
    return unquoted(name) if name.startswith(b"{|") else b"{|" + name + b"|}"


class Declared:
    """What a text declares: of each name the place of its first declaration."""

    def __init__(self, text):
        self.text, self.places, start = text, {}, 0
        for end in command_ends(text, len(text)):
            at = behind_blanks(text, start)
            start = end
            named = None if text[at : at + 1] == b"[" else DECLARED.match(text, at, end)
            if named:
                self.places.setdefault(named.group(1), at)

    def line(self, name):
        return place(self.text, self.places[name])[0]


class Hints:
    """What the text in front of a command and the modules that were read declare."""

    def __init__(self, command, library, book):
        self.library, self.book = library, book
        self.own = Declared(command.text[: command.start])
        self.title = TITLE.search(command.text)
        self.modules = None

    def of_modules(self):
        """What each module that was read declares, by the module's name."""
        if self.modules is None:
            others = {path: text for path, text in self.library.texts.items() if path != self.book}
            self.modules = {os.fsencode(os.path.splitext(os.path.basename(path))[0]): Declared(text) for path, text in others.items()}
        return self.modules

    def of(self, name):
        """The lines on what may have been meant."""
        module, dot, behind = name.partition(b".")
        if dot and not name.startswith(b"{|"):
            return self.of_qualified(module, behind)
        found = alike(name, self.own, b"")
        for other, declared in sorted(self.of_modules().items()):
            found += [said(other + b"." + it, declared.line(it), other) for it in (name, requoted(name)) if it in declared.places]
        return found

    def of_qualified(self, module, name):
        found = alike(name, self.of_modules()[module], module) if module in self.of_modules() else []
        if self.title is not None and self.title.group(1) == module and name in self.own.places:
            found.append("line %d of this file declares %s, and its #NAME gives it no name" % (self.own.line(name), readable(name)))
        return found


def alike(name, declared, module):
    """Of declared names the one in quotes or without them, else those in other letters."""
    front, spelt = module + b"." if module else b"", requoted(name)
    if spelt in declared.places:
        return [said(front + spelt, declared.line(spelt), module) + ": quotes make another name"]
    lower = unquoted(name).lower()
    others = [it for it in declared.places if unquoted(it).lower() == lower and it != name]
    return [said(front + it, declared.line(it), module) for it in others[:3]]


def said(name, line, module):
    where = "line %d" % line if not module else "%s.dk, line %d," % (readable(module), line)
    return "%s declares %s" % (where, readable(name))
