"""The program as a black box: it is asked with files that are made of parts of the one that is refused."""
import os
import subprocess


class Unsure(Exception):
    """The program answered in a way that this script can't read a place from."""


# What the program gives each command without the option `--budget`.
DEFAULT_UNITS = 1000000000


class Program:
    """The program with the budget that it is asked with, and how often it was. What it is asked with stands in a folder, beside the
    modules that it may need."""

    def __init__(self, path, budget, folder):
        self.path, self.budget, self.runs = path, budget, 0
        self.folder, self.book, self.file = folder, "f.dk", "f.dk"

    @property
    def units(self):
        """The units that the check of a command may take."""
        return int(self.budget) if self.budget is not None and self.budget.isdecimal() else DEFAULT_UNITS

    def beside(self, library, book):
        """From now on it is asked with texts in the place of a book of the library, each checked alone."""
        self.book = self.file = os.path.basename(book)
        for name in os.listdir(library.folder or "."):
            path = os.path.join(self.folder, name)
            if name.endswith(".dk") and not os.path.lexists(path):
                os.symlink(os.path.abspath(os.path.join(library.folder, name)), path)

    def as_part_of(self, library):
        """From now on FILE is checked, with these texts in the place of that book."""
        self.file = os.path.basename(library.name)
        path = os.path.join(self.folder, self.file)
        if not os.path.lexists(path):
            os.symlink(os.path.abspath(library.name), path)

    def report_of(self, name):
        """The last line of the quiet report on a file of this name, and the status, as a shell has it."""
        lines, status = self.lines_of(name)
        return (lines or [b""])[-1], status

    def lines_of(self, name):
        """The lines of the quiet report, and the status."""
        budget = [] if self.budget is None else ["--budget", self.budget]
        words = [self.path, "check", *budget, "--quiet", "--", name]
        done = subprocess.run(words, stdin=subprocess.DEVNULL, stdout=subprocess.PIPE, check=False)
        status = done.returncode if done.returncode >= 0 else 128 - done.returncode
        return done.stdout.split(b"\n")[:-1], status

    def answer(self, text):
        """The last line's first word and its code or budget, on a file of this text; where another file is named it is accepted."""
        path = self.put(text)
        last = self.report_of(os.path.join(self.folder, self.file))[0]
        said, _, named = last.partition(b" in ")
        words = said.split()
        if named != (b"" if self.book == self.file else os.fsencode(path)) and words[:1] != [b"unopened"]:
            return b"accepted", b""
        return (words[0], words[-1]) if words else (b"", b"")

    def put(self, text):
        """Writes the text that is asked about, and tells where."""
        self.runs += 1
        path = os.path.join(self.folder, self.book)
        if os.path.lexists(path):
            os.unlink(path)
        with open(path, "wb") as file:
            file.write(text)
        return path

    def typed(self, text):
        """The type that is printed of the last command of a text; None where the text isn't accepted, or no FILE of its own."""
        if self.book != self.file:
            return None
        lines, _ = self.lines_of(self.put(text))
        if len(lines) < 2 or not lines[-1].startswith(b"accepted ") or not lines[-2].startswith(b"type "):
            return None
        return lines[-2].split(b" ", 2)[2]


def first(low, high, holds):
    """The first number from low on and below high of which it holds, where it holds of all behind that; high where it holds of none."""
    while low < high:
        middle = (low + high) // 2
        if holds(middle):
            high = middle
        else:
            low = middle + 1
    return low
