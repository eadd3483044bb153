"""How far a check is, told from outside by what the system says of its process: how much of its files it has read, and its memory."""
import os
import re
import sys
import time

from .cuts import MODULES

REQUIRED = re.compile(rb"#REQUIRE[ \t\r\n]+([A-Za-z0-9_!?']+)")
# A share smaller than this says little of the time.
LEAST_SHARE = 0.02


class Running:
    """A process that checks a file."""

    def __init__(self, process, name):
        self.process, self.name, self.begun = process, name, time.monotonic()
        self.bytes, self.modules = None, 0

    def seconds(self):
        return time.monotonic() - self.begun

    def share(self):
        """The share of FILE and its modules that is read; None where it can't be told."""
        if self.bytes is None:
            sizes = sizes_of_books(self.name)
            self.bytes, self.modules = sum(sizes), max(0, len(sizes) - 1)
        read = bytes_read(self.process.pid)
        return min(1.0, read / self.bytes) if self.bytes and read is not None else None

    def line(self):
        """What a person is told of it."""
        told, share = [os.path.basename(self.name)], self.share()
        if share is not None:
            also = " and its %d modules" % self.modules if self.modules else ""
            told = ["%d%% of %s%s read" % (100 * share, told[0], also)]
        memory = memory_of(self.process.pid)
        if memory:
            told.append("%d MB" % memory)
        if share is not None and LEAST_SHARE <= share < 1:
            told.append("about %d s more" % (self.seconds() / share - self.seconds() + 1))
        return ", ".join(told)


def sizes_of_books(name):
    """The sizes of a regular file and of the files beside it that it seems to need; none where it isn't one."""
    folder, known, waiting, sizes = os.path.dirname(name), set(), [name], []
    while waiting:
        path = waiting.pop()
        if path in known or not os.path.isfile(path):
            continue
        known.add(path)
        try:
            with open(path, "rb") as file:
                text = file.read()
        except OSError:
            continue
        sizes.append(len(text))
        waiting += [os.path.join(folder, os.fsdecode(it) + ".dk") for it in set(MODULES.findall(text)) | set(REQUIRED.findall(text)) if it]
    return sizes


def bytes_read(number):
    """How many bytes a process has read; None where the system doesn't tell, or it has ended."""
    try:
        with open("/proc/%d/io" % number, encoding="ascii") as file:
            return int(file.readline().split()[1])
    except (OSError, IndexError, ValueError):
        return positions(number)


def positions(number):
    """How far a process is in the files that it has open, together."""
    folder, total = "/proc/%d/fd" % number, 0
    try:
        for it in os.listdir(folder):
            if int(it) > 2 and os.path.isfile(os.path.join(folder, it)):
                total += position(number, it)
    except (OSError, IndexError, ValueError):
        return None
    return total


def position(number, descriptor):
    """How far a process is in a file that it has open."""
    with open("/proc/%d/fdinfo/%s" % (number, descriptor), encoding="ascii") as file:
        return int(file.readline().split()[1])


def memory_of(number):
    """The memory of a process in MB; 0 where it isn't known."""
    try:
        with open("/proc/%d/statm" % number, encoding="ascii") as file:
            return int(file.read().split()[1]) * os.sysconf("SC_PAGESIZE") >> 20
    except (OSError, IndexError, ValueError):
        return 0


class Line:
    """The line of progress at the bottom of a terminal; on anything else nothing."""

    def __init__(self):
        self.is_shown, self.width = sys.stderr.isatty(), 0

    def show(self, text):
        if self.is_shown:
            columns = os.get_terminal_size(sys.stderr.fileno()).columns or 80
            text = "".join(it if it.isprintable() else "?" for it in text)[: columns - 1]
            sys.stderr.write("\r" + text + "\x1b[K")
            sys.stderr.flush()
            self.width = len(text)

    def clear(self):
        if self.width:
            sys.stderr.write("\r\x1b[K")
            sys.stderr.flush()
            self.width = 0
