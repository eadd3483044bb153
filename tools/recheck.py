#!/usr/bin/env python3
"""Checks a certificate against its file: a rechecker written from docs/certificates.md alone.

    tools/recheck.py FILE CERT

It knows substitution, instances of patterns and single steps, and nothing of how terms are evaluated. It prints one line:

    rechecked N       each of the N commands has its checked derivation: status 0
    rejected K        K's part is the first that isn't one (0: the first line; N + 1: the end): status 1
    refused K CODE    command K isn't read, scoped or shaped as a command: status 1
    unopened CERT     CERT can't be opened or read: status 3

Words that aren't these have this text, and the status 2.

CODE is E10 to E13 or E30 to E33 as docs/codes.md has them; a fault of bytes, grammar or modules is told as `reading`. Modules
that FILE needs are read beside it.
"""
import os
import sys
import threading

sys.dont_write_bytecode = True
from recheck_parts.part import Certificate, Part, Rejected
from recheck_parts.reading import Refused, commands
from recheck_parts.terms import KIND
from recheck_parts.theory import Theory


class Recheck:
    """A file with its certificate."""

    def __init__(self, path, cert):
        self.path, self.cert, self.certificate = path, cert, Certificate(cert)
        self.theory, self.failed, self.open, self.known = Theory(), None, [], set()

    def commands(self, folder, name, module):
        """The commands of a file, each with its module, and before each those of the modules that it needs."""
        self.open.append(module)
        self.known.add(module)
        try:
            with open(os.path.join(folder, name), "rb") as file:
                data = file.read()
        except OSError as fault:
            raise Refused("reading") from fault
        for command in commands(data):
            is_directive = command[0].startswith("#")
            for needed in needs(command):
                if needed in self.open and (is_directive or needed != module):
                    raise Refused("reading")
                if needed not in self.known:
                    yield from self.commands(folder, needed.decode() + ".dk", needed)
            if not is_directive:
                yield module, command
        self.open.pop()

    def attempt(self, number, check, *given):
        """What the check of this part gives; behind the first that is rejected none is checked."""
        if self.failed is None:
            try:
                return check(*given)
            except Rejected:
                self.failed = number
        return None

    def answer(self):
        """The line and the status."""
        folder, name = os.path.split(self.path)
        number = 1
        self.attempt(0, self.certificate.take_first)
        try:
            for module, command in self.commands(folder, name, name[:-3].encode() if name.endswith(".dk") else b""):
                scoped = self.theory.scope(module, command)
                typ = self.attempt(number, Part(self.theory, self.certificate).check, number, scoped)
                self.theory.enter(module, scoped, typ or KIND)
                number += 1
        except Refused as fault:
            return f"refused {number} {fault}", 1
        if not self.certificate.is_read:
            return f"unopened {self.cert}", 3
        self.attempt(number, self.certificate.take_last)
        return (f"rechecked {number - 1}", 0) if self.failed is None else (f"rejected {self.failed}", 1)


def needs(part):
    """The modules that a command or a directive needs, in order."""
    if part[0] in ("#NAME", "#REQUIRE", "qname"):
        return [] if part[0] == "#NAME" else [part[1]]
    return [module for it in part if it and isinstance(it, (tuple, list)) for module in needs(it)]


def main():
    line, status = Recheck(*sys.argv[1:]).answer()
    print(line, flush=True)
    os._exit(status)


if __name__ == "__main__":
    if len(sys.argv) != 3:
        print(__doc__.strip())
        sys.exit(2)
    sys.setrecursionlimit(1_000_000)
    threading.stack_size(512 * 1024 * 1024)
    runner = threading.Thread(target=main)
    runner.start()
    runner.join()
    sys.exit(70)
