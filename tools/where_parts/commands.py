"""The command that the report names, and the text in front of it that it rests on."""
import os
import re

from .terms import QUERIES
from .texts import KEYWORDS, NAME_BYTES, TOKEN, behind_blanks, command_ends, place, tokens

DECLARED = re.compile(rb"(?:(?:def|thm)(?![A-Za-z0-9_!?']))?[ \t\r\n]*(NAME|\{\|[^\n]*?\|\})".replace(b"NAME", NAME_BYTES))
THEOREM = re.compile(rb"thm(?![A-Za-z0-9_!?'])")


def names_of(text):
    """The names in a text, in order, with the signs between them."""
    return [it.group() for it in TOKEN.finditer(text) if it.lastgroup in ("name", "quoted", "sign")]


def heads_of(words):
    """The heads of the rules of a command: the first name behind each context and its brackets."""
    heads, is_due = set(), False
    for word in words:
        if word == b"]":
            is_due = True
        elif is_due and word != b"(":
            heads.add(word)
            is_due = False
    return heads


def plain(names, module):
    """The names, those of this module without it."""
    own = module + b"."
    return {it[len(own) :] if it.startswith(own) else it for it in names}


class Front:
    """The commands in front of the refused one: of each its text, and the name that it declares."""

    def __init__(self, text, ends):
        self.text, self.starts, self.ends = text, [], ends
        self.declaring, self.rules = {}, []
        start = 0
        for number, end in enumerate(ends):
            self.starts.append(behind_blanks(text, start))
            start = end
            if text[self.starts[-1] : self.starts[-1] + 1] in (b"[", b"{") and not text.startswith(b"{|", self.starts[-1]):
                self.rules.append(number)
                continue
            named = DECLARED.match(self.without_comments(number))
            if named:
                self.declaring[named.group(1)] = number

    def without_comments(self, number):
        """The text of a command; where a comment stands in it, its tokens with a blank between them."""
        text = self.text[self.starts[number] : self.ends[number]]
        return b" ".join(it.text for it in tokens(text, 0)[0]) if b"(;" in text else text

    def as_rested_on(self, number):
        """The text of a command, and of a theorem a declaration of its type: nothing rests on its body."""
        text = self.without_comments(number)
        if not THEOREM.match(text):
            return text
        body = next((it.start() for it in TOKEN.finditer(text) if it.group() == b":="), len(text))
        return text[len(b"thm") : body] + b"."

    def line(self, number):
        return place(self.text, self.starts[number])[0]

    def declaration(self, name):
        """The line and the text of the command that declares a name; None where none does."""
        number = self.declaring.get(name)
        return None if number is None else (self.line(number), self.without_comments(number))

    def rested_on(self, names, module):
        """The text of the commands that a command with these names rests on, in the file of this module and in its order: those that
        declare its names, the rules of these and of other modules' symbols, and what those rest on. A theorem's body isn't among it."""
        headed, elsewhere = {}, set()
        for number in self.rules:
            heads = plain(heads_of(names_of(self.without_comments(number))), module)
            for head in heads:
                headed.setdefault(head, []).append(number)
            # What other modules declare may unfold to the symbol, and no name here tells.
            elsewhere |= {it for it in heads if b"." in it and not it.startswith(b"{|")}
        kept, known, waiting = set(), set(), plain(names, module) | elsewhere
        while waiting:
            name = waiting.pop()
            known.add(name)
            for number in [self.declaring.get(name), *headed.get(name, ())]:
                if number is not None and number not in kept:
                    kept.add(number)
                    waiting |= plain(names_of(self.as_rested_on(number)), module) - known
        return b"".join(self.as_rested_on(it) + b"\n" for it in sorted(kept))


class Command:
    """The command of a number: its tokens, where it stands, and the commands in front of it."""

    def __init__(self, text, number):
        self.text = text
        ends = command_ends(text, number - 1)
        self.is_found = len(ends) == number - 1
        self.front = Front(text, ends)
        self.start = behind_blanks(text, ends[-1] if ends else 0)
        given, self.stop = tokens(text, self.start)
        dot = next((k for k, it in enumerate(given) if it.text == b"."), None)
        self.has_dot = dot is not None
        self.tokens = given if dot is None else given[: dot + 1]
        self.end = self.tokens[-1].end if self.has_dot else self.stop
        self.before = b""

    def line(self):
        return place(self.text, self.start)[0]

    def is_directive(self):
        return bool(self.tokens) and self.tokens[0].text in (b"#NAME", b"#REQUIRE")

    def is_query(self):
        return bool(self.tokens) and self.tokens[0].text in QUERIES

    def is_rules(self):
        return bool(self.tokens) and self.tokens[0].text in (b"[", b"{")

    def declared(self):
        """The token of the name that the command declares; of rules the head of the first."""
        words = self.tokens
        if self.is_directive() or self.is_query():
            return None
        if self.is_rules():
            closed = next((k for k, it in enumerate(words) if it.text == b"]"), len(words))
            words = words[closed:]
        return next((it for it in words if it.kind in ("name", "quoted") and it.text not in KEYWORDS), None)

    def rest_in_front(self, program, code, library):
        """Keeps of the text in front what the command rests on; all of it where the program answers that otherwise, and the whole
        theory where it answers that otherwise too, or where the book rests on more than what it needs."""
        own = {it.text for it in self.tokens if it.is_name()}
        command = self.text[self.start : self.end]
        if not library.is_alone() and not library.is_whole_below(library.folder + program.book):
            self.before = self.text[: self.start]
            program.as_part_of(library)
            return
        self.before = self.front.rested_on(own, os.fsencode(os.path.splitext(program.book)[0]))
        if program.answer(self.before + command) == (b"refused", code):
            return
        self.before = self.text[: self.start]
        if not library.is_alone() and program.answer(self.before + command) != (b"refused", code):
            program.as_part_of(library)

    def with_parts(self, changes):
        """The text with parts of the command in the place of others: triples of a start, an end and what stands there."""
        parts, at = [self.before], self.start
        if self.is_query() and self.tokens[0].text == b"#CHECK":
            # What the check refuses is told of the demand alone.
            changes = [*changes, (self.start, self.tokens[0].end, b"#ASSERT")]
        for start, end, instead in sorted(changes):
            parts += [self.text[at:start], instead]
            at = end
        return b"".join(parts + [self.text[at : self.end], b"\n"])

    def spelt(self, term):
        """A term as it stands in the file."""
        return self.text[self.tokens[term.first].start : self.tokens[term.last - 1].end]

    def argument(self, term):
        """The head that a term is an argument of, and which of its arguments; 0 where it is the head itself."""
        parts = term.parent.parts
        number = next(k for k, it in enumerate(parts) if it is term)
        head = parts[0]
        while number and head.form == "application":
            number += len(head.parts) - 1
            head = head.parts[0]
        return head, number
