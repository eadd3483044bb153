"""What is told of a report: the report's last line, the command that it names, the place in it, and the module that is missing."""
from .page import section
from .texts import Place, cut, place, readable

BUDGET_SAID = "its check takes more units than that: its evaluation has no end, or wants more of them (`--budget`)"
# So much of a part stands in one line.
SHORT_BYTES = 60


class Answer:
    """The last line and the status of a check of a file, and what was found of it. `name` is FILE as it was given; `book` is the file in
    which the place stands, as it is shown."""

    def __init__(self, name, last, status):
        self.name, self.last, self.status = name, last, status
        self.book, self.text, self.command, self.found = name, None, None, None
        self.number, self.code, self.is_unsure = 0, None, False
        # What is said where no text is found, and the line.
        self.reason, self.line = None, 1
        # The text and the line of a declaration that helps, and its file where it is another one.
        self.declaration, self.declared_in = None, None

    def word(self):
        """The code, or the first word of the report's last line where it has none."""
        return (self.last.split(b" ")[0] if self.code is None else self.code).decode()

    def title(self):
        """What the code means, in a line."""
        if self.code is None:
            return ""
        return BUDGET_SAID if self.code == b"budget" else (section(self.code.decode()) or ("", ""))[0]

    def at(self):
        """The place that is told: the part at fault, else where the command begins."""
        return self.found or Place(self.command.start, b"", "")

    def said(self):
        """What is said of the part, without what the code's title says already."""
        if self.found is None:
            return ""
        title, said = self.title(), self.found.said
        return said[len(title) :].lstrip(": ") if title and said.startswith(title) else said

    def sentences(self, said):
        """What is said of the part, with the type that is expected at its end where it ends so, and then its types and what helps."""
        more = self.found.types + self.found.hints
        if said.endswith("is expected") and more and more[0].startswith("expected: "):
            return [said + more[0][len("expected") :], *more[1:]]
        return [said, *more]

    def has_place(self):
        return self.text is not None and (self.found is not None or self.command is not None)

    def short(self):
        """One line, as editors read it; None where there is nothing to tell."""
        if self.reason is not None and not self.has_place():
            return "%s:%d:1: %s: %s" % (self.name, self.line, self.word(), self.reason)
        if not self.has_place():
            return None
        part = "" if self.found is None else cut(self.found.text, SHORT_BYTES)
        said, *more = [""] if self.found is None else self.sentences(self.said())
        words = "; ".join([": ".join(it for it in (self.title(), part, said) if it), *more])
        return "%s:%d:%d: %s: %s" % (self.book, *place(self.text, self.at().at), self.word(), words)

    def fields(self):
        """What `--json` has."""
        told = {"report": readable(self.last), "status": self.status}
        if self.reason is not None and not self.has_place():
            told |= {"file": self.name, "line": self.line, "column": 1, "end": {"line": self.line, "column": 1}, "code": self.word()}
            return told | {"title": self.title(), "part": "", "said": self.reason, "expected": None, "found": None, "hints": []}
        if not self.has_place():
            return told
        at = self.at()
        (line, column), (last, behind) = place(self.text, at.at), place(self.text, at.at + len(at.text))
        types = dict(it.split(": ", 1) for it in at.types)
        return {
            **told,
            "file": self.book,
            "line": line,
            "column": column,
            "end": {"line": last, "column": behind},
            "code": self.word(),
            "title": self.title(),
            "part": cut(at.text),
            "said": self.said(),
            "expected": types.get("expected"),
            "found": types.get("its type", types.get("type of what stands in front")),
            "hints": at.hints,
        }
