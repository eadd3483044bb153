"""What is told of a fault to a person: the command, the place in it, what is wrong there, and what docs/codes.md says of the code."""
from .answer import BUDGET_SAID
from .page import explained
from .places import MOST_UNITS
from .texts import cut, cut_line, place, readable

LINES_SHOWN = 40


def lines_of(answer):
    """The lines behind the report's last line."""
    if answer.reason is not None and not answer.has_place():
        return [answer.reason]
    if not answer.has_place():
        return []
    if answer.command is None:
        return ["at line %d column %d of %s: %s" % (*place(answer.text, answer.at().at), answer.book, cut(answer.found.text)),
                "    " + answer.found.said, *("    " + it for it in answer.found.hints)]  # fmt: skip
    return lines_of_command(answer) + lines_of_place(answer) + lines_of_code(answer)


def lines_of_command(answer):
    """The command's number and name, and its text."""
    command, at = answer.command, None if answer.found is None else answer.found.at
    name, beside = command.declared(), "" if answer.book == answer.name else " of " + answer.book
    named = "" if name is None else " (%s)" % cut(name.text)
    kind = "directive" if command.is_directive() else "command %d%s" % (answer.number, named)
    return ["%s, from line %d%s:" % (kind, command.line(), beside)] + ["    " + it for it in shown(command, at)]


def lines_of_place(answer):
    """The part at fault, what is wrong with it, its types, and what helps."""
    found = answer.found
    if found is None:
        return ["no place in it was found by this script"] if answer.is_unsure else []
    lines = ["at line %d column %d: %s" % (*place(answer.text, found.at), cut(found.text))]
    lines += ["    " + it for it in answer.sentences(found.said)]
    if answer.declaration is not None:
        line, text = answer.declaration
        where = "" if answer.declared_in is None else answer.declared_in + ", "
        lines.append("    %sline %d: %s" % (where, line, cut(text)))
    return lines


def lines_of_code(answer):
    """What the code means."""
    if answer.code != b"budget":
        return explained(answer.code.decode(), answer.command.is_rules())
    more = [] if answer.found is not None or answer.is_unsure else ["its place is looked for with `--budget %d` or less" % MOST_UNITS]
    return ["", BUDGET_SAID, *more]


def shown(command, at):
    """The lines of a command, not all where they are many, and of a long line the part round a place."""
    text, end = command.text, command.end
    if not command.has_dot:
        line_end = text.find(b"\n", end)
        end = len(text) if line_end < 0 else line_end
    lines, start = [], command.start
    for line in text[command.start : end].split(b"\n"):
        lines.append((start, line))
        start += len(line) + 1
    here = next((k for k, (start, line) in enumerate(lines) if at is not None and start <= at <= start + len(line)), 0)
    low = max(0, min(here - LINES_SHOWN // 2, len(lines) - LINES_SHOWN))
    told = ["... %d lines before" % low] if low else []
    for start, line in lines[low : low + LINES_SHOWN]:
        told.append(cut_line(line, max(0, at - start) if at is not None else 0))
    behind = len(lines) - low - LINES_SHOWN
    return told + (["... and %d lines more" % behind] if behind > 0 else [])
