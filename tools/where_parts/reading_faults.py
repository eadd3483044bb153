"""Faults of reading, E01 to E06: the first token with which the command is refused so."""
from .program import first
from .texts import Place, behind_blanks

SAID = {
    b"E01": "no token can be spelt here",
    b"E02": "no command goes on with this",
    b"E04": "one level or one argument too many",
    b"E05": "too long",
    b"E06": "a word outside the profile; tools/ported says what to write",
}


def place_of(program, command, code):
    """The place of the fault. What stands in front of the command has no part in it, so the command is read alone."""
    text, words = command.text, command.tokens
    if code == b"E03":
        return unfinished(command)
    refused = (b"refused", code)
    start = command.start
    front = first(0, len(words), lambda k: program.answer(text[start : words[k].end] + b" ") == refused)
    if front < len(words):
        return Place(words[front].start, words[front].text, SAID[code])
    at = behind_blanks(text, words[-1].end if words else start)
    if text.startswith(b"{|", at):
        return Place(at, text[at : at + 20].split(b"\n")[0], "a quoted name that its line doesn't close")
    return Place(at, character(text, at), SAID[code])


def character(text, at):
    """The whole character of a byte, where it is one of UTF-8."""
    end = at + 1
    while end < len(text) and end < at + 4 and text[at] >= 0xC0 and text[end] & 0xC0 == 0x80:
        end += 1
    return text[at:end]


def unfinished(command):
    """The place of a command that the file's end breaks off."""
    text, words = command.text, command.tokens
    at = behind_blanks(text, words[-1].end if words else command.start)
    if text.startswith(b"(;", at):
        return Place(at, text[at : at + 20].split(b"\n")[0], "a comment that isn't closed")
    if text.startswith(b"{|", at):
        return Place(at, text[at : at + 20].split(b"\n")[0], "a quoted name that isn't closed")
    if at < len(text) or not words:
        return Place(at, text[at : at + 2], "a sign that isn't finished")
    opened = []
    for it in words:
        if it.text in (b"(", b"[", b"{"):
            opened.append(it)
        elif it.text in (b")", b"]", b"}") and opened:
            opened.pop()
    if opened:
        return Place(opened[-1].start, opened[-1].text, "the last command has no dot, and this bracket isn't closed")
    return Place(words[-1].start, words[-1].text, "the last command has no dot: the file ends behind this")
