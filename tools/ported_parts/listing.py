"""All that files have and the language hasn't, and files with what is safe written otherwise."""
import re
from bisect import bisect_left

from where_parts.texts import Token

from . import directives, heads, levels, names, signs
from .finding import Finding
from .library import Library, Module

LAMBDAPI = re.compile(
    rb"^[ \t]*(?:(?:constant|injective|private|protected|sequential|opaque|commutative|associative)[ \t]+)*"
    rb"(?:symbol|rule|require|open|builtin|notation|inductive|theorem)\b",
    re.M,
)
# Safe changes may show others; so many rounds of them are made at most.
MOST_ROUNDS = 20


def of_words(words, module, library):
    """What one command has that the language hasn't."""
    first = words[0].text
    if words[0].kind == "mark":
        return names.of_bytes(words[:1]) + (of_words(words[1:], module, library) if words[1:] else [])
    if first in (b"#NAME", b"#REQUIRE"):
        return directives.of_directive(words, library)
    if first in directives.QUERIES:
        found = directives.of_query(words)
    elif first.startswith(b"#"):
        return directives.of_other_word(words)
    else:
        found = heads.of_command(words, module, library)
    named = names.of_names(words, module)
    if any(it.is_safe for it in named):
        # Dots are missing: these tokens are of more than one command.
        return named
    found += named + names.of_bytes(words) + names.of_wildcards(words)
    return found + signs.of_signs(module.text, words) + levels.of_limits(words)


def of_module(module, library):
    """What one file has, in the order of the places."""
    other = other_language(module)
    if other is not None:
        return [other]
    found = []
    for words in module.suspects:
        found += of_words(words.tokens(), module, library)
    found += [heads.static(Token("name", name, at), library) for name, at in module.bare.items() if library.is_head(module, name)]
    return sorted({(it.at, it.what, it.instead): it for it in found}.values(), key=lambda it: it.at)


def other_language(module):
    """A file of Lambdapi's own syntax, or of no text: that is said once."""
    if b";" in module.seen or b"\0" in module.seen:
        odd = [it for words in module.suspects for it in words.tokens() if it.text in (b";", b"\0")]
        if b"\0" in module.seen:
            at = next(it.start for it in odd if it.text == b"\0")
            return Finding(at, "\\x00", "no file of Dedukti: it has bytes that no text has", kind=("no text", ""))
        begun = LAMBDAPI.search(module.text)
        if begun is not None:
            instead = "no file of Dedukti: Lambdapi's own syntax; `lambdapi export -o dk` writes Dedukti's"
            return Finding(begun.start(), begun.group().split()[-1].decode(), instead, kind=("Lambdapi's own syntax", ""))
    return None


class Lines:
    """The lines and columns of a text, both from 1; the column counts bytes."""

    def __init__(self, text):
        self.ends = [it.start() for it in re.finditer(b"\n", text)]

    def place(self, at):
        line = bisect_left(self.ends, at)
        return line + 1, at - (self.ends[line - 1] + 1 if line else 0) + 1


def changed(text, found):
    """A text with the safe changes; of changes that meet the first alone."""
    parts, at = [], 0
    changes = [(min(start for start, _, _ in it.changes), it.changes) for it in found if it.is_safe]
    taken, last = [], 0
    for _, one in sorted(changes, key=lambda it: it[0]):
        if min(start for start, _, _ in one) >= last:
            taken += one
            last = max(end for _, end, _ in one)
    for start, end, instead in sorted(taken):
        parts += [text[at:start], instead]
        at = end
    return b"".join(parts + [text[at:]])


def found_in(files):
    """The modules of files, pairs of a name and a text, each with what it has."""
    library = Library([Module(name, text) for name, text in files])
    return [(it, of_module(it, library)) for it in library.modules]


def written(files):
    """The modules of files with all that is safe written otherwise, each with what is left, and how many places that were."""
    count = 0
    for _ in range(MOST_ROUNDS):
        found = found_in(files)
        safe = sum(it.is_safe for _, some in found for it in some)
        if not safe:
            return found, count
        count += safe
        files = [(module.name, changed(module.text, some)) for module, some in found]
    return found_in(files), count
