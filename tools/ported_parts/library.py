"""The files that belong together: what they declare, the heads of their rules, the modules that they need and that none of them is."""
import os
import re

from where_parts.commands import heads_of
from where_parts.texts import WORDS_OUTSIDE

from .reading import QUOTED, commands

# What a command has in it that may have to be written otherwise.
SUSPECTS = frozenset((b"_", b"\\", b"!", b"Kind", b"private", b"injective", b"defac", b"defacu"))
# The same, where the tokens are joined by blanks: a bracket or a let in front of a body, a dot in the place of a blank.
JOINED = re.compile(rb"\) =>|\} (?::|\(|:=)|(?:^|[ .(])Type\.|\.(?:def|thm|injective|private|defacu?) |[^ ]\.(?:[^ ]+|\{\|.*?\|\}) :")
STARTS_RULES = (b"[", b"{")
MOST_IN_A_NAME, MOST_DEEP = 255, 1000
MOST_BYTES = 1 << 24


class Module:
    """A file: its text, what it declares, and its commands that may have to be written otherwise."""

    def __init__(self, name, text):
        self.name, self.text = name, text
        self.module = os.path.splitext(os.path.basename(name))[0].encode()
        self.title, self.seen = None, set()
        # The places of the declarations that begin with their names and have no body; the heads of rules as they are spelt; the suspects.
        self.bare, self.heads, self.suspects = {}, set(), []
        self.declared = set()
        for words in commands(text):
            self.take(words)

    def take(self, words):
        texts = words.texts
        first = texts[0]
        self.seen.update(texts)
        if first == b"#NAME" and len(texts) > 1:
            self.title = self.title or texts[1]
        joined = b" ".join(texts)
        if first in STARTS_RULES:
            self.heads |= heads_of(texts)
        elif b" --> " in joined:
            self.heads.add(first)
        else:
            self.take_declaration(words)
        if self.is_suspect(words, joined):
            self.suspects.append(words)

    def take_declaration(self, words):
        name = declared_by(words.texts)
        self.declared.add(name)
        if name == words.texts[0] and b":=" not in words.texts:
            self.bare[name] = words.start()

    def is_suspect(self, words, joined):
        texts, first = words.texts, words.texts[0]
        if b" --> " in joined and first not in STARTS_RULES:
            return True
        if first.startswith(b"#") or max(words.kinds) > QUOTED or not SUSPECTS.isdisjoint(texts) or JOINED.search(joined):
            return True
        bodies = texts.count(b":=")
        if bodies > 1 or bodies and first not in (b"def", b"thm") or b"." in first:
            return True
        if texts.count(b".") > (texts[-1] == b".") or len(texts) > MOST_DEEP or max(map(len, texts)) > MOST_IN_A_NAME:
            return True
        return words.ends[-1] - words.start() > MOST_BYTES

    def has_declared(self, name):
        return name in self.declared

    def needed(self):
        """The modules that the directives and the qualified names of a file need."""
        required = {it.texts[1] for it in self.suspects if it.texts[0] == b"#REQUIRE" and len(it.texts) > 1}
        return required | {it.partition(b".")[0] for it in self.seen if b"." in it[1:] and not it.startswith(b"{|")}


class Library:
    """The files that belong together."""

    def __init__(self, modules):
        self.modules = modules
        self.names = {it.module for it in modules}
        # A module under the name that its file gives it, where no file has that name.
        self.titles = {it.title: it.module for it in modules if it.title is not None and it.title not in self.names}
        self.heads = {self.whole(module, it) for module in modules for it in module.heads}
        self.missing = set().union(*(it.needed() for it in modules)) - self.names
        self.hiding = None

    def whole(self, module, name):
        """The module and the name that a name means in a module."""
        front, dot, behind = name.partition(b".")
        if not dot or name.startswith(b"{|"):
            return module.module, name
        return self.titles.get(front, front), behind

    def is_head(self, module, name):
        return (module.module, name) in self.heads

    def is_looked_into(self, name):
        """Whether the types of some left side may have equations with this symbol as a head, so that a `def` hides what is found in
        them: a part of it has a type that speaks of the symbol, or of what may unfold to it. Modules aren't told apart."""
        if self.hiding is None:
            self.hiding = Hiding(self.modules)
        return self.hiding.is_looked_into(name)


class Hiding:
    """What the types of symbols speak of, what unfolds to what, and the symbols of left sides that are typed by equations."""

    def __init__(self, modules):
        self.types, self.unfolded, self.typed = {}, {}, set()
        for module in modules:
            for words in commands(module.text):
                self.take(words.texts)

    def take(self, texts):
        if texts[0] in STARTS_RULES and declared_by(texts) is None:
            self.take_rules(texts)
            return
        name = declared_by(texts)
        if name is None:
            return
        names = {last_part(it) for it in texts} - {last_part(name)}
        self.types.setdefault(last_part(name), set()).update(names)
        if b":=" in texts and b"thm" not in texts:
            self.unfolded.setdefault(last_part(name), set()).update(names)

    def take_rules(self, texts):
        at = 0
        while b"-->" in texts[at:]:
            opened, arrow = at, texts.index(b"-->", at)
            closed = max((k for k in range(opened, arrow) if texts[k] == b"]"), default=opened)
            end = texts.index(b"[", arrow) if b"[" in texts[arrow:] else len(texts)
            self.take_rule(context_of(texts[opened:closed]), texts[closed + 1 : arrow], texts[arrow + 1 : end])
            at = end

    def take_rule(self, variables, left, right):
        bound = {it for it, behind in zip(left, left[1:]) if behind == b"=>"}
        names = [it for it in left if it not in (b"(", b")", b"{", b"}", b"_", b"=>") and it not in bound]
        used = [it for it in names if it not in variables]
        if not used:
            return
        self.unfolded.setdefault(last_part(used[0]), set()).update(map(last_part, right))
        repeated = len(names) - len(used) > len(set(names) & variables)
        if len(used) > 1 or repeated:
            self.typed |= {last_part(it) for it in used}

    def is_looked_into(self, name):
        reached, more = {last_part(name)}, True
        while more:
            found = {it for it, names in self.unfolded.items() if names & reached} - reached
            more = bool(found)
            reached |= found
        return any(it not in self.types or self.types[it] & reached for it in self.typed)


def context_of(texts):
    """The variables of a context."""
    return {it for it, behind in zip(texts, texts[1:] + [b"]"]) if behind in (b",", b"]", b":")}


def last_part(name):
    return name if name.startswith(b"{|") else name.partition(b".")[2] or name


def declared_by(texts):
    """The name that a command declares, or None."""
    at = 0
    while at < len(texts) and (texts[at] in WORDS_OUTSIDE or texts[at] in (b"def", b"thm")):
        at += 1
    if at == len(texts) or texts[at].startswith((b"#", b"[", b"(")):
        return None
    if texts[at] == b"{":
        return texts[at + 1] if is_opaque(texts[at:]) else None
    return texts[at]


def is_opaque(texts):
    """Whether this is a definition of old files, `{c} : T := t.`"""
    return len(texts) > 3 and texts[0] == b"{" and texts[2] == b"}" and texts[3] in (b":", b"(", b":=")
