"""The statements of a translation as strings again, beside those of the database: written without the translator's own parts."""
import re

TOKEN = re.compile(r"\{\|.*?\|\}|[A-Za-z0-9_'!?]+|->|:=|\S")
HEAD = re.compile(r"(?:thm )?(\{\|.*?\|\}|[^ ]+)")


def said(path):
    """Of each $a and $p of a database: its keyword, string, hypotheses, pairs and variables, in order; and all typecodes."""
    with open(path, encoding="latin-1") as file:
        words = re.sub(r"\$\(\s.*?\s\$\)", " ", file.read(), flags=re.S).split()
    found, kinds, scopes, at = {}, {}, [([], [], [])], 0
    while at < len(words):
        if words[at] == "${":
            scopes.append(tuple(map(list, scopes[-1])))
        elif words[at] == "$}":
            scopes.pop()
        elif words[at] in ("$c", "$v", "$d", "$f", "$e", "$a", "$p"):
            end = words.index("$.", at)
            label, keyword, body = words[at - 1], words[at], words[at + 1 : end]
            floats, hypotheses, pairs = scopes[-1]
            if keyword == "$d":
                pairs += [(it, other) for it in body for other in body if it != other]
            elif keyword == "$f":
                kinds[body[1]] = body[0]
                floats.append(body[1])
            elif keyword == "$e":
                hypotheses.append((label, body))
            elif keyword in ("$a", "$p"):
                body = body[: body.index("$=")] if "$=" in body else body
                used = {it for string in [body] + [it for _, it in hypotheses] for it in string}
                mine = {it for it in pairs if used.issuperset(it)}
                found[label] = keyword, body, list(hypotheses), mine, [it for it in floats if it in used]
            at = end
        at += 1
    return found, kinds


def bare(name):
    """A label or symbol as the database has it, of one that is spelt."""
    return name[2:-2].replace("|$$}", "|}") if name.startswith("{|") else name


def nested(tokens, at=0):
    """A list of words and lists, up to the bracket that closes."""
    made = []
    while at < len(tokens) and tokens[at] != ")":
        part, at = nested(tokens, at + 1) if tokens[at] == "(" else (tokens[at], at)
        made.append(part)
        at += 1
    return made, at


def string(term, axioms):
    """The string of a term: that of its syntax axiom, with the strings of its arguments for the variables."""
    while isinstance(term, list) and len(term) == 1:
        term = term[0]
    head, arguments = (term, []) if isinstance(term, str) else (term[0], term[1:])
    if bare(head) not in axioms:
        return [bare(head)]
    body, variables = axioms[bare(head)]
    values = {it: string(part, axioms) for it, part in zip(variables, arguments)}
    return [word for it in body for word in values.get(it, [it])]


def split(tokens, sign):
    """Parts of a list between signs that stand in no brackets."""
    parts, depth = [[]], 0
    for it in tokens:
        depth += (it == "(") - (it == ")")
        if it == sign and depth == 0:
            parts.append([])
        else:
            parts[-1].append(it)
    return parts


def declared(line):
    """The name of a command, what it takes as names with the tokens of their types, and the tokens of what it gives."""
    name = HEAD.match(line)[1]
    if line.startswith("thm "):
        tokens = TOKEN.findall(line[: line.index(" := ")])[2:]
        given = []
        while tokens[0] == "(":
            end = nested(tokens, 1)[1]
            given.append((tokens[1], tokens[3:end]))
            tokens = tokens[end + 1 :]
        return name, given, tokens[1:]
    parts = split(TOKEN.findall(line[: line.rindex(".")])[2:], "->")
    return name, [(it[0], it[2:]) for it in parts[:-1] if it[1:2] == [":"]], parts[-1]


def unlike(database, theory):
    """The first statement of a database that the commands don't say, or nothing."""
    found, kinds = said(database)
    axioms = {it: (body[1:], used) for it, (keyword, body, _, _, used) in found.items() if keyword == "$a" and body[0] != "|-"}
    with open(theory, encoding="latin-1") as file:
        commands = {HEAD.match(line)[1]: line for line in file if HEAD.match(line)}
    for label, (keyword, body, hypotheses, pairs, used) in found.items():
        if keyword == "$p" and body[0] != "|-":
            continue
        line = commands.get(label) or commands.get("{|%s|}" % label)
        if line is None:
            return "%s isn't there" % label
        if keyword == "$p" and not line.startswith("thm "):
            return "%s isn't proved" % label
        _, given, result = declared(line)
        due = [(it, [kinds[it]]) for it in used] + [(it, of) for it, of in hypotheses]
        told = [(bare(it), [bare(kind[0])] + (string(nested(kind[1:])[0], axioms) if kind[1:] else [])) for it, kind in given]
        if told[: len(due)] != due or {frozenset(map(bare, kind[1:])) for _, kind in given[len(due) :]} != set(map(frozenset, pairs)):
            return "%s takes %s" % (label, told)
        if [bare(result[0])] + (string(nested(result[1:])[0], axioms) if result[1:] else []) != (body if body[0] == "|-" else body[:1]):
            return "%s gives %s" % (label, result)
    return ""
