"""What docs/codes.md says of a code."""
import os
import re

PAGE = os.path.join(os.path.dirname(os.path.dirname(os.path.dirname(os.path.realpath(__file__)))), "docs", "codes.md")


def section(code):
    """The title and the text of a code's section; None where it has none."""
    with open(PAGE, encoding="utf-8") as file:
        found = re.search(r"^## %s: (.*?)(?=^## |\Z)" % code, file.read(), re.S | re.M)
    if found is None:
        return None
    title, _, rest = found.group(1).partition("\n")
    return title, rest


def explained(code, is_rules=False):
    """The lines that explain a code: its meaning, and an example that is mended, one of a rule where that is asked for and there is one."""
    found = section(code)
    if found is None:
        return []
    title, rest = found
    lines = ["", "%s: %s" % (code, title), *rest.strip().split("\n\n")[0].split("\n")]
    shown = r"_mended\.dk`[^\n]*\n\n```\n(.*?)```"
    mended = is_rules and re.search("%s_rule%s" % (code, shown), rest, re.S) or re.search(shown, rest, re.S)
    if mended:
        lines += ["", "an example that is mended (docs/codes.md has the file before it):"]
        lines += ["    " + line for line in mended.group(1).rstrip().split("\n")]
    return lines
