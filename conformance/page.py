"""Compares two pages of docs/ with the suite.

Each file that codes.md shows belongs to a case, and each report is that case's. Each row of from-dedukti.md is one too: its line
stands in the file, and its code ends the report.
"""
import os
import re

HERE = os.path.dirname(os.path.abspath(__file__))
PAGE = os.path.join(HERE, '..', 'docs', 'codes.md')
DEDUKTI = os.path.join(HERE, '..', 'docs', 'from-dedukti.md')
ROW = re.compile(r'^\| .+ \| `(.+)` \| (accepted|E\d\d)\b.* \| .+ \| (\w+) \|$', re.M)
SHOWN = re.compile(r'`conformance/(page/[\w/]+\.(?:dk|report))`[^\n]*\n\n```\n(.*?)```\n', re.S)


def stored(path):
    """A file of the suite, empty where it isn't there."""
    try:
        with open(os.path.join(HERE, path), encoding='utf-8') as file:
            return file.read()
    except FileNotFoundError:
        return ''


def checked(name):
    """The lines of the file that a row's case checks; of several files it is the one in their folder that is named as it."""
    return (stored('dedukti/%s.dk' % name) or stored('dedukti/%s/%s.dk' % (name, name))).splitlines()


def last_line(name):
    """The last line of a case's report."""
    return (stored('dedukti/%s.report' % name).splitlines() or [''])[-1]


def row_differences():
    """What of the page for Dedukti users isn't as the suite has it."""
    with open(DEDUKTI, encoding='utf-8') as file:
        rows = ROW.findall(file.read())
    said, named = [], set()
    for line, answer, name in rows:
        named.add(name)
        if line.replace('\\|', '|') not in checked(name):
            said.append('dedukti/%s has not the line that is shown' % name)
        last = last_line(name)
        if not (last.startswith('accepted ') if answer == 'accepted' else last.startswith('refused ') and last.endswith(' ' + answer)):
            said.append('dedukti/%s.report ends otherwise than is shown' % name)
        if answer != 'accepted':
            named.add(name + '_mended')
            if not last_line(name + '_mended').startswith('accepted '):
                said.append('dedukti/%s_mended is not accepted' % name)
    there = {name.rsplit('.', 1)[0] for name in os.listdir(os.path.join(HERE, 'dedukti'))}
    return said + ['dedukti/%s is in no row' % name for name in sorted(there - named)]


def differences():
    """What of the pages isn't as the suite has it, in lines; none where all is."""
    return ['codes.md: ' + line for line in code_differences()] + ['from-dedukti.md: ' + line for line in row_differences()]


def code_differences():
    """What of the page of codes isn't as the suite has it."""
    with open(PAGE, encoding='utf-8') as file:
        text = file.read()
    said, shown = [], set()
    for path, block in SHOWN.findall(text):
        shown.add(path)
        if stored(path).rstrip('\n') != block.rstrip('\n'):
            said.append(path + ' is shown otherwise than it stands')
    folders = os.walk(os.path.join(HERE, 'page'))
    there = {os.path.relpath(os.path.join(folder, name), HERE) for folder, _, names in folders for name in names}
    said += ['%s is not shown' % path for path in sorted(there - shown)]
    return said
