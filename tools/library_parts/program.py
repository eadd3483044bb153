"""The program as the scripts beside this folder ask it."""
import argparse
import os
import subprocess

TOP = os.path.dirname(os.path.dirname(os.path.dirname(os.path.realpath(__file__))))
SCRIPT = os.path.join(TOP, "dk_check")


def reader_of(doc):
    """A reader of a script's words; its help is what the script says of itself at its top."""
    usage = next(line.strip() for line in doc.splitlines() if line.startswith("    tools/"))
    form = argparse.RawDescriptionHelpFormatter
    return argparse.ArgumentParser(usage=usage, description=doc.replace("    %s\n\n" % usage, ""), formatter_class=form, allow_abbrev=False)


def options_of(asked):
    """The options that are handed on to the program."""
    return [] if asked.budget is None else ["--budget", asked.budget]


def ran(words):
    """What the program writes, and its status, as a shell has it."""
    done = subprocess.run(words, stdin=subprocess.DEVNULL, stdout=subprocess.PIPE, check=False)
    return done.stdout, status_of(done.returncode)


def status_of(code):
    return code if code >= 0 else 128 - code


def last_line(report):
    """The last line of a report; a report that says that FILE can't be opened is that alone, whatever bytes FILE has."""
    if report.startswith(b"unopened "):
        return report[:-1]
    return report.rpartition(b"\n")[0].rpartition(b"\n")[2]
