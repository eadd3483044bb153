"""What a program is made from, by content: a file beside the program has the checksums of its sources and of the program itself."""
import hashlib
import os
import subprocess

TOP = os.path.dirname(os.path.dirname(os.path.realpath(__file__)))
PROGRAM = "dk_check_cli"
# The folders of a crate of which the proved program is made, and the unproved one.
PROVED_FROM, COMPILED_FROM = ("src", "specs", "proofs"), ("src",)
# Before a look at the sources began: a file that changes while it is looked at is then newer.
SECONDS_BEFORE = 0.1


def stands_on(top=TOP):
    """For each crate of the repository the crates of the repository that it stands on."""
    named = {}
    with open(os.path.join(top, "crates.txt"), encoding="utf-8") as lines:
        for line in lines:
            name, colon, below = line.partition("#")[0].partition(":")
            if colon:
                named[name.split()[0]] = below.split()
    return {name: [it for it in below if it in named] for name, below in named.items()}


def needed(below, name=PROGRAM):
    """The crates that a crate stands on, itself among them."""
    found, waiting = set(), [name]
    while waiting:
        it = waiting.pop()
        if it not in found:
            found.add(it)
            waiting += below[it]
    return found


def files(parts, top=TOP):
    """The sources of the program: crates.txt and, of each crate that it stands on, the files of these parts."""
    found = [os.path.join(top, "crates.txt")]
    for name in sorted(needed(stands_on(top))):
        for part in parts:
            for folder, folders, names in os.walk(os.path.join(top, "crates", name, part)):
                folders.sort()
                found += [os.path.join(folder, it) for it in sorted(names) if it.endswith((".rt", ".antt"))]
    return found


def sum_of(parts, top=TOP):
    """The checksum of the program's sources, by their names and contents."""
    made = hashlib.sha256()
    for path in files(parts, top):
        with open(path, "rb") as file:
            made.update(repr((os.path.relpath(path, top), file.read())).encode())
    return made.hexdigest()


def sum_of_file(path):
    with open(path, "rb") as file:
        return hashlib.sha256(file.read()).hexdigest()


def noted(program):
    """What the file beside a program says: a word and a value a line."""
    try:
        with open(program + ".sources", encoding="utf-8") as file:
            return dict(line.rstrip("\n").partition(" ")[::2] for line in file)
    except OSError:
        return {}


def note(program, since, **said):
    """Writes the file beside a program whose sources were looked at by then."""
    path = program + ".sources"
    with open(path + ".new", "w", encoding="utf-8") as file:
        file.writelines(f"{word} {value}\n" for word, value in {**said, "program": sum_of_file(program)}.items())
    os.replace(path + ".new", path)
    touch(program, since)


def touch(program, since):
    """Has the file beside a program say that its sources were the same by then. Where it can't be written to, they are compared again."""
    try:
        os.utime(program + ".sources", (since - SECONDS_BEFORE, since - SECONDS_BEFORE))
    except OSError:
        pass


def is_same(program, made, since):
    """Whether the program is there, is the one that was noted, and was made from sources of this checksum, which was taken since then. None
    where it isn't the noted one."""
    if not os.access(program, os.X_OK):
        return False
    said = noted(program)
    if said.get("program") != sum_of_file(program):
        return None
    if said.get("sources") != made:
        return False
    touch(program, since)
    return True


def said_by(*words):
    """What a command writes, or nothing where it can't be called or fails."""
    try:
        return subprocess.run(words, stdin=subprocess.DEVNULL, capture_output=True, text=True, check=True).stdout.strip()
    except (OSError, subprocess.CalledProcessError):
        return ""


def commit(top=TOP):
    """The commit of a checkout, with a word where files differ from it, or `unknown`."""
    changes = said_by("git", "-C", top, "status", "--porcelain", "--untracked-files=no")
    return (said_by("git", "-C", top, "rev-parse", "HEAD") or "unknown") + (" with changes" if changes else "")


def kit():
    """The line by which the toolchain names itself, or `unknown`."""
    return said_by("rt", "version") or "unknown"
