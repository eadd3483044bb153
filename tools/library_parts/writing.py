"""What tools/merged and tools/replay_of have in common: words, a table of places, and statuses."""
import os
import signal
import sys

from .books import Unmerged
from .merging import Merged
from .program import reader_of


def write(doc, text_of):
    """Writes what a script makes of FILE's merged theory, and with --places its table; the status."""
    signal.signal(signal.SIGPIPE, signal.SIG_DFL)
    reader = reader_of(doc)
    reader.add_argument("--places", metavar="TABLE", help="where to write the place of each command")
    reader.add_argument("file", metavar="FILE")
    asked = reader.parse_args()
    try:
        merged = Merged(asked.file)
    except Unmerged as error:
        sys.stderr.buffer.write(error.line + b"\n")
        return error.status
    try:
        if asked.places is not None:
            with open(asked.places, "wb") as file:
                file.write(merged.table())
        sys.stdout.buffer.write(text_of(merged))
        sys.stdout.buffer.flush()
    except OSError as error:
        sys.stderr.write("not written: %s\n" % error.strerror)
        # What is left isn't written at the end either.
        os.dup2(os.open(os.devnull, os.O_WRONLY), sys.stdout.fileno())
        return 5
    return 0
