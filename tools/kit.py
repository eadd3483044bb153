"""The toolchain's command `rt` as a module, for the scripts beside this one that do what it has no word for."""
import contextlib
import importlib.machinery
import importlib.util
import os
import shutil
import sys

TOP = os.path.dirname(os.path.dirname(os.path.realpath(__file__)))


def rt_module():
    """`rt`, loaded and not run."""
    sys.dont_write_bytecode = True
    path = os.path.realpath(shutil.which("rt"))
    loader = importlib.machinery.SourceFileLoader("rt", path)
    made = importlib.util.module_from_spec(importlib.util.spec_from_loader("rt", loader))
    words, sys.argv = sys.argv, ["rt"]
    try:
        loader.exec_module(made)
    finally:
        sys.argv = words
    made.rtlib.Crate = made.Crate
    return made


def crates(rt, top=TOP):
    """The crates of a checkout, by name."""
    with contextlib.chdir(top):
        return {it.name: it for it in rt.rtlib.crates_below(top)}
