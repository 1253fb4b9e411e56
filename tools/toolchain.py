"""The command `rt` of the Rattle toolchain, as a Python module. Only this file imports it.

Why: `rt` has no option that checks an edited copy of one crate over libraries that are proved already. `rt must-fail`
has one check for each edit, which for the mutants of this repository takes many hours, and `rt lib` and `rt try` prove
or check more than is asked. The functions inside of `rt` do what is wanted.

What breaks: these are no interface, so another release of the toolchain may rename them. Then `load` names what it
misses and ends with status 1. Of the gate these steps fail: `tools/mutants`, `tests/corpus/computed`,
`tests/library/lent`, and in `tests/library/library` the step 'the static library'. `tools/try` runs `rt try` as it is,
which takes twice the time. The proofs don't depend on this file: `rt ci` makes them, and it tries the mutants that are
files `.edit`.
"""
import importlib.machinery
import importlib.util
import os
import shutil
import sys

sys.dont_write_bytecode = True
# What is used: of rt itself, of its part rtlib, and of a crate.
USED = {
    "rt": ("checked", "unread", "processors", "main"),
    "rt.rtlib": ("crates_below", "guarded", "PARTS", "RATTLE"),
    "rt.rtlib.Crate": ("below", "build_rlib", "build_static", "count"),
}


def load():
    """The module. Ends the process where there is no `rt`, or where it lacks a name that is used."""
    path = os.path.realpath(shutil.which("rt") or sys.exit("toolchain: there is no command rt"))
    loader = importlib.machinery.SourceFileLoader("rt", path)
    rt = importlib.util.module_from_spec(importlib.util.spec_from_loader("rt", loader))
    loader.exec_module(rt)
    missing = missing_in(rt)
    if missing:
        sys.exit(f"toolchain: {path} has no {', '.join(missing)}: see tools/toolchain.py")
    return rt


def missing_in(rt):
    """The names that are used and aren't there."""
    places = {"rt": rt, "rt.rtlib": getattr(rt, "rtlib", None)}
    places["rt.rtlib.Crate"] = getattr(places["rt.rtlib"], "Crate", None)
    return [f"{place}.{name}" for place, names in USED.items() for name in names if not hasattr(places[place], name)]


def crate_named(rt, name):
    """A crate of the repository in the current folder."""
    return next(it for it in rt.rtlib.crates_below(os.getcwd()) if it.name == name)
