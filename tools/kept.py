"""Which crates `rt ci` would find proved by an earlier run on this machine, and their libraries: kept.py TOP NAME puts
those below a crate into a copy, and ends with 0 if all are kept.

`rt ci` keeps what it proved beside the toolchain, under a sum of all that the proof read. The code of `rt` computes
that sum here too, so that `rt` needn't be started for a crate that is kept. Where that code has another form, nothing
is known to be kept: each crate is then left to `rt ci`, whose verdict alone counts.
"""

import contextlib
import hashlib
import importlib.machinery
import importlib.util
import json
import os
import pathlib
import sys

import crates


def load():
    """The code of `rt`, as a module."""
    loader = importlib.machinery.SourceFileLoader("rattle_rt", str(crates.kit("bin/rt")))
    module = importlib.util.module_from_spec(importlib.util.spec_from_loader("rattle_rt", loader))
    loader.exec_module(module)
    return module


def made_of(store, crate, is_tests, key):
    """The files that an earlier run made of a crate, or of its tests, each with its sum; None if it isn't kept."""
    try:
        told = json.loads(pathlib.Path(store.place(crate, is_tests, key), "made.json").read_text(encoding="utf-8"))
    except OSError:
        return None
    return [(path, it) for path, it in told["files"]] if told["key"] == key else None


def found(rt, top):
    """The names of the crates in a copy that are kept, by the code of `rt`."""
    rt.Crate.allowed = rt.handles_of(top)
    names, every = set(), rt.crates_of(top)
    store = rt.Kept(every)
    for crate in every:
        if all(it.name in names for it in crate.below()):
            key = store.key(crate)
            made = made_of(store, crate, False, key)
            if made is not None and (not crate.has_tests() or made_of(store, crate, True, key) is not None):
                names.add(crate.name)
                # as `rt` itself notes it of a library, for the sums of the crates above
                files = [] if crate.is_program else made
                store.rlibs[crate.name] = hashlib.sha256(repr(files).encode()).hexdigest()
    return names


def give(rt, top, name):
    """Puts the kept libraries below a crate into a copy, by the code of `rt`. Returns whether all are there."""
    rt.Crate.allowed = rt.handles_of(top)
    every = rt.crates_of(top)
    store, [crate] = rt.Kept(every), [it for it in every if it.name == name]
    for it in (it for it in every if it in crate.below()):
        if not store.give(it, False, store.key(it)):
            return False
        store.is_built(it)
    return True


def names(top):
    """The names of the crates in a copy, as `prove.copy` makes it, that an earlier run proved. Empty if that can't be
    read from `rt`."""
    written = sys.dont_write_bytecode
    try:
        with open(os.devnull, "w") as nothing, contextlib.redirect_stderr(nothing), contextlib.redirect_stdout(nothing):
            return found(load(), str(top))
    except (Exception, SystemExit):  # whatever the code of another toolchain raises
        return set()
    finally:
        sys.dont_write_bytecode = written


if __name__ == "__main__":
    try:
        sys.exit(0 if give(load(), *sys.argv[1:]) else 1)
    except Exception:  # whatever the code of another toolchain raises
        sys.exit(1)
