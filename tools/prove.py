#!/usr/bin/env python3
"""Proves crates and those below them, and keeps what is built: prove.py NAME .., or prove.py --all

It starts `rt ci NAME` for each crate as soon as those below it are proved (graph.py), and then one `rt ci` over all of
them, whose verdict counts; each on a copy without the must-fail edits, since no option leaves these out. Nothing is
proved again that was proved on this machine. What is built is moved back; a static library, which `rt ci` only proves,
is built.

With names nothing is started if all is up to date, and what is said goes to standard error. With --all it is the gate,
for all crates that users run: the last line of its output is 'N passed, M failed'.
"""

import fcntl
import hashlib
import os
import pathlib
import shutil
import subprocess
import sys
import tempfile
import time

import crates
import graph
import kept
from crates import TOP


def stamp_of(crate, told):
    """The stamp of what is kept of a crate that was proved with this sum; empty if nothing is."""
    made = crate.out / crate.name if crate.is_program else crate.library
    made = made / "format" if made.is_dir() else made
    return f"{told} {hashlib.sha256(made.read_bytes()).hexdigest()}\n" if made.exists() else ""


def copy(top, wanted):
    """Copies these crates to a folder that `rt ci` takes for the top of a repository. Returns the sums of those that
    weren't changed meanwhile."""
    sums = {it.name: crates.sum_of(it.name) for it in wanted}
    for it in wanted:
        shutil.copytree(it.folder, top / "crates" / it.name, ignore=shutil.ignore_patterns("out", "must-fail"))
    (top / "crates.txt").write_text("".join(f"{it.line}\n" for it in wanted))
    shutil.copyfile(TOP / "HANDLES", top / "HANDLES")
    (top / ".git").mkdir()
    crates.forget_sums()
    return {name: it for name, it in sums.items() if it == crates.sum_of(name)}


def run(words, folder, say=lambda line: None):
    """Runs a command, and passes its lines on as they come. Returns its status and its lines."""
    how = {"stdin": subprocess.DEVNULL, "stdout": subprocess.PIPE, "stderr": subprocess.STDOUT, "errors": "replace"}
    lines, environment = [], {**os.environ, "PYTHONUNBUFFERED": "1"}
    with subprocess.Popen([str(it) for it in words], cwd=folder, env=environment, **how) as started:
        for line in started.stdout:
            lines.append(line)
            say(line)
    return started.returncode, lines


def static_library(crate, top):
    """Where a static library of a copy is built: beside the copy, since `rt ci` clears what is in it."""
    return top.with_name(crate.library.name)


def build_static(crate, top, priority=0):
    """Proves a static library in a copy over what was built there of the crates below it, and builds it."""
    library = lambda it: top / "crates" / it.name / "out" / "rlib" / f"{it.name}.rlib"
    words = [*crates.rattle_words("build", crate, library), "--jobs", len(os.sched_getaffinity(0)), "--backend", "llvm"]
    words += ["--toolchain", crates.kit("toolchain"), "-o", static_library(crate, top)]
    return run(["nice", "-n", priority, *words], top / "crates" / crate.name)


def prove_crate(crate, top, priority):
    """As `graph.run_ci`, and then builds a static library, while other crates are proved. What can't be built yet is
    built at the end."""
    status, output, seconds = graph.run_ci(crate, top, priority)
    if crate.is_static and not status and not run([sys.executable, kept.__file__, top, crate.name], top)[0]:
        began = time.monotonic()
        build_static(crate, top, priority)
        seconds += time.monotonic() - began
    return status, output, seconds


def keep(top, crate, told):
    """Moves what was built of a crate in a copy back, in place of what is here, and writes the sum of its text down."""
    out = top / "crates" / crate.name / "out"
    made = {out / it: crate.out / it for it in (crate.name, f"{crate.name}_tests")}
    made[static_library(crate, top) if crate.is_static else out / "rlib" / crate.library.name] = crate.library
    crate.stamp.parent.mkdir(parents=True, exist_ok=True)
    for source, target in made.items():
        if target.is_dir():
            shutil.rmtree(target)
        target.unlink(missing_ok=True)
        if source.exists():
            shutil.move(str(source), str(target))
    crate.stamp.write_text(stamp_of(crate, told))


def prove(wanted, tell, say, is_gate=False):
    """Proves these crates, of which each comes after those below it, and keeps what was built, or as the gate all that
    was; `tell` gets the progress, and `say` the lines of the last `rt ci`. Returns whether all is well, and these
    lines; without a proof there are none."""
    with tempfile.TemporaryDirectory(prefix="crackd-prove-") as room, open(TOP / "crates.txt") as lock:
        top = pathlib.Path(room) / "crackd"
        sums = copy(top, wanted)
        if not graph.Graph(wanted, top, tell, kept.names(top), prove_crate).run() and not is_gate:
            return False, []
        status, lines = run(["rt", "ci"], top, say)
        made = [it for it in wanted if it.is_static and is_current(it)]
        for crate in (it for it in wanted if it.is_static and it not in made and status == 0):
            if not static_library(crate, top).exists():
                status, lines = build_static(crate, top)
            say("".join(lines) if status else f"rt: {crate.name} is built\n")
        fcntl.flock(lock, fcntl.LOCK_EX)
        for crate in wanted if is_gate or status == 0 else ():
            if crate not in made:
                keep(top, crate, sums.get(crate.name, ""))
    return status == 0, lines


def is_current(crate):
    """Whether what is kept of a crate was proved with the sources and the toolchain as they are."""
    told = crate.stamp.read_text() if crate.stamp.exists() else ""
    return told != "" and told == stamp_of(crate, crates.sum_of(crate.name))


def prove_names(names):
    """Proves these crates and those below them, unless they are up to date. Returns whether all are proved."""
    wanted = crates.with_below(names)
    if all(map(is_current, wanted)):
        return True
    tell = lambda text: print(text, end="", file=sys.stderr, flush=True)
    is_news = lambda line: line.startswith("rt: ") and " is kept: " not in line
    is_well, lines = prove(wanted, tell, lambda line: tell(line) if is_news(line) else None)
    if not is_well:
        tell("".join(it for it in lines[-80:] if not it.startswith(graph.NOISE)))
    return is_well


def main(words):
    if words == ["--all"]:
        tell = lambda text: print(text, end="", flush=True)
        is_well, _ = prove(crates.proved(), tell, tell, is_gate=True)
    else:
        is_well = prove_names(crates.known(words)) if words else sys.exit(__doc__)
    return 0 if is_well else 1


if __name__ == "__main__":
    sys.exit(main(sys.argv[1:]))
