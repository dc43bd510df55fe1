#!/usr/bin/env python3
"""Tries must-fail edits, wrong bodies that the prover must refuse: edits.py [CRATE ..], or edits.py --due SECONDS

It tries all edits, or those of the named crates, or as many of those that are due (due.py) as it can begin in SECONDS.
First it proves their crates. Then it tries edits in parallel, as many as there are processors and memory for. Each try
starts from what an earlier check of its crate kept. The last line is 'N passed, M failed', and ', K skipped' if there
was no time for K. After a run over all or over those that are due, tools/edits-tried names the commit and what still
waits: those that were left and those that weren't refused. A run over named crates takes out those that it refuses.

Edits of different functions are tried in one check: a proof cites the contracts of other functions, never their bodies,
and a check reports for each function whether its own proof holds, or only lacks another's. Functions of which one may
call the other are tried separately. An edit is refused if its function isn't proved. One that a check of several edits
leaves open is tried again among fewer, and finally alone: then it is refused if the crate isn't proved. An edit that
the prover can't read is a failure, like one that isn't refused. An edit that can't be applied ends the run.
"""

import concurrent.futures
import dataclasses
import functools
import os
import pathlib
import re
import shutil
import sys
import tempfile
import threading
import time

import crates
import due
import prove
from reading import sources

TRIED = crates.TOP / "tools" / "edits-tried"
# the greatest number of edits that one check tries, by round
SIZES = (8, 3, 1)
UNREAD = re.compile(r"is not in scope|has no field|is no name|operand is missing|expected the end|cannot continue")
ERROR = re.compile(r"(?:\./)?(\S+?):\d+:\d+: error: (?:(`[^`]*`): )?(.*)")


@dataclasses.dataclass(frozen=True)
class Edit:
    """An edit: its crate, name, changes (file, old text, new text), and the only function that it changes, if any."""

    crate: str
    name: str
    changes: tuple = ()
    function: sources.Function = None

    @property
    def label(self):
        return f"{self.crate}/{self.name}"


@functools.lru_cache(maxsize=None)
def sources_of(name):
    """The files of src/ of a crate by path, and for each of its functions those that it may call, directly or not."""
    files = sources.Names().read(crates.listed()[name].folder)
    return {f"src/{it.path.as_posix().rpartition('/src/')[2]}": it for it in files}, sources.reached(files)


def applied(crate, edits):
    """The texts of a crate's files after these edits, each change's file and line, and why they can't be made."""
    texts, places = {}, []
    for file, old, new in (change for it in edits for change in it.changes):
        if not (crate.folder / file).is_file() or file.partition("/")[0] not in crates.PARTS:
            return texts, places, f"there is no file {file}"
        text = texts.get(file) or (crate.folder / file).read_text()
        if text.count(old) != 1:
            return texts, places, f"an 'old:' text is in {file} {text.count(old)} times, and not once"
        places.append((file, text[: text.find(old)].count("\n")))
        texts[file] = text.replace(old, new)
    return texts, places, ""


def read(path, crate):
    """Reads an edit, and exits if it isn't one or can't be applied."""
    file, old, changes = "", None, []
    for line in path.read_text(encoding="utf-8", errors="replace").split("\n"):
        word, _, text = line.partition(":")
        if word == "file":
            file = text.strip()
        elif word == "old":
            old = text.removeprefix(" ")
        elif word == "new" and file and old:
            changes.append((file, old, text.removeprefix(" ")))
            old = None
    found, (files, _) = Edit(crate.name, path.name, tuple(changes)), sources_of(crate.name)
    _, places, fault = applied(crate, [found])
    if path.suffix != ".edit" or not changes or old:
        fault = "an edit is a file NAME.edit with the names of files, each with pairs of 'old:' and 'new:'"
    if fault:
        sys.exit(f"BAD EDIT {found.label}: {fault}")
    # an old and a new text have one line each, so lines keep their numbers
    inside = {files[it].function_at(at) if it in files else None for it, at in places}
    return dataclasses.replace(found, function=inside.pop() if len(inside) == 1 else None)


def edits_of(crate):
    """The edits of a crate, in the order of their names."""
    return [read(it, crate) for it in sorted((crate.folder / "must-fail").glob("*")) if it.suffix != ".md"]


def are_apart(one, other):
    """Whether two edits of a crate change one function each, two different ones of which neither may call the other."""
    if not one.function or not other.function or one.function == other.function:
        return False
    _, reached = sources_of(one.crate)
    return other.function not in reached.get(one.function, ()) and one.function not in reached.get(other.function, ())


def batches(crate, edits, size):
    """Divides edits of a crate into lists of at most so many that can be tried together."""
    made = []
    for edit in sorted(edits, key=lambda it: sum(are_apart(it, other) for other in edits)):
        apart = (it for it in made if len(it) < size and all(are_apart(edit, other) for other in it))
        batch = next((it for it in apart if not applied(crate, [*it, edit])[2]), None)
        if batch is None:
            made.append([edit])
        else:
            batch.append(edit)
    return made


class Check:
    """What a check of a crate with some edits said. If there are none, checks with edits begin with what it keeps."""

    def __init__(self, crate, edits):
        texts, kept = applied(crate, edits)[0], self.kept_of(crate)
        with tempfile.TemporaryDirectory(prefix="crackd-edit-") as name:
            room = pathlib.Path(name)
            for part in filter(lambda it: (crate.folder / it).is_dir(), crates.PARTS):
                shutil.copytree(crate.folder / part, room / part)
            for file, text in texts.items():
                (room / file).write_text(text)
            for it in kept.parent.glob("start-*"):
                shutil.copytree(it, room / "kept")
            words = [*crates.rattle_words("check", crate), "--jobs", "1", "--incremental", "kept"]
            self.status, lines = prove.run(words, room)
            if self.status not in (0, 1):
                # a check that ended in neither way, for example one killed for lack of memory, is repeated once
                self.status, lines = prove.run(words, room)
            if not edits and self.status == 0:
                for it in kept.parent.glob("start-*"):
                    shutil.rmtree(it)
                shutil.move(room / "kept", kept)
        self.lines = [it.rstrip("\n") for it in lines]
        self.verdict = next((it for it in reversed(self.lines) if it.startswith("logic=")), "")
        self.is_read = not any(self.is_unread(it, texts) or "could not be used" in it for it in self.lines)
        found = [re.match(rf"fn {crate.name}::(\S+): (.*)", it) for it in self.lines]
        self.functions = {it[1]: it[2] for it in found if it}

    @staticmethod
    def kept_of(crate):
        """The folder of what a check of a crate as it stands keeps."""
        return crate.out / "proved" / f"start-{crates.sum_of(crate.name)[:16]}"

    @staticmethod
    def is_unread(line, texts):
        """Whether a text of src/, specs/ or a changed file could not be read; an edit that only makes a statement false
        can be."""
        found = ERROR.match(line)
        if not found or not (found[1] in texts or found[1].startswith(("src/", "specs/"))):
            return False
        return not found[2] or bool(UNREAD.search(re.sub(r"`[^`]*`", "", found[3])))

    def verdict_on(self, edit, is_alone):
        """Whether an edit is refused, and what to say; None if a check of several edits leaves it open."""
        is_refused = self.status == 1 and self.verdict.startswith("logic=not-proved") and self.is_read
        if is_refused and (is_alone or self.is_unproved(edit.function)):
            return True, f"refused: {self.first_error(edit.function)}"
        if not is_alone:
            return None
        if self.status == 0:
            return False, "NOT REFUSED: the crate is still proved with this edit"
        return False, f"BAD EDIT: no contract was tried: {self.first_error()}"

    def is_unproved(self, function):
        """Whether a function isn't proved itself: one that no file answers has no proof, and the check says what to
        answer; one that lacks another's proof names it."""
        named = [said for name, said in self.functions.items() if function.is_named(name.split("::"))]
        return any(it.startswith(("not proved", "no proof: expected answers")) for it in named)

    def first_error(self, function=None):
        """The first error, or the first about a function; else the last line."""
        parts = {*function.module, function.owner, function.name} - {""} if function else set()
        errors = (it for it in self.lines if (found := ERROR.match(it)) and parts.issubset(found[1].split("/")))
        return next(errors, self.lines[-1] if self.lines else "")[:200]


@functools.lru_cache(maxsize=None)
def need_of(crate):
    """How much memory a check of a crate may take, in bytes, as measured: a gigabyte, and an amount per line."""
    lines = lambda it, ending: sum(file.read_bytes().count(b"\n") for file in it.sources() if file.suffix == ending)
    own = 1_000_000 * lines(crate, ".rt") + 200_000 * lines(crate, ".antt")
    return 1_000_000_000 + own + 80_000 * sum(lines(it, ".rt") for it in crates.below(crate.name))


def side_by_side(tasks, is_over):
    """Makes calls in parallel, as many as there are processors and memory for, given each with its crate and the place
    of the call that must end first, or None. Returns their results; None if one wasn't begun, since it was over."""
    memory = re.search(r"MemAvailable:\s+(\d+)", pathlib.Path("/proc/meminfo").read_text())
    room, changed, count = 0.85 * 1024 * int(memory[1]), threading.Condition(), len(os.sched_getaffinity(0))
    waiting, running, results = [*range(len(tasks))], [], {}

    def next_one():
        taken = sum(need_of(tasks[it][0]) for it in running)
        fits = lambda it: tasks[it][2] in {None, *results} and (not running or taken + need_of(tasks[it][0]) <= room)
        return next(filter(fits, waiting), None)

    def work(_):
        while True:
            with changed:
                changed.wait_for(lambda: not waiting or next_one() is not None)
                if (at := next_one()) is None:
                    return
                waiting.remove(at)
                running.append(at)
            try:
                results[at] = None if is_over() else tasks[at][1]()
            except BaseException:
                waiting.clear()
                raise
            finally:
                with changed:
                    running.remove(at)
                    changed.notify_all()

    with concurrent.futures.ThreadPoolExecutor(count) as pool:
        list(pool.map(work, range(count)))
    return [results[it] for it in range(len(tasks))]


class Trials:
    """Tries edits in rounds, until each has ended or the time is over."""

    def __init__(self, edits, ends):
        # the edits that wait, and for each edit that was tried, by its label, whether it was refused
        self.ends, self.waiting, self.verdicts = ends, edits, {}

    def keep(self, crate):
        """Checks a crate without edits, for what is kept of that."""
        check = Check(crate, [])
        if check.status:
            sys.exit(f"{crate.name} isn't proved without an edit: {check.first_error()}")

    def try_batch(self, crate, batch):
        """Tries some edits in one check. Returns those that it leaves open; an edit by itself is judged."""
        check = Check(crate, batch)
        verdicts = {it: check.verdict_on(it, len(batch) == 1) for it in batch}
        for edit, (is_refused, text) in ((it, verdict) for it, verdict in verdicts.items() if verdict):
            self.verdicts[edit.label] = is_refused
            print(f"must-fail {edit.label}: {text}", flush=True)
        return [it for it in batch if not verdicts[it]]

    def run(self):
        """Tries all that wait, each round among at most so many. Those for which there was no time stay in the list."""
        is_over = lambda: time.monotonic() > self.ends
        for size in SIZES:
            of_crate = lambda crate: [it for it in self.waiting if it.crate == crate.name]
            every = [(crate, it) for crate in crates.listed().values() for it in batches(crate, of_crate(crate), size)]
            # checking a crate without edits first doesn't pay for a single check
            many = {crate for crate, it in every if len(it) < len(of_crate(crate))}
            bare = sorted((it for it in many if not Check.kept_of(it).exists()), key=need_of, reverse=True)
            every.sort(key=lambda it: min(map(self.waiting.index, it[1])))
            first = {crate: at for at, crate in enumerate(bare)}
            tasks = [(crate, functools.partial(self.keep, crate), None) for crate in bare]
            tasks += [(crate, functools.partial(self.try_batch, crate, it), first.get(crate)) for crate, it in every]
            results = zip(every, side_by_side(tasks, is_over)[len(bare) :])
            self.waiting = [edit for (_, batch), left in results for edit in (batch if left is None else left)]


def note(trials, is_whole):
    """Writes to tools/edits-tried what waits after a run, over all that was due or over some crates. A checkout whose
    crates have changes that aren't committed says nothing about a commit."""
    _, waiting = due.known(TRIED)
    head, is_changed = due.git("rev-parse", "HEAD"), due.git("status", "--porcelain", "--", "crates", "crates.txt")
    if not head or is_changed or not (is_whole or waiting):
        return
    if is_whole:
        left = [it.label for it in trials.waiting] + [it for it in trials.verdicts if not trials.verdicts[it]]
        due.note(TRIED, head.decode().strip(), sorted(left))
    else:
        due.note(TRIED, TRIED.read_text().split()[0], [it for it in waiting if not trials.verdicts.get(it)])


def main(names):
    ends, edits, is_due = float("inf"), [edit for it in crates.listed().values() for edit in edits_of(it)], False
    if len(names) == 2 and names[0] == "--due":
        ends, is_due = time.monotonic() + int(names[1]), True
        edits, said = due.due(edits, TRIED)
        print(said, flush=True)
    elif crates.known(names):
        edits = [it for it in edits if it.crate in names]
    if not prove.prove_names(sorted({it.crate for it in edits})):
        print(f"edits: a crate isn't proved, so none was tried\n0 passed, 1 failed, {len(edits)} skipped")
        return 1
    trials, before = Trials(edits, ends), os.times()
    trials.run()
    seconds = sum(os.times()[2:4]) - sum(before[2:4])
    print(f"edits: {len(trials.verdicts)} were tried of {len(edits)}, in {seconds:.0f} processor seconds")
    note(trials, is_due or not names)
    failed, left = [*trials.verdicts.values()].count(False), len(trials.waiting)
    if left:
        print(f"edits: {left} wait for a run with more time: tools/edits-tried names them, and is to be committed")
    skipped = f", {left} skipped" if left else ""
    print(f"{len(trials.verdicts) - failed} passed, {failed} failed{skipped}", flush=True)
    return 1 if failed else 0


if __name__ == "__main__":
    sys.exit(main(sys.argv[1:]))
