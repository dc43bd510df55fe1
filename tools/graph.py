"""Proves crates in parallel by `rt ci NAME`, each as soon as those below it are proved.

First comes the crate with the longest chain of crates above it, by the seconds that each took last: those of the last
run in this checkout, or else those of tools/seconds, measured on 4 processors. Crates that are on no such chain run at
a lower priority. What `rt ci` passes is kept on this machine; what was kept before isn't started.
"""

import concurrent.futures
import os
import pathlib
import re
import subprocess
import time

import crates

SECONDS = pathlib.Path(__file__).resolve().with_name("seconds")
# the seconds of a crate that no run has measured, and the memory for each crate that is proved, in bytes
UNKNOWN, MEMORY = 60, 5_000_000_000
# lines of a check's output that don't help to correct a crate
NOISE = ("checked ", "so far: ", "statements ", "by-macro: ", "logic ", "rt: chose ")
# a crate keeps its full priority if its chain is at least so much of the longest one
LONG = 0.9


def lanes(processors=None):
    """How many crates are proved at once: `rt ci` gives a crate more than one processor where no other needs it, and up
    to 5 GB."""
    of_processors = (processors or len(os.sched_getaffinity(0))) * 3 // 4
    memory = 1024 * int(re.search(r"MemTotal:\s+(\d+)", pathlib.Path("/proc/meminfo").read_text())[1])
    return max(1, min(of_processors, memory // MEMORY))


def measured(crate):
    """The file with the seconds that a crate's last proof took in this checkout."""
    return crate.stamp.with_name("seconds")


def seconds_of(wanted):
    """The seconds that the last proof of each crate took, by name."""
    known = dict(line.split() for line in crates.read(SECONDS).splitlines())
    own = {it.name: crates.read(measured(it)) for it in wanted if measured(it).exists()}
    return {it.name: float(own.get(it.name) or known.get(it.name, UNKNOWN)) for it in wanted}


def chains(wanted, seconds):
    """For each crate, by name, the seconds of the longest chain of crates that begins with it."""
    found = {}
    for it in reversed(wanted):
        found[it.name] = seconds[it.name] + max((found[one.name] for one in wanted if it.name in one.uses), default=0)
    return found


def ready(wanted, done, begun, chain):
    """The crates that can be begun, those of the longest chains first."""
    own = {it.name for it in wanted}
    left = [it for it in wanted if it.name not in done and it.name not in begun]
    return sorted((it for it in left if own.intersection(it.uses) <= set(done)), key=lambda it: -chain[it.name])


def simulated(wanted, seconds, at_once, done=(), ends=None):
    """How many seconds the rest takes, given the names of those done, and for those running when they end."""
    done, ends, now, chain = set(done), dict(ends or {}), 0.0, chains(wanted, seconds)
    while len(done) < len(wanted):
        for it in ready(wanted, done, ends, chain)[: max(0, at_once - len(ends))]:
            ends[it.name] = now + seconds[it.name]
        first = min(ends, key=ends.get)
        now = max(now, ends.pop(first))
        done.add(first)
    return now


def run_ci(crate, top, priority):
    """Proves a crate of a copy, over those below it, which are kept. Returns the status, the output and the seconds."""
    environment = {name: it for name, it in os.environ.items() if name != "CI"}
    how = {"stdin": subprocess.DEVNULL, "stdout": subprocess.PIPE, "stderr": subprocess.STDOUT, "text": True}
    command, began = ["nice", "-n", str(priority), "rt", "ci", crate.name], time.monotonic()
    ended = subprocess.run(command, cwd=top, env=environment, errors="replace", check=False, **how)
    return ended.returncode, ended.stdout, time.monotonic() - began


class Graph:
    """Crates, of which each comes after those that it uses: those done, those running, and those that failed."""

    def __init__(self, wanted, top, say, done, prove=run_ci):
        self.wanted, self.top, self.say, self.prove = wanted, top, say, prove
        self.done, self.failed, self.running = {it.name for it in wanted} & set(done), [], {}
        self.seconds, self.at_once = seconds_of(wanted), lanes()
        self.chain = chains(wanted, self.seconds)
        # the seconds that took what this run proved, and those that it had taken before
        self.took, self.expected = 0.0, 0.0

    def begin(self, pool):
        """Begins as many crates as may run at once, unless one failed."""
        running = {it.name for it, _ in self.running.values()}
        waiting = [] if self.failed else ready(self.wanted, self.done, running, self.chain)
        longest = max((self.chain[it.name] for it in self.wanted if it.name not in self.done), default=0)
        for it in waiting[: self.at_once - len(self.running)]:
            priority = 0 if self.chain[it.name] >= LONG * longest else 10
            self.running[pool.submit(self.prove, it, self.top, priority)] = it, time.monotonic()

    def end(self, task):
        """Notes how a crate ended. Returns what is to be said of that."""
        crate, _ = self.running.pop(task)
        status, output, seconds = task.result()
        told = f"prove: {crate.name} {'FAILED' if status else 'is proved'} after {seconds:.0f} s"
        if status:
            self.failed.append(crate.name)
            lines = [it for it in output.splitlines(keepends=True) if not it.startswith(NOISE)]
            return f"{''.join(lines[-80:])}{told}"
        self.done.add(crate.name)
        self.took, self.expected = self.took + seconds, self.expected + self.seconds[crate.name]
        measured(crate).parent.mkdir(parents=True, exist_ok=True)
        measured(crate).write_text(f"{seconds:.0f}\n")
        return told

    def progress(self):
        """How many are done, which are running, how many are left, and in how many minutes all are done, at the speed
        of this run so far."""
        speed = self.took / self.expected if self.expected else 1.0
        seconds, now = {name: it * speed for name, it in self.seconds.items()}, time.monotonic()
        ends = {it.name: max(1.0, seconds[it.name] - now + began) for it, began in self.running.values()}
        left = len(self.wanted) - len(self.done) - len(self.running) - len(self.failed)
        told = f"{len(self.done)} of {len(self.wanted)} done, running: {' '.join(sorted(ends)) or 'none'}, {left} left"
        if self.failed:
            return told
        minutes = simulated(self.wanted, seconds, self.at_once, self.done, ends) / 60
        return f"{told}, {minutes:.0f} minutes to go"

    def run(self):
        """Proves all, or up to the first that fails. Returns whether all are proved."""
        if self.done:
            self.say(f"prove: {len(self.done)} of {len(self.wanted)} are kept from earlier runs on this machine\n")
        with concurrent.futures.ThreadPoolExecutor(self.at_once) as pool:
            self.begin(pool)
            while self.running:
                for task in concurrent.futures.wait(self.running, None, concurrent.futures.FIRST_COMPLETED).done:
                    told = self.end(task)
                    self.begin(pool)
                    self.say(f"{told}; {self.progress()}\n")
        return len(self.done) == len(self.wanted)
