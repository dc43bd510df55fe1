#!/usr/bin/env python3
"""Tests what `make run` and `make lib-unproved` build, or the proved program and library: tests.py [--all]

It builds, as far as that wasn't done, the program, the library, the benchmark and the test programs of the crates that
aren't proved, beside each other. On these it runs the acceptance cases, the checks, among them the unit tests, and the
tests of the Python package. Nothing is installed: what needs a package that isn't there is skipped and named.

What searches long tries few seeds, clients and places, drawn from a seed that is printed; with CRACKD_SEED=N in the
environment the same ones again. With --all it tries everything. The last line is the sum, 'N passed, M failed', with
', K skipped' after it if anything was; the status is 0 only if nothing failed.
"""

import concurrent.futures
import os
import random
import re
import shutil
import subprocess
import sys
import tempfile
import threading
import time

import build
import crates
from crates import TOP

SUM = re.compile(r"^(?:\w+: )?(\d+) passed, (\d+) failed(?:, (\d+) skipped)?$", re.MULTILINE)
ACCEPTANCE, SEEDS = TOP / "acceptance", 2**32
# as a crate's tests are compiled
TESTS_OF_CRATE = ["--test", "src/lib.rt"]


def of_tests():
    """The crates whose tests are compiled, those with most text first."""
    size = lambda crate: sum(it.stat().st_size for it in crate.sources())
    return sorted((it for it in crates.listed().values() if it.name.endswith("_tests")), key=size, reverse=True)


def test_program(crate):
    """The test program of a crate, with all checks at run time."""
    return build.compiled_program(crate.name, crate.out / f"{crate.name}_tests", build.UNPROVED, TESTS_OF_CRATE)


def build_all():
    """Builds all that is tested, one build for each processor at a time. Returns the program."""
    calls = [build.program, build.bench, *(lambda crate=it: test_program(crate) for it in of_tests()), build.library]
    with concurrent.futures.ThreadPoolExecutor(len(os.sched_getaffinity(0))) as pool:
        return [it.result() for it in [pool.submit(it) for it in calls]][0]


class Step(threading.Thread):
    """A command that prints its sum last, and how many seconds it took. Its output is printed as it comes, or once it
    has ended if it runs beside others."""

    def __init__(self, name, words, is_beside=False):
        super().__init__()
        self.name, self.words, self.is_beside, self.output = name, list(map(str, words)), is_beside, []
        self.passed, self.failed, self.skipped, self.seconds = 0, 0, 0, 0.0
        self.start()

    def say(self, line):
        """Prints a line. A sum gets the step's name before it, since only the last line of all has that form."""
        print(f"{self.name}: {line}" if SUM.match(line) else line, end="", flush=True)

    def run(self):
        began, how = time.monotonic(), {"stdin": subprocess.DEVNULL, "stdout": subprocess.PIPE, "text": True}
        with subprocess.Popen(self.words, stderr=subprocess.STDOUT, cwd=TOP, errors="replace", **how) as it:
            for line in it.stdout:
                self.output.append(line)
                if not self.is_beside:
                    self.say(line)
        self.seconds, found = time.monotonic() - began, SUM.findall("".join(self.output))
        if found:
            self.passed, self.failed, self.skipped = (int(number or 0) for number in found[-1])
        if not found or (it.returncode and not self.failed):
            self.output.append(f"{self.name}: FAILED, with status {it.returncode}\n")
            self.failed += 1

    def ended(self):
        """The same step, once it has ended."""
        self.join()
        for line in self.output if self.is_beside else self.output[-1:] if self.failed else []:
            self.say(line)
        return self


def all_steps(program):
    """Runs all tests of a program, under the name that its texts have. Returns the steps that have ended."""
    with tempfile.TemporaryDirectory(prefix="crackd-tests-") as room:
        named = shutil.copy2(program, os.path.join(room, build.PROGRAM))
        os.environ["CRACKD"] = named
        package = Step("package", [sys.executable, ACCEPTANCE / "package.py", named], is_beside=True)
        cases = Step("cases", [sys.executable, ACCEPTANCE / "run_cases.py", named]).ended()
        checks = Step("checks", [sys.executable, ACCEPTANCE / "run_checks.py"]).ended()
        return [cases, checks, package.ended()]


def main(words):
    if words not in ([], ["--all"]):
        sys.exit(__doc__)
    if words:
        os.environ["CRACKD_TESTS"] = "all"
    else:
        os.environ.pop("CRACKD_TESTS", None)
    seed = os.environ.setdefault("CRACKD_SEED", str(random.SystemRandom().randrange(SEEDS)))
    print("tests: everything" if words else f"tests: a part, drawn from the seed {seed}", flush=True)
    began = time.monotonic()
    program = build_all()
    took = [f"building {time.monotonic() - began:.0f}"]
    steps = all_steps(program)
    took += [f"{it.name} {it.seconds:.0f}" for it in steps]
    print(f"tests: seconds on {len(os.sched_getaffinity(0))} processors: {', '.join(took)}")
    passed, failed, skipped = (sum(getattr(it, name) for it in steps) for name in ("passed", "failed", "skipped"))
    print(f"{passed} passed, {failed} failed" + (f", {skipped} skipped" if skipped else ""), flush=True)
    return 1 if failed else 0


if __name__ == "__main__":
    sys.exit(main(sys.argv[1:]))
