"""Runs cases of hostile use with new seeds, in parallel, until the time is over: soak.py SECONDS [--top FOLDER] [--seed
N] [--only KIND ..] [--failures FOLDER]; or one case again: soak.py --again KIND SEED

Kinds that need the machine to themselves run one at a time, and beside them as many others as there are further
processors; histories get most of the time. Each case has its own seed; the first seed is random, and printed. What is
wrong with a case that fails is written to FOLDER, or to soak-failures/, with the command that repeats it, as far as the
schedule of threads allows. --top names another checkout whose programs are tested. Cases that have begun are finished
once the time is over. It prints counts by kind, and last 'N passed, M failed'.
"""

import argparse
import concurrent.futures
import dataclasses
import os
import pathlib
import random
import sys
import time
import typing

# a soak tries everything
os.environ["CRACKD_TESTS"] = "all"

import crowds
import fixtures
import ordered_script
import random_script
import test_clients
import test_csv
import test_devices
import test_histories
import test_lines
import test_memory
from fixtures import MOST_WORKERS, TOP
from test_clients import WHOLE, Hour, Storm

FAILURES = TOP / "soak-failures"
SEEDS = 2**32
# a kind that has failed this often isn't run again
MOST_FAILURES = 10


@dataclasses.dataclass
class Kind:
    """A kind of cases: what checks the program with a seed, its share of the time, and its results."""

    name: str
    check: typing.Callable[[str, int], object] | None
    needs: str = "crackd"
    shares: int = 1
    # whether only one case of all such kinds runs at a time, and whether it runs only once
    alone: bool = False
    once: bool = False
    passed: int = 0
    failed: int = 0
    seconds: float = 0.0

    @property
    def is_over(self) -> bool:
        return self.failed >= MOST_FAILURES or (self.once and self.passed + self.failed > 0)

    def told(self) -> str:
        return f"soak: {self.name} {self.passed} passed, {self.failed} failed, {self.seconds:.0f} seconds"

    def take_result(self, seed: int, wrong: str | None, seconds: float, failures: pathlib.Path) -> None:
        """Counts a case that has ended, and writes down what is wrong with it, and how to repeat it."""
        self.seconds += seconds
        self.passed += wrong is None
        self.failed += wrong is not None
        if wrong is not None:
            failures.mkdir(parents=True, exist_ok=True)
            command = f"python3 acceptance/soak.py --again {self.name} {seed}"
            (failures / f"{self.name}-{seed}.txt").write_text(f"{command}\n\n{wrong}\n")
            print(f"soak: {self.name} {seed} FAILED\n    {wrong}", flush=True)


def kinds() -> dict[str, Kind]:
    """All kinds by their names."""
    many_clients = lambda program, seed: Storm(program, seed, 3000, MOST_WORKERS, 40).run()
    whole_hour = lambda program, seed: Hour(program, seed, WHOLE).run()
    all_kinds = [
        Kind("clients-whole", many_clients, alone=True, once=True),
        Kind("hours-whole", whole_hour, alone=True, once=True),
        Kind("clients", test_clients.check, alone=True),
        Kind("hours", lambda program, seed: Hour(program, seed).run(), alone=True),
        Kind("crowds", crowds.check, alone=True),
        Kind("limits", test_clients.check_small, alone=True),
        Kind("threads", test_histories.soak, "crack_bench", shares=4),
        Kind("lines", test_lines.check),
        Kind("csv", test_csv.check),
        Kind("devices", test_devices.check),
        Kind("memory", test_memory.check),
        Kind("memory-workers", test_memory.check_workers),
        Kind("scripts", random_script.check),
        Kind("orders", ordered_script.check),
    ]
    return {it.name: it for it in all_kinds}


def chosen(top: pathlib.Path, only: list[str] | None) -> list[Kind]:
    """The requested kinds that can be run. Prints which can't."""
    can = []
    for kind in (it for it in kinds().values() if not only or it.name in only):
        lacks = "" if os.path.exists(fixtures.built(kind.needs, top)) else f"{kind.needs} isn't built"
        if kind.name.startswith("memory") and fixtures.refusing_library() is None:
            lacks = "no C compiler works here"
        print(f"soak: {kind.name} skipped, since {lacks}\n" if lacks else "", end="", flush=True)
        can += [] if lacks else [kind]
    return can


def run_case(name: str, top: pathlib.Path, seed: int) -> tuple[str | None, float]:
    """Runs one case. Returns what is wrong, or None, and how many seconds it took."""
    began, wrong = time.monotonic(), None
    try:
        kinds()[name].check(fixtures.built("crackd", top), seed)
    # whatever ends a case is reported, so that the others go on
    except Exception as error:  # noqa: BLE001
        wrong = f"{type(error).__name__}: {error}"
    return wrong, time.monotonic() - began


def next_kind(of: list[Kind]) -> Kind | None:
    """The kind that has had the smallest part of its share of the time, of those that aren't over."""
    return min((it for it in of if not it.is_over), key=lambda it: it.seconds / it.shares, default=None)


def soak(seconds: float, top: pathlib.Path, of: list[Kind], first: int, failures: pathlib.Path) -> None:
    """Runs cases until the time is over: one lane has those that run alone, the other lanes the rest."""
    end, seeds, lanes = time.monotonic() + seconds, random.Random(first), max(2, os.cpu_count())

    def run_lane(number: int) -> None:
        own = [it for it in of if it.alone == (number == 0)]
        while time.monotonic() < end and (kind := next_kind(own)):
            seed = seeds.randrange(SEEDS)
            kind.take_result(seed, *pool.submit(run_case, kind.name, top, seed).result(), failures)

    with concurrent.futures.ProcessPoolExecutor(lanes) as pool:
        fixtures.all_at_once(run_lane, range(lanes))


def main() -> int:
    parser = argparse.ArgumentParser(description=__doc__, formatter_class=argparse.RawDescriptionHelpFormatter)
    parser.add_argument("seconds", type=float, nargs="?")
    parser.add_argument("--top", type=pathlib.Path, default=TOP, metavar="FOLDER")
    parser.add_argument("--seed", type=int, default=random.SystemRandom().randrange(SEEDS))
    parser.add_argument("--only", nargs="+", choices=kinds(), metavar="KIND")
    parser.add_argument("--failures", type=pathlib.Path, default=FAILURES, metavar="FOLDER")
    parser.add_argument("--again", nargs=2, metavar=("KIND", "SEED"))
    it = parser.parse_args()
    if it.again:
        wrong, seconds = run_case(it.again[0], it.top, int(it.again[1]))
        print(f"soak: {' '.join(it.again)} {wrong or 'passed'}, {seconds:.1f} seconds")
        return 1 if wrong else 0
    if it.seconds is None:
        sys.exit(__doc__)
    of = chosen(it.top, it.only)
    print(f"soak: {it.seconds:.0f} seconds from the seed {it.seed}", flush=True)
    soak(it.seconds, it.top, of, it.seed, it.failures)
    print("\n".join(kind.told() for kind in of))
    passed, failed = sum(kind.passed for kind in of), sum(kind.failed for kind in of)
    print(f"{passed} passed, {failed} failed", flush=True)
    return 1 if failed or not passed else 0


if __name__ == "__main__":
    sys.exit(main())
