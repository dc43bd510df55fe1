"""Runs the checks that unittest finds, in parallel: first those that take one processor, then the heavy ones.

With CRACKD_TESTS=all in the environment each check goes as far as it can, otherwise extent.py draws what is tried. The
last line is the sum, 'N passed, M failed', with ', K skipped' after it if anything was.
"""

import collections
import concurrent.futures
import os
import typing
import unittest

import extent

FOLDER = os.path.dirname(os.path.abspath(__file__))
# the modules whose checks take longest, which are started first
LONGEST = ("test_memory", "test_server_memory", "test_units")


def flat(suite: unittest.TestSuite) -> typing.Iterator[unittest.TestCase]:
    """The checks of a suite, as a flat list."""
    for it in suite:
        yield from flat(it) if isinstance(it, unittest.TestSuite) else [it]


def outcome(name: str) -> tuple[str, str, str]:
    """Runs a check by its name. Returns the name, what is wrong (or None), and why it was skipped (or None)."""
    result = unittest.TestResult()
    unittest.TestLoader().loadTestsFromName(name).run(result)
    wrong = "\n".join(trace for _, trace in [*result.failures, *result.errors])
    return name, wrong, "".join(why for _, why in result.skipped[:1])


def outcomes(checks: list[unittest.TestCase]) -> typing.Iterator[tuple[str, str, str]]:
    """The outcomes of these checks, run one for each processor at a time, and then of heavy ones, one for each two."""
    heavy = sorted(it.id() for it in checks if getattr(it, "is_heavy", False))
    others = sorted({it.id() for it in checks} - set(heavy), key=lambda it: (not it.startswith(LONGEST), it))
    for names, at_once in (others, os.cpu_count()), (heavy, max(os.cpu_count() // 2, 1)):
        with concurrent.futures.ProcessPoolExecutor(at_once) as pool:
            yield from pool.map(outcome, names)


def run_all() -> tuple[int, int, int]:
    """Runs all checks. Returns how many passed, how many failed, and how many were skipped."""
    suite = unittest.TestLoader().discover(FOLDER, top_level_dir=FOLDER)
    passed, failed, left = collections.Counter(), collections.Counter(), 0
    for name, wrong, skipped in outcomes(list(flat(suite))):
        if wrong or skipped:
            print(f"{name} FAILED\n{wrong}" if wrong else f"{name} skipped, since {skipped}", flush=True)
        module = name.split(".")[0].removeprefix("test_")
        passed[module] += not wrong and not skipped
        failed[module] += bool(wrong)
        left += bool(skipped and not wrong)
    for module in sorted(passed):
        print(f"{module}: {passed[module]} passed, {failed[module]} failed", flush=True)
    return passed.total(), failed.total(), left


if __name__ == "__main__":
    if not extent.IS_WHOLE:
        seed = extent.SEED
        print(f"checks: a part, drawn from the seed {seed} (CRACKD_SEED={seed} draws the same)", flush=True)
    all_passed, all_failed, all_skipped = run_all()
    print(f"{all_passed} passed, {all_failed} failed" + (f", {all_skipped} skipped" if all_skipped else ""))
    raise SystemExit(1 if all_failed else 0)
