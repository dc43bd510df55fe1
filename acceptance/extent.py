"""How far the tests that search go. With CRACKD_TESTS=all in the environment they try everything: each of their seeds,
each place, all clients. Otherwise they try a few, drawn from the seed that CRACKD_SEED names; without it, from a new
one. run_checks.py prints the seed, and the same seed draws the same tests again.
"""

import os
import random
import typing

IS_WHOLE = os.environ.get("CRACKD_TESTS") == "all"
SEED = int(os.environ.get("CRACKD_SEED") or random.SystemRandom().randrange(2**32))
# so that the processes which run the tests draw the same
os.environ["CRACKD_SEED"] = str(SEED)
# how many seeds there are to draw from, and what part of a number of places to skip at most after it
SEEDS, SKIPPED = 2**32, 4
T = typing.TypeVar("T")


def numbers(*names: object) -> random.Random:
    """The random numbers for what these names say, always the same for one seed."""
    return random.Random(f"{SEED} {names}")


def seeds(every: typing.Sequence[int], few: int, name: str) -> typing.Sequence[int]:
    """The seeds of a kind of tests: all of these, or a few, drawn from many more."""
    return every if IS_WHOLE else numbers(name).sample(range(SEEDS), few)


def some(every: typing.Iterable[T], few: int, *names: object) -> list[T]:
    """All of these, or a few, drawn from them, in their order."""
    listed = list(every)
    if IS_WHOLE or len(listed) <= few:
        return listed
    return [listed[at] for at in sorted(numbers(*names).sample(range(len(listed)), few))]


def after(number: int, drawn: random.Random) -> int:
    """The number to try after one: the next, or one further by at most a quarter of it, so that few of many are
    tried, and of the first ones all."""
    return number + 1 if IS_WHOLE else number + 1 + drawn.randrange(number // SKIPPED + 1)


def fewer(whole: int, few: int) -> int:
    """A number of clients, sessions or rounds: whole, or few."""
    return whole if IS_WHOLE else few
