"""Seeded scripts of ranges in orders by which cracking gains little: rising, falling, zooming in or repeated.

Each script has so many rows that under `auto` the column is also cracked at bounds that no range has. Replies must be
those of plain_session.py. Layouts must meet their equations, and have the ends of the range read before them as bounds.
"""

import random
import typing

import compare
import fixtures
from plain_session import RANGES, Session, statements

ROWS, QUERIES, SEEDS = 5000, 300, range(8)
# by the seed: the greatest key, so that hardly any rows share a key, or many do, or hundreds have the same key
KEYS = [2**63, 4000, 20]
# how often a range is counted, summed and listed
OFTEN = [4, 4, 1]
Ends = tuple[int, int]


def rising(number: int, most: int) -> Ends:
    """Neighbouring ranges, the lowest first."""
    return number * most // QUERIES, (number + 1) * most // QUERIES


def falling(number: int, most: int) -> Ends:
    """Neighbouring ranges, the highest first."""
    return rising(QUERIES - 1 - number, most)


def zooming(number: int, most: int) -> Ends:
    """Ranges that are each inside the one before."""
    return number * most // (2 * QUERIES), most - number * most // (2 * QUERIES)


def repeating(number: int, most: int) -> Ends:
    """Ten ranges that rise, and then the same ones."""
    return rising(number % 10 * QUERIES // 10, most)


ORDERS = [rising, falling, zooming, repeating]


def script(seed: int) -> list[str]:
    """The statements: a load, and ranges in an order, each followed by a layout, with some changes in between."""
    numbers, order, most = random.Random(seed), ORDERS[seed % len(ORDERS)], KEYS[seed % len(KEYS)]
    insert = lambda: f"insert {numbers.randrange(most + 1)} {numbers.randrange(-1000, 1000)}"
    # the first range is read while there are no bounds
    lines = [insert() for _ in range(ROWS)] + [f"count 0 {most // 50 + 1}"]
    for number in range(QUERIES):
        low, high = order(number, most)
        lines += [f"{numbers.choices(RANGES, OFTEN)[0]} {low} {high}", "layout 0"]
        if numbers.random() < 0.2:
            lines += [insert(), f"delete 0.{numbers.randrange(ROWS)}"]
    return lines


def bounds_in(layout: list[str]) -> set[int]:
    """The bounds of a layout, and the ends of its partition."""
    return {end for line in layout[1:] for end in compare.numbers_of(line, compare.PIECE)[:2]}


def check_bounds(lines: typing.Iterable[str], answers: list[list[str]]) -> set[int]:
    """Checks that each layout has the ends of the range before it. Returns the bounds that no range has."""
    asked, ends, found = set(), (0, 0), set()
    for line, answer in zip(lines, answers):
        kind, *words = line.split()
        if kind in RANGES:
            ends = tuple(map(int, words))
            asked.update(ends)
        if kind == "layout":
            found = bounds_in(answer)
            missing = set(ends) - found if ends[0] < ends[1] else set()
            fixtures.expect(f"ends of {ends} that are no bounds", set(), missing)
    return found - asked - {0, 2**64}


def check(program: str, seed: int) -> None:
    """Checks the program's answers to the script of a seed, under `auto` and under `ripple`."""
    lines, has_many_keys = script(seed), KEYS[seed % len(KEYS)] > QUERIES
    given = "".join(f"{line}\n" for line in lines).encode("ascii")
    for policy, is_further in [("auto", has_many_keys), ("ripple", False)]:
        status, wrote, complained = fixtures.fed([program, "script", "--policy", policy], given)
        fixtures.expect("status and standard error", (0, b""), (status, complained))
        seen = compare.compare(statements(given), wrote, Session())
        further = check_bounds(lines, seen.answers)
        fixtures.expect(f"whether there are further bounds under {policy}", is_further, bool(further))
