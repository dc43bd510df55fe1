"""Reports the progress of a load."""

from __future__ import annotations

import sys
import time
from typing import Any, Callable, Optional

from .arrays import from_ints, np, plain
from .primitives import Steps
from .typed import Progress, RowNumbers

# how many rows are inserted between two reports; the seconds without a report at the beginning, and between two reports
STEP = 250_000
SECONDS_OF_SILENCE = 1.0
SECONDS_BETWEEN = 0.2


class Bar:
    """Reports on a line of standard error if a load takes longer than a second."""

    def __init__(self) -> None:
        self.began = self.told = time.monotonic()
        self.is_shown = False

    def __call__(self, done: int, rows: int) -> None:
        now = time.monotonic()
        is_last = done == rows
        if now - self.began < SECONDS_OF_SILENCE or not is_last and now - self.told < SECONDS_BETWEEN and self.is_shown:
            return
        self.told, self.is_shown = now, True
        share = f"{done / rows:.0%}" if rows else "100%"
        print(f"\rcrackd: {done:,} of {rows:,} rows, {share}", end="\n" if is_last else "", file=sys.stderr, flush=True)


def reporter(progress: Progress) -> Optional[Callable[[int, int], object]]:
    """The function that reports, or None for no reports."""
    if progress is None or progress is False:
        return None
    if progress is True:
        return Bar()
    if not callable(progress):
        raise TypeError(f"progress must be True, False or a function, not of type {type(progress).__name__}")
    return progress


def pieces_of(rows: int) -> list[tuple[int, int]]:
    """The beginning and end of each range of rows between two reports."""
    return [(at, min(at + STEP, rows)) for at in range(0, rows, STEP)]


def insert_steps(table: Any, keys: Any, payloads: Any, progress: Progress) -> Steps[RowNumbers]:
    """Does what `insert_many` does, in several calls, with a report after each."""
    report = reporter(progress)
    rows: RowNumbers
    if report is None:
        rows = yield table.insert_many(keys, payloads)
        return rows
    (numbers, payloads), found = table._row_words(keys, payloads), []
    try:
        for at, end in pieces_of(len(numbers)):
            found.append((yield table._insert_many(numbers[at:end], payloads[at:end])))
            report(end, len(numbers))
    except BaseException as error:
        add_done(error, found)
        raise
    rows = joined(found)
    return rows


def add_done(error: Any, found: list[Any]) -> None:
    """Adds the rows of earlier calls to `done` and `answers` of an insertion's error."""
    answers = getattr(error, "answers", None)
    if hasattr(error, "done"):
        error.__init__(error.code, error.done + sum(map(len, found)), error.later)
    error.answers = joined([*found, *([] if answers is None else [answers])])


def joined(found: list[Any]) -> Any:
    """Concatenates arrays of row numbers."""
    if np is not None:
        return np.concatenate([np.empty(0, np.uint64), *found])
    return from_ints("Q", [it for each in found for it in plain(each)], "row numbers")
