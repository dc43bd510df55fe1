"""The errors of tables, and the reasons of refusals in words."""

from __future__ import annotations

import contextlib
from typing import Any, Iterator

REASONS = {
    1: "this isn't a statement",
    2: "the low end of the range is above its high end, or that is above all keys",
    4: "the key belongs to another partition, and a row can't leave its own",
    5: "there is no such partition",
    6: "the history is full; a checkpoint makes room",
    7: "a gate refused a thousand times",
    8: "memory ran out",
    9: "the partition is full: all of its cells are taken",
    10: "the partition has answered all the commands that it ever may",
    11: "the splits don't rise, or one is the least key",
    12: "there are more than 63 splits",
    13: "the number of workers isn't 1 to 64",
    14: "a limit is out of range",
    17: "the server can't listen on the port",
    20: "the server has as many clients as it may",
    102: "the handle holds a table already",
    103: "lists differ in length",
    104: "the library has no such policy",
}


class Error(Exception):
    """The base class of this package's errors. Wrong arguments also raise TypeError, ValueError and OverflowError."""

    answers: Any = None

    def __reduce__(self) -> Any:
        # a copy gets the text and the attributes of this error, whatever arguments its class is made with
        return _copied, (type(self), self.args, vars(self))


def _copied(kind: type[Error], words: tuple[Any, ...], attributes: dict[str, Any]) -> Error:
    """An error with this text and these attributes."""
    # only these two have all fields of an error in C, whatever its other base classes are
    own: Any = OSError if issubclass(kind, OSError) else Exception
    error: Error = own.__new__(kind, *words)
    error.args = words
    vars(error).update(attributes)
    return error


class Closed(Error, ValueError):
    """The table is closed."""


class Disconnected(Error, ConnectionError):
    """The server closed the connection, or there is no server. `connect` makes a new connection."""


class TimedOut(Disconnected, TimeoutError):
    """The server was silent for `timeout` seconds, so the connection is closed."""


class Busy(Error, RuntimeError):
    """A signal handler made a call over a connection while it interrupted another call over the same connection."""


class Forked(Error, RuntimeError):
    """A forked child process used a table of its parent, or tried to close its parent's server."""


class Refused(Error):
    """A call was refused.

    Attributes
    ----------
    code : int
        The number of the refusal.
    done : int
        How many items of the call were done before the first refused one.
    later : int
        How many items after the refused one were done nevertheless, over TCP and in other shards. It is 0 for a table
        in this process with one shard.
    answers : array of uint64, or None
        After an `insert_many`, the numbers of the inserted rows, in the order of the items.
    """

    answers: Any = None

    def __init__(self, code: int, done: int = 0, later: int = 0):
        after = f" (after {done} that were done{f', and {later} later' if later else ''})" if done or later else ""
        super().__init__(f"refused {code}: {REASONS.get(code, 'unknown')}{after}")
        self.code, self.done, self.later = code, done, later


class ShardLost(Error):
    """A shard of a cluster's table is lost with its rows, because its worker is gone.

    Attributes
    ----------
    shard : int
        The number of the shard.
    low, high : key or None
        The ends of its keys: `low` is inside, `high` isn't, and None means no end.
    keys, why : str
        Its keys, and the cause, in words.
    answers : array of uint64, or None
        After an `insert_many`, the numbers of the rows that were inserted into other shards.
    """

    answers: Any = None

    def __init__(self, shard: int, low: Any, high: Any, keys: str, why: str):
        super().__init__(f"shard {shard} ({keys}) is lost: {why}")
        self.shard, self.low, self.high, self.keys, self.why = shard, low, high, keys, why

    def copied(self, answers: Any = None) -> "ShardLost":
        """Returns a copy with these answers: each call raises an error of its own."""
        found = ShardLost(self.shard, self.low, self.high, self.keys, self.why)
        found.answers = answers
        return found


class WrongPartition(Refused, ValueError):
    """An update's new key belongs to another partition than the row. `move` takes the row there."""


class NoSuchPartition(Refused, LookupError):
    """A row number names a partition that doesn't exist."""


class HistoryFull(Refused):
    """A history is full, and a checkpoint made no room."""


class OutOfMemory(Refused, MemoryError):
    """Memory ran out. The rows are as before the refused item."""


class Full(Refused):
    """All cells of a partition are taken. A table with more partitions holds more rows."""


class LifeOver(Refused):
    """A partition has answered as many commands as it ever may, 2**40 by default."""


class BadSplits(Refused, ValueError):
    """Splits aren't in ascending order, one is the least key, or there are too many."""


class BadLimit(Refused, ValueError):
    """A limit is out of range."""


KINDS = {
    4: WrongPartition,
    5: NoSuchPartition,
    6: HistoryFull,
    8: OutOfMemory,
    9: Full,
    10: LifeOver,
    11: BadSplits,
    12: BadSplits,
    14: BadLimit,
}


@contextlib.contextmanager
def nothing_done() -> Iterator[None]:
    """A context in which a call gets the memory that it needs, before it does anything.

    A MemoryError, such as numpy's, becomes `OutOfMemory`, whose `done` is 0.
    """
    try:
        yield
    except MemoryError as error:
        if isinstance(error, Error):
            raise
        raise refused(8) from None


def refused(code: int, done: int = 0, later: int = 0) -> Refused:
    """The error for the refusal with this number."""
    return KINDS.get(code, Refused)(code, done, later)
