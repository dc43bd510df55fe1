"""The code that runs on the workers of a cluster: the shards of a table, and the tasks that load rows into them.

Keys are numbers here, as `crackd.keys` makes them.
"""

from __future__ import annotations

import asyncio
import functools
import uuid
from typing import Any, Callable, Mapping, NamedTuple, Sequence

from .arrays import TOP, np
from .decimals import PayloadType
from .errors import Error
from .keys import Keys
from .local import LocalShard
from .routing import blocks_of, shard_of
from .saved import BadSave, read_saved, row_dtype, writing

MISSING = "crackd.cluster needs numpy and dask.distributed: pip install numpy distributed"
if np is None:
    raise ImportError(MISSING)
try:
    from distributed import Actor, get_client, get_worker
except ImportError as error:
    raise ImportError(MISSING) from error

# about how many keys of a block are used as a sample
SAMPLED = 10_000
SECONDS_OF_A_LOOK = 1
# two different types in Python 3.10
TIMEOUTS = (TimeoutError, asyncio.TimeoutError)


class ShardFailed(Error):
    """A call to a shard failed for another reason than a refusal, for example a full disk.

    After an `insert_many`, `answers` has the numbers of the rows that were inserted into other shards.
    """

    answers: Any = None


class LoadFailed(Error):
    """A task that loads rows couldn't reach a shard."""

    def __init__(self, shard: int, why: str):
        super().__init__(f"shard {shard} can't be reached: {why}")
        self.shard, self.why = shard, why


class Shard:
    """A shard: an actor on its worker.

    Each answer comes with the shard's random token, by which a client notices that a worker was restarted.
    """

    def __init__(self, kind: Keys, cuts: Sequence[int], options: dict[str, Any]):
        self.token = uuid.uuid4().hex
        self.kind = kind.raw
        self.rows = LocalShard(cuts, **options)
        self.loaded: set[int] = set()

    def ask(self, name: str, words: tuple[Any, ...]) -> tuple[str, Any]:
        """Calls a method of this shard, or else of its rows. Returns the token and the answer."""
        # an array that came over the network may not be aligned
        words = tuple(np.require(it, requirements="CA") if isinstance(it, np.ndarray) else it for it in words)
        try:
            return self.token, getattr(self if name in ("begin", "load", "save") else self.rows, name)(*words)
        except Error:
            raise
        except Exception as error:
            raise ShardFailed(f"{type(error).__name__}: {error}") from error

    def begin(self) -> int:
        """Opens nothing: answers with the number of partitions, and so shows that the shard is there."""
        return self.rows.partitions

    def load(self, token: str, number: int, keys: Any, payloads: Any) -> None:
        """Inserts the rows of block `number`, but only once: Dask repeats a task if it loses the worker that ran it."""
        if token != self.token:
            raise ShardFailed("its worker was restarted")
        if number not in self.loaded:
            self.rows.insert_many(keys, payloads)
            self.loaded.add(number)

    def save(self, path: str, told: Mapping[str, Any] = {}) -> tuple[int, int]:
        """Writes all rows to a file, partition by partition. Returns their number and the sum of their payloads."""
        ends, total = [0, *self.rows.cuts, TOP], 0
        with writing(path, self.kind, told) as file:
            for low, high in zip(ends, ends[1:]):
                _, keys, payloads = self.rows.select(low, high - 1)
                file.add(keys, payloads)
                total += exact_sum(payloads)
        return file.rows, total


def exact_sum(payloads: Any) -> int:
    """The exact sum of payloads. The sums of their upper and lower 32 bits each fit into 64 bits."""
    return (int((payloads >> 32).sum()) << 32) + int((payloads & 0xFFFFFFFF).sum())


def waited(future: Any, is_there: Callable[[], bool]) -> Any:
    """Waits for an actor's answer. Raises ConnectionError once `is_there` returns False; Dask might wait forever."""
    while not future.done():
        try:
            return future.result(timeout=SECONDS_OF_A_LOOK)
        except TIMEOUTS:
            if not future.done() and not is_there():
                raise ConnectionError("its worker is gone") from None
    return future.result()


def has_actor(client: Any, address: str, key: str) -> bool:
    """Whether a worker has an actor, according to the scheduler."""
    return key in client.has_what([address]).get(address, ())


# Tasks


class Place(NamedTuple):
    """Where a shard is: the address of its worker, its key in Dask, and its token."""

    address: str
    key: str
    token: str


def is_there(place: Place) -> bool:
    """Whether a shard is still on the worker where it was started. For use in tasks."""
    return has_actor(get_client(), place.address, place.key)


def load_rows(number: int, keys: Any, payloads: Any, places: Sequence[Place], cuts: Any) -> int:
    """Sends the rows of block `number` from this worker to their shards. Returns their number."""
    worker = get_worker()
    waiting = []
    for shard, rows in blocks_of(shard_of(cuts, keys)):
        place = places[shard]
        words = place.token, number, keys[rows], payloads[rows]
        waiting.append((shard, Actor(Shard, place.address, place.key, worker=worker).ask("load", words)))
    for shard, future in waiting:
        has_shard = functools.partial(is_there, places[shard])
        try:
            waited(future, has_shard)
        except Error:
            raise
        except Exception as error:
            raise LoadFailed(shard, str(error) or type(error).__name__) from error
    return len(keys)


def sample_of(keys: Any) -> tuple[int, Any]:
    """The number of keys, and about `SAMPLED` of them."""
    return len(keys), keys[:: max(1, len(keys) // SAMPLED)]


def rows_of_file(path: str, count: int, kind: Keys, *, is_checked: bool = False) -> Any:
    """The rows of a saved file, which are mapped into memory. Raises `BadSave` if the file isn't complete.

    If `is_checked` they are also compared with their checksum.
    """
    try:
        rows = read_saved(path, is_checked=is_checked).rows
    except OSError as error:
        raise BadSave(f"{path} can't be read: {error.strerror or error}") from error
    if rows.dtype != row_dtype(kind) or rows.shape != (count,):
        raise BadSave(f"{path} hasn't {count} rows with keys of {kind.name}")
    return rows


def sample_of_file(path: str, count: int, kind: Keys) -> tuple[int, Any]:
    """The number of rows of a file, and a sample of the numbers of its keys. Compares the rows with their checksum."""
    keys = rows_of_file(path, count, kind, is_checked=True)["key"]
    return count, kind.raw.many(sample_of(keys)[1])


def load_file(
    number: int,
    path: str,
    count: int,
    begin: int,
    end: int,
    kind: Keys,
    places: Sequence[Place],
    cuts: Any,
) -> int:
    """Loads the rows from `begin` to `end` of a file, as block `number`."""
    rows, kind = rows_of_file(path, count, kind)[begin:end], kind.raw
    return load_rows(number, kind.many(rows["key"]), np.array(rows["payload"]), places, cuts)


def column_of(block: Any, column: Any) -> Any:
    """A column of a block of a Dask dataframe or array."""
    if hasattr(block, "columns"):
        return block[column]
    return np.asarray(block)[:, column] if np.ndim(block) == 2 else block


def sample_of_block(block: Any, key: Any, kind: Keys) -> tuple[int, Any]:
    """The number of rows of a Dask block, and a sample of the numbers of its keys."""
    return sample_of(kind.many(column_of(block, key)))


def load_block(
    number: int,
    block: Any,
    key: Any,
    payload: Any,
    begin: int,
    count: int,
    types: tuple[Keys, PayloadType],
    places: Sequence[Place],
    cuts: Any,
) -> int:
    """Loads block `number` of a Dask collection. Without a payload column the payloads count up from `begin`."""
    keys = types[0].many(column_of(block, key))
    if len(keys) != count:
        raise ShardFailed(f"block {number} had {count} rows when its keys were sampled, and has {len(keys)} now")
    payloads = np.arange(begin, begin + count) if payload is None else column_of(block, payload)
    return load_rows(number, keys, types[1].many(payloads), places, cuts)
