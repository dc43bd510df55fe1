"""A table whose rows are spread over the workers of a Dask cluster, for more rows than one process can hold.

Each shard is an actor on a worker, and holds the rows of a range of keys. A call costs a round trip of some
milliseconds through Dask, so this table suits bulk loads and queries over many rows. It needs numpy and
dask.distributed.
"""

from __future__ import annotations

import threading
from typing import Any, Callable, Iterator, Optional, Sequence

from .arrays import TOP, np, sized, whole, whole_or_none
from .base import POLICIES, POLICY, parts_for
from .errors import Closed, Error, ShardLost
from .decimals import PayloadType
from .folders import folder_of, reading, saving, write_manifest
from .keys import Keys, keys_for, quantiles
from .layout import keys_text
from .local import MOST_CELLS
from .routing import MOST_SHARDS, Cut, Sharded, checked_splits
from .saved import BadSave, kept_of
from .shard import (
    SECONDS_OF_A_LOOK,
    TIMEOUTS,
    LoadFailed,
    Place,
    Shard,
    ShardFailed,
    has_actor,
    load_block,
    load_file,
    sample_of_block,
    sample_of_file,
    waited,
)

import dask
from distributed import Actor, Client, Future, wait

__all__ = ["BadSave", "ShardFailed", "ShardLost", "Table"]

# what a client of Dask says of itself from its end on
ENDED = ("closing", "closed")
# the greatest number of rows that one task loads from a file
ROWS_A_TASK = 1_000_000


class Table(Sharded):
    """A table over the workers of a cluster.

    Methods, arguments, results and errors are those of `crackd.Table`. A call over several shards doesn't read them at
    the same moment, so it may see some of another client's changes and not others. Rows are in memory only; `save`
    writes them to files.

    If a worker is lost, its shards are lost with their rows. From then on each call that meets their keys raises
    `ShardLost` and never returns a partial answer. The other shards keep working.

    Attributes
    ----------
    shards : int
        The number of shards.
    """

    def __init__(
        self,
        client: Client,
        sample: Any = (),
        rows: Optional[int] = None,
        *,
        shards: Optional[int] = None,
        splits: Optional[Sequence[Any]] = None,
        key_type: Any = None,
        key_decimals: Optional[int] = None,
        zone: Any = None,
        **options: Any,
    ):
        """Creates an empty table.

        Parameters
        ----------
        client : distributed.Client
        sample : array_like, optional
            Keys distributed like those that the table will hold. Its quantiles divide the keys into shards. If it has
            few different keys there are fewer shards; without a sample or splits there is one.
        rows : int, optional
            About how many rows the table will hold. The default is the length of `sample`.
        shards : int, optional
            The number of shards. The default is one per worker of `client`.
        splits : array_like, optional
            The keys at which new shards begin, in ascending order. Replaces the quantiles of `sample`.
        key_type, key_decimals, zone, **options
            These, and `payload_decimals`, `policy`, `history` and `cells` are those of `crackd.Table`.
        """
        sample, splits = sized(sample), None if splits is None else sized(splits)
        kind, sample = keys_for(sample, key_type, key_decimals, zone)
        numbers = np.sort(kind.many(sample)) if len(sample) else np.empty(0, np.uint64)
        cuts = None if splits is None else checked_splits(kind.many(splits))
        if cuts is None and not len(numbers) and shards not in (None, 1):
            raise ValueError(f"{shards} shards need a sample of the keys, or splits")
        if cuts is not None and shards not in (None, len(cuts) + 1):
            raise ValueError(f"{len(cuts)} splits make {len(cuts) + 1} shards, not {shards}")
        self._open(client, kind, numbers, len(numbers) if rows is None else rows, shards, cuts, **options)

    def _open(
        self,
        client: Client,
        kind: Keys,
        numbers: Any,
        rows: int,
        shards: Optional[int],
        cuts: Any = None,
        *,
        payload_decimals: Optional[int] = None,
        policy: str = POLICY,
        history: Optional[int] = None,
        cells: int = MOST_CELLS,
        **others: Any,
    ) -> None:
        """Starts the shards on the workers in turn. Splits are `cuts`, or else quantiles of the sorted `numbers`."""
        if "partitions" in others:
            raise TypeError("a cluster's table takes shards=N; the partitions in each shard follow from `rows`")
        if others:
            raise TypeError(f"a cluster's table has no options {', '.join(others)}")
        if policy not in POLICIES:
            raise ValueError(f"policy must be one of {', '.join(POLICIES)}, not {policy}")
        self._client, self._keys, self._lock, self._policy = client, kind, threading.Lock(), policy
        self._payloads = PayloadType(payload_decimals)
        self._lost: dict[int, ShardLost] = {}
        check_client(client)
        workers = sorted(client.nthreads())
        if not workers:
            raise ValueError("the cluster has no worker")
        count = len(workers) if shards is None else whole(shards, "shards")
        if not 1 <= count <= MOST_SHARDS:
            raise ValueError(f"shards must be 1 to {MOST_SHARDS}, not {count}")
        found = quantiles(numbers, count, max(1, len(numbers))) if cuts is None else cuts
        self._shard_cuts = np.array(found, np.uint64)
        self.shards = len(self._shard_cuts) + 1
        inner = [self._inner_cuts(numbers, it, parts_for(rows // self.shards)) for it in range(self.shards)]
        options = {"policy": policy, "history": whole_or_none(history, "history"), "cells": whole(cells, "cells")}
        self._futures = [self._begun(workers[at % len(workers)], it, options) for at, it in enumerate(inner)]
        try:
            self._actors = [self._actor(at, workers[at % len(workers)]) for at in range(self.shards)]
            begun = [actor.ask("begin", ()) for actor in self._actors]
            answers = [self._result(shard, *it) for shard, it in enumerate(zip(self._actors, begun))]
        except BaseException:
            self._futures = []
            raise
        self._tokens = [token for token, _ in answers]
        # the 0 at the end stands for shards that don't exist
        self._parts = np.array([*(parts for _, parts in answers), 0], np.uint64)

    def _begun(self, worker: str, cuts: list[int], options: dict[str, Any]) -> Future:
        """Starts a shard on a worker."""
        where = {"workers": [worker], "allow_other_workers": False}
        return self._client.submit(Shard, self._keys, cuts, options, actor=True, pure=False, **where)

    def _inner_cuts(self, numbers: Any, shard: int, parts: int) -> list[int]:
        """The splits between a shard's own partitions."""
        low, high = self._ends_of(shard)
        first = np.searchsorted(numbers, np.uint64(low))
        end = len(numbers) if high == TOP else np.searchsorted(numbers, np.uint64(high))
        inside = numbers[first:end]
        return [it for it in quantiles(inside, parts, max(1, len(inside))) if low < it] if parts > 1 else []

    @property
    def policy(self) -> str:
        """How queries merge pending rows."""
        return self._policy

    def _facts(self) -> Iterator[tuple[str, str]]:
        yield "shards", str(self.shards)
        yield "partitions", str(self.partitions)
        yield "policy", self._policy

    def _anew(self, keys: Any, rows: int, options: dict[str, Any]) -> "Table":
        return Table(self._client, keys, rows, **options)

    # Asking shards

    def _check_open(self) -> None:
        with self._lock:
            if not self._futures:
                raise Closed("the table is closed")
            if self._client.status in ENDED:
                raise Closed("the client of the cluster is closed, and the table with it")

    def _lose(self, shard: int, why: str) -> ShardLost:
        """Notes that a shard is lost, for the reason `why`. Returns the error."""
        low, high = self._ends_of(shard)
        first, end = (None if it in (0, TOP) else self._keys.back_one(it) for it in (low, high))
        self._lost.setdefault(shard, ShardLost(shard, first, end, ends_text(self._keys, low, high), why))
        return self._lost[shard]

    def _gather(self, cuts: dict[int, Cut], name: str, answers: dict[int, Any], errors: dict[int, Error]) -> None:
        # another thread may close the table and replace this list
        actors = self._actors
        self._check_open()
        errors.update((it, self._lost[it]) for it in cuts if it in self._lost)
        left = {it: cut for it, cut in cuts.items() if it not in errors}
        waiting = {it: self._start(it, actors[it], name, cut.words(), errors) for it, cut in left.items()}
        for shard, future in waiting.items():
            if future is None:
                continue
            try:
                token, answer = self._result(shard, actors[shard], future)
                if token == self._tokens[shard]:
                    answers[shard] = answer
                else:
                    errors[shard] = self._lose(shard, "its worker was restarted")
            except Error as error:
                errors[shard] = error

    def _start(self, shard: int, actor: Actor, name: str, words: tuple[Any, ...], errors: dict[int, Error]) -> Any:
        try:
            return actor.ask(name, words)
        except Exception as error:
            errors[shard] = self._closed_or_lost(shard, error)
            return None

    def _closed_or_lost(self, shard: int, error: Exception) -> Error:
        """Why a shard doesn't answer: `Closed` if the table was closed meanwhile, else `ShardLost`."""
        try:
            self._check_open()
        except Error as closed:
            return closed
        return self._lose(shard, str(error) or type(error).__name__)

    def _actor(self, shard: int, worker: str) -> Actor:
        """The actor of a shard, once it has started on its worker. Raises the error if the shard couldn't be opened."""
        future = self._futures[shard]
        while not future.done():
            # `result` with a timeout would cancel futures that other results depend on
            try:
                wait(future, timeout=SECONDS_OF_A_LOOK)
            except TIMEOUTS:
                if not future.done() and worker not in self._client.nthreads():
                    raise self._lose(shard, "its worker is gone") from None
        if future.status != "finished":
            future.result()
        return Actor(Shard, worker, future.key)

    def _result(self, shard: int, actor: Actor, future: Any) -> tuple[str, Any]:
        """Waits for a shard's token and answer. An error other than this package's means that the shard is lost."""
        try:
            token, answer = waited(future, lambda: has_actor(self._client, actor._address, actor.key))
            return token, answer
        except Error:
            raise
        except Exception as error:
            raise self._closed_or_lost(shard, error) from error

    @property
    def partitions(self) -> int:
        """The number of partitions of all shards."""
        return int(self._parts.sum())

    def _insert(self, key: int, payload: int) -> int:
        return int(self._insert_many(np.array([key], np.uint64), np.array([payload], np.int64))[0])

    def close(self) -> None:
        """Frees all memory of the shards. A second call does nothing."""
        if self._futures:
            # the shards end with their client
            if self._client.status not in ENDED:
                self._ask(self._every(), "close")
            self._futures, self._actors = [], []

    # Files

    def save(self, folder: Any) -> dict[str, Any]:  # type: ignore[override]
        """Has each shard's worker write its rows to a folder that the client and all workers share.

        Each file is a numpy array with the fields `key` and `payload`, as `crackd.Table.save` writes it. An earlier
        save in the folder is removed only after everything is written. Of several saves at a time one stands. Returns
        the manifest.
        """
        room = folder_of(folder)
        room.mkdir(parents=True, exist_ok=True)
        with saving(room, self.shards) as files:
            saved = self._all({it: Cut((str(room / name), self._said)) for it, name in enumerate(files)}, "save")
            for name in files:
                if not (room / name).exists():
                    raise BadSave(f"{room} isn't shared: a worker wrote {name}, and it isn't there")
            told = {"keys": self._keys.name, "splits": self._shard_cuts.tolist(), "files": files}
            told |= {"counts": [it[0] for it in saved.values()], "sums": [it[1] for it in saved.values()]}
            return write_manifest(room, {**told, **self._said})

    @classmethod
    def load(cls, client: Client, folder: Any, **options: Any) -> "Table":
        """The same as `restore`, under the name that `crackd.Table` uses."""
        return cls.restore(client, folder, **options)

    @classmethod
    def restore(cls, client: Client, folder: Any, *, shards: Optional[int] = None, **options: Any) -> "Table":
        """Loads a table that `save` wrote onto the present workers: a shard per worker, or `shards` of them.

        Rows get new numbers. Raises `BadSave` if the files aren't those that were saved. Other saves to the folder may
        run meanwhile.
        """
        room = folder_of(folder)
        check_client(client)
        with reading(room) as manifest:
            paths = [str(room / it) for it in manifest["files"]]
            return cls._restored(client, manifest, paths, shards, options)

    @classmethod
    def _restored(
        cls,
        client: Client,
        manifest: dict[str, Any],
        paths: list[str],
        shards: Optional[int],
        options: dict[str, Any],
    ) -> "Table":
        """A table of the parts of a manifest, which are at these paths."""
        kind = Keys.named(manifest["keys"]).with_decimals(manifest["key_decimals"]).with_zone(manifest["zone"])
        counts, options = manifest["counts"], {"payload_decimals": manifest["payload_decimals"], **options}
        samples = client.gather(client.map(sample_of_file, paths, counts, [kind] * len(paths), pure=False))
        table = cls._empty(client, kind, samples, shards, options)
        pieces = [
            (path, count, begin, min(begin + ROWS_A_TASK, count))
            for path, count in zip(paths, counts)
            for begin in range(0, count, ROWS_A_TASK)
        ]

        def loads(places: list[Place]) -> list[Future]:
            words = {"kind": kind, "places": places, "cuts": table._shard_cuts}
            return [client.submit(load_file, at, *it, **words, pure=False) for at, it in enumerate(pieces)]

        table._told = kept_of(manifest)
        return table._loaded(loads, lambda: table._check_restored(manifest))

    def _check_restored(self, manifest: dict[str, Any]) -> None:
        """Compares the count and sum over each saved shard's keys with those in the manifest."""
        firsts = np.array([0, *manifest["splits"]], np.uint64)
        lasts = np.array([*(it - 1 for it in manifest["splits"]), TOP - 1], np.uint64)
        found_of = {"counts": self._count_many(firsts, lasts).tolist(), "sums": self._sum_many(firsts, lasts)}
        for name, found in found_of.items():
            if found != manifest[name]:
                raise BadSave(f"the {name} of the saved shards are {found}, and {manifest[name]} in the manifest")

    @classmethod
    def _empty(
        cls,
        client: Client,
        kind: Keys,
        samples: Sequence[tuple[int, Any]],
        shards: Optional[int],
        options: dict[str, Any],
    ) -> "Table":
        """An empty table for rows in blocks. `samples` has for each block its number of rows and some of its keys."""
        rows = sum(it[0] for it in samples)
        numbers = np.sort(np.concatenate([np.empty(0, np.uint64), *evened(samples)]))
        table: Table = cls.__new__(cls)
        table._open(client, kind, numbers, rows, shards, **options)
        return table

    def _loaded(self, loads: Callable[[list[Place]], list[Future]], check: Callable[[], None]) -> "Table":
        """Waits until the tasks that `loads` starts have inserted all rows, merges the rows, and calls `check`.

        Returns this table. Closes it if anything fails.
        """
        places = [Place(it._address, it.key, token) for it, token in zip(self._actors, self._tokens)]
        try:
            try:
                self._client.gather(loads(places))
            except LoadFailed as error:
                raise self._lose(error.shard, error.why) from error
            except Error:
                raise
            except Exception:
                # if the cause is a lost shard, this raises `ShardLost` instead
                self._all(self._every(), "begin")
                raise
            self.settle()
            check()
        except BaseException:
            self.close()
            raise
        return self

    # Rows that the cluster already has

    @classmethod
    def from_dask(
        cls,
        client: Client,
        frame: Any,
        key: Any = 0,
        payload: Any = None,
        *,
        shards: Optional[int] = None,
        key_decimals: Optional[int] = None,
        payload_decimals: Optional[int] = None,
        **options: Any,
    ) -> "Table":
        """Creates a table of the rows of a Dask dataframe or array. Each block goes from its worker to the shards.

        `key` and `payload` are columns, by name or number. Without `payload` the payloads are 0, 1, 2 .. Columns of
        floats need `key_decimals` and `payload_decimals`; without `key_decimals` keys stay floats.
        """
        is_frame = hasattr(type(frame), "columns")
        if not (hasattr(type(frame), "to_delayed") and (is_frame or hasattr(type(frame), "dtype"))):
            raise TypeError(f"from_dask takes a Dask dataframe or array, not one of type {type(frame).__name__}")
        check_client(client)
        dtype = frame[key].dtype if is_frame else frame.dtype
        # the type of a column of categories is that of its values
        kind = Keys.of_dtype(getattr(getattr(dtype, "categories", None), "dtype", dtype))
        if key_decimals is not None:
            kind = (Keys("i") if kind.kind == "f" else kind).with_decimals(key_decimals)
        types = kind, PayloadType(payload_decimals)
        options["payload_decimals"] = types[1].decimals
        if is_frame:
            frame = frame[list(dict.fromkeys(it for it in (key, payload) if it is not None))]
        elif frame.ndim == 2:
            frame = frame.rechunk({1: -1})
        blocks = list(np.ravel(client.persist(frame).to_delayed()))
        sampled = [dask.delayed(sample_of_block)(it, key, kind) for it in blocks]
        samples = list(client.gather(client.compute(sampled)))
        counts = [it[0] for it in samples]
        begins = np.cumsum([0, *counts]).tolist()
        table = cls._empty(client, kind, samples, shards, options)

        def loads(places: list[Place]) -> list[Future]:
            words = types, places, table._shard_cuts
            load = dask.delayed(load_block, pure=False)
            given = zip(blocks, begins, counts)
            tasks = [load(at, it, key, payload, *more, *words) for at, (it, *more) in enumerate(given)]
            return list(client.compute(tasks))

        def check() -> None:
            if len(table) != begins[-1]:
                raise ShardFailed(f"{begins[-1]} rows were sent, and {len(table)} were placed")

        return table._loaded(loads, check)


def evened(samples: Sequence[tuple[int, Any]]) -> Iterator[Any]:
    """Thins the samples of the blocks, so that each remaining key stands for about the same number of rows."""
    drawn = [(rows / len(keys), keys) for rows, keys in samples if len(keys)]
    most = max((each for each, _ in drawn), default=1)
    for each, keys in drawn:
        yield keys[:: round(most / each)]


def check_client(client: Any) -> None:
    """Raises TypeError if this is no client of a cluster, and `Closed` if it is closed."""
    if not isinstance(client, Client):
        raise TypeError(f"the first argument must be a distributed.Client, not of type {type(client).__name__}")
    if client.status in ENDED:
        raise Closed("the client of the cluster is closed")


def ends_text(keys: Keys, low: int, high: int) -> str:
    """The keys from the number `low` up to but not including `high`, in words."""
    if low == 0:
        return f"keys below {keys.back_one(high)}" if high < TOP else "all keys"
    if high == TOP:
        return f"keys from {keys.back_one(low)}"
    return f"keys {keys_text(keys, low, high)}"
