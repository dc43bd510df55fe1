"""A table on a server for asyncio: many tasks share a connection, and no call waits for another task's replies."""

from __future__ import annotations

import asyncio
import collections
import contextlib
import inspect
from typing import Any, AsyncIterator, Callable, Optional, Sequence

from . import wire
from .base import POLICIES, POLICY
from .channel import BYTES_AT_ONCE, LEFT, Lines, checked_timeout
from .decimals import INTEGERS, PayloadType
from .errors import Closed, Disconnected, Error, Forked, TimedOut
from .forks import OF_THE_PARENT
from .keys import Keys, keys_for
from .layout import Layout
from .primitives import Answer, Steps
from .questions import not_into_itself
from .remote import RemoteTable
from .rows import CHUNK, Rebalanced, Row, Rows, checked_size
from .typed import Counts, Flags, Mean, OnePayload, Progress, RowNumbers, Self, Sums


class Waiting:
    """Statements whose replies haven't all come: how many lines are missing, and the future that gets all lines."""

    def __init__(self, lines: int, loop: asyncio.AbstractEventLoop):
        self.lines, self.said, self.replies = lines, b"", loop.create_future()

    def take(self, lines: Lines) -> bool:
        """Takes the reply's lines once enough have arrived. Returns whether the whole reply has come."""
        while self.lines and lines.feeds >= self.lines:
            said = lines.taken(self.lines)
            self.said, self.lines = self.said + said, wire.listed(said) if not self.said else 0
        if not self.lines and not self.replies.done():
            # the future is done already if its task was cancelled
            self.replies.set_result(self.said)
        return not self.lines

    def fail(self, error: Disconnected, given: bytes) -> None:
        """Raises a copy of an error in the task that waits for the replies. Its `given` has the lines that had come."""
        if not self.replies.done():
            fault: Any = type(error)(str(error))
            fault.given = self.said + given
            self.replies.set_exception(fault)


class Line:
    """A connection. Statements are sent without waiting, and replies come in the order of the statements."""

    def __init__(self, reader: asyncio.StreamReader, writer: asyncio.StreamWriter, timeout: Optional[float]):
        self._timeout, self._reader, self._writer = timeout, reader, writer
        self._lines, self._waiting = Lines(), collections.deque[Waiting]()
        self._unsent: list[bytes] = []
        # why nothing can be sent any more, or None
        self._fault: Optional[Error] = None
        # when the server last sent something, or the wait began; `_look` is the scheduled call of `_watch`
        self._loop, self._since = asyncio.get_running_loop(), 0.0
        self._look: Optional[asyncio.TimerHandle] = None
        self._receiving = asyncio.ensure_future(self._receive())

    @property
    def timeout(self) -> Optional[float]:
        """How many seconds the server may be silent while a call waits for replies."""
        return self._timeout

    @timeout.setter
    def timeout(self, seconds: Optional[float]) -> None:
        self._timeout = checked_timeout(seconds)
        if self._look is not None:
            self._look.cancel()
        self._watch()

    def check_open(self) -> None:
        """Raises `Closed` or `Forked` if nothing can be sent."""
        if self._fault is not None:
            raise type(self._fault)(str(self._fault))

    def leave(self) -> None:
        """Gives up the connection in a forked child, without closing it: parent and child share the loop's selector."""
        self._fault = Forked(OF_THE_PARENT)

    async def exchange(self, text: bytes, lines: int) -> bytes:
        """Sends statements. Returns `lines` lines of replies, and the further lines that the last one announces."""
        self.check_open()
        if not self._waiting:
            self._since = self._loop.time()
        waiting = Waiting(lines, self._loop)
        self._waiting.append(waiting)
        # statements of all tasks that run in one iteration of the loop are sent together
        if not self._unsent:
            self._loop.call_soon(self._send)
        self._unsent.append(text)
        if self._look is None:
            self._watch()
        said: bytes = await waiting.replies
        return said

    def _send(self) -> None:
        text = b"".join(self._unsent)
        self._unsent.clear()
        if self._fault is None:
            self._writer.write(text)

    def _watch(self) -> None:
        """Closes the connection if the server has been silent for too long, or else schedules the next check."""
        self._look = None
        if self._timeout is None or not self._waiting:
            return
        left = self._since + self._timeout - self._loop.time()
        if left > 0:
            self._look = self._loop.call_later(left, self._watch)
            return
        said = f"the server was silent for {self._timeout} seconds; the connection is closed, connect again"
        self._end(TimedOut(said))

    async def _receive(self) -> None:
        """Passes lines to the calls that wait for them, until the server or this side closes the connection."""
        with contextlib.suppress(OSError):
            while given := await self._reader.read(BYTES_AT_ONCE):
                self._since = self._loop.time()
                self._lines.add(given)
                self._give()
        self._end(Disconnected(LEFT))

    def _give(self) -> None:
        while self._waiting and self._waiting[0].take(self._lines):
            self._waiting.popleft()

    def _end(self, error: Disconnected) -> None:
        """Closes the connection, and raises the error in each call that waits."""
        self._fault = Closed("the connection is closed; connect again")
        given = self._lines.taken(self._lines.feeds)
        while self._waiting:
            self._waiting.popleft().fail(error, given)
            given = b""
        if self._look is not None:
            self._look.cancel()
        self._writer.close()

    async def close(self) -> None:
        """Ends the session with the server once it has answered all earlier statements."""
        try:
            await self.exchange(b"quit\n", 1)
        except (Disconnected, Closed):
            pass
        self._end(Disconnected(LEFT))
        self._receiving.cancel()
        with contextlib.suppress(OSError, asyncio.CancelledError):
            await self._writer.wait_closed()


class Shared(RemoteTable):
    """A table over a `Line`. Its methods are those of `AnyTable`, but return awaitables."""

    def __init__(self, line: Line, keys: Keys, policy: str, peer: str, payloads: PayloadType = INTEGERS):
        self.line, self._keys, self._policy, self._peer, self._lock = line, keys, policy, peer, None
        self._payloads = payloads

    async def _say(self, steps: wire.Exchanges) -> Any:
        """Runs a conversation with the server, concurrently with those of other tasks."""
        try:
            request = next(steps)
            while True:
                try:
                    said = await self.line.exchange(*request)
                except BaseException as error:
                    request = steps.throw(error)
                else:
                    request = steps.send(said)
        except StopIteration as done:
            return done.value

    def _drive(self, steps: Steps[Any]) -> Any:
        return self._driven(steps)

    async def _driven(self, steps: Steps[Any]) -> Any:
        """Runs the steps of a method and returns its result."""
        try:
            asked = next(steps)
            while True:
                try:
                    answer = await asked if inspect.isawaitable(asked) else asked
                except BaseException as error:
                    asked = steps.throw(error)
                else:
                    asked = steps.send(answer)
        except StopIteration as done:
            return done.value

    def _then(self, answer: Any, call: Callable[[Any], Any]) -> Any:
        return self._later(answer, call)

    async def _later(self, answer: Any, call: Callable[[Any], Any]) -> Any:
        return call(await answer)

    def _check_open(self) -> None:
        self.line.check_open()

    def _leave(self) -> None:
        super()._leave()
        if getattr(self, "line", None) is not None:
            self.line.leave()

    def _nothing(self, answer: Any) -> Any:
        return self._nothing_later(answer)

    async def _nothing_later(self, answer: Any) -> Any:
        self._check_open()
        return answer

    def close(self) -> Any:
        """Closes the connection. Returns an awaitable that waits until it is closed."""
        return self.line.close()


class AsyncTable:
    """A table on a server for the tasks of an event loop: see `connect_async`.

    Its methods are those of `crackd.Client` and are awaited. Their arguments, results and errors are the same. Calls of
    several tasks are sent at once, without waiting for each other's replies. If a task is cancelled the connection
    stays usable. The server still does what the task had sent, and a `move` is completed.

    Examples
    --------
    >>> async def ask(port):
    ...     async with await crackd.connect_async(port=port) as table:
    ...         row = await table.insert(5, 70)
    ...         return await table.count(0, 10), await table.sum()
    >>> with crackd.serve(workers=1) as server:
    ...     print(asyncio.run(ask(server.port)))
    (1, 70)
    """

    def __init__(self, table: Shared):
        self._table = table
        self._moving: set[asyncio.Future[Any]] = set()

    @property
    def key_type(self) -> str:
        """The type of the keys."""
        return self._table.key_type

    @property
    def key_decimals(self) -> int:
        """The number of decimal places of the keys."""
        return self._table.key_decimals

    @property
    def payload_decimals(self) -> int:
        """The number of decimal places of the payloads."""
        return self._table.payload_decimals

    @property
    def zone(self) -> Optional[str]:
        """The time zone of the keys, or None."""
        return self._table.zone

    @property
    def policy(self) -> str:
        """How queries merge pending rows."""
        return self._table.policy

    @property
    def timeout(self) -> Optional[float]:
        """How many seconds a call waits for a silent server; None waits for ever. It may be changed."""
        return self._table.line.timeout

    @timeout.setter
    def timeout(self, seconds: Optional[float]) -> None:
        self._table.line.timeout = seconds

    async def ping(self) -> None:
        """Checks that the server answers. Raises `Disconnected` if it doesn't."""
        await _awaited(self._table.ping())

    async def stats(self, part: Optional[int] = None) -> dict[str, int]:
        """Returns numbers of the table and its server by name, or those of partition `part`."""
        numbers: dict[str, int] = await _awaited(self._table.stats(part))
        return numbers

    # The methods from here on have the docstrings of the synchronous methods, which the end of this file gives them.

    async def insert(self, key: Any, payload: Any) -> int:
        return await _awaited(self._table.insert(key, payload))

    async def insert_many(self, keys: Any, payloads: Any) -> RowNumbers:
        return await _awaited(self._table.insert_many(keys, payloads))

    async def insert_rows(self, keys: Any, payloads: Any, *, progress: Progress = None) -> RowNumbers:
        return await _awaited(self._table.insert_rows(keys, payloads, progress=progress))

    async def insert_frame(
        self, frame: Any, key: Any = None, payload: Any = None, *, progress: Progress = None
    ) -> RowNumbers:
        return await _awaited(self._table.insert_frame(frame, key, payload, progress=progress))

    async def delete(self, row: int) -> bool:
        return await _awaited(self._table.delete(row))

    async def delete_many(self, rows: Any) -> Flags:
        return await _awaited(self._table.delete_many(rows))

    async def delete_range(self, low: Any = None, high: Any = None) -> int:
        return await _awaited(self._table.delete_range(low, high))

    async def update(self, row: int, key: Any, payload: Any) -> bool:
        return await _awaited(self._table.update(row, key, payload))

    async def update_many(self, rows: Any, keys: Any, payloads: Any) -> Flags:
        return await _awaited(self._table.update_many(rows, keys, payloads))

    async def move(self, row: int, key: Any) -> Optional[int]:
        # if the task were cancelled between the deletion and the insertion, the row would be lost
        moving = asyncio.ensure_future(_awaited(self._table.move(row, key)))
        self._moving.add(moving)
        moving.add_done_callback(self._moving.discard)
        return await asyncio.shield(moving)

    async def get(self, row: int, *, raw: bool = False) -> Optional[Row]:
        return await _awaited(self._table.get(row, raw=raw))

    async def count(self, low: Any = None, high: Any = None) -> int:
        return await _awaited(self._table.count(low, high))

    async def count_many(self, lows: Optional[Sequence[Any]], highs: Optional[Sequence[Any]]) -> Counts:
        return await _awaited(self._table.count_many(lows, highs))

    async def count_by(self, edges: Sequence[Any]) -> Counts:
        return await _awaited(self._table.count_by(edges))

    async def sum(self, low: Any = None, high: Any = None, *, raw: bool = False) -> OnePayload:
        return await _awaited(self._table.sum(low, high, raw=raw))

    async def sum_many(
        self, lows: Optional[Sequence[Any]], highs: Optional[Sequence[Any]], *, raw: bool = False
    ) -> list[OnePayload]:
        return await _awaited(self._table.sum_many(lows, highs, raw=raw))

    async def sum_by(self, edges: Sequence[Any], *, raw: bool = False) -> Sums:
        return await _awaited(self._table.sum_by(edges, raw=raw))

    async def mean(self, low: Any = None, high: Any = None, *, raw: bool = False) -> Optional[Mean]:
        return await _awaited(self._table.mean(low, high, raw=raw))

    async def select(self, low: Any = None, high: Any = None, *, raw: bool = False) -> Rows:
        return await _awaited(self._table.select(low, high, raw=raw))

    async def settle(self) -> None:
        settled: Any = self._table._settle()
        await settled

    async def checkpoint(self) -> int:
        return await _awaited(self._table.checkpoint())

    async def layout(self) -> Layout:
        return await _awaited(self._table.layout())

    async def save(self, path: Any) -> int:
        return await _awaited(self._table.save(path))

    async def rebalanced(self, into: Any = None, **options: Any) -> Rebalanced:
        not_into_itself(self, into)
        return await _awaited(self._table.rebalanced(into, **options))

    async def close(self) -> None:
        await _awaited(self._table.close())

    async def select_chunks(
        self, low: Any = None, high: Any = None, size: int = CHUNK, *, raw: bool = False
    ) -> AsyncIterator[Rows]:
        first, end = self._table._keys.ends(low, high)
        checked_size(size)
        if first >= end:
            await self._table._nothing(None)
            return
        for part in await self._table._drive(self._table._parts_steps(first, end)):
            for chunk in self._table._rows_of(await self._table._select(*part), raw).chunks(size):
                yield chunk

    def __repr__(self) -> str:
        return repr(self._table).replace("Shared", "AsyncTable", 1)

    def __reduce_ex__(self, _: Any) -> Any:
        return self._table.__reduce_ex__(_)

    async def __aenter__(self) -> Self:
        return self

    async def __aexit__(self, *_: Any) -> None:
        await self.close()


async def _awaited(asked: Answer) -> Answer:
    """Awaits the result of a call, and gives it the type that the synchronous method returns."""
    awaited: Any = asked
    answer: Answer = await awaited
    return answer


for _name, _method in vars(AsyncTable).items():
    # a method without a docstring gets that of the synchronous method
    if not _name.startswith("_") and inspect.isfunction(_method) and not _method.__doc__:
        _method.__doc__ = getattr(RemoteTable, _name).__doc__


async def connect_async(
    host: str = "127.0.0.1",
    port: int = 4000,
    *,
    key_type: Any = "uint64",
    key_decimals: Optional[int] = None,
    payload_decimals: Optional[int] = None,
    zone: Any = None,
    policy: str = POLICY,
    timeout: Optional[float] = None,
) -> AsyncTable:
    """Connects to the table of a server that `crackd serve` runs, for the tasks of the running event loop.

    Parameters and errors are those of `connect`. The table's methods are awaited.
    """
    if policy not in POLICIES:
        raise ValueError(f"policy must be one of {', '.join(POLICIES)}, not {policy}")
    kind, payloads = keys_for((), key_type, key_decimals, zone)[0], PayloadType(payload_decimals)
    timeout = checked_timeout(timeout)
    try:
        reader, writer = await asyncio.wait_for(asyncio.open_connection(host, port), timeout)
    except (OSError, asyncio.TimeoutError) as error:
        fault = TimedOut if isinstance(error, (TimeoutError, asyncio.TimeoutError)) else Disconnected
        raise fault(f"no server at {host}, port {port}: {getattr(error, 'strerror', None) or error}") from error
    shared = Shared(Line(reader, writer, timeout), kind, policy, f"{host}:{port}", payloads)
    table = AsyncTable(shared)
    try:
        await _awaited(shared._begin())
    except BaseException:
        await table.close()
        raise
    return table
