"""A table on a server, over TCP. A call for many items sends up to 100,000 statements before it waits for replies."""

from __future__ import annotations

import contextlib
import threading
from typing import Any, Callable, Optional

from . import wire
from .base import POLICIES, POLICY
from .channel import Channel, checked_timeout
from .errors import Busy, Closed, Disconnected, TimedOut
from .decimals import INTEGERS, PayloadType
from .keys import Keys, keys_for
from .remote import RemoteTable


class Client(RemoteTable):
    """A table on a server: see `connect`.

    Examples
    --------
    >>> with crackd.serve(workers=1) as server:
    ...     with crackd.connect(port=server.port) as table:
    ...         row = table.insert(5, 70)
    ...         print(table.count(0, 10), table.sum())
    1 70
    """

    # the server that this table keeps, if it was made by the server's `connect`
    _server: Any = None

    def __init__(self, channel: Channel, keys: Keys, policy: str, payloads: PayloadType = INTEGERS):
        self._channel: Optional[Channel] = channel
        self._payloads = payloads
        self._keys, self._policy, self._timeout, self._peer = keys, policy, channel.timeout, channel.peer
        self._lock, self._is_asking = threading.RLock(), False
        self._begin()

    @property
    def timeout(self) -> Optional[float]:
        """How many seconds a call waits for a silent server; None waits for ever. It may be changed."""
        return self._timeout

    @timeout.setter
    def timeout(self, seconds: Optional[float]) -> None:
        self._timeout = checked_timeout(seconds)

    def ping(self) -> None:
        """Checks that the server answers. Raises `Disconnected` if it doesn't."""
        super().ping()

    def stats(self, part: Optional[int] = None) -> dict[str, int]:
        """Returns numbers of the table and its server by name, such as rows, pieces and cells.

        With `part` these are the numbers of that partition. docs/SPECIFICATION.md lists them. The time that this takes
        doesn't depend on the number of rows.
        """
        numbers: dict[str, int] = super().stats(part)
        return numbers

    def _check_open(self) -> None:
        with self._lock:
            self._opened()

    def _opened(self) -> Channel:
        """The channel. Raises `Closed` if the connection is closed."""
        if self._channel is None:
            raise Closed("the connection is closed; connect again")
        return self._channel

    def _leave(self) -> None:
        super()._leave()
        channel = getattr(self, "_channel", None)
        if channel is not None:
            # this closes only the child's descriptor; the parent's connection stays open
            channel.close()

    def _alone(self, call: Callable[..., Any], *words: Any) -> Any:
        """Calls a function that exchanges statements and replies, while no other call uses the connection.

        Raises `Busy` if a signal handler has interrupted such a call of this thread.
        """
        with self._lock:
            if self._is_asking:
                raise Busy("a call of this thread is under way, and a handler of a signal can't make another one")
            self._is_asking = True
            try:
                return call(*words)
            finally:
                self._is_asking = False

    def _disconnect(self) -> None:
        channel, self._channel = self._channel, None
        if channel is not None:
            channel.close()

    def _say(self, steps: wire.Exchanges) -> Any:
        """Runs a conversation with the server. Other calls may come between two exchanges."""
        try:
            request = next(steps)
            while True:
                try:
                    said = self._alone(self._exchange, *request)
                except BaseException as error:
                    request = steps.throw(error)
                else:
                    request = steps.send(said)
        except StopIteration as done:
            return done.value

    def _exchange(self, text: bytes, lines: int) -> bytes:
        """Sends statements. Returns `lines` lines of replies, and the further lines that the last one announces.

        An error closes the connection, since later replies would no longer match their statements. Its `given` has the
        whole lines that had come.
        """
        channel = self._opened()
        try:
            channel.timeout = self._timeout
            channel.send(text)
            said = channel.block(lines)
            more = wire.listed(said)
            return said + channel.block(more) if more else said
        except BaseException as error:
            error.given = channel.block_given()  # type: ignore[attr-defined]
            self._disconnect()
            raise

    @property
    def partitions(self) -> int:
        """The number of partitions of the server's table."""
        return len(self.layout().parts)

    def close(self) -> None:
        """Ends the session with the server. A second call does nothing."""
        with self._lock:
            if self._channel is not None:
                self._alone(self._quit)

    def _quit(self) -> None:
        with contextlib.suppress(Disconnected):
            self._exchange(b"quit\n", 1)
        self._disconnect()

    def __del__(self) -> None:
        channel = getattr(self, "_channel", None)
        if channel is not None:
            channel.close()


def connect(
    host: str = "127.0.0.1",
    port: int = 4000,
    *,
    key_type: Any = "uint64",
    key_decimals: Optional[int] = None,
    payload_decimals: Optional[int] = None,
    zone: Any = None,
    policy: str = POLICY,
    timeout: Optional[float] = None,
) -> Client:
    """Connects to the table of a server that `crackd serve` runs.

    Parameters
    ----------
    host, port : str, int
        Where the server listens.
    key_type : str or type, optional
        The type of the keys: "uint64", which is the server's own, "int64", "float64", "datetime64[s]" .. All clients of
        a table must use the same type.
    key_decimals, payload_decimals : int, optional
        The numbers of decimal places of keys and payloads: see `Table`. The server has integers, so all clients must
        use the same numbers. The default is 0.
    zone : str or tzinfo, optional
        The time zone of keys that are dates: see `Table`. The server has dates in UTC.
    policy : str, optional
        How queries merge pending rows: "auto", "complete", "gradual" or "ripple".
    timeout : float, optional
        How many seconds to wait for a silent server, now and in each call. After that `TimedOut` is raised and the
        connection is closed. The default waits for ever. The attribute `timeout` of the table changes it.

    Returns
    -------
    Client

    Raises
    ------
    Disconnected
        If there is no server.
    """
    if policy not in POLICIES:
        raise ValueError(f"policy must be one of {', '.join(POLICIES)}, not {policy}")
    kind, payloads = keys_for((), key_type, key_decimals, zone)[0], PayloadType(payload_decimals)
    try:
        channel = Channel(host, port, timeout=checked_timeout(timeout))
    except OSError as error:
        fault = TimedOut if isinstance(error, TimeoutError) else Disconnected
        raise fault(f"no server at {host}, port {port}: {error.strerror or error}") from error
    return Client(channel, kind, policy, payloads)
