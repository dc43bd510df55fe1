"""A connection with a server: lines in and out."""

from __future__ import annotations

import select
import socket
import time
from typing import Callable, Optional

from .errors import Disconnected, TimedOut

BYTES_AT_ONCE = 2**18
SECONDS_OF_A_STEP = 0.2
# up to this many line ends are searched one by one
FEW_LINES = 100
LEFT = "the server closed the connection; connect again"


def checked_timeout(seconds: Optional[float]) -> Optional[float]:
    """Returns a timeout. Raises ValueError unless it is above 0 or None."""
    if seconds is not None and not seconds > 0:
        raise ValueError(f"a timeout must be above 0 seconds, or None, not {seconds}")
    return seconds


class Lines:
    """The bytes that have arrived and weren't taken yet. `feeds` is the number of line feeds in them."""

    def __init__(self) -> None:
        # the first part still has the bytes that were taken from it, up to `_begin`
        self._parts: list[bytes] = []
        self._begin = self.feeds = 0

    def add(self, given: bytes) -> None:
        """Adds bytes that have arrived."""
        self._parts.append(given)
        self.feeds += given.count(b"\n")

    def taken(self, lines: int) -> bytes:
        """Takes this many lines, each with its line feed. They must have arrived."""
        if len(self._parts) > 1:
            self._parts = [b"".join([self._parts[0][self._begin :], *self._parts[1:]])]
            self._begin = 0
        given = self._parts[0] if self._parts else b""
        begin, end = self._begin, self._end_of(given, lines)
        self._parts, self._begin = ([given], end) if end < len(given) else ([], 0)
        self.feeds -= lines
        return given[begin:end]

    def _end_of(self, given: bytes, lines: int) -> int:
        """The place in `given` after the first `lines` lines that weren't taken."""
        if lines == self.feeds:
            return max(self._begin, given.rfind(b"\n") + 1)
        if lines > FEW_LINES:
            return len(given) - len(given[self._begin :].split(b"\n", lines)[-1])
        end = self._begin
        for _ in range(lines):
            end = given.index(b"\n", end) + 1
        return end


class Channel:
    """A connection with a server. It receives while it sends, so that the two sides can't block each other.

    `on_wait` is called whenever nothing has arrived for a moment. `timeout` is how many seconds the server may be
    silent while a call waits for it, or None.
    """

    def __init__(
        self, host: str, port: int, on_wait: Callable[[], None] = lambda: None, timeout: Optional[float] = None
    ):
        connection = socket.create_connection((host, port), timeout)
        connection.setsockopt(socket.IPPROTO_TCP, socket.TCP_NODELAY, 1)
        self._use(connection, f"{host}:{port}", on_wait, timeout)

    def _use(
        self,
        connection: socket.socket,
        peer: str,
        on_wait: Callable[[], None] = lambda: None,
        timeout: Optional[float] = None,
    ) -> None:
        """Makes a channel of a socket that is connected."""
        self.on_wait, self.timeout = on_wait, timeout
        self.socket, self.peer = connection, peer
        self.socket.setblocking(False)
        self._given = Lines()
        self.unsent, self._poll = memoryview(b""), select.poll()
        # when something was last sent or received
        self._since = time.monotonic()

    def send(self, text: bytes) -> None:
        """Sends lines: what the socket takes now, and the rest while replies are awaited."""
        self.unsent = memoryview(bytes(self.unsent) + text) if self.unsent else memoryview(text)
        self._push()

    def _push(self) -> None:
        try:
            while self.unsent:
                self.unsent = self.unsent[self.socket.send(self.unsent[:BYTES_AT_ONCE]) :]
                self._since = time.monotonic()
        except BlockingIOError:
            pass
        except OSError as error:
            raise Disconnected(LEFT) from error

    def step(self) -> None:
        """Waits a moment for the server, keeps what arrives, and sends what can be sent."""
        self._poll.register(self.socket, select.POLLIN | (select.POLLOUT if self.unsent else 0))
        if not self._poll.poll(self._moment() * 1000):
            self.on_wait()
            return
        try:
            given = self.socket.recv(BYTES_AT_ONCE)
            if not given:
                raise Disconnected(LEFT)
            self._given.add(given)
            self._since = time.monotonic()
        except BlockingIOError:
            pass
        except OSError as error:
            raise Disconnected(LEFT) from error
        self._push()

    def _moment(self) -> float:
        """How many seconds to wait now. Raises `TimedOut` once the server has been silent for too long."""
        if self.timeout is None:
            return SECONDS_OF_A_STEP
        left = self._since + self.timeout - time.monotonic()
        if left <= 0:
            raise TimedOut(f"the server was silent for {self.timeout} seconds; the connection is closed, connect again")
        return min(left, SECONDS_OF_A_STEP)

    def block(self, lines: int) -> bytes:
        """Waits for the next `lines` lines, each with its line feed. If this raises an error, no line is taken."""
        while self._given.feeds < lines:
            self.step()
        return self._given.taken(lines)

    def block_given(self) -> bytes:
        """Takes the lines that have arrived, each with its line feed."""
        return self._given.taken(self._given.feeds)

    def line(self) -> str:
        """Waits for the next line, without its line feed."""
        return self.block(1)[:-1].decode("ascii", "backslashreplace")

    def lines(self, count: int) -> list[str]:
        """Waits for the next `count` lines, without their line feeds."""
        return self.block(count).decode("ascii", "backslashreplace").split("\n")[:-1]

    def lines_given(self) -> list[str]:
        """Takes the lines that have arrived, without their line feeds."""
        return self.lines(self._given.feeds)

    def close(self) -> None:
        """Closes the socket."""
        self.socket.close()
