"""A table on a server: what `Client` and `AsyncTable` share, apart from how statements are sent."""

from __future__ import annotations

import abc
from typing import Any, Iterator, Optional

from . import wire
from .arrays import whole
from .base import AnyTable


class RemoteTable(AnyTable):
    """A table whose calls are conversations with a server."""

    _policy: str
    _peer: str

    @abc.abstractmethod
    def _say(self, steps: wire.Exchanges) -> Any:
        """Runs a conversation and returns its result."""

    @property
    def policy(self) -> str:
        """How queries merge pending rows."""
        return self._policy

    def ping(self) -> Any:
        """Checks that the server answers. Raises `Disconnected` if it doesn't."""
        return self._say(wire.ping())

    def stats(self, part: Optional[int] = None) -> Any:
        """Returns numbers of the table and its server, or of a partition, by name."""
        return self._say(wire.stats(part if part is None else whole(part, "a partition")))

    def _begin(self) -> Any:
        """Sends the first statements of a connection. Raises `Disconnected` if they aren't answered."""
        return self._say(wire.begin(self._policy))

    def _facts(self) -> Iterator[tuple[str, str]]:
        yield "policy", self._policy
        yield "server", self._peer

    def _insert(self, key: int, payload: int) -> Any:
        return self._say(wire.insert(key, payload))

    def _insert_many(self, keys: Any, payloads: Any) -> Any:
        return self._say(wire.insert_many(keys, payloads))

    def _take(self, row: int) -> Any:
        return self._say(wire.take(row))

    def _delete(self, row: int) -> Any:
        return self._say(wire.delete(row))

    def _delete_many(self, rows: Any) -> Any:
        return self._say(wire.delete_many(rows))

    def _update(self, row: int, key: int, payload: int) -> Any:
        return self._say(wire.update(row, key, payload))

    def _update_many(self, rows: Any, keys: Any, payloads: Any) -> Any:
        return self._say(wire.update_many(rows, keys, payloads))

    def _count(self, first: int, last: int) -> Any:
        return self._say(wire.count(first, last))

    def _count_many(self, firsts: Any, lasts: Any) -> Any:
        return self._say(wire.count_many(firsts, lasts))

    def _sum(self, first: int, last: int) -> Any:
        return self._say(wire.sum_of(first, last))

    def _sum_many(self, firsts: Any, lasts: Any) -> Any:
        return self._say(wire.sum_many(firsts, lasts))

    def _select(self, first: int, last: int) -> Any:
        return self._say(wire.select(first, last))

    def _settle(self) -> Any:
        return self._say(wire.settle(self._policy))

    def _checkpoint(self) -> Any:
        return self._say(wire.checkpoint())

    def _layouts(self) -> Any:
        return self._say(wire.layouts(self._keys))
