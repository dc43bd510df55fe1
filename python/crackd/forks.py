"""Forked child processes can't use their parent's tables: each call raises `Forked` at once."""

from __future__ import annotations

import os
import weakref
from typing import Any

from .errors import Forked

OF_THE_PARENT = "the table is that of the parent process; open one, or connect again, in this one"

_TABLES: weakref.WeakSet[Any] = weakref.WeakSet()


class NoLock:
    """Replaces a table's lock in a forked child, since the thread that held the lock may not exist there."""

    def __enter__(self) -> None:
        raise Forked(OF_THE_PARENT)

    def __exit__(self, *_: Any) -> None: ...

    def _is_owned(self) -> bool:
        return False


def leave_in_children(table: Any) -> None:
    """Registers a table: its method `_leave` is called in each child that is forked while the table exists."""
    _TABLES.add(table)


def _leave_all() -> None:
    for table in list(_TABLES):
        table._leave()


os.register_at_fork(after_in_child=_leave_all)
