"""Rows with gaps: what is done with rows whose key or payload is missing.

A gap is a masked item, None, NaN, NaT, pandas' NA, or what a frame or Arrow data holds for missing.
"""

from __future__ import annotations

import functools
import inspect
import itertools
from typing import Any, Callable

from .arrays import Given, np
from .zones import Zoned

WAYS = ("error", "skip")
HINT = "missing='skip' leaves out rows with a gap"


class Gap(ValueError):
    """A column of a frame or of Arrow data has a gap."""

    def hinted(self) -> "Gap":
        """The same, with the argument that leaves out such rows."""
        return Gap(f"{self}; {HINT}")


def is_skipping(missing: Any) -> bool:
    """Whether rows with a gap are left out. Raises ValueError if the argument `missing` says neither."""
    if not isinstance(missing, str) or missing not in WAYS:
        raise ValueError(f"missing must be 'error' or 'skip', not {missing!r}")
    return missing == "skip"


def taking_gaps(call: Callable[..., Any]) -> Callable[..., Any]:
    """Gives a class method that makes a table of keys and payloads the argument `missing`."""

    @functools.wraps(call)
    def taking(cls: Any, keys: Any, payloads: Any = None, *, missing: str = "error", **options: Any) -> Any:
        skipped = 0
        if is_skipping(missing):
            keys, payloads, skipped = whole_rows(keys, payloads)
        else:
            keys, payloads = listed(keys), None if payloads is None else listed(payloads)
        try:
            table = call(cls, keys, payloads, **options)
        except (ValueError, TypeError) as error:
            if type(error) in (ValueError, TypeError) and has_gap(keys, payloads):
                raise type(error)(f"{error}; {HINT}") from None
            raise
        table.skipped = skipped
        return table

    form = inspect.signature(call)
    words = list(form.parameters.values())
    words.insert(-1, inspect.Parameter("missing", inspect.Parameter.KEYWORD_ONLY, default="error", annotation="str"))
    taking.__signature__ = form.replace(parameters=words)  # type: ignore[attr-defined]
    return taking


def has_gap(keys: Any, payloads: Any) -> bool:
    """Whether a key or a payload is missing."""
    found = (gaps_in(it) for it in (keys, payloads) if it is not None)
    return any(it is not None and any(it) for it in found)


def whole_rows(keys: Any, payloads: Any = None) -> tuple[Any, Any, int]:
    """The rows without a gap, and how many have one. Without payloads the payloads are the places of the keys."""
    keys, payloads = listed(keys), None if payloads is None else listed(payloads)
    if payloads is not None and len(keys) != len(payloads):
        raise ValueError(f"{len(keys)} keys and {len(payloads)} payloads")
    found = [gaps_in(it) for it in (keys, payloads) if it is not None]
    gaps = [it for it in found if it is not None]
    if not gaps:
        return keys, payloads, 0
    kept = [not any(them) for them in zip(*gaps)] if np is None else ~np.logical_or.reduce(gaps)
    left = int(sum(kept) if np is None else np.count_nonzero(kept))
    if payloads is None:
        payloads = range(len(keys)) if np is None else np.arange(len(keys))
    return taken(keys, kept), taken(payloads, kept), len(keys) - left


def listed(items: Any) -> Any:
    """Items of which one can take some: as they are, or as a list if they can be gone through only once."""
    return items if hasattr(items, "__len__") else list(items)


def gaps_in(items: Any) -> Any:
    """Which items are missing, as an array or a list of bool, or None if surely none is."""
    if isinstance(items, Zoned):
        return gaps_in(items.dates)
    if isinstance(items, (Given, range, str, bytes, bytearray, memoryview)):
        return None
    if hasattr(items, "isna"):
        return np.asarray(items.isna())
    if np is not None and isinstance(items, np.ma.MaskedArray):
        nothing = gaps_in(items.data)
        mask = np.ma.getmaskarray(items)
        return mask if nothing is None else mask | nothing
    if np is not None and isinstance(items, np.ndarray):
        if items.ndim != 1 or items.dtype.kind not in "fMO":
            return None
        if items.dtype.kind == "O":
            return np.fromiter(map(is_missing, items), np.bool_, len(items))
        return np.isnat(items) if items.dtype.kind == "M" else np.isnan(items)
    found = list(map(is_missing, items))
    return found if np is None else np.array(found, np.bool_)


def is_missing(item: Any) -> bool:
    """Whether an item is missing: None, NaN, NaT, NA or masked."""
    if item is None or np is not None and item is np.ma.masked:
        return True
    try:
        return bool(item != item)
    except (TypeError, ValueError):
        # NA can't be compared
        return type(item).__name__ == "NAType"


def taken(items: Any, kept: Any) -> Any:
    """The items that are kept."""
    if isinstance(items, Zoned):
        return Zoned(taken(items.dates, kept), items.zone)
    if isinstance(items, range) and np is not None:
        items = np.asarray(items)
    if np is None or not hasattr(items, "__array__"):
        return list(itertools.compress(items, kept))
    if isinstance(items, np.ma.MaskedArray):
        return items.data[kept]
    return items[kept]
