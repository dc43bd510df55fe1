"""Reads keys and payloads from columns of pandas frames and of Arrow data."""

from __future__ import annotations

from typing import Any

from .arrays import items_of, np
from .arrow import columns_of_stream
from .gaps import Gap


def columns_of(frame: Any, key: Any, payload: Any) -> tuple[Any, Any]:
    """The keys and payloads of a pandas DataFrame or Series, or of Arrow data."""
    if is_pandas(frame):
        return columns_of_pandas(frame, key, payload)
    if not hasattr(frame, "__arrow_c_stream__"):
        raise TypeError(f"rows can't be read of type {type(frame).__name__}: it is no frame, and has no Arrow stream")
    return columns_of_arrow(frame, key, payload)


def is_pandas(frame: Any) -> bool:
    """Whether this is a pandas DataFrame or Series, by its attributes."""
    return hasattr(frame, "index") and hasattr(frame, "iloc")


def columns_of_pandas(frame: Any, key: Any = None, payload: Any = None, *, has_gaps: bool = False) -> tuple[Any, Any]:
    """The keys and payloads of a DataFrame or a Series.

    Raises `Gap` with the place of the first missing value, unless `has_gaps` says that values may be missing; then
    columns are returned as the frame has them.
    """
    if np is None or not is_pandas(frame):
        raise TypeError(f"from_pandas takes a DataFrame or a Series, not one of type {type(frame).__name__}")
    read = checked_column if has_gaps else whole_column
    if key is None:
        keys = read(frame, frame.index, "the index")
    else:
        keys = read(frame, column(frame, key), f"column {key!r}")
    if payload is not None:
        return keys, read(frame, column(frame, payload), f"column {payload!r}")
    return keys, range(len(keys)) if hasattr(frame, "columns") else read(frame, frame, "the series")


def column(frame: Any, name: Any) -> Any:
    """The column of a frame with this name. Raises ValueError if there are several."""
    if not hasattr(frame, "columns"):
        raise TypeError("a Series has no columns: its index has the keys, and it has the payloads")
    found = frame[name]
    if getattr(found, "ndim", 1) != 1:
        raise ValueError(f"the frame has several columns {name!r}")
    return found


def checked_column(frame: Any, found: Any, name: str) -> Any:
    """A column or an index, which has one level."""
    if getattr(found, "nlevels", 1) != 1:
        raise TypeError("an index of several levels can't be the keys")
    return found


def whole_column(frame: Any, found: Any, name: str) -> Any:
    """The items of a column or an index, of which none may be missing. `name` is its name in errors."""
    checked_column(frame, found, name)
    is_missing = np.asarray(found.isna())
    if is_missing.any():
        place = int(np.argmax(is_missing))
        where = f"row {place}" + ("" if found is frame.index else f", index {frame.index[place]!r}")
        raise Gap(f"{name} has a gap at {where}")
    return items_of(found, name)


def columns_of_arrow(data: Any, key: Any = 0, payload: Any = None, *, has_gaps: bool = False) -> tuple[Any, Any]:
    """The keys and payloads of an object with an Arrow stream. Without `payload` the payloads are 0, 1, 2 ..

    Raises `Gap` if an item is missing, unless `has_gaps` says that it may be; then masked arrays are returned.
    """
    if np is None:
        raise ImportError("Arrow's data needs numpy: pip install numpy")
    if not hasattr(data, "__arrow_c_stream__"):
        raise TypeError(f"from_arrow takes data with a stream of Arrow, not one of type {type(data).__name__}")
    wanted = [0 if key is None else key] + ([] if payload is None else [payload])
    found = columns_of_stream(data, wanted, has_gaps)
    return found[0], range(len(found[0])) if payload is None else found[1]
