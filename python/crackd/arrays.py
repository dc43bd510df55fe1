"""Arrays of numbers: numpy arrays if numpy is installed, else those of the module `array`.

Each array that is passed to the library is this package's own copy, contiguous and of the right type. So the caller
may change its arrays during a call.
"""

from __future__ import annotations

import array
import operator
from typing import Any, Iterable, Optional, Sequence

# numpy, or None
np: Any
try:
    import numpy as np
except ImportError:
    np = None

SIGN = 1 << 63
TOP = 1 << 64
_SOMEWHERE = array.array("Q", [0])
# types that Python takes for integers, but that aren't accepted: bool, and numpy's timedelta64
NO_NUMBERS = (bool,) if np is None else (bool, np.bool_, np.timedelta64)
MOST_SHOWN = 40
# type codes of the module `array`, with their names in numpy
DTYPES = {"Q": "uint64", "q": "int64", "I": "uint32", "B": "uint8", "d": "float64"}


class Given:
    """Items in a form of this package's own, which isn't an array and not a list."""


def is_array(it: Any) -> bool:
    """Whether this is a numpy array or can be converted to one, like a pandas column."""
    return np is not None and (isinstance(it, (np.ndarray, np.generic)) or hasattr(it, "__array__"))


def type_of_numpy(dtype: Any) -> Any:
    """The numpy type for a type of items.

    For pandas' nullable integers it is the plain integer type, and for dates with a time zone that of dates without.
    """
    return getattr(dtype, "numpy_dtype", getattr(dtype, "base", dtype))


def as_flat(it: Any) -> Any:
    """Converts to a numpy array of one dimension. Raises ValueError if an item is masked or missing."""
    dtype = getattr(it, "dtype", None)
    if dtype is not None and not isinstance(dtype, np.dtype) and isinstance(type_of_numpy(dtype), np.dtype):
        return _of_pandas(it, type_of_numpy(dtype))
    found = np.asanyarray(it)
    if found.ndim != 1:
        # as Python has it, what has no dimension has no items
        raise (ValueError if found.ndim else TypeError)(f"an array must have one dimension, not {found.ndim}")
    if isinstance(found, np.ma.MaskedArray):
        if np.ma.is_masked(found):
            raise ValueError(f"item {np.flatnonzero(np.ma.getmaskarray(found))[0]} of the array is masked")
        found = found.data
    return np.asarray(found)


def _of_pandas(it: Any, dtype: Any) -> Any:
    """Converts a pandas column of a nullable type, or of dates with a time zone, which become UTC."""
    if dtype.kind == "M":
        return np.asarray(it, dtype=dtype)
    is_missing = np.asarray(it.isna())
    if is_missing.any():
        raise ValueError(f"item {np.flatnonzero(is_missing)[0]} of the column is missing")
    return it.to_numpy(dtype=dtype)


def items_of(it: Any, what: str) -> Any:
    """Items as a numpy array or a list. An array of objects becomes a list. Bytes and text raise TypeError.

    What this package made itself, such as `Scaled`, is returned as it is.
    """
    if isinstance(it, Given):
        return it
    if hasattr(getattr(it, "dtype", None), "categories"):
        return items_of(of_categories(it), what)
    if getattr(getattr(it, "dtype", None), "tz", None) is not None and hasattr(it, "__array__"):
        from .zones import Zoned, zone_name

        return Zoned(as_flat(it), zone_name(it.dtype.tz))
    if isinstance(it, (str, bytes, bytearray)) or isinstance(it, memoryview) and it.itemsize == 1:
        raise TypeError(f"{what} must be in a list or an array, not in {type(it).__name__}")
    if not is_array(it):
        return it if isinstance(it, (list, tuple, range, array.array)) else list(it)
    found = as_flat(it)
    return found.tolist() if found.dtype == object else found


def sized(it: Any) -> Any:
    """Items that have a length: those of a generator or another iterator as a list, and all others as they are."""
    return it if hasattr(it, "__len__") else list(it)


def of_categories(it: Any) -> Any:
    """The items of a pandas column or index of categories, in the type of these."""
    codes = np.asarray(it.cat.codes if hasattr(it, "cat") else it.codes)
    if (codes < 0).any():
        raise ValueError(f"item {int(np.argmax(codes < 0))} of the column is missing")
    return it.dtype.categories.take(codes)


def types_of(items: Any) -> set[type]:
    """The types of the items of a list."""
    return {int} if isinstance(items, range) and items else set(map(type, items))


def whole(number: Any, what: str) -> int:
    """Converts an integer of Python or numpy to int. Raises TypeError for anything else, including bool."""
    try:
        if not isinstance(number, NO_NUMBERS):
            return operator.index(number)
    except TypeError:
        pass
    raise TypeError(f"{what} must be an integer, not of type {type(number).__name__}")


def whole_or_none(number: Any, what: str) -> Optional[int]:
    """As `whole`, but None stays None."""
    return None if number is None else whole(number, what)


def shown(it: Any) -> str:
    """A value as the text of an error shows it, cut after `MOST_SHOWN` characters."""
    try:
        text = str(it)
    except ValueError:
        # Python refuses to print integers of more than some thousand digits
        return f"a number of {it.bit_length()} bits" if isinstance(it, int) else f"a {type(it).__name__} of many digits"
    return text if len(text) <= MOST_SHOWN else text[:MOST_SHOWN] + ".."


def empty(code: str, size: int) -> Any:
    """A new array of this many numbers, whose values are arbitrary."""
    if np is not None:
        return np.empty(size, dtype=DTYPES[code])
    return array.array(code, bytes(size * array.array(code).itemsize))


def from_ints(code: str, numbers: Iterable[int], what: str) -> Any:
    """A new array of the integers of an iterable."""
    try:
        found = array.array(code, numbers)
    except TypeError:
        raise TypeError(f"{what} must be integers") from None
    except OverflowError:
        raise OverflowError(
            f"{what} must fit into {'signed' if code == 'q' else 'unsigned'} integers of 64 bits"
        ) from None
    return np.frombuffer(found, dtype=DTYPES[code]) if np is not None else found


def ints(code: str, numbers: Any, what: str) -> Any:
    """A new array of these integers, unsigned for the code "Q" and signed for "q".

    Raises OverflowError if one doesn't fit, and TypeError for other types, including bool.
    """
    given = items_of(numbers, what)
    if isinstance(given, Given):
        raise TypeError(f"{what} must be integers, not {type(given).__name__.lower()}")
    if not is_array(given):
        if not types_of(given).isdisjoint(NO_NUMBERS):
            raise TypeError(f"{what} must be integers, not {' or '.join(it.__name__ for it in NO_NUMBERS)}")
        return from_ints(code, given, what)
    if given.dtype.kind not in "ui":
        if given.size:
            raise TypeError(f"{what} must be integers, not {given.dtype}")
        given = given.astype(np.int64)
    if given.size and given.dtype.kind == "i" and code == "Q" and given.min() < 0:
        raise OverflowError(f"{what} must fit into unsigned integers of 64 bits")
    if given.size and given.dtype.kind == "u" and code == "q" and given.max() >= SIGN:
        raise OverflowError(f"{what} must fit into signed integers of 64 bits")
    return np.array(given, dtype=DTYPES[code], order="C")


def address(it: Any) -> tuple[int, int]:
    """The address and length of an array that this package made. The address is never NULL, not even if it is empty."""
    if np is not None:
        if not (it.flags.c_contiguous and it.flags.aligned and it.ndim == 1):
            raise ValueError("an array isn't laid out as the library needs it")
        return it.ctypes.data, it.size
    at, size = it.buffer_info()
    return at or _SOMEWHERE.buffer_info()[0], size


def flags(it: Any) -> Any:
    """Bytes 0 and 1 as booleans."""
    return it.view(bool) if np is not None else [bool(each) for each in it]


def plain(it: Any) -> list[Any]:
    """An array as a list of Python numbers."""
    found: list[Any] = it.tolist() if hasattr(it, "tolist") else it
    return found


def parsed(code: str, text: bytes) -> Any:
    """An array of the decimal integers in a text, which are separated by white space."""
    if np is not None:
        return np.fromstring(text, dtype=DTYPES[code], sep=" ") if text.strip() else np.empty(0, dtype=DTYPES[code])
    return array.array(code, map(int, text.split()))


def joined_text(form: str, *columns: Sequence[int]) -> bytes:
    """One text for all rows of these columns, where each row is formatted by `form`."""
    rows = len(columns[0])
    if len(columns) == 1:
        words = plain(columns[0])
    else:
        words = [None] * (rows * len(columns))
        for at, column in enumerate(columns):
            words[at :: len(columns)] = plain(column)
    return ((form * rows) % tuple(words)).encode("ascii")
