"""Names for the types that calls return, for type checkers. Without numpy, arrays are those of the module `array`."""

from __future__ import annotations

from typing import TYPE_CHECKING, Any, Callable, Union

if TYPE_CHECKING:
    import datetime
    import decimal
    import fractions

    import numpy as np
    import numpy.typing as npt
    from typing_extensions import Self

    RowNumbers = npt.NDArray[np.uint64]
    OneKey = Union[int, float, decimal.Decimal, np.datetime64, datetime.datetime]
    KeyArray = npt.NDArray[np.generic]
    # a decimal if the table's payloads have decimal places
    OnePayload = Union[int, decimal.Decimal]
    # of int64, or of float64 if payloads have decimal places
    Payloads = Union[npt.NDArray[np.int64], npt.NDArray[np.float64]]
    Counts = npt.NDArray[np.int64]
    Flags = npt.NDArray[np.bool_]
    # of int64, of float64 for decimals, or of objects if a sum needs more bits
    Sums = npt.NDArray[np.generic]
    # a decimal if the table's payloads have decimal places
    Mean = Union[fractions.Fraction, decimal.Decimal]
else:
    RowNumbers = OneKey = OnePayload = KeyArray = Payloads = Counts = Flags = Sums = Mean = Self = Any

# True reports a load's progress on standard error; a function gets the numbers of rows inserted so far and of all rows
Progress = Union[bool, Callable[[int, int], object], None]

__all__ = ["Counts", "Flags", "KeyArray", "Mean", "OneKey", "OnePayload", "Payloads", "Progress", "RowNumbers", "Self"]
__all__ += ["Sums"]
