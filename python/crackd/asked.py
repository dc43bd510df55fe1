"""What a caller of `load_csv` says about a file, and what is found out about it."""

from __future__ import annotations

import enum
from dataclasses import dataclass
from typing import Any, Optional, Union

from .fields import YMD, Column

Place = Union[str, int]


class Auto(enum.Enum):
    """The value of an argument that isn't given, where None has a meaning."""

    FOUND = "found"

    def __repr__(self) -> str:
        return self.value


FOUND = Auto.FOUND


@dataclass(frozen=True)
class Role:
    """What is said about the column of the keys or of the payloads; None stands for what is to be found.

    `kind` is 'i', 'u' or 'f' for integers, unsigned integers and floats, or 'M' for dates. With `is_wanted` it is the
    table that says so, and not an argument.
    """

    name: str
    place: Union[Place, None, Auto] = FOUND
    kind: Optional[str] = None
    decimals: Optional[int] = None
    format: Optional[str] = None
    is_wanted: bool = False


@dataclass(frozen=True)
class Asked:
    """What is said about a file; None stands for what is to be found."""

    key: Role
    payload: Role
    delimiter: Optional[str] = None
    header: Optional[bool] = None
    decimal: Optional[str] = None
    is_skipping: bool = False

    @property
    def is_named(self) -> bool:
        """Whether a column is given by its name."""
        return any(isinstance(it.place, str) for it in (self.key, self.payload))


@dataclass(frozen=True)
class Found:
    """How a file is read. A column is given by its name if it is the only one of this name, else by its number."""

    delimiter: str
    header: bool
    key: Place
    key_column: Column
    payload: Optional[Place]
    payload_column: Column

    def arguments(self) -> dict[str, Any]:
        """The arguments by which `load_csv` reads another file in the same way."""
        found: dict[str, Any] = {"key": self.key, "payload": self.payload, "delimiter": self.delimiter}
        found["header"] = self.header
        columns = {"key": self.key_column} | ({} if self.payload is None else {"payload": self.payload_column})
        for name, column in columns.items():
            if column.format is not None:
                found[f"{name}_format"] = column.format
            elif column.is_float or column.code == "Q":
                found[f"{name}_type"] = "float64" if column.is_float else "uint64"
            # `load_csv` takes no exponents where the decimal places are given
            if column.format is None and not column.is_float and not column.is_scientific:
                found[f"{name}_decimals"] = column.decimals
            if column.is_grouped:
                found["decimal"] = column.sign
        return found


def check_found(found: Any) -> None:
    """Raises ValueError if this isn't what `Found.arguments` returns, or None for a table of no CSV file."""
    names = {"key", "payload", "header", "delimiter"}
    if found is not None and not (isinstance(found, dict) and found.keys() >= names):
        raise ValueError("it doesn't say how a CSV file was read")


def text_of_found(found: dict[str, Any]) -> str:
    """What was found, in one line: key 'time' (ymd), payload 'price' (2 decimal places), a header, delimiter ','."""
    parts = [f"{name} {found[name]!r}{how_text(found, name)}" for name in ("key", "payload") if found[name] is not None]
    parts.append("a header" if found["header"] else "no header")
    parts.append(f"delimiter {found['delimiter']!r}")
    if "decimal" in found:
        parts.append(f"decimal sign {found['decimal']!r}")
    return ", ".join(parts)


def how_text(found: dict[str, Any], name: str) -> str:
    """How a column is read, in brackets."""
    form, decimals = found.get(f"{name}_format"), found.get(f"{name}_decimals")
    if form is not None:
        return " (year, month, day)" if form == YMD else f" ({form})"
    if decimals is None:
        return " (floats)" if f"{name}_type" in found else " (decimals with exponents)"
    return f" ({decimals} decimal place{'s' * (decimals != 1)})" if decimals else " (integers)"
