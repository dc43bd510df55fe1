"""Reads the fields of a column of a CSV file as numbers: integers, decimals, floats and dates."""

from __future__ import annotations

import array
import datetime
import decimal
import math
import re
from dataclasses import dataclass
from typing import Any, Callable, Optional, Sequence

from .arrays import MOST_SHOWN, SIGN, TOP, np, shown
from .times import time_of, times_of

WHOLE = re.compile(r"[+-]?[0-9]+")
DECIMAL = re.compile(r"[+-]?(?:[0-9]+\.?[0-9]*|\.[0-9]+)")
SCIENTIFIC = re.compile(rf"{DECIMAL.pattern}(?:e[+-]?[0-9]{{1,3}})?", re.IGNORECASE)
FLOAT = re.compile(rf"{DECIMAL.pattern}(?:e[+-]?[0-9]+)?|[+-]?inf(?:inity)?|[+-]?nan", re.ASCII | re.IGNORECASE)
LEADING_ZERO = re.compile(r"\s*[+-]?0[0-9]")
# the date formats that numpy reads as `strptime` does, provided that each field has all of its digits
ISO = re.compile(r"%Y-%m-%d(?:[T ]%H(?::%M(?::%S(?:\.%f)?)?)?)?Z?")
DIGITS = {"%Y": "0000", "%m": "00", "%d": "00", "%H": "00", "%M": "00", "%S": "00"}
# the format of dates and times in the order year, month, day, in each form that `times` reads
YMD = "ymd"
# integers of this many digits surely fit into 64 bits
MOST_DIGITS = 18
# a column with longer fields is read field by field
MOST_WIDTH = 24
EPOCH = datetime.datetime(1970, 1, 1)
MICROSECOND = datetime.timedelta(microseconds=1)
LEAST_DATE = None if np is None else np.datetime64(datetime.datetime.min)
# what stands for a missing value: nothing, or a word that pandas takes for one
GAPS = frozenset(
    ["", "#N/A", "#N/A N/A", "#NA", "-1.#IND", "-1.#QNAN", "-NaN", "-nan", "1.#IND", "1.#QNAN", "<NA>", "N/A", "NA"]
    + ["NULL", "NaN", "None", "n/a", "nan", "null"]
)
# the signs that may stand between groups of three digits, for each decimal sign
BETWEEN = {".": ", '\u00a0\u202f\u2019", ",": ". '\u00a0\u202f\u2019"}


def is_gap(field: str) -> bool:
    """Whether a field stands for a missing value."""
    return field.strip() in GAPS


def grouped_form(sign: str, between: str) -> re.Pattern[str]:
    """The form of numbers with this decimal sign and this sign between groups of three digits."""
    point, comma = re.escape(sign), re.escape(between)
    return re.compile(rf"[+-]?[1-9][0-9]{{0,2}}(?:{comma}[0-9]{{3}})+(?:{point}[0-9]*)?")


GROUPED = {sign: {it: grouped_form(sign, it) for it in between} for sign, between in BETWEEN.items()}


def ungrouped(field: str, sign: str) -> str:
    """A number without the signs between groups of three digits, and with a point as its decimal sign."""
    text = field.strip()
    for between, form in GROUPED[sign].items():
        if between in text and form.fullmatch(text):
            text = text.replace(between, "")
            break
    if sign != "." and "." in text:
        raise ValueError(f"{quoted(field)} has a point, but the decimal sign is {sign!r}")
    return text.replace(sign, ".")


@dataclass(frozen=True)
class Column:
    """How the fields of a column are read. `least` and `most` are the least and greatest integers accepted.

    `sign` is the decimal sign. If it is given by the user, `is_grouped` says that groups of three digits may be
    divided. `is_strict` refuses leading zeros, and `is_scientific` accepts exponents of decimals. `unit` and `is_zoned`
    are for dates of the format `YMD`.
    """

    decimals: int = 0
    format: Optional[str] = None
    is_float: bool = False
    least: int = -SIGN
    most: int = SIGN - 1
    sign: str = "."
    is_grouped: bool = False
    is_strict: bool = False
    is_scientific: bool = False
    unit: str = "us"
    is_zoned: bool = False

    def reader(self) -> Callable[[str], Any]:
        """The function that reads a field as a number, or raises ValueError with the reason."""
        if self.format is not None:
            return self._time if self.format == YMD else self._date
        if self.is_float:
            return self._float
        return self._decimal if self.decimals or self.is_scientific else self._whole

    def read_all(self, fields: list[str]) -> Sequence[Any]:
        """Reads many fields at once. Raises ValueError if it can't; `reader` may still be able to read each field."""
        if self.format == YMD:
            return times_of(fields, self.unit, self.is_zoned)
        if self.format is not None:
            return dates_of_numpy(fields, self.format)
        is_plain = self.sign == "." and not self.is_grouped
        if is_plain and self.decimals and not self.is_scientific:
            found = decimals_of_numpy(fields, self.decimals, self.is_strict)
            if found is not None and self.least <= int(found.min()):
                return found
        if self.is_strict and has_leading_zero(fields):
            raise ValueError("leading zeros")
        if not is_plain:
            fields = [ungrouped(it, self.sign) for it in fields]
        if self.is_float:
            return list(map(self._float_of, fields))
        if self.decimals or self.is_scientific:
            return self._plain_decimals(fields) or list(map(self._decimal_of, fields))
        text = "".join(fields)
        if not (text.isascii() and text.replace("-", "").replace("+", "").isdigit()):
            raise ValueError("more than digits and signs")
        found = list(map(int, fields))
        if not self.least <= min(found) <= max(found) <= self.most:
            raise ValueError("out of bounds")
        return found

    def _plain_decimals(self, fields: list[str]) -> Optional[list[int]]:
        """Reads decimals that all have exactly `decimals` decimal places and fit into 64 bits. None if others occur."""
        if self.is_scientific or not 0 < self.decimals < MOST_DIGITS:
            return None
        text = "\n".join(fields)
        form = rf"[+-]?[0-9]{{1,{MOST_DIGITS - self.decimals}}}\.[0-9]{{{self.decimals}}}"
        if re.fullmatch(rf"(?:{form}\n)*{form}", text) is None:
            return None
        found = list(map(int, text.replace(".", "").split("\n")))
        return found if len(found) == len(fields) and self.least <= min(found) else None

    @property
    def has_offsets(self) -> bool:
        """Whether the fields are times with an offset from UTC."""
        return self.is_zoned or "%z" in (self.format or "")

    @property
    def code(self) -> str:
        """The type code of the numbers in the module `array`."""
        return "d" if self.is_float else "q" if self.format is not None or self.least < 0 else "Q"

    def _date(self, field: str) -> int:
        try:
            date = datetime.datetime.strptime(field.strip(), self.format or "")
        except ValueError:
            raise ValueError(f"{quoted(field)} isn't a date of the form {self.format!r}") from None
        if date.tzinfo is not None:
            date = date.astimezone(datetime.timezone.utc).replace(tzinfo=None)
        return (date - EPOCH) // MICROSECOND

    def _time(self, field: str) -> int:
        try:
            return time_of(field, self.unit, self.is_zoned)
        except ValueError as error:
            raise ValueError(f"{quoted(field)} {error}") from None

    def _signed(self, field: str) -> str:
        """A number's field with a point as its decimal sign. Raises ValueError for leading zeros that aren't wanted."""
        if self.is_strict and LEADING_ZERO.match(field):
            raise ValueError(f"{quoted(field)} has a leading zero")
        return ungrouped(field, self.sign) if self.sign != "." or self.is_grouped else field.strip()

    def _float(self, field: str) -> float:
        return self._float_of(self._signed(field), field)

    def _float_of(self, text: str, field: Optional[str] = None) -> float:
        text, field = text.strip(), text if field is None else field
        if FLOAT.fullmatch(text) is None:
            raise ValueError(f"{quoted(field)} isn't a number")
        number = float(text)
        if number != number:
            raise ValueError("NaN can't be a key")
        if math.isinf(number) and "n" not in text.lower():
            raise ValueError(f"{quoted(field)} is beyond all floats")
        return number

    def _whole(self, field: str) -> int:
        text = self._signed(field)
        if WHOLE.fullmatch(text) is None:
            raise ValueError(f"{quoted(field)} isn't an integer")
        digits = text.lstrip("+-0") or "0"
        number = int(digits) if len(digits) <= MOST_SHOWN else TOP
        return self._bounded(-number if text.startswith("-") else number, field)

    def _decimal(self, field: str) -> int:
        return self._decimal_of(self._signed(field), field)

    def _decimal_of(self, text: str, field: Optional[str] = None) -> int:
        text, field = text.strip(), text if field is None else field
        form = SCIENTIFIC if self.is_scientific else DECIMAL
        if form.fullmatch(text) is None or len(text) > MOST_SHOWN:
            raise ValueError(f"{quoted(field)} isn't a decimal number")
        scaled = decimal.Decimal(text).scaleb(self.decimals, WIDE)
        if scaled != scaled.to_integral_value():
            raise ValueError(f"{quoted(field)} has more than {self.decimals} decimal places")
        return self._bounded(int(scaled), field)

    def _bounded(self, number: int, field: str) -> int:
        if not self.least <= number <= self.most:
            times = f", times 10 to the power of {self.decimals}," if self.decimals else ""
            raise ValueError(f"{quoted(field)}{times} isn't {self.least} to {self.most}")
        return number


WIDE = decimal.Context(prec=100)


def has_leading_zero(fields: list[str]) -> bool:
    """Whether a field of digits has a leading zero."""
    text = "\n" + "\n".join(fields)
    if not any(it in text for it in ("\n0", "-0", "+0", " ", "\t")):
        return False
    text = ("\n" + "\n\n".join(fields) + "\n").replace("\n-", "\n").replace("\n+", "\n")
    is_plain = text.count("\n0") == text.count("\n0\n") + text.count("\n0.")
    if is_plain and " " not in text and "\t" not in text:
        return False
    return any(map(LEADING_ZERO.match, fields))


def decimals_of_numpy(fields: list[str], decimals: int, is_strict: bool) -> Any:
    """Reads decimals with a point and up to `decimals` decimal places, times 10**`decimals`, by numpy.

    None if a field has another form, more decimal places, digits that may not fit into 64 bits, or with `is_strict` a
    leading zero.
    """
    if np is None or not fields or decimals > MOST_DIGITS:
        return None
    texts = np.array(fields)
    width = texts.dtype.itemsize // 4
    letters = texts.view(np.uint32).reshape(len(fields), width) if 0 < width <= MOST_WIDTH else None
    if letters is None or int(letters.max()) > 127:
        return None
    rows = np.ascontiguousarray(letters.astype(np.uint8).T)
    signs = (rows[0] == ord("-")) | (rows[0] == ord("+"))
    found, places, digits, after = (np.zeros(len(fields), it) for it in (np.int64, np.int8, np.int8, np.bool_))
    length = np.zeros(len(fields), np.int64)
    for at, row in enumerate(rows):
        is_digit, is_point = row - np.uint8(ord("0")) <= 9, row == ord(".")
        known = is_digit | is_point & ~after
        if not (known | (row == 0) | (signs if at == 0 else False)).all():
            return None
        found = np.where(is_digit, found * 10 + (row - np.uint8(ord("0"))), found)
        digits += is_digit
        places += is_digit & after
        after |= is_point
        length += row != 0
    # a zero character in a field, or after it, is no digit
    if int(length.sum()) != sum(map(len, fields)) or int(digits.min()) < 1 or int(places.max()) > decimals:
        return None
    if int((digits - places).max()) + decimals > MOST_DIGITS:
        return None
    if is_strict and are_padded(rows, signs):
        return None
    found *= np.array([10**it for it in range(decimals + 1)])[decimals - places]
    return np.where(rows[0] == ord("-"), -found, found)


def are_padded(rows: Any, signs: Any) -> bool:
    """Whether a number has a leading zero. `rows` has the characters at each place, and `signs` says who has a sign."""
    nothing = np.zeros_like(rows[0])
    one, two, three = [*rows[:3], nothing, nothing][:3]
    first, second = np.where(signs, two, one), np.where(signs, three, two)
    return bool(((first == ord("0")) & (second - np.uint8(ord("0")) <= 9)).any())


def dates_of_numpy(fields: list[str], form: str) -> Sequence[Any]:
    """Reads dates of an ISO format as microseconds since 1970, by numpy.

    Raises ValueError for another format, or if a field lacks digits.
    """
    if np is None or ISO.fullmatch(form) is None:
        raise ValueError("numpy doesn't read this format")
    texts = np.array(fields)
    width = texts.dtype.itemsize // 4
    form = form.replace("%f", "0" * max(1, width - len("YYYY-mm-dd HH:MM:SS.") - form.endswith("Z")))
    for directive, digits in DIGITS.items():
        form = form.replace(directive, digits)
    if len(form) != width or len(form.rstrip("Z")) > len("YYYY-mm-dd HH:MM:SS.ffffff"):
        raise ValueError("fields of another width")
    wanted = np.array([form]).view(np.uint32)
    letters = texts.view(np.uint32).reshape(len(fields), width)
    if not np.where(wanted == ord("0"), letters - ord("0") < 10, letters == wanted).all():
        raise ValueError("a field of another form")
    # numpy has no time zones
    dates = np.array([it[:-1] for it in fields] if form.endswith("Z") else fields, "datetime64[us]")
    if dates.min() < LEAST_DATE:
        raise ValueError("numpy reads the year 0")
    return array.array("q", dates.tobytes())


def quoted(field: str) -> str:
    """A field as an error shows it: in quotes, and cut if it is long."""
    return repr(shown(field))
