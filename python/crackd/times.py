"""Reads dates and times whose fields are in the order year, month, day.

A date is 2020-01-31 or 2020/1/31. A time follows after T or a blank: 12, 12:30, 12:30:05 or 12:30:05.123456789, with Z
or an offset such as +01:00 after it or without.
"""

from __future__ import annotations

import array
import datetime
import re
from typing import Any, Sequence

from .arrays import SIGN, np

FIELD = re.compile(
    r"\s*([0-9]{4})([-/])([0-9]{1,2})\2([0-9]{1,2})"
    r"(?:[T ]([0-9]{1,2})(?::([0-9]{2})(?::([0-9]{2})(?:[.,]([0-9]{1,9}))?)?)?"
    r"(?: ?(Z|[+-][0-9]{2}(?::?[0-9]{2})?))?)?\s*",
    re.ASCII,
)
# the units of dates, with their number in a second
UNITS = {"us": 10**6, "ns": 10**9}
EPOCH = datetime.datetime(1970, 1, 1)
SECOND = datetime.timedelta(seconds=1)
# a field with more characters is read alone
MOST_WIDTH = 40
# the days of each month in a year that isn't a leap year, and the days before it in a year that begins in March
DAYS = (0, 31, 28, 31, 30, 31, 30, 31, 31, 30, 31, 30, 31)


def time_of(field: str, unit: str, is_zoned: bool) -> int:
    """The number of units from 1970 to the time in a field. Raises ValueError with the reason if there is none."""
    found = FIELD.fullmatch(field)
    if found is None:
        raise ValueError("isn't a date in the order year, month, day")
    year, month, day, hour, minute, second = (int(found[it] or 0) for it in (1, 3, 4, 5, 6, 7))
    try:
        since = datetime.datetime(year, month, day, hour, minute, second) - EPOCH
    except ValueError as error:
        raise ValueError(f"isn't a date: {error}") from None
    if (found[9] is not None) != is_zoned:
        raise ValueError(f"has {'no' if is_zoned else 'an'} offset from UTC, unlike others of its column")
    number = (since // SECOND - offset_of(found[9] or "Z")) * UNITS[unit] + fraction_of(found[8] or "", unit)
    if not -SIGN < number < SIGN:
        raise ValueError(f"doesn't fit into datetime64[{unit}]")
    return number


def offset_of(text: str) -> int:
    """The seconds that an offset such as +01:30 is ahead of UTC."""
    if text == "Z":
        return 0
    hours, minutes = int(text[1:3]), int(text[-2:]) if len(text) > 3 else 0
    if hours > 23 or minutes > 59:
        raise ValueError(f"isn't a date: there is no offset {text}")
    return (hours * 3600 + minutes * 60) * (-1 if text[0] == "-" else 1)


def fraction_of(digits: str, unit: str) -> int:
    """The units in a fraction of a second, of which these are the digits."""
    places = len(str(UNITS[unit])) - 1
    if len(digits) > places:
        raise ValueError(f"has more than {places} digits after the second")
    return int(digits.ljust(places, "0"))


def times_of(fields: list[str], unit: str, is_zoned: bool) -> Sequence[int]:
    """Reads many fields at once by numpy. Raises ValueError if it can't; `time_of` may still read each field."""
    if np is None:
        raise ValueError("numpy isn't installed")
    texts = np.array(fields)
    width = texts.dtype.itemsize // 4
    if not 0 < width <= MOST_WIDTH:
        raise ValueError("fields of another width")
    letters = texts.view(np.uint32).reshape(len(fields), width)
    lengths = np.count_nonzero(letters, axis=1)
    if int(lengths.sum()) != sum(map(len, fields)):
        raise ValueError("a field with a zero character")
    if (lengths == width).all():
        found = of_width(letters, unit, is_zoned)
    else:
        found = np.empty(len(fields), np.int64)
        for length in np.unique(lengths).tolist():
            places = np.flatnonzero(lengths == length)
            found[places] = of_width(letters[places, :length], unit, is_zoned)
    return array.array("q", found.tobytes())


class Letters:
    """The characters of fields of equal length: a row for each place."""

    def __init__(self, letters: Any):
        if int(letters.max()) > 127:
            raise ValueError("characters that aren't ASCII")
        self.rows, self.width = np.ascontiguousarray(letters.astype(np.uint8).T), letters.shape[1]

    def are(self, at: int, characters: str) -> bool:
        """Whether all fields have one of these characters at this place."""
        found = self.rows[at] == ord(characters[0])
        return all_true(found) or any(all_true(found := found | (self.rows[at] == ord(it))) for it in characters[1:])

    def expect(self, at: int, characters: str) -> None:
        """Raises ValueError unless all fields have one of these characters at this place."""
        if not self.are(at, characters):
            raise ValueError("a field of another form")

    def number(self, at: int, count: int) -> Any:
        """The numbers that stand at `count` places. Raises ValueError if there is anything else than digits."""
        digits = self.rows[at : at + count] - np.uint8(ord("0"))
        if int(digits.max()) > 9:
            raise ValueError("a field of another form")
        found = digits[0].astype(np.int32)
        for it in digits[1:]:
            found = found * np.int32(10) + it
        return found


def all_true(flags: Any) -> bool:
    """Whether all flags of an array are set."""
    return bool(flags.all())


def of_width(letters: Any, unit: str, is_zoned: bool) -> Any:
    """Reads fields of equal length. Raises ValueError if one has another form."""
    them = Letters(letters)
    if them.width < 10:
        raise ValueError("fields of another width")
    end, ahead = zone_of(them) if is_zoned else (them.width, 0)
    them.expect(4, "-/")
    if not all_true(them.rows[7] == them.rows[4]):
        raise ValueError("a field of another form")
    seconds = days_of(them.number(0, 4), them.number(5, 2), them.number(8, 2)).astype(np.int64) * 86_400
    if end < 13 and is_zoned:
        raise ValueError("a zone without a time")
    if end > 10:
        them.expect(10, "T ")
        seconds += clock_of(them, end)
    seconds -= ahead
    limit = (SIGN - 1) // UNITS[unit] - 1
    if not -limit < int(seconds.min()) <= int(seconds.max()) < limit:
        raise ValueError("out of bounds")
    found = seconds * UNITS[unit]
    return found + fractions_of(them, end, unit) if end > 19 else found


def zone_of(them: Letters) -> tuple[int, Any]:
    """The place where the zones of fields begin, and the seconds that they are ahead of UTC."""
    width = them.width
    if them.are(width - 1, "Z"):
        return width - 1, 0
    begin = width - 6
    them.expect(begin, "+-")
    them.expect(begin + 3, ":")
    hours, minutes = them.number(begin + 1, 2), them.number(begin + 4, 2)
    if int(hours.max()) > 23 or int(minutes.max()) > 59:
        raise ValueError("there is no such offset")
    return begin, np.where(them.rows[begin] == ord("-"), -1, 1) * (hours * 3600 + minutes * 60)


def clock_of(them: Letters, end: int) -> Any:
    """The seconds since midnight. `end` is the place where the times end."""
    if end not in (13, 16, 19) and end < 21:
        raise ValueError("fields of another width")
    found = them.number(11, 2)
    most = int(found.max()) <= 23
    for at, factor in ((13, 60), (16, 60)):
        part = 0
        if end > at:
            them.expect(at, ":")
            part = them.number(at + 1, 2)
            most = most and int(part.max()) <= 59
        found = found * factor + part
    if not most:
        raise ValueError("there is no such time")
    return found


def fractions_of(them: Letters, end: int, unit: str) -> Any:
    """The fractions of a second in units."""
    them.expect(19, ".,")
    count = end - 20
    places = len(str(UNITS[unit])) - 1
    if count > places:
        raise ValueError("too many digits")
    return them.number(20, count).astype(np.int64) * 10 ** (places - count)


def days_of(years: Any, months: Any, days: Any) -> Any:
    """The days from 1970 to these dates. Raises ValueError if there is no such date."""
    if not (int(years.min()) >= 1 and 1 <= int(months.min()) <= int(months.max()) <= 12 and int(days.min()) >= 1):
        raise ValueError("there is no such date")
    is_leap = (years & 3 == 0) & ((years % 25 != 0) | (years & 15 == 0))
    if not all_true(days <= np.array(DAYS, np.int32)[months] + ((months == 2) & is_leap)):
        raise ValueError("there is no such date")
    # years begin in March here, so that a leap day is the last one
    month = (months + 9) % 12
    year = years - (month >= 10)
    century = year // 100
    return year * 365 + (year >> 2) - century + (century >> 2) + (153 * month + 2) // 5 + days - 719_469
