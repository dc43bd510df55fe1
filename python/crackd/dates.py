"""Converts dates and times to integers exactly. numpy's own conversions overflow for dates far from 1970."""

from __future__ import annotations

import datetime
import functools
import re
from typing import Any, NamedTuple, Optional

from .arrays import SIGN, np, shown
from .zones import DAYS, Instant, Zoned, seconds_of_offset, zone_name

# a moment is a number of attoseconds since 1970, as a Python int
SECOND = 10**18
DAY = 86_400 * SECOND
SIZES = {
    "W": 7 * DAY,
    "D": DAY,
    "h": 3600 * SECOND,
    "m": 60 * SECOND,
    "s": SECOND,
    "ms": 10**15,
    "us": 10**12,
    "ns": 10**9,
    "ps": 10**6,
    "fs": 10**3,
    "as": 1,
}
MONTHS = {"Y": 12, "M": 1}
MICROSECOND = datetime.timedelta(microseconds=1)
EPOCH = datetime.datetime(1970, 1, 1)
# the Gregorian calendar repeats every 400 years
CYCLE, DAYS_OF_A_CYCLE = 400 * 12, 146_097
FIRST_MONTH, FIRST_DAY = -1969 * 12, 1 - EPOCH.toordinal()

# a date as text: groups for the day, the time up to the seconds, their decimals, and the offset from UTC
TEXT = re.compile(
    r"((?:[0-9]{4}|[+-][0-9]{4,6})(?:-[0-9]{2}){0,2})"
    r"(?:([T ][0-9]{2}(?::[0-9]{2}){0,2})(?:(?<=:[0-9]{2}:[0-9]{2})\.([0-9]{1,18}))?(Z|[+-][0-9]{2}(?::?[0-9]{2})?)?)?"
)
# texts of days, and of times, which numpy reads many at a time
MANY_DAYS = re.compile(r"(?:[0-9]{4}-[0-9]{2}-[0-9]{2}\n)+")
MANY_TIMES = re.compile(
    r"(?:[0-9]{4}-[0-9]{2}-[0-9]{2}[T ][0-9]{2}:[0-9]{2}(?::[0-9]{2}(?:\.[0-9]{1,6})?)?\n)+"
)
LONG_YEAR = re.compile(r"[0-9]{5,}(?:-.*)?")


def day_of_month(month: int) -> int:
    """The first day of a month. Days and months are counted from January 1970."""
    cycles, rest = divmod(month - FIRST_MONTH, CYCLE)
    return datetime.date(rest // 12 + 1, rest % 12 + 1, 1).toordinal() - 1 + FIRST_DAY + cycles * DAYS_OF_A_CYCLE


def month_of_day(day: int) -> int:
    """The month that contains a day."""
    cycles, rest = divmod(day - FIRST_DAY, DAYS_OF_A_CYCLE)
    date = datetime.date.fromordinal(rest + 1)
    return (date.year - 1) * 12 + date.month - 1 + FIRST_MONTH + cycles * CYCLE


class Unit(NamedTuple):
    """The unit of a numpy date type: `size` attoseconds, or `size` months."""

    size: int
    is_months: bool

    def moment(self, number: int) -> int:
        """The moment of a date, which is given as a number of units since 1970."""
        return day_of_month(number * self.size) * DAY if self.is_months else number * self.size

    def least_from(self, moment: int) -> int:
        """The earliest date that isn't before a moment, as a number of units."""
        if not self.is_months:
            return -(-moment // self.size)
        day = -(-moment // DAY)
        month = month_of_day(day)
        return -(-(month + (day_of_month(month) < day)) // self.size)


@functools.lru_cache(maxsize=None)
def unit_of(dtype: Any) -> Unit:
    """The unit of a numpy date type."""
    name, count = np.datetime_data(dtype)
    if name == "generic":
        raise TypeError("dates need a unit, as in datetime64[s]")
    return Unit(count * MONTHS[name], True) if name in MONTHS else Unit(count * SIZES[name], False)


def is_date(kind: type) -> bool:
    """Whether this is a date type of Python, numpy or pandas."""
    return issubclass(kind, (datetime.date, np.datetime64)) or hasattr(kind, "to_datetime64")


def of_numpy(date: Any, what: str) -> Any:
    """Converts a date of Python, numpy or pandas to a numpy date without rounding. A time zone becomes UTC.

    `what` names the date in errors.
    """
    if hasattr(date, "to_datetime64"):
        return date.to_datetime64()
    if isinstance(date, datetime.datetime):
        since = date.replace(tzinfo=None) - EPOCH - (date.utcoffset() or datetime.timedelta())
        return np.datetime64(since // MICROSECOND, "us")
    if isinstance(date, datetime.date):
        return np.datetime64(date.toordinal() - EPOCH.toordinal(), "D")
    if not isinstance(date, np.datetime64):
        raise TypeError(f"{what} must be a date, not of type {type(date).__name__}")
    return date


def moment_of(date: Any, what: str) -> int:
    """The moment of a date. Raises ValueError for NaT."""
    found = of_numpy(date, what)
    number = int(found.astype(np.int64))
    if number == -SIGN:
        raise ValueError(f"NaT can't be {what}")
    return unit_of(found.dtype).moment(number)


class Time(NamedTuple):
    """A date or a time that was given: a moment, or what a clock shows, as the moment when a clock of UTC shows it.

    `is_day` is whether it has no time of the day.
    """

    moment: int
    is_local: bool
    is_day: bool = False


def time_of(date: Any, what: str) -> Time:
    """A date as a caller gives it: a text, or a date of Python, numpy or pandas. `what` names it in errors."""
    if isinstance(date, str):
        return time_of_text(date)
    if isinstance(date, Instant):
        return Time(moment_of(date.date, what), False)
    found = of_numpy(date, what)
    if has_zone(date):
        return Time(moment_of(found, what), False)
    return Time(moment_of(found, what), True, np.datetime_data(found.dtype)[0] in DAYS)


def time_of_text(text: str) -> Time:
    """The date in a text such as 2020-01-31, 2020-01-31T12:30:00.5 or 2020-01-31T12:30+01:00."""
    found = TEXT.fullmatch(text)
    offset = None if found is None or found[4] is None else seconds_of_offset(found[4])
    if found is None or found[4] is not None and offset is None:
        hint = "; a year of more than four digits needs a sign" if LONG_YEAR.fullmatch(text) else ""
        raise ValueError(f"{shown(text)!r} isn't a date such as 2020-01-31 or 2020-01-31T12:30:00.5{hint}")
    # the decimals are added here, since numpy would overflow where they don't fit
    moment = moment_of(np.datetime64(found[1] + (found[2] or "")), "a date") + int((found[3] or "").ljust(18, "0"))
    return Time(moment - (offset or 0) * SECOND, offset is None, found[2] is None)


def array_of_texts(texts: Any) -> Any:
    """An array of the dates in these texts, or None if they aren't all days or all times without an offset."""
    text = "\n".join([*texts, ""])
    unit = "D" if MANY_DAYS.fullmatch(text) else "us" if MANY_TIMES.fullmatch(text) else None
    try:
        return None if unit is None or text.count("\n") != len(texts) else np.array(texts, f"datetime64[{unit}]")
    except ValueError:
        # the caller finds the text, one by one
        return None


def has_zone(date: Any) -> bool:
    """Whether a date of Python or pandas has a time zone."""
    return isinstance(date, datetime.datetime) and date.utcoffset() is not None


def zone_of_items(items: Any) -> Optional[str]:
    """The name of the zone that all of these dates have, UTC if they have several, or None if they have none.

    Raises ValueError if only some of them have a zone.
    """
    if isinstance(items, Zoned):
        return items.zone
    if np is not None and isinstance(items, np.ndarray):
        return None
    zones = {zone_name(it) for it in {it.tzinfo if has_zone(it) else None for it in items}}
    if None in zones and len(zones) > 1:
        raise ValueError("dates with a time zone and dates without one can't be the keys of one table")
    return None if not zones else zones.pop() if len(zones) == 1 else "UTC"


def array_of(dates: Any, what: str) -> Any:
    """An array of these dates, or a list of numpy dates if they have several units."""
    found = [of_numpy(it, what) for it in dates]
    return np.array(found) if len({it.dtype for it in found}) == 1 else found


def rescaled(dates: Any, unit: Unit) -> Any:
    """Converts an array of dates to another unit, as 64-bit integers, by one multiplication or division.

    Returns None if the conversion needs more than that, or if a date isn't exact in the unit or doesn't fit.
    """
    own = unit_of(dates.dtype)
    numbers = dates.astype(np.int64)
    if own.is_months != unit.is_months:
        return None
    if own.size % unit.size == 0 and own.size // unit.size < SIGN:
        factor = own.size // unit.size
        fits = -SIGN < int(numbers.min()) * factor and int(numbers.max()) * factor < SIGN
        return numbers * factor if fits else None
    if unit.size % own.size or unit.size // own.size >= SIGN:
        return None
    found, rest = np.divmod(numbers, unit.size // own.size)
    return None if rest.any() else found
