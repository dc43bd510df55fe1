"""Time zones: the moments that local times stand for, exactly, by the zones of the standard library.

A moment is a number of seconds since 1970 in UTC, and a local time is what a clock shows, as if it were in UTC.
"""

from __future__ import annotations

import datetime
import functools
import importlib
import re
import zoneinfo
from typing import Any, Iterator, Optional, Union

from .arrays import SIGN, Given, np, shown

EPOCH = datetime.datetime(1970, 1, 1)
EPOCH_OF_UTC = EPOCH.replace(tzinfo=datetime.timezone.utc)
SECOND, DAY = datetime.timedelta(seconds=1), 86_400
# the units of numpy that are at most a second, with their number in a second
UNITS = {name: 10 ** (3 * at) for at, name in enumerate(("s", "ms", "us", "ns", "ps", "fs", "as"))}
SMALL, DAYS = ("ns", "ps", "fs", "as"), ("Y", "M", "W", "D")
MICROSECOND, NANOSECOND = 10**12, 10**9
# zones have the years 1 to 9999; a day at each end is left out, since a local time there may be in another year
LEAST = (datetime.datetime.min - EPOCH) // SECOND + DAY
GREATEST = (datetime.datetime.max - EPOCH) // SECOND - DAY
OFFSET = re.compile(r"([+-])([01][0-9]|2[0-3]):?([0-5][0-9])?(?::([0-5][0-9]))?")


class Instant(Given):
    """A date of numpy in UTC."""

    def __init__(self, date: Any):
        self.date = date

    def __str__(self) -> str:
        return f"{self.date}Z"


class Zoned(Given):
    """Dates of numpy in UTC, as an array, which are shown in a zone. Every way into a table takes them for moments."""

    def __init__(self, dates: Any, zone: str):
        self.dates, self.zone = dates, zone

    def __len__(self) -> int:
        return len(self.dates)

    def __getitem__(self, at: Any) -> Union["Zoned", Instant]:
        return Zoned(self.dates[at], self.zone) if isinstance(at, slice) else Instant(self.dates[at])

    def __iter__(self) -> Iterator[Instant]:
        return map(Instant, self.dates)


def zone_name(zone: Any) -> Optional[str]:
    """The name of a zone of `datetime`, `zoneinfo`, pytz or dateutil, or of a text: Europe/Berlin, UTC or +05:30.

    None stands for no zone. Raises ValueError for an unknown zone.
    """
    if zone is None:
        return None
    name = zone if isinstance(zone, str) else getattr(zone, "key", None) or getattr(zone, "zone", None)
    if name is None:
        # a zone with one offset, or a file that dateutil has read
        offset = zone.utcoffset(None) if isinstance(zone, datetime.tzinfo) else None
        path = str(getattr(zone, "_filename", ""))
        name = path.rpartition("zoneinfo/")[2] if offset is None else offset_text(offset // SECOND)
    found = clock_of(name or str(zone))
    return found.name


def offset_text(seconds: int) -> str:
    """An offset from UTC as text: UTC, +05:30, or with seconds if there are any."""
    if not seconds:
        return "UTC"
    hours, rest = divmod(abs(seconds), 3600)
    text = f"{'-' if seconds < 0 else '+'}{hours:02}:{rest // 60:02}"
    return text + (f":{rest % 60:02}" if rest % 60 else "")


def seconds_of_offset(text: str) -> Optional[int]:
    """The seconds of an offset such as Z, +05:30, +0530 or +05, or None for another text."""
    if text in ("Z", "UTC"):
        return 0
    found = OFFSET.fullmatch(text)
    if found is None:
        return None
    seconds = int(found[2]) * 3600 + int(found[3] or 0) * 60 + int(found[4] or 0)
    return -seconds if found[1] == "-" else seconds


@functools.lru_cache(maxsize=None)
def clock_of(name: str) -> "Clock":
    """The clock of the zone with this name. Raises ValueError for an unknown zone."""
    offset = seconds_of_offset(name)
    if offset is not None:
        return Clock(offset_text(offset), datetime.timezone(offset * SECOND))
    try:
        return Clock(name, zoneinfo.ZoneInfo(name))
    except (zoneinfo.ZoneInfoNotFoundError, ValueError, OSError) as error:
        raise ValueError(f"there is no time zone {shown(name)!r}") from error


def in_seconds_at_most(dates: Any) -> tuple[Any, int]:
    """An array of dates in seconds or in a smaller unit, and the number of units in a second.

    Dates far from 1970 overflow.
    """
    name, _ = np.datetime_data(dates.dtype)
    return dates.astype(f"datetime64[{name if name in UNITS else 's'}]"), UNITS.get(name, 1)


def pandas_if_installed() -> Any:
    """The module pandas, or None."""
    try:
        return importlib.import_module("pandas")
    except ImportError:
        return None


class Clock:
    """The clock of a zone."""

    def __init__(self, name: str, zone: datetime.tzinfo):
        self.name, self.zone = name, zone
        self._changes: dict[int, tuple[list[int], list[int]]] = {}

    def offset(self, moment: int) -> int:
        """How many seconds the clock is ahead of UTC at a moment."""
        at = EPOCH_OF_UTC + min(max(moment, LEAST), GREATEST) * SECOND
        return (at.astimezone(self.zone).utcoffset() or datetime.timedelta()) // SECOND

    def moment(self, local: int, is_day: bool, what: str) -> int:
        """The moment when the clock shows a local time.

        `is_day` stands for the first moment of a day. `what` names the time in errors. Raises ValueError if the clock
        shows the time twice or never.
        """
        at = EPOCH + min(max(local, LEAST), GREATEST) * SECOND
        before, after = (
            (self.zone.utcoffset(at.replace(fold=fold)) or datetime.timedelta()) // SECOND for fold in (0, 1)
        )
        if before == after or is_day and before > after:
            return local - before
        if is_day:
            return int(self.moments(np.array([local]), True, what)[0])
        raise self._refusal(local, before, after, what)

    def _refusal(self, local: int, before: int, after: int, what: str) -> ValueError:
        how = "shown twice" if before > after else "never shown"
        text = (EPOCH + local * SECOND).isoformat()
        cures = " or ".join(text + (offset_text(it) if it else "Z") for it in (before, after))
        return ValueError(f"{what} is {how} by the clocks of {self.name}: add an offset, as in {cures}")

    def offsets(self, moments: Any) -> Any:
        """How many seconds the clock is ahead of UTC at each of these moments, as an array."""
        begins, offsets = self._segments(moments)
        return offsets[np.searchsorted(begins, moments, side="right") - 1]

    def moments(self, local: Any, is_day: bool, what: str) -> Any:
        """The moments when the clock shows these local times, as an array: see `moment`."""
        begins, offsets = self._segments(local)
        # the local times when a segment begins, and when the one before it ends
        shown_first, shown_last = begins + offsets, begins[1:] + offsets[:-1]
        at = np.searchsorted(shown_first, local, side="right") - 1
        ends = np.append(shown_last, np.iinfo(np.int64).max)
        is_never = local >= ends[at]
        is_twice = (at > 0) & (local < ends[at - 1])
        if is_day:
            found = local - offsets[at - is_twice]
            found[is_never] = begins[at[is_never] + 1]
            return found
        if is_never.any() or is_twice.any():
            place = int(np.argmax(is_never | is_twice))
            pair = (at[place], at[place] + 1) if is_never[place] else (at[place] - 1, at[place])
            which = f"item {place} of the {what}, {(EPOCH + int(local[place]) * SECOND).isoformat()},"
            raise self._refusal(int(local[place]), *(int(offsets[it]) for it in pair), which)
        return local - offsets[at]

    def in_utc(self, dates: Any, what: str) -> Any:
        """Dates that the clock shows as dates in UTC, in seconds or in a smaller unit. None if some may not fit."""
        fine, per = in_seconds_at_most(dates)
        numbers = fine.view(np.int64)
        if not (fine == dates).all() or (np.sign(numbers) != np.sign(dates.view(np.int64))).any():
            return None
        if int(numbers.min()) < DAY * per - SIGN or int(numbers.max()) >= SIGN - DAY * per:
            return None
        seconds = numbers // per
        moments = self.moments(seconds, np.datetime_data(dates.dtype)[0] in DAYS, what)
        return (numbers + (moments - seconds) * per).view(fine.dtype)

    def shown(self, dates: Any) -> Any:
        """What the clock shows at dates in UTC, in seconds or in a smaller unit."""
        fine, per = in_seconds_at_most(dates)
        numbers = fine.view(np.int64)
        return (numbers + self.offsets(numbers // per) * per).view(fine.dtype)

    def time(self, date: Any, moment: int) -> Any:
        """A date of numpy in UTC as a `datetime` of the zone, or for units below microseconds a `Timestamp` of pandas.

        `moment` is the date in attoseconds. Without pandas, or where neither is exact, it is what the clock shows.
        """
        count, rest = divmod(moment, MICROSECOND)
        pandas = pandas_if_installed() if np.datetime_data(date.dtype)[0] in SMALL and not rest % NANOSECOND else None
        if pandas is not None:
            return pandas.Timestamp(date.astype("datetime64[ns]")).tz_localize("UTC").tz_convert(self.of_pandas)
        if rest or not LEAST <= moment // (MICROSECOND * 10**6) <= GREATEST:
            return self.shown(np.array([date]))[0]
        return (EPOCH_OF_UTC + count * (SECOND / 10**6)).astimezone(self.zone)

    @property
    def of_pandas(self) -> Any:
        """The zone as pandas takes it."""
        return self.zone if isinstance(self.zone, datetime.timezone) and self.name != "UTC" else self.name

    def _segments(self, seconds: Any) -> tuple[Any, Any]:
        """The moments from which the clock has each offset, and the offsets, for all years near these times."""
        if isinstance(self.zone, datetime.timezone) or not len(seconds):
            return np.array([np.iinfo(np.int64).min // 2]), np.array([self.offset(0)])
        years = np.clip(seconds, LEAST, GREATEST).view("datetime64[s]").astype("datetime64[Y]").view(np.int64) + 1970
        first = int(years.min()) - 1
        counts = np.bincount(years - first, minlength=int(years.max()) - first + 2)
        # also the years before and after each year
        is_near = counts > 0
        is_near[:-1] |= counts[1:] > 0
        is_near[1:] |= counts[:-1] > 0
        found = [self._changes_of(first + it) for it in np.flatnonzero(is_near).tolist()]
        begins, offsets = (np.array([it for each in them for it in each], np.int64) for them in zip(*found))
        # times before the years that zones have
        begins[0] = np.iinfo(np.int64).min // 2
        return begins, offsets

    def _changes_of(self, year: int) -> tuple[list[int], list[int]]:
        """The moments of a year from which the clock has each offset, its beginning included, and the offsets."""
        if year not in self._changes:
            begin, end = (
                min(max(int(np.datetime64(it - 1970, "Y").astype("datetime64[s]").view(np.int64)), LEAST), GREATEST)
                for it in (year, year + 1)
            )
            begins, offsets = [begin], [self.offset(begin)]
            for day in range(begin, end, DAY):
                last = min(day + DAY, end) - 1
                if self.offset(last) != offsets[-1]:
                    begins.append(self._first_with(self.offset(last), day, last))
                    offsets.append(self.offset(last))
            self._changes[year] = begins, offsets
        return self._changes[year]

    def _first_with(self, offset: int, low: int, high: int) -> int:
        """The first moment from `low` to `high` with this offset, which `high` has."""
        while low < high:
            middle = (low + high) // 2
            low, high = (low, middle) if self.offset(middle) == offset else (middle + 1, high)
        return low
