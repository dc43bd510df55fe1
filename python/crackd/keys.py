"""Maps keys of Python and numpy to numbers from 0 to 2**64 - 1, which have the order of the keys."""

from __future__ import annotations

import fractions
import functools
import math
import numbers
import re
import struct
from typing import Any, Optional, Sequence

from .arrays import (
    NO_NUMBERS,
    SIGN,
    TOP,
    Given,
    empty,
    from_ints,
    ints,
    is_array,
    items_of,
    np,
    shown,
    type_of_numpy,
    types_of,
    whole,
)
from .dates import (
    DAY,
    SECOND,
    Unit,
    array_of,
    array_of_texts,
    has_zone,
    is_date,
    of_numpy,
    rescaled,
    time_of,
    unit_of,
    zone_of_items,
)
from .decimals import (
    Scaled,
    ceiling_of,
    checked_decimals,
    decimals_of,
    end_of,
    is_unsigned,
    scaled_many,
    scaled_one,
    unscaled_many,
    unscaled_one,
)
from .zones import GREATEST, LEAST, Zoned, clock_of, zone_name

NAMES = {"u": "unsigned integers", "i": "integers", "f": "floats", "M": "dates"}
# a type of dates with a zone, as pandas names it
ZONED = re.compile(r"(datetime64\[[^],]+), (.+)\]")
BY_NAME = {"uint64": "u", "int64": "i", "float64": "f"}
# above this number not every integer is exact as a float
GREATEST_EXACT = 1 << 53
FLOATS = {float} if np is None else {float, np.float64}


def _bits_of(number: float) -> int:
    (bits,) = struct.unpack("<Q", struct.pack("<d", number))
    return int(bits)


def _float_of(bits: int) -> float:
    (number,) = struct.unpack("<d", struct.pack("<Q", bits))
    return float(number)


def kind_of(keys: Any) -> "Keys":
    """The type of these keys: by the type of the array, or else by the types of the items."""
    if isinstance(keys, Scaled):
        return Keys("u" if is_unsigned(keys.numbers) else "i", decimals=keys.decimals)
    given = items_of(keys, "keys")
    if isinstance(given, Zoned):
        return Keys.of_dtype(given.dates.dtype).with_zone(given.zone)
    if is_array(given):
        return Keys.of_dtype(given.dtype)
    types = types_of(given)
    if not types:
        return Keys("i")
    if types.isdisjoint(NO_NUMBERS):
        if all(issubclass(it, numbers.Integral) for it in types):
            return Keys("u") if max(given) >= SIGN else Keys("i")
        if all(issubclass(it, numbers.Real) for it in types):
            return Keys("f")
    if np is not None and all(map(is_date, types)):
        dtypes = {of_numpy(it, "a key").dtype for it in given}
        return Keys.of_dtype(np.result_type(*dtypes)).with_zone(zone_of_items(given))
    raise TypeError(f"keys of {', '.join(sorted(it.__name__ for it in types))} are not supported")


class Keys:
    """A type of keys.

    Its `kind` is 'u' for unsigned and 'i' for signed 64-bit integers, 'f' for floats, and 'M' for numpy's dates and
    times in one unit, whose type is `dtype`. Integers may stand for decimals with `decimals` places. Dates with a
    `zone` are in UTC; callers see them in that zone.
    """

    def __init__(self, kind: str, dtype: Any = None, decimals: int = 0, zone: Optional[str] = None):
        self.kind, self.dtype, self.decimals, self.zone = kind, dtype, decimals, zone
        # whether keys are integers themselves
        self._is_whole = kind in "ui" and not decimals

    @staticmethod
    def of_dtype(dtype: Any) -> "Keys":
        """The keys for items of a type of numpy or pandas. Raises TypeError if there are none."""
        dtype = getattr(getattr(dtype, "categories", None), "dtype", dtype)
        found = type_of_numpy(dtype)
        if found.kind not in "uifM" or found.itemsize > 8:
            raise TypeError(f"keys of {dtype} are not supported")
        if found.kind != "M":
            return Keys(found.kind)
        unit_of(found)
        return Keys("M", found.newbyteorder("="), zone=zone_name(getattr(dtype, "tz", None)))

    @staticmethod
    def named(name: Any) -> "Keys":
        """The type with a name such as "uint64", "int64", "float64" or "datetime64[ns]".

        A numpy type, `int` and `float` may be given in place of a name.
        """
        if isinstance(name, Keys):
            return name
        if name is int or name is float:
            return Keys("i" if name is int else "f")
        zoned = ZONED.fullmatch(str(name))
        if zoned is not None:
            return Keys.named(f"{zoned[1]}]").with_zone(zoned[2])
        # numpy takes None for float64
        if np is not None and name is not None:
            return Keys.of_dtype(np.dtype(name))
        if name in BY_NAME:
            return Keys(BY_NAME[name])
        raise TypeError(f"keys of {name} are not supported{' without numpy' if 'datetime' in str(name) else ''}")

    def __eq__(self, other: Any) -> bool:
        return isinstance(other, Keys) and self._facts() == other._facts()

    def __hash__(self) -> int:
        return hash((self.kind, str(self.dtype), self.decimals, self.zone))

    def _facts(self) -> tuple[Any, ...]:
        return self.kind, self.dtype, self.decimals, self.zone

    def __repr__(self) -> str:
        more = [self.name, *([f"{self.decimals} decimals"] if self.decimals else []), *filter(None, [self.zone])]
        return f"Keys({', '.join(more)})"

    def with_zone(self, zone: Any) -> "Keys":
        """These dates in a zone, or as they are if `zone` is None. Raises ValueError for another type of keys."""
        if zone is None:
            return self
        if self.kind != "M":
            raise ValueError(f"a zone is for dates, not for keys of {self.name}")
        return Keys(self.kind, self.dtype, zone=zone_name(zone))

    def with_decimals(self, decimals: Any) -> "Keys":
        """These integers with decimal places. Raises ValueError for another type of keys."""
        places = checked_decimals(decimals, "key_decimals")
        if places and self.kind not in "ui":
            raise ValueError(f"key_decimals are for integers, not for keys of {self.name}")
        return Keys(self.kind, self.dtype, places if self.kind in "ui" else 0)

    @property
    def raw(self) -> "Keys":
        """The keys as a table stores them and `raw=True` returns them: integers for decimals, and dates in UTC."""
        return Keys(self.kind, self.dtype)

    @property
    def _code(self) -> str:
        """The type code of the integers in the module `array`."""
        return "Q" if self.kind == "u" else "q"

    @property
    def name(self) -> str:
        """The name from which `named` makes this type."""
        return (
            str(self.dtype) if self.kind == "M" else next(name for name, kind in BY_NAME.items() if kind == self.kind)
        )

    @property
    def unit(self) -> Unit:
        """The unit of dates."""
        return unit_of(self.dtype)

    def one(self, key: Any) -> int:
        """The number of a key. Raises an error if the key doesn't fit or has another type."""
        number: int
        if type(key) is not int or not self._is_whole:
            if self.kind == "f":
                return self._of_float(exact_float(key))
            if self.kind == "M":
                return self._of_date(key)
            if self.decimals:
                found = scaled_one(self._code, key, self.decimals, "the key")
                return found if self.kind == "u" else found + SIGN
            key = whole(key, "a key")
        number = key if self.kind == "u" else key + SIGN
        if not 0 <= number < TOP:
            raise OverflowError(
                f"the key {shown(key)} doesn't fit into {'an unsigned' if self.kind == 'u' else 'a signed'} integer "
                "of 64 bits"
            )
        return number

    def many(self, keys: Any) -> Any:
        """The numbers of these keys, as a new array."""
        if self.kind in "ui":
            is_plain = self._is_whole and not isinstance(keys, Scaled)
            found = ints(self._code, keys, "keys") if is_plain else scaled_many(self._code, keys, self.decimals, "keys")
            return found if self.kind == "u" else self._of_signed(found)
        if isinstance(keys, Scaled) and self.kind == "f":
            keys = keys.floats()
        given = items_of(keys, "keys")
        if isinstance(given, Given) and isinstance(given, Zoned) != (self.kind == "M"):
            raise TypeError(f"keys must be {NAMES[self.kind]}, not {type(given).__name__.lower()}")
        return self._of_floats(given) if self.kind == "f" else self._of_dates(given)

    def _of_signed(self, keys: Any) -> Any:
        if np is None:
            return from_ints("Q", (key + SIGN for key in keys), "keys")
        return keys.view(np.uint64) ^ np.uint64(SIGN)

    def _of_floats(self, given: Any) -> Any:
        floats = floats_of_array(given) if is_array(given) else floats_of_list(given)
        if np is None:
            return from_ints("Q", map(self._of_float, floats), "keys")
        if np.isnan(floats).any():
            raise ValueError("NaN can't be a key")
        # adding 0.0 turns -0.0 into 0.0, so that they are one key
        bits = (floats + 0.0).view(np.uint64)
        return np.where(bits >> np.uint64(63), ~bits, bits | np.uint64(SIGN))

    @staticmethod
    def _of_float(key: float) -> int:
        if key != key:
            raise ValueError("NaN can't be a key")
        bits = _bits_of(key + 0.0)
        return TOP - 1 - bits if bits >= SIGN else bits + SIGN

    def _of_dates(self, given: Any) -> Any:
        if not len(given):
            return np.empty(0, np.uint64)
        dates, is_local = self._dates_of(given)
        if is_array(dates):
            if dates.dtype.kind != "M":
                raise TypeError(f"keys must be dates, not {dates.dtype}")
            if np.isnat(dates).any():
                raise ValueError("NaT can't be a key")
            utc = clock_of(self.zone).in_utc(dates, "keys") if self.zone is not None and is_local else dates
            found = None if utc is None else rescaled(utc, self.unit)
            if found is not None and (self.zone is None or self._is_within(found)):
                return self._of_signed(found)
            dates = dates if is_local else Zoned(dates, "UTC")
        return from_ints("Q", [self._of_date(it) for it in dates], "keys")

    def _dates_of(self, given: Any) -> tuple[Any, bool]:
        """Dates as an array if they are in one unit and none is a text, else a list; and whether they are local."""
        if isinstance(given, Zoned):
            return given.dates, False
        if is_array(given):
            if given.dtype.kind != "U":
                return given, True
            given = given.tolist()
        zoned = {has_zone(it) for it in given} if self.zone is not None else {False}
        if types_of(given) == {str}:
            found = array_of_texts(given)
            return given if found is None else found, True
        if len(zoned) > 1 or any(issubclass(it, str) for it in types_of(given)):
            return given, True
        found = array_of(given, "a key")
        return (found, zoned == {False}) if is_array(found) else (given, True)

    def _is_within(self, numbers: Any) -> bool:
        """Whether a table with a zone can hold these numbers of units."""
        least, greatest = self._limits
        return bool(least <= int(numbers.min()) and int(numbers.max()) <= greatest)

    @functools.cached_property
    def _limits(self) -> tuple[int, int]:
        """The least and the greatest number of units. With a zone, local times must fit too, and be in its years."""
        if self.zone is None:
            return 1 - SIGN, SIGN - 1
        day = self.unit.least_from(DAY)
        years = self.unit.least_from(LEAST * SECOND), self.unit.least_from(GREATEST * SECOND)
        return max(1 - SIGN + day, years[0]), min(SIGN - 1 - day, years[1])

    def _of_date(self, key: Any) -> int:
        moment = self._moment(key, "a key", f"the key {shown(key)}")
        number = self.unit.least_from(moment)
        least, greatest = self._limits
        if not least <= number <= greatest:
            where = "" if self.zone is None else f" in the zone {self.zone}"
            raise OverflowError(f"the key {shown(key)} doesn't fit into {self.dtype}{where}")
        if self.unit.moment(number) != moment:
            raise ValueError(f"the key {shown(key)} isn't exact as {self.dtype}")
        return number + SIGN

    def _moment(self, date: Any, what: str, which: str) -> int:
        """The moment of a date or a time, which is local if it has no zone and the keys have one."""
        found = time_of(date, what)
        if self.zone is None or not found.is_local:
            return found.moment
        seconds, rest = divmod(found.moment, SECOND)
        return clock_of(self.zone).moment(seconds, found.is_day, which) * SECOND + rest

    def back(self, found: Any) -> Any:
        """The keys that have these numbers, as an array.

        For decimals these are the nearest floats, and for dates with a zone what its clocks show.
        """
        keys = self._back(found)
        return unscaled_many(keys, self.decimals) if self.zone is None else clock_of(self.zone).shown(keys)

    def exact(self, found: Any) -> Any:
        """The keys that have these numbers, in a form from which `many` gets the same numbers."""
        return self.of_raw(self._back(found))

    def of_raw(self, keys: Any) -> Any:
        """Keys as `raw` returns them in a form that `many` takes for what they stand for."""
        if self.zone is not None:
            return Zoned(keys, self.zone)
        return Scaled(keys, self.decimals) if self.decimals else keys

    def _back(self, found: Any) -> Any:
        if self.kind == "u":
            return found
        if np is None:
            code = "d" if self.kind == "f" else "q"
            result = empty(code, 0)
            result.extend(map(self.raw.back_one, found))
            return result
        if self.kind == "f":
            return np.where(found >> np.uint64(63), found ^ np.uint64(SIGN), ~found).view(np.float64)
        signed = (found ^ np.uint64(SIGN)).view(np.int64)
        return signed.view(self.dtype) if self.kind == "M" else signed

    def back_one(self, number: int) -> Any:
        """The key that has this number."""
        if self.kind == "f":
            return _float_of(number - SIGN if number >= SIGN else TOP - 1 - number)
        if self.kind == "M":
            date = np.int64(number - SIGN).view(self.dtype)
            return date if self.zone is None else clock_of(self.zone).time(date, self.unit.moment(number - SIGN))
        return unscaled_one(number if self.kind == "u" else number - SIGN, self.decimals)

    def bound(self, end: Any) -> int:
        """The number of the least key that is at or above this end of a range, or 2**64 if there is none."""
        if type(end) is not int or not self._is_whole:
            end = self._exact(end)
            if self.kind == "f":
                return self._float_bound(end)
            if self.kind == "M":
                end = self.unit.least_from(end)
            elif self.decimals:
                end = ceiling_of(end, self.decimals)
            elif end in (math.inf, -math.inf):
                return TOP if end > 0 else 0
            else:
                end = math.ceil(end)
        number: int = end if self.kind == "u" else end + SIGN
        return number if 0 <= number <= TOP else 0 if number < 0 else TOP

    def _exact(self, end: Any) -> Any:
        """An end as a Python number that compares exactly with others. For a date this is its moment."""
        if self.kind == "M":
            return self._moment(end, "the end of a range", f"the end {shown(end)} of a range")
        if self.decimals:
            return end_of(end, self.decimals)
        # numpy would convert its integers to floats when it compares or rounds them
        found = _item(end)
        if isinstance(found, NO_NUMBERS) or not isinstance(found, numbers.Real):
            raise TypeError(f"the end of a range of {NAMES[self.kind]} can't be of type {type(end).__name__}")
        if found != found:
            raise ValueError("NaN can't be the end of a range")
        return found

    def _float_bound(self, end: Any) -> int:
        try:
            number = float(end)
        except OverflowError:
            raise OverflowError(f"the end {shown(end)} of a range doesn't fit into a float; an infinity does") from None
        return self._of_float(math.nextafter(number, math.inf) if number < end else number)

    def ends(self, low: Any, high: Any, place: Optional[int] = None) -> tuple[int, int]:
        """The numbers of a half-open range: the first, and one past the last. None means no end.

        Raises ValueError if the low end is above the high end. `place` is the range's place among many, for the error.
        """
        first, end = 0 if low is None else self.bound(low), TOP if high is None else self.bound(high)
        if first >= end and low is not None and high is not None and self._exact(low) > self._exact(high):
            which = "the low end" if place is None else f"range {place}: the low end"
            raise ValueError(f"{which} {shown(low)} is above the high end {shown(high)}")
        return first, end

    def ends_many(self, lows: Any, highs: Any) -> tuple[Any, Any]:
        """The first and last number of each range, as two new arrays. In an empty range the first is above the last."""
        if lows is None and highs is None:
            raise TypeError("low ends or high ends must be given, or both")
        lows, highs = (it if it is None else items_of(it, "the ends of ranges") for it in (lows, highs))
        count = len(highs if lows is None else lows)
        if lows is not None and highs is not None and len(highs) != count:
            raise ValueError(f"{count} low ends and {len(highs)} high ends")
        starts, ends = self._ends_that_are_keys(lows, 0, count), self._ends_that_are_keys(highs, TOP - 1, count)
        if starts is None or ends is None:
            return self._ends_one_by_one(lows, highs, count)
        if highs is None:
            return starts, ends
        if (starts > ends).any():
            place = int(np.argmax(starts > ends))
            self.ends(lows[place], highs[place], place)
        is_empty = starts == ends
        return np.where(is_empty, np.uint64(1), starts), np.where(is_empty, np.uint64(0), ends - np.uint64(1))

    def _ends_that_are_keys(self, ends: Any, unbounded: int, count: int) -> Any:
        """The numbers of the ends if all of them are keys, else None. `unbounded` stands for no end."""
        if np is None:
            return None
        if ends is None:
            return np.full(count, unbounded, np.uint64)
        try:
            return self.many(ends)
        except (TypeError, ValueError, OverflowError):
            return None

    def _ends_one_by_one(self, lows: Any, highs: Any, count: int) -> tuple[Any, Any]:
        ranges = zip(*([None] * count if it is None else listed(it) for it in (lows, highs)))
        ends = [self.ends(low, high, place) for place, (low, high) in enumerate(ranges)]
        # an empty range is stored as the keys from 1 to 0
        pairs = [(first, end - 1) if first < end else (1, 0) for first, end in ends]
        return from_ints("Q", [it[0] for it in pairs], "keys"), from_ints("Q", [it[1] for it in pairs], "keys")


def keys_for(
    sample: Any, key_type: Any = None, key_decimals: Optional[int] = None, zone: Any = None
) -> tuple[Keys, Any]:
    """The type of a table's keys by the options of an opening, and the sample in a form that has this type."""
    sample = items_of(sample, "keys")
    if key_decimals is not None:
        sample = decimals_of(sample, checked_decimals(key_decimals, "key_decimals"), "keys")
    elif isinstance(sample, Scaled) and not isinstance(key_type, Keys):
        key_decimals = sample.decimals
    kind = kind_of(sample) if key_type is None else Keys.named(key_type)
    if kind.kind == "M" and kind.zone is None and zone is None and len(sample):
        zone = zone_of_items(items_of(sample, "keys"))
    kind = kind.with_zone(zone)
    return kind if key_decimals is None else kind.with_decimals(key_decimals), sample


def listed(ends: Any) -> Any:
    """Ends as a list, with Python numbers in place of numpy's."""
    return ends.tolist() if is_array(ends) and ends.dtype.kind in "uif" else list(ends)


def floats_of_array(given: Any) -> Any:
    """Converts an array of keys to floats. Raises OverflowError if one isn't exact as a float."""
    if given.size and (given.dtype.kind not in "uif" or given.dtype.itemsize > 8):
        raise TypeError(f"keys must be floats, not {given.dtype}")
    if given.dtype.kind in "ui":
        floats_of_list(given[(given > GREATEST_EXACT) | (given < -GREATEST_EXACT)].tolist())
    return given.astype(np.float64)


def floats_of_list(given: Any) -> Any:
    """Converts a list of keys to floats. Raises OverflowError if one isn't exact as a float."""
    found = given if types_of(given) <= FLOATS else [exact_float(it) for it in given]
    return found if np is None else np.array(found, dtype=np.float64)


def exact_float(key: Any) -> float:
    """Converts a key to a float. Raises OverflowError if it isn't exact as a float. NaN is returned as it is."""
    if isinstance(key, NO_NUMBERS) or not isinstance(key, numbers.Real):
        raise TypeError(f"keys must be floats, not {type(key).__name__}")
    exact = _item(key)
    try:
        found = float(exact)
        if found == exact or exact != exact:
            return found
    except OverflowError:
        pass
    raise OverflowError(f"the key {shown(key)} isn't exact as a float")


def _item(it: Any) -> Any:
    """Converts a numpy number to a Python number without rounding. Returns anything else unchanged."""
    if np is None or not isinstance(it, np.generic) or it.dtype.kind not in "uif":
        return it
    is_long = it.dtype.itemsize > 8 and np.isfinite(it)
    return fractions.Fraction(*it.as_integer_ratio()) if is_long else it.item()


def quantiles(found: Sequence[int], parts: int, most: int = 10_000) -> list[int]:
    """Splits that divide these numbers into `parts` nearly equal parts, or fewer if few numbers differ.

    They are in ascending order, each 1 to 2**64 - 1. About `most` of the numbers are examined.
    """
    drawn = found[:: max(1, len(found) // most)]
    drawn = np.sort(drawn).tolist() if is_array(drawn) else sorted(drawn)
    ends = {drawn[len(drawn) * it // parts] for it in range(1, parts)} if drawn else set()
    return sorted(ends - {0})
