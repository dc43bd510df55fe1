"""The types of keys, with values to test each: the least and greatest keys and their neighbours, keys beside each limit
of a number type, ends of ranges of every type with their exact values, and values that are refused."""

import dataclasses
import datetime
import decimal
import fractions
import math
import zoneinfo
from typing import Any

from ways import np

LEAST, GREATEST, UNSIGNED = -(2**63), 2**63 - 1, 2**64 - 1
# beyond this not every integer is a float
EXACT = 2**53
LARGEST_FLOAT, SMALLEST_FLOAT = 1.7976931348623157e308, 5e-324
WHOLE_TYPES = ("int8", "int16", "int32", "int64", "uint8", "uint16", "uint32", "uint64")
FLOAT_TYPES = ("float16", "float32", "float64")
SECONDS = {"W": 604_800, "D": 86_400, "h": 3600, "m": 60, "s": 1}
SECONDS |= {unit: fractions.Fraction(1, 1000**at) for at, unit in enumerate(("ms", "us", "ns", "ps", "fs", "as"), 1)}
UNITS = ("Y", "M", *SECONDS)
DATE_TYPES = (*(f"datetime64[{unit}]" for unit in UNITS), "datetime64[15m]")


@dataclasses.dataclass(frozen=True)
class Kind:
    """A kind of keys.

    `keys` rise, and are given as a list or, if there is a `dtype`, as an array. `ends` are ends of ranges, and `arrays`
    has others of each type. `wrong` are items that are no keys, and `wrong_ends` are no ends, each with its error.
    """

    name: str
    key_type: str
    keys: list
    ends: list
    wrong: list
    wrong_ends: list
    dtype: Any = None
    arrays: Any = ()
    decimals: int = 0
    zone: Any = None

    @property
    def options(self):
        """What the opening of a table gets besides the type of the keys."""
        return {"key_decimals": self.decimals} if self.decimals else {"zone": self.zone} if self.zone else {}

    def exact(self, key):
        """The exact value of a key that `raw=True` returned."""
        return value(key) / 10**self.decimals if self.decimals else value(key)

    def given(self, keys):
        """Keys as a table gets them."""
        return list(keys) if self.dtype is None else np.array(keys, self.dtype)

    def has(self, it):
        """Whether an item of another type is exactly a key of this kind."""
        exact = value(it)
        if self.key_type == "float64":
            return isinstance(exact, float) or abs(exact) <= LARGEST_FLOAT and float(exact) == exact
        if self.key_type in ("int64", "uint64"):
            least, greatest = (LEAST, GREATEST) if self.key_type == "int64" else (0, UNSIGNED)
            return least <= exact * 10**self.decimals <= greatest
        return exact in map(value, at_most(exact, self.key_type))

    @property
    def payloads(self):
        """A payload for each key: the least, the greatest, and others that differ, also in the sums of neighbours."""
        return [LEAST, *((-5) ** it for it in range(len(self.keys) - 2)), GREATEST]


def days_before(year, month):
    """The days from 1970 to the first of a month, by the calendar of numpy and ISO 8601."""
    # a year begins in March here, so that a leap day is its last
    year, month = year + (month - 3) // 12, (month - 3) % 12
    return 365 * year + year // 4 - year // 100 + year // 400 + (153 * month + 2) // 5 - 719_468


def moment(date):
    """A date of numpy in seconds since 1970, exactly."""
    unit, step = np.datetime_data(date.dtype)
    number = int(date.view(np.int64)) * step
    if unit in SECONDS:
        return number * SECONDS[unit]
    year, month = divmod(number * (12 if unit == "Y" else 1), 12)
    return days_before(1970 + year, 1 + month) * 86_400


def value(it):
    """The exact value of a key or of an end, with which others compare."""
    if isinstance(it, str):
        return TEXTS[it]
    if isinstance(it, datetime.datetime):
        since = it.replace(tzinfo=it.tzinfo or datetime.timezone.utc) - datetime.datetime(
            1970, 1, 1, tzinfo=datetime.timezone.utc
        )
        return fractions.Fraction(since // datetime.timedelta(microseconds=1), 10**6)
    if isinstance(it, datetime.date):
        return days_before(it.year, it.month) * 86_400 + (it.day - 1) * 86_400
    if np is not None and isinstance(it, np.datetime64):
        return moment(it)
    if isinstance(it, decimal.Decimal) and it.is_infinite():
        return math.copysign(math.inf, it)
    found = it.item() if np is not None and isinstance(it, np.generic) else it
    return found if isinstance(found, float) and math.isinf(found) else fractions.Fraction(found)


# Numbers

WHOLE_ENDS = sorted(
    {sign * (it + more) for it in (0, EXACT, 2**62, 2**63, 2**64, 2**70) for more in (-1, 0, 1) for sign in (-1, 1)}
    | {2**1023 + 1, -(2**1023) - 1}
)
FLOAT_ENDS = [-math.inf, -LARGEST_FLOAT, -(2.0**64), -1.5, -0.5, -SMALLEST_FLOAT, -0.0, 0.0, 0.5, 1.5, 2.0**53 - 0.5]
FLOAT_ENDS += [sign * math.nextafter(2.0**it, to) for it in (53, 63, 64) for to in (0, math.inf) for sign in (-1, 1)]
FLOAT_ENDS += [SMALLEST_FLOAT, 2.0**53, 2.0**63, -(2.0**63), 2.0**64, LARGEST_FLOAT, math.inf]
THIRD = fractions.Fraction(1, 3)
FRACTION_ENDS = [it + more for it in (LEAST, -EXACT, 0, EXACT, GREATEST, UNSIGNED) for more in (-THIRD, THIRD)]
FRACTION_ENDS += [THIRD / 10**400, -THIRD / 10**400]
NUMBER_ENDS = [*WHOLE_ENDS, *FLOAT_ENDS, *FRACTION_ENDS]
# beyond all floats: accepted as ends of ranges of integers, but not of floats
FAR_ENDS = [sign * it for it in (2**1024, 10**400, fractions.Fraction(10**400, 3)) for sign in (-1, 1)]
ALL_ENDS = [*NUMBER_ENDS, *FAR_ENDS]

NO_NUMBERS = ["1", "", None, b"12345678", b"1", True, False, 1j, decimal.Decimal(1), [1], datetime.date(2020, 1, 1)]
NO_KEYS = [(it, TypeError) for it in NO_NUMBERS]
NO_ENDS = [(it, error) for it, error in NO_KEYS if it is not None] + [(math.nan, ValueError), (-math.nan, ValueError)]
NO_ENDS_OF_FLOATS = NO_ENDS + [(it, OverflowError) for it in FAR_ENDS]
NO_INTEGERS = [(it, TypeError) for it in (1.0, 0.5, math.inf, math.nan, fractions.Fraction(1), THIRD)]
NO_INTS = [(it, OverflowError) for it in (LEAST - 1, GREATEST + 1, UNSIGNED, 2**64, -(10**400), 10**400)]
NO_UNSIGNED = [(it, OverflowError) for it in (-1, LEAST, 2**64, 2**64 + 1, -(10**400), 10**400)]
NO_FLOATS = [(it, OverflowError) for it in (EXACT + 1, -EXACT - 1, GREATEST, UNSIGNED, 10**400, -(10**400))]
NO_FLOATS += [(math.nan, ValueError), (-math.nan, ValueError)]

INT_KEYS = [LEAST, LEAST + 1, -EXACT - 1, -1, 0, 1, EXACT + 1, GREATEST - 1, GREATEST]
UNSIGNED_KEYS = [0, 1, EXACT + 1, GREATEST, 2**63, 2**63 + 1, UNSIGNED - 1, UNSIGNED]
HALF_OF_FLOATS = [SMALLEST_FLOAT, 0.25, math.nextafter(1.0, 0), 1.0, math.nextafter(1.0, 2), 2.0**53, 2.0**53 + 2]
HALF_OF_FLOATS += [2.0**63, math.nextafter(LARGEST_FLOAT, 0), LARGEST_FLOAT, math.inf]
FLOAT_KEYS = [*(-it for it in reversed(HALF_OF_FLOATS)), 0.0, *HALF_OF_FLOATS]
MIXED_KEYS = [-EXACT, -2.5, fractions.Fraction(-1, 2), 0, fractions.Fraction(1, 4), 1.0, 3, 2.0**60]


def of_lists():
    """The kinds of lists of Python's numbers."""
    return [
        Kind("list of int", "int64", INT_KEYS, ALL_ENDS, NO_KEYS + NO_INTEGERS + NO_INTS, NO_ENDS),
        Kind("list of large int", "uint64", UNSIGNED_KEYS, ALL_ENDS, NO_KEYS + NO_INTEGERS + NO_UNSIGNED, NO_ENDS),
        Kind("list of float", "float64", FLOAT_KEYS, NUMBER_ENDS, NO_KEYS + NO_FLOATS, NO_ENDS_OF_FLOATS),
        Kind("list of int, float ..", "float64", MIXED_KEYS, NUMBER_ENDS, NO_KEYS + NO_FLOATS, NO_ENDS_OF_FLOATS),
    ]


def limits(dtype):
    """The least number of a type of numpy, the one beside it, those about 0, and the greatest."""
    if np.dtype(dtype).kind in "iu":
        least, greatest = int(np.iinfo(dtype).min), int(np.iinfo(dtype).max)
        whole = {least, least + 1, max(least, -1), 0, 1, 2, greatest // 2 + 1, greatest - 1, greatest}
        return np.array(sorted(whole), dtype)
    greatest, zero, one = np.finfo(dtype).max, np.zeros(1, dtype)[0], np.ones(1, dtype)[0]
    half = [np.nextafter(zero, one), one, np.nextafter(one, one + one), np.nextafter(greatest, zero), greatest]
    infinite = np.array([np.inf], dtype)
    return np.concatenate([-infinite, -np.array(half[::-1], dtype), [zero], np.array(half, dtype), infinite])


def of_numbers():
    """The kinds of arrays of numbers, and ends of every type of numpy."""
    arrays = [limits(it) for it in (*WHOLE_TYPES, *FLOAT_TYPES)] + [limits("int64").astype(">i8")]
    of_numpy = [it for array in arrays for it in array]
    kinds = []
    for dtype in (*WHOLE_TYPES, *FLOAT_TYPES):
        wrong = list({"i": NO_INTEGERS + NO_INTS, "u": NO_INTEGERS + NO_UNSIGNED, "f": NO_FLOATS}[np.dtype(dtype).kind])
        key_type = {"i": "int64", "u": "uint64", "f": "float64"}[np.dtype(dtype).kind]
        keys = list(limits(dtype))
        if dtype == "int64":
            keys = list(np.array(INT_KEYS, dtype))
        wrong += NO_KEYS + wrong_of_numpy(dtype)
        is_float = key_type == "float64"
        ends = [*(NUMBER_ENDS if is_float else ALL_ENDS), *of_numpy]
        wrong_ends = NO_ENDS_OF_FLOATS if is_float else NO_ENDS
        wrong_ends = wrong_ends + [(np.bool_(True), TypeError), (np.timedelta64(1, "s"), TypeError)]
        wrong_ends += [(np.float32("nan"), ValueError), (np.datetime64("2020-01-01"), TypeError)]
        kinds.append(Kind(dtype, key_type, keys, ends, wrong, wrong_ends, dtype, arrays))
    return kinds


def wrong_of_numpy(dtype):
    """Items of numpy that are no keys of a type."""
    wrong = [(np.bool_(True), TypeError), (np.datetime64("2020-01-01"), TypeError), (np.timedelta64(1, "s"), TypeError)]
    kind = np.dtype(dtype).kind
    if kind == "f":
        return wrong + [(np.int64(EXACT + 1), OverflowError), (np.float32("nan"), ValueError)]
    return wrong + [(np.float64(1), TypeError), (np.int64(-1) if kind == "u" else np.uint64(2**63), OverflowError)]


# Decimals

DECIMALS = [LEAST, LEAST + 1, -EXACT - 1, -110, -1, 0, 1, 29, 1010, EXACT + 1, GREATEST - 1, GREATEST]
NO_DECIMALS = [(it, error) for it, error in NO_KEYS if not isinstance(it, decimal.Decimal)]
NO_DECIMALS += [(it, ValueError) for it in (0.125, -0.001, SMALLEST_FLOAT, THIRD, math.nan, decimal.Decimal("NaN"))]
NO_DECIMALS += [(decimal.Decimal(it), ValueError) for it in ("0.001", "1E-999999", "12345678901234567890.125")]
NO_DECIMALS += [(it, OverflowError) for it in (LEAST, GREATEST // 100 + 1, 2**64, 10**400, 1e18, math.inf, -math.inf)]
NO_DECIMALS += [(decimal.Decimal(it), OverflowError) for it in ("92233720368547758.08", "-1E999999", "Infinity")]
DECIMAL_ENDS = ["0.285", "0.2900000000000000000000000000001", "0.29", "-1.1", "-1.105", "10.1", "92233720368547758.075"]
DECIMAL_ENDS += ["-92233720368547758.085", "1E+400", "-1E+400", "1E-400", "-1E-400", "-0.01"]
NO_ENDS_OF_DECIMALS = [(it, error) for it, error in NO_ENDS if not isinstance(it, decimal.Decimal)]
NO_ENDS_OF_DECIMALS += [(decimal.Decimal(it), ValueError) for it in ("NaN", "sNaN")]


def of_decimals():
    """The kinds of decimals. Ends that are floats here are exactly decimals, or far from all of them."""
    keys = [decimal.Decimal(it).scaleb(-2) for it in DECIMALS]
    arrays = [] if np is None else [limits(it) for it in (*WHOLE_TYPES, "float16")]
    ends = [*ALL_ENDS, *map(decimal.Decimal, DECIMAL_ENDS)]
    return [
        Kind("decimals", "int64", keys, ends, NO_DECIMALS, NO_ENDS_OF_DECIMALS, arrays=arrays, decimals=2),
        Kind(
            "floats as decimals",
            "int64",
            [-1.25, -0.5, 0.0, 0.25, 2.0**40 + 0.75],
            ALL_ENDS,
            NO_DECIMALS,
            NO_ENDS_OF_DECIMALS,
            decimals=2,
        ),
    ]


# Dates

# ends as text, with their seconds since 1970
TEXTS = {"1969-12-31": -86_400, "1970-01-01T00:00:00.25": fractions.Fraction(1, 4), "1970-01-01T00:00": 0}
TEXTS |= {"1970-02": 31 * 86_400, "1972-03-01 00:00:01": (2 * 365 + 31 + 29) * 86_400 + 1, "1969": -365 * 86_400}
TEXTS |= {"1969-12-31T23:59:59.999999999999999999": fractions.Fraction(-1, 10**18)}
UTC_TEXTS = list(TEXTS)
ZONES = [datetime.timezone(datetime.timedelta(hours=it)) for it in (-5, 0, 5.5)]


def dates_of(dtype):
    """The least date of a type, the one beside it, those about 1970, and the greatest."""
    numbers = [LEAST + 1, LEAST + 2, -1, 0, 1, 2, GREATEST - 1, GREATEST]
    return np.array(numbers, np.int64).view(dtype)


def at_most(moment_of_end, dtype):
    """The last date of a type that isn't after a moment, and those beside it, as far as it has them."""
    low, high = LEAST + 1, GREATEST
    if value(np.int64(low).view(dtype)) > moment_of_end:
        return []
    while low < high:
        middle = (low + high + 1) // 2
        low, high = (middle, high) if value(np.int64(middle).view(dtype)) <= moment_of_end else (low, middle - 1)
    numbers = [it for it in (low - 1, low, low + 1) if LEAST < it <= GREATEST]
    return list(np.array(numbers, np.int64).view(dtype))


def of_dates():
    """The kinds of dates, with ends of every unit: its own limits, and those of the keys."""
    kinds = []
    for dtype in DATE_TYPES:
        keys = list(dates_of(dtype))
        arrays = [dates_of(it) for it in DATE_TYPES]
        found = [it for other in DATE_TYPES for key in keys for it in at_most(value(key), other)]
        found += [it for array in arrays for it in array]
        ends = list({(str(it.dtype), int(it.view(np.int64))): it for it in found}.values())
        ends += [datetime.date(1, 1, 1), datetime.date(1969, 12, 31), datetime.date(9999, 12, 31)]
        ends += [datetime.datetime(1969, 12, 31, 23, 59, 59, 999_999), datetime.datetime(1970, 1, 1, 0, 0, 0, 1)]
        ends += [*UTC_TEXTS, *(datetime.datetime(1970, 1, 1, 0, 0, 0, 1, it) for it in ZONES)]
        no_dates = [(it, TypeError) for it in (5, 1.5, True, b"12345678", np.int64(5), np.timedelta64(1, "s"))]
        no_dates += [(np.datetime64("NaT"), ValueError), (np.datetime64("NaT", "s"), ValueError)]
        wrong = no_dates + [(None, TypeError)] + wrong_dates(dtype)
        kinds.append(Kind(dtype, dtype, keys, ends, wrong, no_dates, dtype, arrays))
    return kinds


def wrong_dates(dtype):
    """Dates of other units that a type doesn't have: between two, and beyond its limits."""
    keys = dates_of(dtype)
    moments = {value(it) for it in keys}
    # 2**63 seconds before 1970 would be NaT
    wrong = [(np.int64(-(2**62)).view("datetime64[2s]"), OverflowError)] if dtype == "datetime64[s]" else []
    for other in DATE_TYPES:
        for it in at_most(value(keys[3]), other)[2:]:
            wrong += [(it, ValueError)] if value(it) not in moments and value(it) < value(keys[4]) else []
        far = [it for it in dates_of(other)[[0, -1]] if not value(keys[0]) <= value(it) <= value(keys[-1])]
        wrong += [(it, OverflowError) for it in far]
    return wrong


# Times with a zone

# ends as text, which are times in Berlin unless they have an offset, with their seconds since 1970: the clocks were put
# forward from 2 to 3 on 29 March 2020, and back from 3 to 2 on 25 October
DAY_OF_MARCH, DAY_OF_OCTOBER = (days_before(2020, 3) + 28) * 86_400, (days_before(2020, 10) + 24) * 86_400
LOCAL_TEXTS = {"2020-03-29": DAY_OF_MARCH - 3600, "2020-03-30": DAY_OF_MARCH + 22 * 3600}
LOCAL_TEXTS |= {"2020-03-29T01:59:59.5": DAY_OF_MARCH + 3599 + fractions.Fraction(1, 2)}
LOCAL_TEXTS |= {"2020-03-29T03": DAY_OF_MARCH + 3600, "2020-03-29T02:30+01:00": DAY_OF_MARCH + 5400}
LOCAL_TEXTS |= {"2020-10-25": DAY_OF_OCTOBER - 7200, "2020-10-26": DAY_OF_OCTOBER + 23 * 3600}
LOCAL_TEXTS |= {"2020-10-25T02:30+02:00": DAY_OF_OCTOBER + 1800, "2020-10-25T02:30+01": DAY_OF_OCTOBER + 5400}
LOCAL_TEXTS |= {"2020-10-25T00:30Z": DAY_OF_OCTOBER + 1800, "2020-10-25T01:59:59": DAY_OF_OCTOBER - 1}
LOCAL_TEXTS |= {"2020-10-25 03:00:00": DAY_OF_OCTOBER + 7200, "2020-07": days_before(2020, 7) * 86_400 - 7200}
TEXTS |= LOCAL_TEXTS
NEVER_OR_TWICE = ["2020-03-29T02", "2020-03-29T02:59:59.9", "2020-10-25T02:00", "2020-10-25T02:59:59.999999999"]
NEVER_OR_TWICE += [datetime.datetime(2020, 3, 29, 2, 30), datetime.datetime(2020, 10, 25, 2, 30)]


def of_zones():
    """The kinds of times with a zone. Ends that are no text have a zone."""
    utc = datetime.timezone.utc
    epoch, micro = datetime.datetime(1970, 1, 1, tzinfo=utc), datetime.timedelta(microseconds=1)
    berlin = zoneinfo.ZoneInfo("Europe/Berlin")
    seconds = [-(10**9), 0, *(LOCAL_TEXTS[it] for it in ("2020-03-29", "2020-03-29T03", "2020-10-25T02:30+02:00"))]
    seconds += [DAY_OF_OCTOBER + 5400, LOCAL_TEXTS["2020-10-26"], 10**10]
    keys = [(epoch + datetime.timedelta(seconds=it)).astimezone(berlin) for it in seconds]
    ends = [(it + more).astimezone(zone) for it in keys for more in (-micro, 0 * micro, micro) for zone in ZONES]
    no_dates = [(it, TypeError) for it in (5, 1.5, True, b"12345678", [epoch])]
    wrong = [*no_dates, (None, TypeError), *((it, ValueError) for it in (*NEVER_OR_TWICE, "2020-1-1", "202001", "now"))]
    wrong_ends = [*no_dates, *((it, ValueError) for it in (*NEVER_OR_TWICE, "2020-1-1", "202001", ""))]
    ends += [*keys, *LOCAL_TEXTS]
    return [Kind("times in Berlin", "datetime64[us]", keys, ends, wrong, wrong_ends, zone="Europe/Berlin")]


LISTS = of_lists() + of_decimals()
KINDS = LISTS + (of_numbers() + of_dates() + of_zones() if np is not None else [])
