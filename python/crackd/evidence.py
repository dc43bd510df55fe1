"""What occurs in a column of a CSV file, by its whole text: numbers, dates, gaps and other texts.

Fields that differ only in their digits have the same shape, and a column of numbers or dates has few shapes. So only
one field of each shape is looked at closely.
"""

from __future__ import annotations

import datetime
import decimal
import functools
import re
from typing import Any, Iterator, NamedTuple, Optional, Sequence

from .fields import FLOAT, LEADING_ZERO, MOST_DIGITS, SCIENTIFIC, has_leading_zero, is_gap, quoted, ungrouped
from .times import FIELD

ONES = str.maketrans("023456789", "1" * 9)
MOST_SHAPES = 2000
# a longer field is no date
MOST_OF_A_DATE = 50
LIKE_A_DATE = re.compile(
    r"\[?(?:(?:mon|tue|wed|thu|fri|sat|sun)[a-z]*,? )?"
    r"(?:1{1,4}[-/.]1{1,2}\b|(?:1{1,2}[-/ .]+)?(?:jan|feb|mar|apr|may|jun|jul|aug|sep|oct|nov|dec))",
    re.IGNORECASE,
)
# formats of dates that aren't in the order year, month, day with - or /, and of times after them
DATES = [f"%{a}{it}%{b}{it}%{year}" for year in "Yy" for it in "/-." for a, b in ("dm", "md")]
DATES += ["%y/%m/%d", "%y-%m-%d", "%y.%m.%d", "%Y.%m.%d", "%Y-%m", "%Y/%m", "%b %Y", "%B %Y", "%b-%Y", "%b-%y"]
DATES += ["%b %d %Y", "%b %d, %Y", "%B %d %Y", "%B %d, %Y", "%d %b %Y", "%d %B %Y", "%d-%b-%Y", "%d-%b-%y", "%d/%b/%Y"]
DATES += ["%a %b %d %Y", "%a, %d %b %Y"]
CLOCKS = ["%H:%M:%S", "%H:%M", "%H:%M:%S.%f", "%I:%M:%S %p", "%I:%M %p", "%H:%M:%S,%f"]
CLOCKS += [f"{it} %z" for it in CLOCKS[:3]]
BETWEEN = (" ", "T", ", ")
# those of logs of web servers, and of `ctime`
WHOLES = ["%d/%b/%Y:%H:%M:%S %z", "[%d/%b/%Y:%H:%M:%S %z]", "[%d/%b/%Y:%H:%M:%S", "%a %b %d %H:%M:%S %Y"]
DIRECTIVES = dict.fromkeys("dmHIMS", "1{1,2}") | {"Y": "1111", "y": "11", "f": "1{1,6}", "p": "[ap]m"}
DIRECTIVES |= {"z": "(?:Z|[+-]11:?11)", "a": "(?:mon|tue|wed|thu|fri|sat|sun)"}
DIRECTIVES |= {"b": "(?:jan|feb|mar|apr|may|jun|jul|aug|sep|oct|nov|dec)"}
DIRECTIVES |= {"B": "(?:january|february|march|april|may|june|july|august|september|october|november|december)"}


def form_of(form: str) -> re.Pattern[str]:
    """The shapes of fields that a format reads."""
    parts = re.split("%(.)", form)
    texts = [DIRECTIVES[it] if at % 2 else re.escape(it) for at, it in enumerate(parts)]
    return re.compile("".join(texts), re.IGNORECASE)


DATE_FORMS, CLOCK_FORMS, WHOLE_FORMS = ({it: form_of(it) for it in them} for them in (DATES, CLOCKS, WHOLES))
NUMBERS = re.compile(r"(?:^|\n)\s*([0-9]{1,4})[-/.]([0-9]{1,2})[-/.]([0-9]{1,4})\b")
ZERO_FIRST = {".": re.compile(r"(?:^|\n)\s*[+-]?0\."), ",": re.compile(r"(?:^|\n)\s*[+-]?0,")}
# the formats in the order in which a refusal names them
AFTER = ["", *(between + it for between in BETWEEN for it in CLOCKS)]
ORDER = [date + it for date in DATES for it in AFTER] + WHOLES
# how a number may be read: with this decimal sign, and perhaps with signs between groups of three digits
READINGS = ((".", False), (".", True), (",", True))
WIDE = decimal.Context(prec=400, traps=[])


class Seen(NamedTuple):
    """A field, and its line."""

    field: str
    line: int


class Shape(NamedTuple):
    """What fields of a shape are: a gap, a number, a time in the order year, month, day, another date, or a text.

    `places` has the decimal places by each reading, or None where a reading doesn't read them.
    """

    kind: str
    places: tuple[Optional[int], ...] = ()
    digits: int = 0
    is_scientific: bool = False
    is_infinite: bool = False
    is_zoned: bool = False
    fraction: int = 0
    formats: frozenset[str] = frozenset()


@functools.lru_cache(maxsize=20_000)
def shape_of(shape: str) -> Shape:
    """What fields of a shape are. All digits of a shape are 1."""
    if is_gap(shape):
        return Shape("gap")
    time = FIELD.fullmatch(shape)
    if time is not None:
        return Shape("time", is_zoned=time[9] is not None, fraction=len(time[8] or ""))
    texts = [plain_text(shape, *it) for it in READINGS]
    places = tuple(None if it is None else len(it.lower().partition("e")[0].partition(".")[2]) for it in texts)
    if any(it is not None for it in places):
        digits = max(len(re.sub("[^0-9]", "", it.partition(".")[0])) for it in texts if it is not None)
        lower = shape.lower()
        return Shape("number", places, digits, "e" in lower and "n" not in lower, "n" in lower)
    formats = frozenset(formats_of(shape.strip()))
    return Shape("date", formats=formats) if formats else Shape("text")


def kind_of_field(field: str) -> str:
    """What a field is: the `kind` of its shape."""
    return shape_of(field.translate(ONES)).kind


def plain_text(shape: str, sign: str, is_grouped: bool) -> Optional[str]:
    """A number as a reading reads it, with a point as its decimal sign, or None if it reads no number."""
    try:
        text = ungrouped(shape, sign) if is_grouped else shape.strip()
    except ValueError:
        return None
    is_number = SCIENTIFIC.fullmatch(text) or not is_grouped and FLOAT.fullmatch(text)
    return text if is_number else None


def formats_of(shape: str) -> Iterator[str]:
    """The formats by which `strptime` reads fields of a shape."""
    if len(shape) > MOST_OF_A_DATE or LIKE_A_DATE.match(shape) is None:
        return
    for date, form in DATE_FORMS.items():
        found = form.match(shape)
        if found is not None:
            yield from (date + it for it in clocks_of(shape[found.end() :]))
    yield from (it for it, form in WHOLE_FORMS.items() if form.fullmatch(shape))


def clocks_of(rest: str) -> Iterator[str]:
    """The formats of what follows a date: nothing, or a time."""
    if not rest:
        yield ""
    for between in BETWEEN:
        if rest.startswith(between):
            text = rest[len(between) :]
            yield from (between + it for it, form in CLOCK_FORMS.items() if form.fullmatch(text))


class Evidence:
    """What occurs in a column. Of each kind of field the first is kept."""

    def __init__(self, name: str = ""):
        self.name = name
        self.first: dict[str, Seen] = {}
        self._known: set[str] = set()
        # of numbers: what each reading can't read, its most decimal places and the most digits before them
        self.wrong: dict[Any, Seen] = {}
        self.places, self.digits = dict.fromkeys(READINGS, 0), 0
        self.is_scientific = self.is_infinite = False
        self.zero: Optional[Seen] = None
        # numbers with a point or a comma that one reading takes for a decimal sign and another one doesn't
        self.twofold: dict[str, Seen] = {}
        self.onefold: set[str] = set()
        self.least = self.greatest = 0
        # of times and dates
        self.zoned: dict[bool, Seen] = {}
        self.fraction = 0
        self.formats: Optional[frozenset[str]] = None
        self._days: set[tuple[int, ...]] = set()

    def add(self, fields: Sequence[str], lines: Sequence[int]) -> None:
        """Adds fields, with their lines. After the first text no more fields are looked at."""
        if "text" in self.first:
            return
        text = "\n".join(fields)
        shapes = text.translate(ONES).split("\n")
        if len(shapes) != len(fields):
            shapes = [it.translate(ONES) for it in fields]
        now = set(shapes)
        for it in sorted(now - self._known, key=shapes.index):
            at = shapes.index(it)
            self._see(shape_of(it), it, Seen(fields[at], lines[at]))
        if len(self._known) < MOST_SHAPES:
            self._known |= now
        if "number" in self.first:
            self._look_at_numbers(fields, lines, text)
            odd = {it for it in now if len(it) > MOST_DIGITS or "e" in it.lower()}
            for field, shape in zip(fields, shapes) if odd else ():
                self._look_at_number(field, shape)
        if self.formats is not None and len(self.formats) > 1:
            self._days |= {tuple(map(int, it)) for it in NUMBERS.findall(text)}

    def _see(self, shape: Shape, text: str, seen: Seen) -> None:
        self.first.setdefault(shape.kind, seen)
        if shape.kind == "number":
            self._see_number(shape, text, seen)
        elif shape.kind == "time":
            self.zoned.setdefault(shape.is_zoned, seen)
            self.fraction = max(self.fraction, shape.fraction)
        elif shape.kind == "date":
            self.formats = shape.formats if self.formats is None else self.formats & shape.formats
            if not self.formats:
                self.first.setdefault("text", seen)

    def _see_number(self, shape: Shape, text: str, seen: Seen) -> None:
        for reading, places in zip(READINGS, shape.places):
            if places is None:
                self.wrong.setdefault(reading, seen)
            else:
                self.places[reading] = max(self.places[reading], places)
        self.digits = max(self.digits, shape.digits)
        self.is_infinite |= shape.is_infinite
        for sign in ".,":
            if sign in text:
                by_point, by_comma = shape.places[1:]
                is_twofold = by_point is not None and by_comma is not None and by_point != by_comma
                self.twofold.setdefault(sign, seen) if is_twofold else self.onefold.add(sign)

    def _look_at_numbers(self, fields: Sequence[str], lines: Sequence[int], text: str) -> None:
        """Looks at what shapes don't say: zeros at the beginning of numbers."""
        for sign, other in ((".", ","), (",", ".")):
            if sign in self.twofold and ZERO_FIRST[sign].search(text):
                # no group of three digits begins with a zero
                self.onefold.add(sign)
                self.wrong.setdefault((other, True), self.twofold[sign])
        if self.zero is None and has_leading_zero(list(fields)):
            self.zero = next((Seen(*it) for it in zip(fields, lines) if LEADING_ZERO.match(it[0])), None)

    def _look_at_number(self, field: str, shape: str) -> None:
        """Looks at an integer of many digits, or at an exponent."""
        if len(shape) > MOST_DIGITS and re.fullmatch(r"\s*[+-]?1+\s*", shape):
            number = int(field) if len(shape) < MOST_OF_A_DATE else 10**MOST_OF_A_DATE
            self.least, self.greatest = min(self.least, number), max(self.greatest, number)
        elif shape_of(shape).is_scientific:
            self.is_scientific = True
            exponent = WIDE.create_decimal(field.strip()).normalize(WIDE).as_tuple().exponent
            if isinstance(exponent, int):
                self.places[READINGS[0]] = max(self.places[READINGS[0]], -exponent)

    @property
    def is_dates(self) -> bool:
        """Whether the column has dates and times, and nothing else but gaps."""
        return bool(self.first) and self.first.keys() <= {"time", "date", "gap"} and self.first.keys() != {"gap"}

    @property
    def is_clear(self) -> bool:
        """Whether the column has numbers or dates, and no texts."""
        return "text" not in self.first and not self.first.keys() <= {"gap"}

    def possible_formats(self) -> list[str]:
        """The formats that may read all dates, by their days and months."""
        known = sorted(self.formats or (), key=ORDER.index)
        return [it for it in known if all(is_day(numbers, it) for numbers in self._days)]

    def said(self, kind: str) -> str:
        """The first field of a kind, as an error shows it."""
        return quoted(self.first[kind].field)


def is_day(numbers: Sequence[int], form: str) -> bool:
    """Whether the three numbers at the beginning of a date can be its day, month and year in the order of a format."""
    order = re.findall("%([dmyY])", form)
    found = dict(zip(order, numbers))
    return 1 <= found.get("m", 1) <= 12 and 1 <= found.get("d", 1) <= 31
