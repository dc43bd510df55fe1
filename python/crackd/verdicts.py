"""Decides how a column of a CSV file is read, by what occurs in it."""

from __future__ import annotations

from dataclasses import replace
from typing import Any, NamedTuple, Optional

from .arrays import SIGN, TOP
from .asked import Asked, Role
from .evidence import READINGS, Evidence, Seen
from .fields import MOST_DIGITS, YMD, Column, quoted

# the most decimal places that are found
MOST_PLACES = 9
# the digits of a fraction of a second that fit into the unit of most dates
MICROSECONDS = 6
UNSIGNED = {"least": 0, "most": TOP - 1}
NEITHER = "{} is neither a number nor a date"


class Verdict(NamedTuple):
    """How a column is read, and the arguments that this needs. `column` is None if it can't be read.

    `seen` and `why` give the first field that needs something, or can't be read.
    """

    column: Optional[Column]
    needs: dict[str, tuple[Any, ...]]
    seen: Optional[Seen] = None
    why: str = ""

    @property
    def is_ready(self) -> bool:
        """Whether the column can be read without more arguments."""
        return self.column is not None and not self.needs


def unfit(seen: Optional[Seen], why: str) -> Verdict:
    """The verdict on a column that can't be read. `why` has {} in place of the field."""
    return Verdict(None, {}, seen, why.format(quoted(seen.field)) if seen else why)


def verdict_on(evidence: Evidence, role: Role, asked: Asked, delimiter: str) -> Verdict:
    """How a column is read in this role, and which arguments this needs."""
    given = given_column(role, asked)
    if given is not None and given.format is None and "text" in evidence.first:
        return unfit(evidence.first["text"], NEITHER)
    found = Verdict(given, {}) if given is not None else found_verdict(evidence, role, asked, delimiter)
    gap = evidence.first.get("gap")
    if gap is None or asked.is_skipping or found.column is None:
        return found
    needs = {**found.needs, "missing": ("skip",)}
    if found.seen is not None:
        return found._replace(needs=needs)
    return Verdict(found.column, needs, gap, f"{quoted(gap.field)} is a gap")


def given_column(role: Role, asked: Asked) -> Optional[Column]:
    """How a column is read if arguments say it, or None if it is to be found."""
    kind, sign = role.kind, {"sign": asked.decimal or ".", "is_grouped": asked.decimal is not None}
    limits = UNSIGNED if kind == "u" else {}
    if role.format not in (None, YMD):
        return Column(format=role.format)
    if role.is_wanted or role.format == YMD or kind is None and role.decimals is None:
        return None
    return Column(is_float=True, **sign) if kind == "f" else Column(role.decimals or 0, **limits, **sign)


def found_verdict(evidence: Evidence, role: Role, asked: Asked, delimiter: str) -> Verdict:
    """How a column is read, as its text says."""
    first = evidence.first
    if "text" in first:
        return unfit(first["text"], NEITHER)
    dates = first.keys() & {"time", "date"}
    if "number" in first and dates:
        late = max((first[it] for it in ("number", *dates)), key=lambda it: it.line)
        return unfit(late, "the column has numbers and dates, such as {}")
    if role.kind not in (None, "M") and dates:
        return unfit(first[min(dates)], f"{{}} is a date, but the table's {role.name}s are numbers")
    if role.kind == "M" and "number" in first:
        return unfit(first["number"], f"{{}} is no date, but the table's {role.name}s are dates")
    if dates:
        return verdict_on_dates(evidence, role)
    return verdict_on_numbers(evidence, role, asked, delimiter)


def verdict_on_dates(evidence: Evidence, role: Role) -> Verdict:
    """How a column of dates is read."""
    first = evidence.first
    if "time" not in first:
        formats = tuple(evidence.possible_formats())
        if not formats:
            return unfit(first["date"], "{} and others aren't dates of one form")
        why = f"{quoted(first['date'].field)} is no date in the order year, month, day"
        return Verdict(Column(format=formats[0]), {f"{role.name}_format": formats}, first["date"], why)
    if "date" in first:
        return unfit(max(first["time"], first["date"], key=lambda it: it.line), "{} has another form than dates before")
    if len(evidence.zoned) > 1:
        late = max(evidence.zoned.values(), key=lambda it: it.line)
        return unfit(late, "{} differs from times before: some have an offset from UTC, and some have none")
    unit = "ns" if evidence.fraction > MICROSECONDS else "us"
    return Verdict(Column(format=YMD, unit=unit, is_zoned=True in evidence.zoned), {})


def verdict_on_numbers(evidence: Evidence, role: Role, asked: Asked, delimiter: str) -> Verdict:
    """How a column of numbers is read, or one without any field that isn't a gap."""
    signs, seen = signs_of(evidence, asked, delimiter)
    if not signs:
        return unfit(seen, "{} isn't a number with the decimal sign of others")
    is_grouped = asked.decimal is not None or seen is not None
    reading = (signs[0], is_grouped)
    found = sized(evidence, role, Column(sign=signs[0], is_grouped=is_grouped, is_strict=True), reading)
    if seen is None or found.column is None:
        return found
    why = f"the decimal sign of {quoted(seen.field)} may be another one"
    return Verdict(found.column, {"decimal": signs, **found.needs}, seen, why)


def signs_of(evidence: Evidence, asked: Asked, delimiter: str) -> tuple[tuple[str, ...], Optional[Seen]]:
    """The decimal signs by which all numbers can be read, and the first field that needs `decimal` to say which."""
    grouped = tuple(sign for sign in ".," if (sign, True) not in evidence.wrong)
    if asked.decimal is not None:
        wrong = evidence.wrong.get((asked.decimal, True))
        return ((asked.decimal,), None) if wrong is None else ((), wrong)
    wrong = evidence.wrong.get(READINGS[0])
    if wrong is not None:
        return grouped, wrong
    twofold = evidence.twofold.get(".") if delimiter == ";" and "." not in evidence.onefold else None
    return (grouped, twofold) if twofold is not None and len(grouped) > 1 else ((".",), None)


def sized(evidence: Evidence, role: Role, column: Column, reading: tuple[str, bool]) -> Verdict:
    """How numbers are read, by the decimal places and the digits that occur."""
    is_key, places = role.name == "key", evidence.places[reading]
    wanted = role.decimals if role.is_wanted else None
    is_wide = evidence.digits + places > MOST_DIGITS and places > 0
    if role.kind == "f":
        return Verdict(replace(column, is_float=True, is_strict=False), {})
    if is_key and role.kind is None and (
        evidence.is_scientific or evidence.is_infinite or places > MOST_PLACES or is_wide
    ):
        return Verdict(replace(column, is_float=True, is_strict=False), {})
    seen = evidence.first.get("number")
    if evidence.is_infinite:
        return unfit(seen, f"the column has an infinity, which is no {role.name}; its first number is {{}}")
    column = replace(column, decimals=places if wanted is None else wanted, is_scientific=evidence.is_scientific)
    needs: dict[str, tuple[Any, ...]] = {}
    why = ""
    if evidence.zero is not None and role.kind is None:
        seen, why = evidence.zero, f"{quoted(evidence.zero.field)} has a leading zero, so it may be no number"
        needs = {"key_type": ("int64",)} if is_key and not places else {f"{role.name}_decimals": (places,)}
        return Verdict(replace(column, is_strict=False), needs, seen, why)
    if wanted is None and places > MOST_PLACES:
        if is_wide or evidence.is_scientific:
            return unfit(seen, f"the column has up to {places} decimal places; its first number is {{}}")
        why = f"the column has up to {places} decimal places, and only {MOST_PLACES} are found"
        return Verdict(replace(column, is_strict=False), {f"{role.name}_decimals": (places,)}, seen, why)
    column = replace(column, is_strict=role.kind is None)
    if role.kind == "u" or is_key and role.kind is None and evidence.greatest >= SIGN and evidence.least >= 0:
        return Verdict(replace(column, **UNSIGNED), {})
    return Verdict(column, {})
