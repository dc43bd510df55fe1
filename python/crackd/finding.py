"""Finds out how a CSV file is to be read: its delimiter, its header, and the columns of the keys and payloads.

A sample of the file says how it may be read, and the reading says whether this is right for all of it. If it isn't, and
before a refusal, all records are surveyed: so a refusal names all arguments that are needed.
"""

from __future__ import annotations

import csv
import io
import itertools
from dataclasses import replace
from typing import Any, Iterable, Iterator, NamedTuple, Optional

from .asked import FOUND, Asked, Found, Place, Role
from .csvfile import RECORDS_AT_ONCE, checked_delimiter, not_blank, place_of
from .evidence import Evidence, kind_of_field
from .fields import Column
from .source import CsvError, Source
from .verdicts import Verdict, verdict_on

DELIMITERS = ",;\t|"
# the characters and the records of the sample, and the records by which delimiters are compared
SAMPLE, RECORDS, FEW_RECORDS = 1 << 15, 400, 100
# a sample of long lines has this many of them, or this many characters
LINES, MOST = 20, 1 << 24
ONE_FIELD = "the line has only 1 field"

Needs = dict[str, tuple[Any, ...]]


class Record(NamedTuple):
    """A record, and its last line."""

    fields: list[str]
    line: int


class Columns(NamedTuple):
    """What occurs in the columns of a file, or of a sample of it. Without a header there are no names."""

    names: list[str]
    all: list[Evidence]
    line: int = 1

    def at(self, place: int) -> Evidence:
        """What occurs in the column with this number, which may be missing."""
        return self.all[place] if place < len(self.all) else Evidence()

    def called(self, place: int) -> Place:
        """The name of a column, or its number if it has no name of its own."""
        name = self.names[place] if place < len(self.names) else ""
        return name if name and self.names.count(name) == 1 else place


class Choice(NamedTuple):
    """The columns of the keys and the payloads, by their numbers, and how they are read."""

    key: int
    payload: Optional[int]
    key_verdict: Verdict
    payload_verdict: Verdict

    @property
    def is_ready(self) -> bool:
        """Whether both columns can be read without more arguments."""
        return self.key_verdict.is_ready and self.payload_verdict.is_ready


class Finder:
    """Finds out how a file is read. `needs` has the arguments that the delimiter and the header need."""

    def __init__(self, source: Source, asked: Asked):
        self.source, self.asked = source, asked
        self.needs: Needs = {}
        text, is_whole = sample_of(source)
        self.delimiter = self._delimiter(text) if asked.delimiter is None else checked_delimiter(asked.delimiter)
        errors: list[csv.Error] = []
        self.sample = list(itertools.islice(records_of(text, self.delimiter, errors), RECORDS))
        self.is_whole = is_whole and len(self.sample) < RECORDS and not errors
        self.header = self._header()

    def _delimiter(self, text: str) -> str:
        """The delimiter by which the most columns have numbers and dates."""
        tried = {it: self._tried(text, it) for it in DELIMITERS if it in text}
        fits = {it: found for it, found in tried.items() if found is not None}
        names = {it.place for it in (self.asked.key, self.asked.payload) if isinstance(it.place, str)}
        fits = {it: found for it, found in fits.items() if names <= set(found.names)} or fits
        if len(fits) < 2:
            return next(iter(fits), DELIMITERS[0])
        scores = {it: score_of(found) for it, found in fits.items()}
        best = [it for it, score in scores.items() if score == max(scores.values())]
        if len(best) > 1 and max(scores.values())[1]:
            self.needs["delimiter"] = tuple(best)
        return best[0]

    def _tried(self, text: str, delimiter: str) -> Optional[Columns]:
        """What occurs in the first records by a delimiter, or None if most of them have a single field."""
        records = list(itertools.islice(records_of(text, delimiter), FEW_RECORDS))
        if sum(len(it.fields) > 1 for it in records) * 2 <= len(records):
            return None
        return columns_of(records[1:] or records, records[0].fields)

    def _header(self) -> bool:
        """Whether the first record is a header: whether it has a text where the rest of a column has none."""
        if self.asked.header is not None:
            if self.asked.is_named and not self.asked.header:
                raise ValueError("columns have names only in a file with a header")
            return self.asked.header
        if self.asked.is_named or not self.sample:
            return self.asked.is_named
        first, rest = self.sample[0].fields, self.sample[1:]
        kinds = [kind_of_field(it) for it in first]
        clear = [it.is_clear for it in columns_of(rest, []).all]
        votes = {kind == "text" for kind, is_clear in zip(kinds, clear) if is_clear and kind != "gap"}
        if votes == {True, False}:
            self.needs["header"] = (True,)
        return True in votes or not votes and "text" in kinds and set(kinds) <= {"text", "gap"}

    def by_sample(self) -> Optional[Found]:
        """How the file may be read, as the sample says, or None if it needs a survey."""
        if not self.sample and not self.is_whole:
            return None
        header = self.sample[0].fields if self.header and self.sample else []
        columns = columns_of(self.sample[self.header :], header)
        choice = self._choice(columns)
        return self._found(columns, choice) if choice.is_ready and not self.needs else None

    def by_survey(self) -> Found:
        """How the file is read, as all of its records say. Raises `CsvError` if it needs arguments."""
        columns = self._surveyed()
        choice = self._choice(columns)
        if not choice.is_ready or self.needs:
            raise self._refusal(columns, choice)
        return self._found(columns, choice)

    def _surveyed(self) -> Columns:
        """What occurs in all records, up to one that isn't CSV. Raises `CsvError` if that is the first one."""
        errors: list[csv.Error] = []
        with self.source.text() as text:
            records = records_of(text, self.delimiter, errors)
            header = next(records, Record([], 1)) if self.header else Record([], 1)
            found = columns_of(records, header.fields, header.line)
        if errors and not found.all:
            raise CsvError(self.source.path, 1, 1, "", str(errors[0]))
        return found

    def _choice(self, columns: Columns) -> Choice:
        """The columns that are given, or else the first two, of which the only one with dates has the keys."""
        asked, names = self.asked, columns.names
        places = [
            it.place if it.place is None or it.place is FOUND else place_of(self.source.path, it.place, names)
            for it in (asked.key, asked.payload)
        ]
        key, payload = places
        if key is FOUND:
            free = [it for it in (0, 1) if it != payload]
            dates = [it for it in free if columns.at(it).is_dates]
            if asked.payload.format is not None and asked.key.format is None and len(free) == 2:
                # the dates are the payloads
                dates = [it for it in free if it not in dates]
            key = dates[0] if len(dates) == 1 else free[0]
        if payload is FOUND:
            payload = 0 if key == 1 else 1
        return self._judged(columns, key, payload)

    def _judged(self, columns: Columns, key: int, payload: Optional[int]) -> Choice:
        on_key = self._verdict(columns, key, self.asked.key)
        if payload is None:
            return Choice(key, None, on_key, Verdict(on_key.column, {}))
        if self.asked.payload.place is FOUND and len(columns.all) == 1 and columns.all[0].first:
            seen = min(columns.all[0].first.values(), key=lambda it: it.line)
            return Choice(key, payload, on_key, Verdict(Column(), {"payload": (None,)}, seen, ONE_FIELD))
        return Choice(key, payload, on_key, self._verdict(columns, payload, self.asked.payload))

    def _verdict(self, columns: Columns, place: int, role: Role) -> Verdict:
        return verdict_on(columns.at(place), role, self.asked, self.delimiter)

    def _found(self, columns: Columns, choice: Choice) -> Found:
        key_column, payload_column = choice.key_verdict.column, choice.payload_verdict.column
        assert key_column is not None and payload_column is not None
        key = columns.called(choice.key)
        payload = None if choice.payload is None else columns.called(choice.payload)
        return Found(self.delimiter, self.header, key, key_column, payload, payload_column)

    def _refusal(self, columns: Columns, choice: Choice) -> CsvError:
        """The refusal of a file, with all arguments that it needs."""
        better = self._better(columns, choice)
        verdicts = (choice.key_verdict, choice.payload_verdict)
        worst = next((it for it in verdicts if it.column is None), next((it for it in verdicts if it.needs), None))
        at = choice.payload if worst is choice.payload_verdict else choice.key
        what, needs = (worst.why, dict(self.needs)) if worst else ("", dict(self.needs))
        if worst is not None and worst.column is None:
            what += f"; the columns that fit are {self._fitting(columns)}"
        if better is not None:
            needs |= self._places_needed(columns, choice, better)
            needs |= {**better.payload_verdict.needs, **better.key_verdict.needs}
        if "decimal" in needs and better is not None:
            needs["decimal"] = tuple(it for it in ".," if self._is_read_by(columns, better, it))
            what = what if needs["decimal"] else "the decimal signs of the columns differ"
            better = better if needs["decimal"] else None
        if worst is None or worst.seen is None:
            return CsvError(self.source.path, columns.line, None, "", what or self._why(), needs)
        name = columns.names[at] if at is not None and at < len(columns.names) else ""
        return CsvError(self.source.path, worst.seen.line, (at or 0) + 1, name, what, needs if better else {})

    def _why(self) -> str:
        """Why the delimiter or the header needs an argument."""
        if "delimiter" in self.needs:
            return "more than one character may be the delimiter"
        return "the first record is a header by some of its columns, and none by others"

    def _better(self, columns: Columns, choice: Choice) -> Optional[Choice]:
        """The choice that a refusal proposes: columns that are given if they can be read, and else others that can."""
        if choice.key_verdict.column is not None and choice.payload_verdict.column is not None:
            return choice
        is_kept = self.asked.key.place is not FOUND and choice.key_verdict.column is not None
        taken = choice.payload if self._is_kept_payload(choice) else None
        key = choice.key if is_kept else self._fit(columns, self.asked.key, taken, True)
        payload = choice.payload
        if payload is not None and not self._is_kept_payload(choice):
            payload = self._fit(columns, self.asked.payload, key, False)
            return None if key is None or payload is None else self._judged(columns, key, payload)
        return None if key is None else self._judged(columns, key, payload)

    def _is_kept_payload(self, choice: Choice) -> bool:
        """Whether the column of the payloads is given and can be read."""
        return self.asked.payload.place is not FOUND and choice.payload_verdict.column is not None

    def _fit(self, columns: Columns, role: Role, taken: Optional[int], has_dates: bool) -> Optional[int]:
        """The first column that can be read in a role and isn't taken, if possible one with dates, or without them."""
        places = [it for it in range(len(columns.all)) if it != taken]
        fit = [it for it in places if self._verdict(columns, it, role).column is not None]
        return next((it for it in fit if columns.at(it).is_dates == has_dates), next(iter(fit), None))

    def _is_read_by(self, columns: Columns, choice: Choice, sign: str) -> bool:
        """Whether both columns can be read with this decimal sign."""
        asked = replace(self.asked, decimal=sign)
        them = [(choice.key, asked.key)] + ([] if choice.payload is None else [(choice.payload, asked.payload)])
        return all(verdict_on(columns.at(at), it, asked, self.delimiter).column is not None for at, it in them)

    def _places_needed(self, columns: Columns, choice: Choice, better: Choice) -> Needs:
        """The names of both columns, if they aren't those that are chosen without them."""
        if (better.key, better.payload) == (choice.key, choice.payload):
            return {}
        needs: Needs = {"key": (columns.called(better.key),)}
        return needs if better.payload is None else needs | {"payload": (columns.called(better.payload),)}

    def _fitting(self, columns: Columns) -> str:
        """The columns that can be keys or payloads."""
        roles = (self.asked.key, self.asked.payload)
        fit = [
            str(columns.called(at))
            for at in range(len(columns.all))
            if any(self._verdict(columns, at, it).column is not None for it in roles)
        ]
        return ", ".join(fit) or "none"


def sample_of(source: Source) -> tuple[str, bool]:
    """The beginning of a file up to the end of a line, and whether it is all of the file. It has some lines."""
    found = ""
    with source.text() as text:
        while len(found) < MOST and found.count("\n") + found.count("\r") < LINES:
            more = text.read(SAMPLE)
            if not more:
                return found, True
            found += more
    return found[: max(found.rfind("\n"), found.rfind("\r")) + 1], False


def records_of(text: Any, delimiter: str, errors: Optional[list[csv.Error]] = None) -> Iterator[Record]:
    """The records of a text or a file that aren't blank, up to one that isn't CSV, whose error is added to `errors`."""
    lines: list[int] = []
    reader = csv.reader(io.StringIO(text, newline="") if isinstance(text, str) else text, delimiter=delimiter)
    for record in not_blank(reader, lines, [] if errors is None else errors):
        yield Record(record, lines.pop())


def columns_of(records: Iterable[Record], names: list[str], line: int = 1) -> Columns:
    """What occurs in the columns of these records."""
    found = Columns(names, [Evidence(it) for it in names], line)
    rest = iter(records)
    while block := list(itertools.islice(rest, RECORDS_AT_ONCE)):
        for at in range(max(len(it.fields) for it in block)):
            if at == len(found.all):
                found.all.append(Evidence())
            them = [it for it in block if at < len(it.fields)]
            found.all[at].add([it.fields[at] for it in them], [it.line for it in them])
    return found


def score_of(columns: Columns) -> tuple[int, int]:
    """How good a delimiter is, by what occurs in the columns: how many have numbers or dates.

    Columns whose text has another delimiter in it count against it.
    """
    fit = sum(it.is_clear for it in columns.all)
    odd = sum("text" in it.first and any(each in it.first["text"].field for each in DELIMITERS) for it in columns.all)
    return fit - odd, fit
