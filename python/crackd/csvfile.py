"""Reads rows from CSV files."""

from __future__ import annotations

import array
import csv
import itertools
from typing import Any, Iterator, Optional, Sequence

from .arrays import np, shown, whole
from .asked import Place
from .fields import Column, is_gap
from .pandascsv import columns_of_pandas
from .source import CsvError, Source

__all__ = ["Column", "CsvError", "CsvFile", "Place", "not_blank", "read_columns"]

HEADER = ["key", "payload"]
# few, so that they stay in the processor's cache
RECORDS_AT_ONCE = 1000
GAP = {"missing": ("skip",)}


class CsvFile:
    """A CSV file.

    Records with a gap in one of the columns that are read raise `CsvError`, or are left out if `is_skipping` says so;
    `gaps` has their numbers after a reading.
    """

    def __init__(self, path: Any, delimiter: str, header: Optional[bool], encoding: str, is_skipping: bool = False):
        checked_delimiter(delimiter)
        self.source = path if isinstance(path, Source) else Source(path, encoding)
        self.path, self.delimiter, self.header, self.is_skipping = self.source.path, delimiter, header, is_skipping
        self.gaps: Any = array.array("q")

    def rows(self, columns: list[tuple[Place, Column]]) -> Iterator[tuple[Any, ...]]:
        """Yields the numbers in these columns, record by record."""
        for block in self.blocks(columns):
            yield from zip(*block)

    def blocks(self, columns: list[tuple[Place, Column]]) -> Iterator[list[Sequence[Any]]]:
        """Yields the numbers in these columns for some records at a time, as a list for each column."""
        self.gaps = array.array("q")
        with self.source.text() as file:
            records = csv.reader(file, delimiter=self.delimiter)
            lines: list[int] = []
            errors: list[csv.Error] = []
            rest = not_blank(records, lines, errors)
            first = next(rest, None)
            self._check_form(records, errors)
            is_header = self._is_header(first, columns)
            names = first if is_header and first else []
            places = [self._place(place, names) for place, _ in columns]
            fields = [(at, column, names[at] if at < len(names) else "") for at, (_, column) in zip(places, columns)]
            if is_header:
                lines.clear()
            elif first:
                rest = itertools.chain([first], rest)
            before = 0
            while block := list(itertools.islice(rest, RECORDS_AT_ONCE)):
                yield self._block(block, lines, fields, before)
                before += len(block)
                lines.clear()
            self._check_form(records, errors)

    def _check_form(self, records: Any, errors: list[csv.Error]) -> None:
        for error in errors:
            raise CsvError(self.path, records.line_num, 1, "", str(error)) from error

    def _block(self, block: list[list[str]], lines: list[int], fields: list[Any], before: int) -> list[Sequence[Any]]:
        """The numbers of some records, as a list for each column. `lines` has the last line of each record.

        `before` is the number of records before them.
        """
        found = at_once(block, fields)
        if found is None and self.is_skipping:
            kept = [not has_gap(record, fields) for record in block]
            self.gaps.extend(before + place for place, it in enumerate(kept) if not it)
            block, lines = list(itertools.compress(block, kept)), list(itertools.compress(lines, kept))
            found = at_once(block, fields)
        if found is not None:
            return found
        readers = [(at, column.reader(), name) for at, column, name in fields]
        return list(zip(*(self._row(record, readers, line) for record, line in zip(block, lines))))

    def _is_header(self, first: Optional[list[str]], columns: list[tuple[Place, Column]]) -> bool:
        is_named = any(isinstance(place, str) for place, _ in columns)
        if self.header is not None:
            if is_named and not self.header:
                raise ValueError("columns have names only in a file with a header")
            return self.header
        return is_named or first == HEADER

    def _place(self, place: Place, names: list[str]) -> int:
        return place_of(self.path, place, names)

    def _row(self, record: list[str], fields: list[Any], line: int) -> tuple[Any, ...]:
        """The numbers of a record."""
        numbers = []
        for at, read, name in fields:
            if at >= len(record):
                raise CsvError(
                    self.path, line, at + 1, name, f"the line has only {len(record)} field{'s' * (len(record) != 1)}"
                )
            try:
                numbers.append(read(record[at]))
            except ValueError as error:
                needs = GAP if is_gap(record[at]) else None
                raise CsvError(self.path, line, at + 1, name, str(error), needs) from None
        return tuple(numbers)


def at_once(block: list[list[str]], fields: list[Any]) -> Optional[list[Sequence[Any]]]:
    """The numbers of some records, read at once, as a list for each column. None if they must be read one by one."""
    try:
        return [column.read_all([record[at] for record in block]) if block else () for at, column, _ in fields]
    except (IndexError, ValueError):
        return None


def has_gap(record: list[str], fields: list[Any]) -> bool:
    """Whether a record has a gap in one of the columns."""
    return any(at < len(record) and is_gap(record[at]) for at, _, _ in fields)


def checked_delimiter(delimiter: Any) -> str:
    """A delimiter. Raises ValueError if it isn't one character that may be one."""
    if not isinstance(delimiter, str) or len(delimiter) != 1 or delimiter in '"\r\n':
        raise ValueError(f"a delimiter must be one character, and no quote or line end, not {delimiter!r}")
    return delimiter


def place_of(path: str, place: Place, names: list[str]) -> int:
    """The number of a column, which is given by its name or number."""
    if isinstance(place, str):
        if place not in names:
            said = f"there is no column {place!r}; the header has {', '.join(map(shown, names)) or 'none'}"
            raise CsvError(path, 1, 1, "", said)
        return names.index(place)
    if whole(place, "a column") < 0:
        raise ValueError(f"columns are numbered from 0, not {place}")
    return int(place)


def not_blank(records: Any, lines: list[int], errors: list[csv.Error]) -> Iterator[list[str]]:
    """Yields the records that aren't blank, and adds the last line of each to `lines`.

    A format error ends the records. It is added to `errors`, not raised, since an earlier field may be wrong too.
    """
    try:
        for record in records:
            if record:
                lines.append(records.line_num)
                yield record
    except csv.Error as error:
        errors.append(error)


def read_columns(
    file: CsvFile, key: Place, key_column: Column, payload: Optional[Place], payload_column: Column
) -> tuple[Any, Any]:
    """Reads the keys and payloads of a file. Without a payload column the payloads are the records' numbers from 0."""
    columns = [(key, key_column)] + ([] if payload is None else [(payload, payload_column)])
    found = columns_of_pandas(file, columns)
    if found is None:
        found = [array.array(column.code) for _, column in columns]
        for block in file.blocks(columns):
            for numbers, more in zip(found, block):
                is_listed = isinstance(more, (list, tuple, array.array))
                numbers.extend(more) if is_listed else numbers.frombytes(more.tobytes())
    return found[0], numbered(len(found[0]), file.gaps) if payload is None else found[1]


def numbered(rows: int, gaps: Sequence[int]) -> Any:
    """The numbers of the records that aren't left out."""
    if not len(gaps):
        return range(rows)
    if np is not None:
        return np.delete(np.arange(rows + len(gaps)), gaps)
    left_out = set(gaps)
    return [it for it in range(rows + len(gaps)) if it not in left_out]
