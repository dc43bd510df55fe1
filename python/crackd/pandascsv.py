"""Reads columns of a CSV file by pandas, many times faster, where it surely reads the same as `csvfile`.

pandas guesses: it takes 1.0 for an integer, and a record that is too short for one with missing values. So it only
infers the type of each column. If that isn't exactly the type asked for, `csvfile` reads the file, which also finds the
place of an error.
"""

from __future__ import annotations

import csv
import importlib
import importlib.util
import sys
from typing import Any, NamedTuple, Optional, Sequence

from .arrays import np
from .fields import GAPS

# importing pandas takes as long as reading a file of about this many bytes without it
LEAST_BYTES = 8_000_000
CHARACTERS_AT_ONCE = 1 << 18
FIELDS_AT_ONCE = 20_000
# a longer integer with a leading zero isn't recognized at once, and no such integer in a longer line
MOST_DIGITS, MOST_OF_A_LINE = 40, 1 << 16


def columns_of_pandas(file: Any, columns: Sequence[tuple[Any, Any]]) -> Optional[list[Any]]:
    """The numbers in these columns of a `CsvFile`, as arrays, or None if the file must be read record by record."""
    pandas = pandas_for(file.source)
    if pandas is None or not file.delimiter.isascii():
        return None
    found = fields_of(file, columns)
    if found is None:
        return None
    is_header, places = found
    strict = [at for at, (_, it) in zip(places, columns) if it.is_strict and not is_read_as_text(it)]
    looks = look_at(file, strict)
    if looks is None:
        return None
    texts: dict[int, type[str]] = {
        at: str for at, (_, it) in zip(places, columns) if is_read_as_text(it) or it.is_strict and looks.has_zeros
    }
    try:
        frame = read(pandas, file, is_header, places, texts)
        return numbers_of_frame(file, frame, is_header, list(zip(places, (column for _, column in columns))))
    except (ValueError, TypeError, AttributeError, OverflowError, LookupError):
        return None


def pandas_for(source: Any) -> Any:
    """The module pandas, or None if it isn't installed or the file is too small to be worth importing it."""
    if np is None or "pandas" not in sys.modules and (
        source.size() < LEAST_BYTES or importlib.util.find_spec("pandas") is None
    ):
        return None
    try:
        return importlib.import_module("pandas")
    except ImportError:
        return None


def fields_of(file: Any, columns: Sequence[tuple[Any, Any]]) -> Optional[tuple[bool, list[int]]]:
    """Whether the first line is a header, and the numbers of the columns. None if that line isn't a whole record."""
    with file.source.text() as text:
        records = csv.reader(text, delimiter=file.delimiter)
        try:
            first = next(records, None)
        except csv.Error:
            return None
        if not first or records.line_num != 1:
            return None
    is_header = file._is_header(first, columns)
    return is_header, [file._place(place, first if is_header else []) for place, _ in columns]


class Looks(NamedTuple):
    """What a file looks like: `has_zeros` says whether an integer with a leading zero may be in these columns."""

    has_zeros: bool


def look_at(file: Any, places: Sequence[int]) -> Optional[Looks]:
    """What a file looks like. None if pandas may read it wrongly. Raises an error for a wrong encoding.

    At a zero character pandas would end a field. A carriage return alone ends a line, but pandas may shift the fields
    after it. In the columns with the numbers `places` leading zeros are looked for, which pandas would read.
    """
    # what isn't looked at yet: the last line, after the end of the line before it
    before, has_zeros = "\n", not places
    with file.source.text() as text:
        while more := text.read(CHARACTERS_AT_ONCE):
            if "\0" in more or has_return(before, more):
                return None
            more = before + more
            if not has_zeros:
                has_zeros = len(before) > MOST_OF_A_LINE or may_have_zeros(more, file.delimiter, places)
            before = more[max(more.rfind("\n"), 0) :] if not has_zeros else more[-1:]
    if before.endswith("\r"):
        return None
    return Looks(bool(places) and (has_zeros or may_have_zeros(before + "\n", file.delimiter, places)))


def may_have_zeros(text: str, delimiter: str, places: Sequence[int]) -> bool:
    """Whether an integer with a leading zero may be in these columns. The text begins with the end of a line."""
    letters = np.frombuffer(("\n" + text).encode("ascii", "replace"), np.uint8)
    return has_leading_zeros(letters, delimiter) and ('"' in text or have_zeros(letters[1:], delimiter, places))


def have_zeros(letters: Any, delimiter: str, places: Sequence[int]) -> bool:
    """Whether a field in these columns begins with a zero and a digit, perhaps after a sign, or this isn't known.

    It isn't known if lines differ in their number of fields, or if a field begins with a blank. What follows the last
    end of a line doesn't count.
    """
    is_end = letters == ord("\n")
    ends, separators = np.flatnonzero(is_end), np.flatnonzero(is_end | (letters == ord(delimiter)))
    separators = separators[: np.searchsorted(separators, ends[-1])]
    lines = len(ends) - 1
    if not lines:
        return False
    width = len(separators) // lines
    if len(separators) != lines * width or not (separators[::width] == ends[:-1]).all() or max(places) >= width:
        return True
    for at in places:
        begin = separators[at::width] + 1
        first = letters[begin]
        if ((first == ord(" ")) | (first == ord("\t"))).any():
            return True
        begin += (first == ord("-")) | (first == ord("+"))
        if ((letters[begin] == ord("0")) & are_digits(letters[np.minimum(begin + 1, len(letters) - 1)])).any():
            return True
    return False


def has_leading_zeros(letters: Any, delimiter: str) -> bool:
    """Whether a field in a text is an integer with a leading zero, in any column. The end of the text ends no field."""
    ends = [ord(it) for it in delimiter + '\r\n" \t']
    # the characters before a leading zero, the zero, and the digit after it
    second, first, zero, digit = (letters[at : len(letters) - 3 + at] for at in range(4))
    is_begin = zero == ord("0")
    is_begin &= (first < ord(".")) if ord(delimiter) < ord(".") else (first < ord(".")) | (first == ord(delimiter))
    if np.count_nonzero(is_begin) > len(letters) >> 6:
        is_begin &= are_digits(digit)
        # a sign or a blank after a digit, as in dates, begins no integer
        between = [ord(it) for it in "- " if it != delimiter]
        for it in between:
            is_begin &= ~(are_digits(second) & (first == it))
    at = np.flatnonzero(is_begin) + 2
    at = at[are_digits(letters[at + 1])]
    if not len(at):
        return False
    before = letters[at - 1]
    # before a sign the field begins, or it isn't the integer's sign
    is_sign = (before == ord("-")) | (before == ord("+"))
    at = at[np.isin(np.where(is_sign, letters[at - 2], before), ends)]
    end = at + 1
    for _ in range(MOST_DIGITS):
        is_digit = are_digits(letters[np.minimum(end, len(letters) - 1)])
        if not is_digit.any():
            break
        end = end + is_digit
    end = end[end < len(letters)]
    return bool((np.isin(letters[end], ends) | are_digits(letters[end])).any())


def are_digits(letters: Any) -> Any:
    """Whether each of these characters is a digit."""
    return letters - np.uint8(ord("0")) <= 9


def has_return(before: str, more: str) -> bool:
    """Whether a carriage return stands without a line feed in a text or just before it."""
    if before.endswith("\r") and not more.startswith("\n"):
        return True
    found = more.count("\r")
    return bool(found) and found != more.count("\r\n") + more.endswith("\r")


def read(pandas: Any, file: Any, is_header: bool, places: list[int], texts: dict[int, type[str]]) -> Any:
    """Reads the columns at these places. No value counts as missing, and a blank line is a record of empty fields."""
    how: dict[str, Any] = {"na_filter": False, "skip_blank_lines": False, "index_col": False}
    how["float_precision"] = "round_trip"
    how |= {"engine": "c", "low_memory": False, "header": None, "skiprows": int(is_header)}
    # an open file is passed, since pandas guesses from a path whether the file is compressed
    with file.source.text() as text:
        return pandas.read_csv(text, sep=file.delimiter, usecols=sorted(set(places)), dtype=texts or None, **how)


def is_read_as_text(column: Any) -> bool:
    """Whether a column is read as text, since pandas can't read it exactly: dates, decimals and other decimal signs."""
    return column.format is not None or column.decimals > 0 or column.is_scientific or column.sign != "."


def numbers_of_frame(file: Any, frame: Any, is_header: bool, columns: Sequence[tuple[int, Any]]) -> Optional[list[Any]]:
    """The numbers of the columns at these places. Rows with a gap are left out if the file is read so."""
    items = [frame[at].to_numpy() for at, _ in columns]
    kept = kept_rows(items) if file.is_skipping else None
    if kept is not None:
        gaps = np.flatnonzero(~kept)
        if not have_all_fields(file, is_header, len(kept), gaps, max(at for at, _ in columns)):
            return None
        file.gaps = gaps
        items = [it[kept] for it in items]
    return [numbers_of(column, it) for (_, column), it in zip(columns, items)]


def kept_rows(columns: Sequence[Any]) -> Any:
    """An array that says which rows have no gap, or None if no row has one."""
    kept = np.ones(len(columns[0]), np.bool_)
    for items in columns:
        if items.dtype == object:
            kept &= np.fromiter((it.strip() not in GAPS for it in items), np.bool_, len(items))
    return None if kept.all() else kept


def have_all_fields(file: Any, is_header: bool, rows: int, gaps: Any, last: int) -> bool:
    """Whether each record with a gap is a line of its own that has the field number `last`.

    pandas adds fields to a record that is too short. `rows` is the number of all records.
    """
    is_wanted = np.zeros(rows + is_header, np.bool_)
    is_wanted[gaps + is_header] = True
    with file.source.text() as text:
        lines = [line for is_gap, line in zip(is_wanted.tolist(), text) if is_gap]
        if next(iter(text), None) is not None or len(lines) != len(gaps):
            return False
    return all(len(it) > last for it in csv.reader(lines, delimiter=file.delimiter))


def numbers_of(column: Any, items: Any) -> Any:
    """The numbers of a column. Raises ValueError if it has anything else than the numbers asked for."""
    if items.dtype == object:
        return numbers_of_text(column, items)
    if column.is_float:
        if items.dtype.kind not in "iuf" or not np.isfinite(items).all():
            raise ValueError("not only finite floats")
        return items.astype(np.float64)
    if items.dtype.kind not in "iu" or not column.least <= int(items.min()) <= int(items.max()) <= column.most:
        raise ValueError("not only integers within the bounds")
    return items.astype(np.int64 if column.code == "q" else np.uint64)


def numbers_of_text(column: Any, items: Any) -> Any:
    """The numbers of a column that was read as text."""
    blocks = (items[at : at + FIELDS_AT_ONCE].tolist() for at in range(0, len(items), FIELDS_AT_ONCE))
    dtype = {"q": np.int64, "Q": np.uint64, "d": np.float64}[column.code]
    return np.concatenate([np.array(column.read_all(it), dtype) for it in blocks])
