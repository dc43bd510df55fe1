"""Loads the rows of a CSV file into a table."""

from __future__ import annotations

from typing import Any, Optional, Union

from .arrays import TOP, np, shown, whole
from .asked import FOUND, Asked, Auto, Found, Place, Role
from .base import AnyTable
from .csvfile import CsvFile, read_columns
from .decimals import MOST_DECIMALS as MOST_OF_A_TABLE
from .decimals import Scaled
from .fields import BETWEEN, Column
from .finding import Finder
from .gaps import is_skipping
from .source import CsvError, Source
from .table import Table
from .typed import Progress
from .zones import Zoned

MOST_DECIMALS = 40
KINDS = {"int64": "i", "uint64": "u", "float64": "f", int: "i", float: "f"}


def load_csv(
    path: Any,
    key: Optional[Place] = None,
    payload: Union[Place, None, Auto] = FOUND,
    *,
    delimiter: Optional[str] = None,
    header: Optional[bool] = None,
    key_type: Any = None,
    key_decimals: Optional[int] = None,
    key_format: Optional[str] = None,
    payload_decimals: Optional[int] = None,
    payload_format: Optional[str] = None,
    decimal: Optional[str] = None,
    missing: str = "error",
    encoding: str = "utf-8-sig",
    into: Optional[AnyTable] = None,
    progress: Progress = None,
    **options: Any,
) -> AnyTable:
    """Loads the rows of a CSV file into a new table in this process, or into the table `into`, and merges them.

    What isn't given is found, by the whole text of both columns. What could be read in two ways is refused, and the
    refusal names the arguments that say which. `found` of a new table has what was found.

    Parameters
    ----------
    path : path_like or file
        A file, which may be compressed by gzip, or an open file of bytes or text.
    key, payload : str or int, optional
        The columns: names in the header, or numbers from 0. By default they are the first two; if exactly one of them
        has dates it has the keys, else the first one. With `payload=None` the payloads are 0, 1, 2 ..
    delimiter : str, optional
        By default the comma, semicolon, tab or bar by which the most columns have numbers and dates.
    header : bool, optional
        Whether the file has a header. By default it has one if a column is given by name, or if the first record has a
        text where the rest of its column has none.
    key_type : str, optional
        "int64", "uint64" or "float64". By default keys are integers, or dates, or floats if there are exponents or more
        than 9 decimal places.
    key_decimals, payload_decimals : int, optional
        The number of decimal places: by default the most that occur, up to 9. With 2 decimal places, 12.345 is refused.
        With more than 9, up to 40, the keys or payloads of the table are integers: the numbers times a power of 10.
    key_format, payload_format : str, optional
        Formats of `datetime.strptime`, for dates in another order than year, month, day, or "ymd" for this order. Such
        keys are datetime64[us] if numpy is installed, or datetime64[ns] if there are more than 6 digits after a second,
        else integers; such payloads are always integers, in these units since 1970. Times with an offset from UTC
        make a table whose zone is UTC.
    decimal : str, optional
        The decimal sign, "." or ",". If it is given, groups of three digits may be divided, by the other of the two
        signs, a blank or an apostrophe.
    missing : str, optional
        "skip" leaves out rows with a gap in the key or payload, and `skipped` of the table says how many. "error"
        refuses them. A gap is an empty field, or a word such as NA, NaN or null.
    encoding : str, optional
    into : table, optional
        The table to insert the rows into. It says which types are wanted.
    progress : bool or callable, optional
        True reports progress on standard error. A function is called with the number of rows inserted so far and the
        number of all rows.
    **options
        Parameters of `Table`, for a new table only.

    Raises
    ------
    CsvError
        If the file can't be read. Its `needs` has the arguments by which it can. Nothing is loaded.

    Notes
    -----
    If pandas is installed it reads files from 8 MB on, and if it is imported already also smaller ones, provided that
    it surely reads the same values.
    """
    key_role = role_of("key", FOUND if key is None else key, key_decimals, key_format, key_type)
    payload_role = role_of("payload", payload, payload_decimals, payload_format)
    if decimal not in (None, *BETWEEN):
        raise ValueError(f"decimal must be '.' or ',', not {shown(decimal)!r}")
    if into is not None and options:
        raise TypeError(f"options are for a new table: {', '.join(options)}")
    if into is not None:
        key_role, payload_role = wanted_by(into, key_role), wanted_by(into, payload_role)
    asked = Asked(key_role, payload_role, delimiter, header, decimal, is_skipping(missing))
    keys, payloads, found, skipped = read(Source(path, encoding), asked)
    if into is None:
        into = new_table(keys, payloads, found, progress, options)
    else:
        keys = known(keys, found.key_column, into._keys)
        payloads = known(payloads, found.payload_column, into._payloads)
        into.insert_rows(keys, payloads, progress=progress)
        into.settle()
    into.skipped = skipped
    return into


def role_of(name: str, place: Any, decimals: Any, form: Optional[str], kind: Any = None) -> Role:
    """What the arguments say about a column."""
    if kind is not None and (isinstance(kind, (list, dict)) or kind not in KINDS):
        raise ValueError(f"key_type must be int64, uint64 or float64, not {kind}")
    if decimals is not None and not 0 <= whole(decimals, f"{name}_decimals") <= MOST_DECIMALS:
        raise ValueError(f"{name}_decimals must be 0 to {MOST_DECIMALS}, not {decimals}")
    if kind is not None and KINDS[kind] == "f" and (decimals or form is not None):
        raise ValueError("key_decimals and key_format are for integers and dates, not for floats")
    return Role(name, place, None if kind is None else KINDS[kind], decimals, form)


def wanted_by(table: AnyTable, role: Role) -> Role:
    """What is said about a column, by the arguments or else by the types of a table."""
    if (role.kind, role.decimals, role.format) != (None, None, None):
        return role
    if role.name == "payload":
        return Role(role.name, role.place, "i", table.payload_decimals, is_wanted=True)
    kind = table._keys.kind
    return Role(role.name, role.place, kind, table.key_decimals if kind in "ui" else None, is_wanted=True)


def read(source: Source, asked: Asked) -> tuple[Any, Any, Found, int]:
    """The keys and payloads of a file, how they were read, and how many rows were left out."""
    try:
        finder = Finder(source, asked)
        found = finder.by_sample()
        if found is None:
            return read_as(source, asked, finder.by_survey())
        try:
            return read_as(source, asked, found)
        except CsvError as error:
            if "encoding" in error.needs:
                raise
            # the rest of the file isn't as the sample
            again = finder.by_survey()
            if again == found:
                raise
            return read_as(source, asked, again)
    except CsvError as error:
        if "encoding" in error.needs:
            raise with_encoding(source, asked, error) from None
        raise


def read_as(source: Source, asked: Asked, found: Found) -> tuple[Any, Any, Found, int]:
    """The keys and payloads of a file that is read as `found` says."""
    file = CsvFile(source, found.delimiter, found.header, source.encoding, asked.is_skipping)
    keys, payloads = read_columns(file, found.key, found.key_column, found.payload, found.payload_column)
    if np is not None:
        keys = np.array(keys)
        if found.key_column.format is not None:
            keys = keys.view(f"datetime64[{found.key_column.unit}]")
            keys = Zoned(keys, "UTC") if found.key_column.has_offsets else keys
    return keys, payloads, found, len(file.gaps)


def with_encoding(source: Source, asked: Asked, error: CsvError) -> CsvError:
    """The error for a wrong encoding, with what else is needed if the file is read in the encoding that it proposes."""
    try:
        Finder(source.encoded(error.needs["encoding"][0]), asked).by_survey()
    except CsvError as other:
        return CsvError(error.path, error.line, error.column, error.name, error.what, {**other.needs, **error.needs})
    return error


def new_table(keys: Any, payloads: Any, found: Found, progress: Progress, options: dict[str, Any]) -> Table:
    """A table of the rows of a file."""
    if isinstance(keys, Zoned):
        kind = None
    else:
        kind = keys.dtype if np is not None else {"d": "float64", "Q": "uint64", "q": "int64"}[keys.typecode]
    keys, payloads = scaled(keys, found.key_column), scaled(payloads, found.payload_column)
    table = Table.from_arrays(keys, payloads, key_type=kind, progress=progress, **options)
    table._told = {"found": found.arguments()}
    return table


def scaled(numbers: Any, column: Column) -> Any:
    """Integers as the decimals that they stand for. They stay integers if no table has so many decimal places."""
    if column.is_float or not 0 < column.decimals <= MOST_OF_A_TABLE:
        return numbers
    return Scaled(numbers if np is None else np.asarray(numbers), column.decimals)


def known(numbers: Any, column: Column, kind: Any) -> Any:
    """Integers as the decimals that they stand for, if the type `kind` of a table's keys or payloads has decimals."""
    return scaled(numbers, column) if kind.decimals else numbers
