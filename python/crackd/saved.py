"""Files of rows: numpy arrays with the fields `key` and `payload`, and after the array what is known about them.

A file has a head of `HEAD` bytes in numpy's format, the rows, and an end, which `numpy.load` doesn't read: a dict in
JSON, its length in 4 bytes, its crc32 in 4 bytes, and `MAGIC`. The dict has the number of `rows`, the type of the
`keys`, `crc32`, which is that of the rows and then of the head, and fields of `FIELDS`. Files of earlier versions have
a shorter head and no end.
"""

from __future__ import annotations

import contextlib
import io
import json
import os
import stat
import struct
import zlib
from typing import Any, Iterator, Mapping, NamedTuple, NoReturn, Optional

from .arrays import np
from .asked import check_found
from .decimals import PayloadType
from .errors import Error
from .keys import Keys
from .wholefile import whole_file

# the bytes before the rows, of which there are always this many
HEAD = 256
BEGIN = b"\x93NUMPY\x01\x00" + struct.pack("<H", HEAD - 10)
# the length and the crc32 of the dict, and `MAGIC`
END, MAGIC = struct.Struct("<II8s"), b"\x93CRACKD\n"
# What else may be said about the rows, and the value where it isn't said. A file with a field that isn't named here is
# refused, since its rows may mean something else than this version takes them for.
FIELDS: dict[str, Any] = {"key_decimals": 0, "payload_decimals": 0, "zone": None, "found": None}
# those of them that the types of a table say
OF_TYPES = ("key_decimals", "payload_decimals", "zone")
# the head of a file of an earlier version is shorter than this
MOST_HEAD = 1 << 17
# how many bytes are summed up before a signal is noticed
BYTES_AT_ONCE = 1 << 26


class BadSave(Error, ValueError):
    """A file isn't one that `save` writes, or its rows aren't those that were saved."""


class Saved(NamedTuple):
    """What a file has: the types of its keys and payloads, its rows, and what else it says about them.

    The rows are mapped into memory, and read as they are used. They have integers in place of decimals.
    """

    kind: Keys
    payloads: PayloadType
    rows: Any
    told: dict[str, Any]

    @staticmethod
    def of(kind: Keys, rows: Any, fields: Mapping[str, Any]) -> "Saved":
        """The same, of what a file says, with a value for each of `FIELDS`."""
        check_found(fields["found"])
        kind = kind.with_decimals(fields["key_decimals"]).with_zone(fields["zone"])
        return Saved(kind, PayloadType(fields["payload_decimals"]), rows, kept_of(fields))


def types_of(kind: Keys, payloads: PayloadType) -> dict[str, Any]:
    """What a file says of its types besides the types of its numbers, without defaults."""
    said = {"key_decimals": kind.decimals, "payload_decimals": payloads.decimals, "zone": kind.zone}
    return {name: it for name, it in said.items() if it != FIELDS[name]}


def kept_of(fields: Mapping[str, Any]) -> dict[str, Any]:
    """What a file says about its rows that the types of its table don't say."""
    return {name: fields[name] for name in FIELDS if name not in OF_TYPES}


def row_dtype(kind: Keys) -> Any:
    """The numpy type of the rows in a file."""
    return np.dtype([("key", kind.name), ("payload", "int64")])


def head_of(dtype: Any, rows: int) -> bytes:
    """The first bytes of a file with this many rows, in version 1.0 of numpy's file format."""
    said = repr({"descr": dtype.descr, "fortran_order": False, "shape": (rows,)}).encode("ascii")
    return BEGIN + said.ljust(HEAD - len(BEGIN) - 1) + b"\n"


def end_of(told: Mapping[str, Any]) -> bytes:
    """The last bytes of a file, which say this about its rows."""
    text = json.dumps(told).encode("ascii")
    return text + END.pack(len(text), zlib.crc32(text), MAGIC)


class Writing:
    """A file of rows that is being written. `rows` is the number of rows so far."""

    def __init__(self, file: Any, kind: Keys, fields: Mapping[str, Any]):
        self._file, self._kind, self._fields, self._crc32, self.rows = file, kind.raw, fields, 0, 0
        file.write(bytes(HEAD))

    def add(self, keys: Any, payloads: Any) -> None:
        """Writes some rows. `keys` are the numbers of the keys."""
        block = np.empty(len(keys), row_dtype(self._kind))
        block["key"], block["payload"] = self._kind.back(keys), payloads
        content = block.tobytes()
        self._crc32 = zlib.crc32(content, self._crc32)
        self._file.write(content)
        self.rows += len(keys)

    def end(self) -> None:
        """Writes the end, and the head with the number of rows, which is known only now."""
        head = head_of(row_dtype(self._kind), self.rows)
        told = {"rows": self.rows, "keys": self._kind.name, "crc32": zlib.crc32(head, self._crc32), **self._fields}
        self._file.write(end_of(told))
        self._file.seek(0)
        self._file.write(head)


@contextlib.contextmanager
def writing(path: Any, kind: Keys, fields: Optional[Mapping[str, Any]] = None) -> Iterator[Writing]:
    """A context that writes a file of rows, which has its name only after the block: see `whole_file`."""
    if np is None:
        raise ImportError("files of rows need numpy: pip install numpy")
    with whole_file(path, is_rewound=True) as file:
        written = Writing(file, kind, fields or {})
        yield written
        written.end()


def read_saved(path: Any, *, is_checked: bool = True) -> Saved:
    """Reads a file of rows. Raises `BadSave` if it isn't one, or if it has changed since it was saved.

    Unless `is_checked`, the rows aren't compared with their checksum, for which all of them must be read.
    """
    if np is None:
        raise ImportError("files of rows need numpy: pip install numpy")
    content = mapped(path)
    if content[: len(BEGIN)].tobytes() == BEGIN:
        return _read(path, content, is_checked)
    return _read_earlier(path, content)


def mapped(path: Any) -> Any:
    """The bytes of a file, mapped into memory."""
    with open(path, "rb") as file:
        found = os.fstat(file.fileno())
        if not stat.S_ISREG(found.st_mode):
            _refuse(path, "it isn't a regular file")
        if not found.st_size:
            _refuse(path, "it is empty")
        return np.memmap(file, np.uint8, "r")


def _refuse(path: Any, why: str) -> NoReturn:
    raise BadSave(f"{named(path)} can't be read: {why}")


def named(path: Any) -> str:
    """A path as an error shows it."""
    return os.fsdecode(path) if isinstance(path, (str, bytes, os.PathLike)) else str(path)


def _read(path: Any, content: Any, is_checked: bool) -> Saved:
    """The rows of a file of this version."""
    told, end = _told(path, content)
    fields = fields_of(path, told, ("rows", "keys", "crc32"))
    try:
        kind, count, crc32 = Keys.named(told["keys"]), told["rows"], told["crc32"]
        head = head_of(row_dtype(kind), count)
    except (TypeError, ValueError, KeyError) as error:
        _refuse(path, f"its end doesn't say what its rows are: {type(error).__name__}: {error}")
    if content[:HEAD].tobytes() != head:
        _refuse(path, f"its head isn't that of {count} rows with keys of {kind.name}")
    raw = content[HEAD:end]
    if len(raw) != count * row_dtype(kind).itemsize:
        _refuse(path, f"it has {len(raw)} bytes of rows, and {count} rows need {count * row_dtype(kind).itemsize}")
    if is_checked and zlib.crc32(head, crc32_of(raw)) != crc32:
        _refuse(path, "its rows have changed since they were saved")
    try:
        return Saved.of(kind, raw.view(row_dtype(kind)), fields)
    except (TypeError, ValueError) as error:
        _refuse(path, f"no table has rows of such types: {error}")


def _told(path: Any, content: Any) -> tuple[dict[str, Any], int]:
    """The dict at the end of a file, and the place at which it begins."""
    length, crc32, magic = 0, 0, b""
    if len(content) >= HEAD + END.size:
        length, crc32, magic = END.unpack(content[-END.size :].tobytes())
    begin = len(content) - END.size - length
    if magic != MAGIC or begin < HEAD:
        _refuse(path, f"its last bytes are missing or have changed; it has {len(content)}")
    text = content[begin : begin + length].tobytes()
    if zlib.crc32(text) != crc32:
        _refuse(path, "what it says about its rows has changed")
    try:
        told = json.loads(text)
    except ValueError as error:
        _refuse(path, f"what it says about its rows is no dict: {error}")
    if not isinstance(told, dict):
        _refuse(path, "what it says about its rows is no dict")
    return told, begin


def fields_of(path: Any, told: Mapping[str, Any], known: tuple[str, ...]) -> dict[str, Any]:
    """What a save says about its rows, with a value for each of `FIELDS`. Refuses names that aren't known."""
    unknown = [str(it) for it in told if it not in known and it not in FIELDS]
    if unknown:
        _refuse(path, f"this version doesn't know what it says of its rows: {', '.join(unknown)}")
    return {name: told.get(name, value) for name, value in FIELDS.items()}


def crc32_of(content: Any) -> int:
    """The crc32 of an array of bytes."""
    found = 0
    for at in range(0, len(content), BYTES_AT_ONCE):
        found = zlib.crc32(content[at : at + BYTES_AT_ONCE], found)
    return found


def _read_earlier(path: Any, content: Any) -> Saved:
    """The rows of a file of an earlier version, which says nothing else, or of one that `numpy.save` has written."""
    file = io.BytesIO(content[:MOST_HEAD].tobytes())
    try:
        version = np.lib.format.read_magic(file)
        if version == (1, 0):
            shape, _, dtype = np.lib.format.read_array_header_1_0(file)
        else:
            shape, _, dtype = np.lib.format.read_array_header_2_0(file)
    except Exception as error:
        # numpy raises errors of many types for a damaged head
        raise BadSave(f"{named(path)} can't be read: {type(error).__name__}: {error}") from error
    try:
        kind = Keys.of_dtype(dtype["key"])
        is_whole = dtype.names == ("key", "payload") and dtype == row_dtype(kind) and len(shape) == 1
    except (KeyError, TypeError, AttributeError) as error:
        raise BadSave(f"{named(path)} has no rows of a table: {error}") from error
    if not is_whole:
        raise BadSave(f"{named(path)} has no rows of a table, but {dtype} in {len(shape)} dimensions")
    raw = content[file.tell() :]
    if len(raw) != shape[0] * dtype.itemsize:
        _refuse(path, f"it has {len(raw)} bytes of rows, and {shape[0]} rows need {shape[0] * dtype.itemsize}")
    rows = raw.view(dtype)
    # nothing else shows that such a file has changed
    if kind.kind in "fM" and np.isnan(rows["key"]).any():
        _refuse(path, "a key isn't a number or a date")
    return Saved.of(kind, rows, FIELDS)
