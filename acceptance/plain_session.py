"""The plain model of a session and of CSV: it reads bytes by the grammar of docs/SPECIFICATION.md and answers
statements from lists of rows. It is written from the rules alone.

A statement that was read is the text of a refusal, or a kind with its numbers. All four policies give the same replies.

Each row takes a cell. A row that was deleted or updated in the column keeps a cell until a range that contains its key
frees it. A row that was inserted or updated since the last range is a pending insertion; if its key was in that range
it is in the column. So an insert is refused with 9 if the rows, and those that left the column since the last range,
are together as many as the limit of cells. It isn't refused if the rows, and all that may keep a cell to be freed, are
fewer. After a layout of its partition it is refused exactly if the layout had as many cells as the limit, and none
free. An update is refused under the same conditions if its row is in the column, and isn't if its row is a pending
insertion. With automatic checkpoints such cells are freed when a cell is missing, so an insert is refused with 9
exactly if there are as many rows as the limit of cells.
"""

import bisect
import re
import typing

# the least and greatest keys and payloads; a range may end at the first number above all keys
MOST, LEAST_PAYLOAD, MOST_PAYLOAD = 2**64, -(2**63), 2**63 - 1
LINE_BYTES, DIGITS = 200, 20
MOST_ENTRIES, MOST_CELLS, MOST_LIFE = 1000000, 16777215, 1099511627776
# stands for no limit of a history, which isn't as long as this
NO_LIMIT = 2**64
# why a run that loads CSV is refused, in words
CAUSES = {
    "6": "the history is full and needs a checkpoint",
    "8": "out of memory, or a thread could not be started",
    "9": "no cell is free for the row",
    "10": "the partition has accepted as many commands as it may",
    "17": "reading failed, or the port is not available",
    "18": "writing failed",
    "19": "the record is not a key and a payload",
}
POLICIES = ["complete", "gradual", "ripple", "auto"]
RANGES = ("count", "sum", "select")
BLANK, NO_CELL = "blank", "refused 9"
# the least and the greatest number of each field, and the fields of each statement
KEY, PAYLOAD, PART, SERIAL = (0, MOST - 1), (LEAST_PAYLOAD, MOST_PAYLOAD), (0, 2**32 - 1), (0, 2**64 - 1)
END = (0, 10**DIGITS)
FIELDS = {
    "insert": [KEY, PAYLOAD],
    "delete": [PART, SERIAL],
    "update": [PART, SERIAL, KEY, PAYLOAD],
    **dict.fromkeys(RANGES, [END, END]),
    **dict.fromkeys(["layout", "checkpoint"], [PART]),
    **dict.fromkeys(["ping", "quit"], []),
}
# the first word of a line of an HTTP request: a method, or the name of a header with a colon after it
HTTP = re.compile(rb"(?:GET|POST|HEAD|PUT|DELETE|OPTIONS|CONNECT|TRACE|PATCH)\Z|[0-9A-Za-z-]+:")
# the statements that end a session; and those that ask no partition
LAST = ("quit", "http")
UNASKED = ("policy", "ping", *LAST)
Said = str | tuple[str, list]
HEADER, MARK = b"key,payload\n", b"\xef\xbb\xbf"
# the quoted part of a field of CSV, its rest, and what ends it
FIELD = re.compile(rb'(?:"([^"]*(?:""[^"]*)*)(?:"|\Z))?([^,\r\n]*)([,\r\n]|\Z)')


class Refused(Exception):
    """The answer to a refused statement."""


class Limits(typing.NamedTuple):
    """The limits of each partition, and whether it makes checkpoints that are due by itself."""

    history: int = NO_LIMIT
    cells: int = MOST_CELLS
    life: int = MOST_LIFE
    is_automatic: bool = False

    def words(self) -> list[str]:
        """The options of the command line."""
        upkeep = ["--auto-checkpoint"] if self.is_automatic else []
        history = ["--limit", str(self.history)] if self.history != NO_LIMIT else []
        return [*history, "--cells", str(self.cells), "--life", str(self.life), *upkeep]


def bounds_of(words: typing.Sequence[str]) -> tuple[list[int], Limits]:
    """The splits and the limits in the words of a command line."""
    names, bounds, splits = {"--limit": "history", "--cells": "cells", "--life": "life"}, {}, []
    words = " ".join(words).replace("=", " ").split(" ")
    for before, word in zip(words, words[1:]):
        if before in names:
            bounds[names[before]] = int(word)
        elif word.isdecimal() and before != "--workers":
            splits.append(int(word))
    return splits, Limits(**bounds, is_automatic="--auto-checkpoint" in words)


def lines(given: bytes) -> list[bytes]:
    """The lines of a session's input, without their line ends."""
    return [it.removesuffix(b"\r") for it in given.removesuffix(b"\n").split(b"\n")] if given else []


def value(word: bytes, least: int, most: int) -> int | None:
    """The number in a field: digits, with a `-` before them if numbers below 0 are allowed; None if it isn't one."""
    # int() also accepts spaces, signs and underscores
    digits = word.removeprefix(b"-") if least < 0 else word
    is_number = digits.isdigit() and len(digits) <= DIGITS
    return int(word) if is_number and least <= int(word) <= most else None


def values(words: list[bytes], fields: list[tuple[int, int]]) -> list[int] | None:
    """The numbers in fields; None if one isn't a number, or the number of words differs."""
    found = [value(word, *it) for word, it in zip(words, fields)]
    return None if len(words) != len(fields) or None in found else found


def read_line(line: bytes) -> Said:
    """What a line is: `BLANK`, the text of a refusal, or a kind and its numbers. The kind of a line of an HTTP request
    is `http`, however long it is."""
    words = [it for it in line.split(b" ") if it]
    if not words and len(line) <= LINE_BYTES:
        return BLANK
    if HTTP.match(line[:LINE_BYTES].lstrip(b" ").partition(b" ")[0]):
        return "http", []
    kind, *names = [it.decode("latin-1") for it in words] if len(line) <= LINE_BYTES else [""]
    if kind == "policy" and len(names) == 1 and names[0] in POLICIES:
        return kind, names
    if kind in ("delete", "update"):
        # without a row number there is one field too few, or an empty one
        row = words[1].split(b".") if len(words) > 1 else []
        words[1:2] = row if len(row) == 2 else [b"", b""]
    fields = [PART][: len(words) - 1] if kind == "stats" else FIELDS.get(kind)
    found = values(words[1:], fields) if fields is not None else None
    if found is None:
        return "refused 1"
    if kind in RANGES and not found[0] <= found[1] <= MOST:
        return "refused 2"
    return kind, found


def statements(given: bytes) -> list[Said]:
    """What the lines of a session's input are, up to one that ends it, without blank ones."""
    found = []
    for line in lines(given):
        said = read_line(line)
        if said != BLANK:
            found.append(said)
        if said[0] in LAST:
            break
    return found


def told(kind: str, rows: list) -> list[str]:
    """The reply of a count, a sum or a select of these rows, each a number, a key and a payload."""
    if kind == "count":
        return [f"count {len(rows)}"]
    if kind == "sum":
        return [f"sum {sum(payload for _, _, payload in rows)}"]
    return [f"rows {len(rows)}"] + [f"{number} {key} {payload}" for number, key, payload in rows]


class Part:
    """The rows of a partition by their serial, its limits, and what is known of its cells."""

    def __init__(self, number: int, low: int, high: int, limits: Limits = Limits()) -> None:
        self.number, self.low, self.high, self.limits = number, low, high, limits
        # the rows, and their keys with their serials in order
        self.rows: dict[int, tuple[int, int]] = {}
        self.keys: list[tuple[int, int]] = []
        # entries in the history, checkpointed ones, and those that may have been kept but were never reported
        self.next = self.kept = self.folded = self.untold = 0
        # whether there is a cell for one more row, by a layout; None if there was no layout since the last command
        self.has_cell: bool | None = None
        # the serials of pending insertions, and of rows in the column; how many rows left the column since the last
        # range; and the keys of all rows that may keep a cell to be freed
        self.fresh: set[int] = set()
        self.settled: set[int] = set()
        self.waiting, self.doomed = 0, []

    def has(self, key: int) -> bool:
        return self.low <= key < self.high

    def is_shut(self) -> bool:
        """Whether its history is full, and no checkpoint is made by itself."""
        return self.kept == self.limits.history and not self.limits.is_automatic

    def is_over(self) -> bool:
        return self.folded + self.kept == self.limits.life

    def has_no_cell(self) -> bool:
        """Whether there is certainly no cell for one more row, and upkeep frees none."""
        if self.limits.is_automatic:
            return len(self.rows) >= self.limits.cells
        return self.has_cell is False or len(self.rows) + self.waiting >= self.limits.cells

    def has_a_cell(self) -> bool:
        """Whether there certainly is a cell for one more row, or upkeep frees one."""
        if self.limits.is_automatic:
            return not self.has_no_cell()
        return self.has_cell or len(self.rows) + len(self.doomed) < self.limits.cells

    def clear(self) -> None:
        """If a cell may be missing, upkeep may free all that wait, and move all rows into the column."""
        if self.limits.is_automatic and len(self.rows) + len(self.doomed) >= self.limits.cells:
            self.fresh.clear()
            self.waiting = 0

    def test(self, key: int | None = None) -> None:
        """Refuses a command with this key, or with none, if no more is accepted."""
        if key is not None and not self.has(key):
            raise Refused("refused 4")
        if self.is_shut():
            raise Refused(f"refused 6 {self.kept}")
        if self.is_over():
            raise Refused("refused 10")

    def keep(self) -> None:
        """Counts an answered command, after a checkpoint if that is due."""
        self.test()
        if self.kept == self.limits.history:
            self.checkpoint()
        self.kept += 1
        self.has_cell = None

    def checkpoint(self) -> list[str]:
        count, self.kept, self.untold = self.kept, 0, 0
        self.folded += count
        return [f"folded {count}"]

    def lack_cell(self, serial: int | None, key: int) -> None:
        """Takes a refusal with 9 of an insert, or of an update of a serial, if it may occur."""
        self.test(key)
        if self.has_a_cell():
            raise Refused(f"no {NO_CELL}: there is a cell")
        if serial is not None and (serial not in self.rows or serial in self.fresh):
            raise Refused(f"no {NO_CELL}: the row {serial} is in no column")
        raise Refused(NO_CELL)

    def put(self, serial: int, key: int, payload: int) -> None:
        """Adds a row, which waits beside the column."""
        self.rows[serial] = key, payload
        bisect.insort(self.keys, (key, serial))
        self.fresh.add(serial)

    def take(self, serial: int) -> tuple[int, int]:
        """Removes a row. If it may be in the column, its cell may wait to be freed."""
        row = self.rows.pop(serial)
        del self.keys[bisect.bisect_left(self.keys, (row[0], serial))]
        if serial not in self.fresh:
            self.doomed.append(row[0])
        self.waiting += serial in self.settled
        self.fresh.discard(serial)
        self.settled.discard(serial)
        return row

    def forget(self) -> None:
        """A range may move rows into the column and out of it, and free deleted ones."""
        self.fresh.clear()
        self.settled.clear()
        self.waiting, self.has_cell = 0, None

    def insert(self, key: int, payload: int) -> list[str]:
        self.test()
        if self.has_no_cell():
            raise Refused(NO_CELL)
        self.clear()
        self.keep()
        self.put(self.next, key, payload)
        self.next += 1
        return [f"row {self.number}.{self.next - 1}"]

    def delete(self, serial: int) -> list[str]:
        self.keep()
        return ["gone {} {}".format(*self.take(serial))] if serial in self.rows else ["none"]

    def update(self, serial: int, key: int, payload: int) -> list[str]:
        self.test(key)
        if serial in self.settled and self.has_no_cell():
            raise Refused(NO_CELL)
        self.keep()
        if serial not in self.rows:
            return ["none"]
        if serial not in self.fresh:
            self.clear()
        self.take(serial)
        self.put(serial, key, payload)
        return ["changed"]

    def between(self, low: int, high: int) -> list[tuple[str, int, int]]:
        """The rows of a range in the order of their numbers."""
        self.keep()
        found = self.keys[bisect.bisect_left(self.keys, (low, 0)) : bisect.bisect_left(self.keys, (high, 0))]
        serials = sorted(serial for _, serial in found)
        if low < high:
            self.forget()
            self.doomed = [key for key in self.doomed if not low <= key < high]
            self.settled.update(serials)
        return [(f"{self.number}.{serial}", *self.rows[serial]) for serial in serials]

    def answer(self, kind: str, numbers: list[int]) -> list[str]:
        """The lines of this partition's answer to a statement, as far as the range is its own."""
        if kind in RANGES:
            return told(kind, self.between(*numbers))
        return getattr(self, kind)(*(numbers if kind == "insert" else numbers[1:]))


class Session:
    """The partitions of a session's table, and the answers to its statements."""

    def __init__(self, splits: typing.Iterable[int] = (), limits: Limits = Limits()) -> None:
        self.splits = list(splits)
        ends = [0, *self.splits, MOST]
        self.parts = [Part(number, *both, limits) for number, both in enumerate(zip(ends, ends[1:]))]

    def part_of(self, key: int) -> Part:
        """The partition of a key; for the bound above all keys the last one."""
        return self.parts[bisect.bisect_right(self.splits, key)]

    def parts_of(self, said: Said) -> list[Part]:
        """The partitions that a statement asks: for an empty range that of its low end."""
        if isinstance(said, str) or said[0] in UNASKED:
            return []
        kind, numbers = said
        if kind in RANGES and numbers[0] != numbers[1]:
            return [part for part in self.parts if part.low < numbers[1] and numbers[0] < part.high]
        if kind == "stats" and not numbers:
            return self.parts
        return [self.part_of(numbers[0])] if kind in ("insert", *RANGES) else self.parts[numbers[0] : numbers[0] + 1]

    def answer(self, said: Said) -> list[str] | Part:
        """The lines of the answer to a statement, or the partition whose layout or numbers it asks
        for."""
        if isinstance(said, str):
            return [said]
        if said[0] in UNASKED:
            alone = {"ping": "pong", "quit": "bye", "http": "refused 1"}
            return [f"policy {said[1][0]}" if said[1] else alone[said[0]]]
        (kind, numbers), parts = said, self.parts_of(said)
        try:
            if not parts:
                raise Refused("refused 5")
            if kind in RANGES:
                return told(kind, [row for part in parts for row in part.between(*numbers)])
            return parts[0] if kind in ("layout", "stats") else parts[0].answer(kind, numbers)
        except Refused as refused:
            return [str(refused)]

    def without_cell(self, said: Said) -> list[str]:
        """The lines of the answer to an insert or an update that was refused with 9."""
        kind, numbers = said
        try:
            self.parts_of(said)[0].lack_cell(*([None, numbers[0]] if kind == "insert" else numbers[1:3]))
        except Refused as refused:
            return [str(refused)]

    def is_refused_without_memory(self, said: Said) -> bool:
        """Whether the one partition that a statement asks refuses it for a cause tested before memory."""
        parts = self.parts_of(said)
        if len(parts) != 1 or said[0] in ("layout", "checkpoint"):
            return False
        (kind, numbers), (part,) = said, parts
        needs_cell = kind == "insert" or (kind == "update" and numbers[1] in part.settled)
        is_outside = kind == "update" and not part.has(numbers[2])
        return is_outside or part.is_shut() or part.is_over() or (needs_cell and part.has_no_cell())

    def leave_without_memory(self, said: Said) -> None:
        """A statement is refused for lack of memory. The partitions of a range may have merged their rows, and those
        before the last one have kept it; one whose cells were to be freed may also have merged them."""
        parts = self.parts_of(said)
        for part in parts if said[0] in RANGES else []:
            part.forget()
        for part in parts[:-1]:
            part.untold += 1
        if said[0] in ("insert", "update"):
            parts[0].clear()


def text_of(lines: typing.Iterable[str]) -> bytes:
    """These lines as bytes."""
    return "".join(f"{it}\n" for it in lines).encode("ascii")


def replies(given: bytes, splits: typing.Iterable[int] = ()) -> bytes:
    """The text of the replies to a session without layouts and numbers of partitions."""
    session = Session(splits)
    return text_of(line for it in statements(given) for line in session.answer(it))


def records(given: bytes) -> list[list[bytes]]:
    """The records of CSV, each a list of its fields, by RFC 4180.

    A field that begins with a quote ends at the next quote that isn't doubled, and what follows that quote belongs to
    it; a line feed or a carriage return ends a record; an empty line is no record.
    """
    found, fields = [], []
    for it in FIELD.finditer(given.removeprefix(MARK)):
        quoted, rest, end = it.groups(b"")
        if fields or it[0] != end or end == b",":
            fields.append(quoted.replace(b'""', b'"') + rest)
        if fields and end != b",":
            found.append(fields)
            fields = []
    return found


def complaint(refusal: object) -> bytes:
    """What a run that ends with this refusal writes to standard error."""
    return f"crackd: {refusal}: {CAUSES[str(refusal).split()[1]]}\n".encode("ascii")


def exported(given: bytes, splits: typing.Iterable[int] = (), limits: Limits = Limits()) -> tuple[int, bytes, bytes]:
    """The result of loading CSV and exporting it: status, export and standard error.

    It refuses the first record that isn't a row, by its number, and a row of a partition that is at a limit.
    """
    wrote, session = b"", Session(splits, limits)
    try:
        for number, fields in enumerate(records(given), 1):
            row = values(fields, FIELDS["insert"])
            if row is not None:
                session.part_of(row[0]).insert(*row)
            elif number > 1 or fields != [b"key", b"payload"]:
                raise Refused(f"refused 19 {number}")
        wrote += HEADER
        for part in session.parts:
            wrote += b"".join(b"%d,%d\n" % (key, payload) for _, key, payload in part.between(0, MOST))
    except Refused as refused:
        return 1, wrote, complaint(refused)
    return 0, wrote, b""
