"""The shell's session with a server: single statements, loads of CSV, layouts, and saves of all rows as CSV."""

import array
import csv
import dataclasses
import itertools
import os
import re
import time
from typing import IO, Any, Callable, Iterable, Iterator, Optional, Sequence, Union

from ..arrays import joined_text
from ..base import parts_to_load
from ..channel import Channel
from ..errors import Disconnected
from ..keys import quantiles
from ..layout import PartLayout, rows_text
from .texts import GREATEST_KEY, GREATEST_PAYLOAD, LEAST_PAYLOAD, Fault, Interrupted, Left, in_words

# the default policy of a server that the shell starts, and the policy for a load into a server that already ran
POLICY = "auto"
HEADER = ["key", "payload"]
MOST_DIGITS = 20
KEY = re.compile(f"[0-9]{{1,{MOST_DIGITS}}}")
PAYLOAD = re.compile(f"-?{KEY.pattern}")
# the first line of a reply with several lines, which says how many more there are
LISTED = re.compile("(?:rows|layout .* pieces|stats) ([0-9]+)")
# the beginning of a line of an HTTP request (a method or a header), after which a server closes the connection
HTTP = re.compile(rb" *(?:(?:GET|POST|HEAD|PUT|DELETE|OPTIONS|CONNECT|TRACE|PATCH)(?: |\Z)|[0-9A-Za-z-]+:)")
# a load sends `ROWS_AT_ONCE` rows at a time, and more only while at most `ROWS_UNANSWERED` are unanswered
ROWS_AT_ONCE = 2000
ROWS_UNANSWERED = 20_000
NOTHING_LOADED = "nothing is loaded"


@dataclasses.dataclass
class Reply:
    """The lines of a reply, and the seconds until they had come."""

    lines: list[str]
    seconds: float

    @property
    def is_refusal(self) -> bool:
        """Whether the server refused the statement."""
        return self.lines[0].startswith("refused")


def is_key(text: str) -> bool:
    """Whether a text is a key in the range of keys."""
    return KEY.fullmatch(text) is not None and int(text) <= GREATEST_KEY


def is_payload(text: str) -> bool:
    """Whether a text is a payload in the range of payloads."""
    return PAYLOAD.fullmatch(text) is not None and LEAST_PAYLOAD <= int(text) <= GREATEST_PAYLOAD


def is_row(record: Sequence[str]) -> bool:
    """Whether a record is a key and a payload."""
    return len(record) == 2 and is_key(record[0]) and is_payload(record[1])


def are_digits(texts: Sequence[str]) -> bool:
    """Whether all texts consist of digits, at most `MOST_DIGITS` each."""
    digits = "".join(texts)
    return all(texts) and digits.isascii() and digits.isdigit() and max(map(len, texts)) <= MOST_DIGITS


def are_rows(records: Sequence[Sequence[str]]) -> bool:
    """Whether there are records and all of them are rows. Faster than `is_row` for each."""
    if set(map(len, records)) != {2}:
        return False
    keys, payloads = zip(*records)
    if not (are_digits(keys) and are_digits([it.removeprefix("-") for it in payloads])):
        return False
    values = [int(it) for it in payloads]
    return max(map(int, keys)) <= GREATEST_KEY and LEAST_PAYLOAD <= min(values) and max(values) <= GREATEST_PAYLOAD


class Records:
    """The records of a CSV file up to the first one that isn't a row. `fault` then says which one, and why."""

    def __init__(self, file: Iterable[str]):
        # blank lines aren't records
        self.records = filter(None, csv.reader(file))
        self.number, self.has_header, self.fault = 0, False, ""

    def next_rows(self, interrupts: Any) -> list[list[str]]:
        """The next records that are rows. If the file waits for another program, a control-C ends the wait."""
        records: list[list[str]] = []
        fault = ""
        try:
            with interrupts.breaking_in():
                records.extend(itertools.islice(self.records, ROWS_AT_ONCE))
        except KeyboardInterrupt:
            interrupts.noted = 1
        except csv.Error as error:
            fault = f"{in_words('refused 19')}: {error}"
        except OSError as error:
            fault = f"{in_words('refused 17')}: {error.strerror}"
        if not self.number and records[:1] == [HEADER]:
            self.has_header, self.number = True, 1
            del records[0]
        rows = records if are_rows(records) else list(itertools.takewhile(is_row, records))
        self.number += len(rows)
        if len(rows) < len(records):
            fault = f"{in_words('refused 19')}: {','.join(records[len(rows)])[:40]!r}"
        self.fault = fault and f"record {self.number + 1}: {fault}"
        return rows

    def read(self, interrupts: Any, progress: Any) -> "Columns":
        """All keys and payloads. Raises a `Fault` at the first record that isn't a row."""
        columns = Columns(self)
        try:
            while rows := self.next_rows(interrupts):
                interrupts.check(NOTHING_LOADED)
                columns.keys.extend(int(key) for key, _ in rows)
                columns.payloads.extend(int(payload) for _, payload in rows)
                progress.show(f"{rows_text(len(columns.keys))} read")
                if self.fault:
                    break
        finally:
            progress.clear()
        interrupts.check(NOTHING_LOADED)
        if self.fault:
            raise Fault(f"{self.fault}; {NOTHING_LOADED}")
        return columns


class Columns:
    """The keys and the payloads of a file."""

    def __init__(self, records: Records) -> None:
        self.records, self.keys, self.payloads = records, array.array("Q"), array.array("q")

    def statements(self, begin: int) -> bytes:
        """The inserts of the next rows, from this one on."""
        end = begin + ROWS_AT_ONCE
        return joined_text("insert %d %d\n", self.keys[begin:end], self.payloads[begin:end])

    def splits(self) -> list[int]:
        """Splits that divide the keys evenly."""
        parts = parts_to_load(len(self.keys))
        return quantiles(self.keys, parts) if parts > 1 else []


class Loaded:
    """The state of a load: how many rows were sent and answered, the numbers of those that were inserted, and the first
    refusal, with the number of rows answered before it."""

    def __init__(self) -> None:
        self.sent = self.answered = self.before = 0
        self.refusal = ""
        self.parts, self.serials = array.array("Q"), array.array("Q")

    @property
    def placed(self) -> int:
        """How many rows were inserted."""
        return len(self.serials)

    def take(self, lines: Sequence[str]) -> None:
        """Counts the replies to inserts, and keeps the first refusal."""
        for line in lines:
            if line.startswith("row "):
                part, _, serial = line[4:].partition(".")
                self.parts.append(int(part))
                self.serials.append(int(serial))
            elif not self.refusal:
                self.refusal, self.before = line, self.placed
        self.answered += len(lines)


class Session:
    """A session with a server, over a channel."""

    def __init__(
        self,
        channel: Channel,
        interrupts: Any,
        policy: Optional[str],
        renewed: Optional[Callable[[list[int]], Channel]] = None,
    ):
        # `policy` is None if the session's policy isn't known; `renewed` starts the server anew with other splits
        self.channel, self.interrupts, self.policy, self.renewed = channel, interrupts, policy, renewed
        self.is_written = False

    def ask(self, statement: Union[str, bytes]) -> Reply:
        """Sends a statement and waits for all lines of its reply."""
        begun = time.perf_counter()
        self.channel.send(os.fsencode(statement) + b"\n")
        lines = [self.channel.line()]
        listed = LISTED.fullmatch(lines[0])
        if listed:
            lines += self.channel.lines(int(listed[1]))
        words = lines[0].split(" ")
        if words[0] == "policy":
            self.policy = words[-1]
        self.is_written |= words[0] == "row"
        return Reply(lines, time.perf_counter() - begun)

    def demand(self, statement: str) -> Reply:
        """Sends a statement. Returns its reply, or raises a `Fault` if it is refused."""
        reply = self.ask(statement)
        if reply.is_refusal:
            raise Fault(f"{statement}: {in_words(reply.lines[0])}")
        return reply

    def load(self, columns: Columns, progress: Any) -> int:
        """Inserts the rows of a file, and returns their number. If one is refused, or after a control-C, it deletes
        those that were inserted.

        If the policy isn't known, it first sends `policy auto`, so that the next query merges all rows at once. A
        server of the shell's own to which nothing was ever written is started anew with splits that suit the keys.
        """
        if self.policy is None:
            self.demand(f"policy {POLICY}")
        self.split_for(columns)
        loaded, left = Loaded(), ""
        try:
            while loaded.sent < len(columns.keys) and not (loaded.refusal or self.interrupts.noted):
                self.channel.send(columns.statements(loaded.sent))
                loaded.sent = min(loaded.sent + ROWS_AT_ONCE, len(columns.keys))
                self.settle(loaded, ROWS_UNANSWERED)
                progress.show(rows_text(loaded.placed))
            self.settle(loaded, 0)
            self.is_written |= loaded.placed > 0
            if loaded.refusal or self.interrupts.noted:
                left = self.take_back(loaded)
        except Disconnected as error:
            raise Left(f"{rows_text(loaded.placed)} had been answered") from error
        finally:
            progress.clear()
        if loaded.refusal:
            number = loaded.before + 1 + columns.records.has_header
            raise Fault(f"record {number}: {in_words(loaded.refusal)}; {left}")
        if left:
            raise Interrupted(left)
        return loaded.placed

    def split_for(self, columns: Columns) -> None:
        """Starts the shell's own server anew with splits that suit these keys, if nothing was ever written to it."""
        splits = columns.splits() if self.renewed and not self.is_written else []
        if self.renewed and splits:
            policy = self.policy
            self.ask("quit")
            self.channel.close()
            self.channel = self.renewed(splits)
            self.demand(f"policy {policy}")

    def take_back(self, loaded: Loaded) -> str:
        """Deletes the rows of a load. Returns what is left of them, in words."""
        rows: Sequence[int] = range(loaded.placed)
        refusal, tries = "", 0
        while rows and tries < 2:
            refused = self.deleted(loaded, rows)
            # after a full history the same deletes are tried again
            tries = tries + 1 if len(refused) == len(rows) else 0
            rows, refusal = list(refused), next(iter(refused.values()), "")
        return f"{rows_text(len(rows))} of it couldn't be deleted: {in_words(refusal)}" if rows else NOTHING_LOADED

    def deleted(self, loaded: Loaded, rows: Sequence[int]) -> dict[int, str]:
        """Deletes these rows of a load. Returns the refusals of those that weren't deleted. Makes room in full
        histories."""
        refused: dict[int, str] = {}
        for at in range(0, len(rows), ROWS_UNANSWERED):
            some = rows[at : at + ROWS_UNANSWERED]
            self.channel.send(
                joined_text("delete %d.%d\n", [loaded.parts[it] for it in some], [loaded.serials[it] for it in some])
            )
            lines: list[str] = []
            while self.channel.unsent or len(lines) < len(some):
                self.channel.step()
                lines += self.channel.lines_given()
            refused |= {row: line for row, line in zip(some, lines) if line.startswith("refused")}
        for part in sorted({loaded.parts[row] for row, line in refused.items() if line.startswith("refused 6 ")}):
            self.ask(f"checkpoint {part}")
        return refused

    def settle(self, loaded: Loaded, most: int) -> None:
        """Waits until everything is sent, and at most `most` rows are unanswered."""
        while self.channel.unsent or loaded.sent - loaded.answered > most:
            self.channel.step()
            loaded.take(self.channel.lines_given())

    def layout(self, partition: Union[int, str]) -> Optional[PartLayout]:
        """The layout of a partition, or None if there is no such partition."""
        reply = self.ask(f"layout {partition}")
        if reply.lines[0] == "refused 5":
            return None
        if reply.is_refusal:
            raise Fault(f"layout {partition}: {in_words(reply.lines[0])}")
        return PartLayout.read(reply.lines)

    def layouts(self) -> Iterator[PartLayout]:
        """The layout of each partition."""
        for partition in itertools.count():
            found = self.layout(partition)
            if found is None:
                return
            yield found

    def save(self, file: IO[str]) -> int:
        """Writes all rows as CSV, partition by partition. Returns their number."""
        ends = [it.ends for it in self.layouts()]
        rows = 0
        file.write(",".join(HEADER) + "\n")
        for low, high in ends:
            lines = self.demand(f"select {low} {high}").lines[1:]
            self.interrupts.check("nothing is saved")
            file.writelines("{1},{2}\n".format(*line.split(" ")) for line in lines)
            rows += len(lines)
        return rows
