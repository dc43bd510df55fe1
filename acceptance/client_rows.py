"""Checks the replies to a client of a shared server about its own rows, and the sums of all clients' rows and counts.

Each client has its own keys, so it knows its rows whatever the others do. Each reply is compared with the lists of
plain_session.py, which take row numbers from the replies. A session answers in order. So if a client didn't read its
last replies, the server accepted a prefix of these statements; the rows left at the end show how long the prefix is.
With small limits a command may be refused with 6, 9 or 10 because of other clients' commands, and then changes nothing.
The replies to all clients show whether such a refusal has a cause. A checkpoint removes the entries of all clients in a
partition, each once: the numbers that all checkpoints report add up to the number of commands accepted.
"""

import bisect
import collections

from compare import FOLDED, Counts, check_layout, numbers_of
from fixtures import Client, Wrong, expect
from plain_session import MOST, MOST_CELLS, MOST_LIFE, NO_LIMIT, RANGES, Limits, Part, Said, Session, read_line

FULL, NO_CELL, OVER = 6, 9, 10
Number = tuple[int, int]
Row = tuple[int, int]
# a count per partition
ByPart = collections.Counter[int]


def said_in(statement: str) -> Said:
    return read_line(statement.encode())


class Own:
    """The rows of one client, with keys from `low` up to but not including `high`. `folds`: it asks for checkpoints."""

    def __init__(self, splits: list[int], low: int, high: int, limits: Limits = Limits(), folds: bool = True) -> None:
        self.low, self.high, self.limits, self.folds = low, high, limits, folds
        # the limits of the partitions are checked elsewhere
        self.session = Session(splits)
        self.given: list[Number] = []
        # rows that were deleted, and entries that checkpoints removed
        self.gone, self.folded = ByPart(), ByPart()
        # the refusals that came from a single partition, by partition
        self.refused: set[tuple[int, int]] = set()
        self.listed = 0
        # statements that were sent, in order, whose replies weren't read
        self.unread: list[str] = []

    @property
    def rows(self) -> dict[Number, Row]:
        """The rows by partition and serial."""
        return {(part.number, serial): row for part in self.session.parts for serial, row in part.rows.items()}

    def accepted(self, with_untold: bool = False) -> ByPart:
        """How many commands were accepted. `with_untold` also counts those that may have been accepted."""
        return ByPart({part.number: part.kept + with_untold * part.untold for part in self.session.parts})

    def counts(self) -> Counts:
        """The totals, as far as its replies show them."""
        least, most = self.accepted().total(), self.accepted(with_untold=True).total()
        inserted, deleted = len(self.given), self.gone.total()
        return Counts(least=least, most=most, inserted=inserted, deleted=deleted, listed=self.listed)

    def parts_asked(self, said: Said) -> list[int]:
        """The numbers of the partitions that a command asks, in order, if its key isn't outside."""
        parts = self.session.parts_of(said)
        if said[0] in ("layout", "checkpoint") or (said[0] == "update" and parts and not parts[0].has(said[1][2])):
            return []
        return [part.number for part in parts]

    def take(self, statement: str, lines: list[str]) -> None:
        """Compares a reply with the client's rows, and changes them as the statement says."""
        said = said_in(statement)
        parts, asked = self.session.parts_of(said), self.parts_asked(said)
        is_over = len(asked) == 1 and (OVER, asked[0]) in self.refused
        refusal = self.refusal_of(said, asked, lines)
        if refusal == OVER or (refusal and not is_over):
            # if a range is refused, the partitions before the one that refused it have kept their parts
            self.refused.update({(refusal, asked[0])} if len(asked) == 1 else ())
            self.session.leave_without_memory(said)
        elif is_over:
            raise Wrong(f"{statement}: the life of its partition was over, got {lines}")
        elif said[0] == "layout" and parts:
            head = check_layout(lines, parts[0])
            expect(f"{statement}: lines", head[-1] + 1, len(lines))
            expect(f"{statement}: whether it has the own rows", True, head[1] >= len(parts[0].rows))
        elif said[0] == "checkpoint" and parts:
            self.fold(statement, parts[0].number, lines)
        else:
            if said[0] == "insert":
                self.take_number(statement, parts[0], lines)
            expect(statement, self.session.answer(said), lines)
            self.listed += len(lines) - 1 if said[0] == "select" else 0
            if lines[0].startswith("gone "):
                self.gone[asked[0]] += 1

    def refusal_of(self, said: Said, asked: list[int], lines: list[str]) -> int | None:
        """The number of a refusal for a limit that may occur here; None if the lines are none of these."""
        if not asked or len(lines) != 1 or not lines[0].startswith("refused "):
            return None
        (kind, numbers), limits = said, self.limits
        needs_cell = kind == "insert" or (kind == "update" and numbers[1] in self.session.parts[numbers[0]].rows)
        may_come = {
            f"refused {FULL} {limits.history}": (FULL, limits.history < NO_LIMIT and not limits.is_automatic),
            f"refused {NO_CELL}": (NO_CELL, limits.cells < MOST_CELLS and needs_cell),
            f"refused {OVER}": (OVER, limits.life < MOST_LIFE),
        }
        number, may = may_come.get(lines[0], (None, False))
        return number if may else None

    def fold(self, statement: str, part: int, lines: list[str]) -> None:
        """Checks the reply to a checkpoint, which reports how many entries of all clients it removed."""
        folded = numbers_of(lines[0], FOLDED) if len(lines) == 1 else []
        if not folded or folded[0] > self.limits.history:
            raise Wrong(f"{statement}: wanted at most {self.limits.history} entries, got {lines}")
        self.folded[part] += folded[0]

    def take_number(self, statement: str, part: Part, lines: list[str]) -> None:
        """Takes a row number from the reply. It is of the right partition, and greater than the earlier ones."""
        number, *serial = numbers_of(lines[0], "row #.#") or [-1]
        if number != part.number or serial[0] < part.next:
            raise Wrong(f"{statement}: wanted a row number of partition {part.number} from {part.next}, got {lines}")
        part.next = serial[0]
        self.given.append((number, part.next))

    def front(self, standing: dict[Number, Row], closed=()) -> tuple[ByPart, ByPart, int]:
        """What happened to the statements whose replies weren't read, given which of the client's rows are left; closed
        partitions are left out.

        By partition: the least and the greatest number of these commands that were accepted, and the most rows that
        their selects listed. With small limits any of them may have been refused.
        """
        own = {number: row for number, row in self.rows.items() if number[0] not in closed}
        expect("own rows", own, {number: row for number, row in standing.items() if number in own})
        found = collections.defaultdict(collections.deque)
        for number in sorted(standing.keys() - own.keys()):
            found[number[0]].append(number)
        least, most, listed, may_refuse = ByPart(), ByPart(), 0, self.limits != Limits()
        for said in map(said_in, self.unread):
            if said[0] in RANGES:
                most.update(self.parts_asked(said))
                keys = [key for part in self.session.parts for key, _ in part.rows.values()]
                listed += sum(said[1][0] <= key < said[1][1] for key in keys) if said[0] == "select" else 0
            elif said[0] == "insert":
                (part,) = self.session.parts_of(said)
                left = found[part.number]
                # a partition numbers its rows in the order of their insertion
                if left and standing[left[0]] == tuple(said[1]):
                    self.keep(part, left.popleft(), said[1])
                    most[part.number] += 1
                    least[part.number] += 1
                    least = least if may_refuse else most.copy()
                elif part.number in closed:
                    most[part.number] += 1
                elif not may_refuse:
                    break
        expect("rows that no front of what was sent leaves", [], [it[0] for it in found.values() if it])
        return least, most, listed

    def keep(self, part: Part, number: Number, row: Row) -> None:
        """Adds a row that is there although the reply to its insert wasn't read."""
        if number[1] < part.next:
            raise Wrong(f"the row {row} has the number {number}, below the next one of its client {part.next}")
        part.put(number[1], *row)
        part.next = number[1] + 1
        self.given.append(number)


class Account:
    """What is left once all clients have gone: the rows, how many each partition placed, and of closed ones how many
    they have.

    In closed partitions, whose life is over, nobody can read the rows.
    """

    def __init__(self, splits: list[int]) -> None:
        self.splits, self.rows, self.given, self.closed = splits, {}, [0] * (len(splits) + 1), {}
        # the counts of this reading's own statements, and how many entries its checkpoints removed
        self.counts, self.folded = Counts(), 0

    def look(self, connection: Client, clients: list[Own], limits: Limits) -> None:
        """Reads all rows in a session without other clients, and finds out how many rows each partition placed.

        It makes checkpoints first, so that no history is full.
        """
        ends = [0, *self.splits, MOST]
        self.fold(connection)
        if limits.life == MOST_LIFE:
            self.read_rows(connection.answer(f"select 0 {MOST}"))
            self.counts.update(least=len(self.given), most=len(self.given))
        for part in range(len(self.given) if limits.life < MOST_LIFE else 0):
            lines = connection.answer(f"select {ends[part]} {ends[part + 1]}")
            if lines == ["refused 10"]:
                # if the partition's life is over, its layout gives the number of rows
                self.closed[part] = int(connection.answer(f"layout {part}")[0].split(" ")[3])
            else:
                self.read_rows(lines)
                self.counts.update(least=1, most=1)
        self.fold(connection)
        for part in range(len(self.given)):
            self.given[part] = self.given_to(part, ends[part], connection, clients, limits)
        self.fold(connection)
        self.counts["listed"] += len(self.rows)

    def fold(self, connection: Client) -> None:
        """Makes a checkpoint of each partition."""
        for part in range(len(self.given)):
            (line,) = connection.answer(f"checkpoint {part}")
            self.folded += int(line.removeprefix("folded "))

    def given_to(self, part: int, key: int, connection: Client, clients: list[Own], limits: Limits) -> int:
        """How many rows a partition placed: the number of one more row, or those that it has and those deleted."""
        (line,) = [""] if part in self.closed else connection.answer(f"insert {key} 0")
        if number := numbers_of(line, f"row {part}.#"):
            self.counts.update(least=1, most=1, inserted=1)
            return number[0]
        allowed = [""] + ["refused 9"] * (limits != Limits()) + ["refused 10"] * (limits.life < MOST_LIFE)
        if line not in allowed:
            raise Wrong(f"an insert into partition {part}: {line!r}")
        return self.rows_of(part) + sum(client.gone[part] for client in clients)

    def read_rows(self, lines: list[str]) -> None:
        """Takes the lines of a select of all keys, or of selects of the partitions in order."""
        expect("lines of all rows", f"rows {len(lines) - 1}", lines[0])
        before = max(self.rows, default=(0, -1))
        for line in lines[1:]:
            number, *row = line.split(" ")
            number, (key, payload) = tuple(map(int, number.split("."))), map(int, row)
            # int() accepts more spellings of a number than the server writes
            expect("how a row is written", f"{number[0]}.{number[1]} {key} {payload}", line)
            if number <= before or bisect.bisect_right(self.splits, key) != number[0]:
                raise Wrong(f"the row {line!r} comes after the row {before}")
            self.rows[number] = (key, payload)
            before = number

    def of_owners(self, owners: list[Own]) -> list[dict[Number, Row]]:
        """The rows of each owner, in order. Wrong if a row has no owner."""
        lows, parted = [it.low for it in owners], [{} for _ in owners]
        for number, row in self.rows.items():
            at = bisect.bisect_right(lows, row[0]) - 1
            if at < 0 or row[0] >= owners[at].high:
                raise Wrong(f"the row {number} {row} is nobody's")
            parted[at][number] = row
        return parted

    def rows_of(self, part: int) -> int:
        """How many rows a partition has."""
        return self.closed.get(part, sum(number[0] == part for number in self.rows))


def check_numbers(account: Account, clients: list[Own]) -> None:
    """Each row number was given once; in a closed partition some were given to inserts whose replies weren't read."""
    given = sorted(number for client in clients for number in client.given)
    right = [(part, it) for part, count in enumerate(account.given) for it in range(count)]
    if not account.closed:
        expect("numbers of rows, each given once", right, given)
        return
    strange = collections.Counter(given) - collections.Counter(right)
    expect("numbers of rows that came twice, or weren't given", [], list(strange))
    sent = [said[1][0] for client in clients for said in map(said_in, client.unread) if said[0] == "insert"]
    unread = ByPart(bisect.bisect_right(account.splits, key) for key in sent)
    for part, count in enumerate(account.given):
        missing = count - sum(number[0] == part for number in given)
        if missing > (unread[part] if part in account.closed else 0):
            raise Wrong(f"partition {part} was given {count} rows, and {missing} of them to nobody")


def check_causes(account: Account, clients: list[Own], least: ByPart, most: ByPart) -> None:
    """No partition accepted more than its life, and one that refused because of a limit accepted at least that many."""
    refused, limits = set().union(*(client.refused for client in clients)), clients[0].limits
    refused |= {(OVER, part) for part in account.closed}
    bounds = {FULL: limits.history, NO_CELL: limits.cells, OVER: limits.life}
    for part in range(len(account.given)):
        early = [number for number, bound in bounds.items() if (number, part) in refused and most[part] < bound]
        if early or least[part] > limits.life or account.rows_of(part) > limits.cells:
            accepted = f"{least[part]} to {most[part]}, has {account.rows_of(part)}, and refused early with {early}"
            raise Wrong(f"partition {part} accepted {accepted}: {limits}")


def come_to(account: Account, clients: list[Own]) -> Counts:
    """Compares the clients' rows with all rows that are left. Returns the counts that the totals must agree with."""
    clients = sorted(clients, key=lambda it: it.low)
    least, most, counts = ByPart(), ByPart(), Counts()
    for client, standing in zip(clients, account.of_owners(clients)):
        *of_unread, listed = client.front(standing, account.closed)
        least += client.accepted() + of_unread[0]
        most += client.accepted(with_untold=True) + of_unread[1]
        counts += client.counts() + Counts(listed=listed)
    check_numbers(account, clients)
    check_causes(account, clients, least, most)
    inserted = sum(account.given) if account.closed else counts["inserted"]
    expect("rows held", inserted - counts["deleted"], len(account.rows) + sum(account.closed.values()))
    return Counts({**counts, "least": least.total(), "most": most.total(), "inserted": inserted})
