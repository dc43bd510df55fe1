"""Histories of workers on threads: replays the answers that `crack_bench histories` prints.

Its workers ask a table of three partitions, each on its own thread. It prints each worker's answers and receipts, and
the histories. All of this must hold: there is one order of all entries that agrees with each history and with each
worker's order; in that order the lists of plain_session.py give each reply; each worker's receipts are those of the
replies that it got; refusals have their causes; and the totals are those of the histories. So whatever the schedule
was, one thread could have answered the same. Each seed is tried under each policy, with checkpoints in between.
Depending on the seed, histories get full, cells run out, or lives end. The line of a run says how often an entry
follows one of another worker. That depends on the schedule, and is not checked.

A checkpointed partition is printed as `partition P folded N`, and then all its entries. Its last checkpoint came after
N of them, and all its checkpoints together reported N entries. The texts of data/histories.txt must pass, or must be
found to be wrong.
"""

import collections
import dataclasses
import pathlib
import re
import typing
import unittest

import extent
import fixtures
from fixtures import Wrong, built, expect, ran
from plain_session import MOST_ENTRIES, POLICIES, Limits, Session, read_line

SPLITS = [2**63, 2**64 - 1000]
PARTS = range(len(SPLITS) + 1)
WORKERS = 4
# the head of a section, with its checkpointed entries if any; a statement in it, after numbers, with its reply's lines
SECTION = re.compile(r"^(worker|receipts|partition) (\d+)(?: folded (\d+))?\n", re.MULTILINE)
ENTRY = re.compile(r"^((?:\d+ )+)([a-z]+ .*)\n(.*(?:\n\d+\.\d+ .*)*)\n", re.MULTILINE)
# the head of a text of data/histories.txt, or of a change to it: a name, how many statements there were, and limits
HEAD = re.compile(r"(.*?)(?:: (\d+))?(?:[:,] (\w+ \d+.*))?\n")
STATEMENTS, STATEMENTS_OF_A_SOAK = 1000, 10000
SEEDS = range(1, 11)
# the program's gate refuses one in this many commands of a partition
REFUSED_BY_THE_GATE = 50


class Asked(typing.NamedTuple):
    """A statement, and the lines of its answer."""

    statement: str
    lines: list[str]

    @property
    def is_refused(self) -> bool:
        return self.lines[0].startswith("refused")

    @property
    def is_checkpoint(self) -> bool:
        return self.statement.startswith("checkpoint ")

    @property
    def key(self) -> int | None:
        """The key that it brings, if any."""
        kind, *words = self.statement.split(" ")
        return int(words[-2]) if kind in ("insert", "update") else None


class Receipt(typing.NamedTuple):
    part: int
    position: int
    worker: int
    asked: Asked


class Printed:
    """What a run printed: answers and receipts of each worker, a history for each partition, and the totals."""

    def __init__(self, text: str) -> None:
        self.answers, self.receipts, self.histories, self.folded, self.totals = {}, {}, {}, {}, ""
        sections = {"worker": self.answers, "receipts": self.receipts, "partition": self.histories}
        before, *parts = SECTION.split(text)
        expect("before the first section", "", before)
        for name, number, folded, body in zip(*(parts[it::4] for it in range(4))):
            number = int(number)
            expect(f"{name} {number}", None, sections[name].get(number))
            if name == "partition":
                self.folded[number] = int(folded or 0)
            sections[name][number] = [self.entry(*it) for it in ENTRY.findall(body)]
            self.totals = ENTRY.sub("", body)
            if name != "partition" or number != PARTS[-1]:
                expect(f"{name} {number}: what is no entry", "", self.totals)

    def entry(self, numbers: str, statement: str, lines: str) -> Receipt | tuple[int, Asked]:
        """A statement and its answer, with the numbers in front of it."""
        before, asked = [int(it) for it in numbers.split()], Asked(statement, lines.splitlines())
        return Receipt(*before, asked) if len(before) == 3 else (*before, asked)


def check_receipts(printed: Printed, statements: int) -> None:
    """A worker has a receipt for each reply that it was given, in order, and no others."""
    for worker, answers in printed.answers.items():
        expect(f"how often worker {worker} asked", statements, len(answers))
        replies = [(part, asked) for part, asked in answers if not (asked.is_refused or asked.is_checkpoint)]
        receipts = printed.receipts[worker]
        for number, (reply, receipt) in enumerate(zip(replies, receipts)):
            of_receipt = receipt.worker, (receipt.part, receipt.asked)
            expect(f"worker {worker}, receipt {number}", (worker, reply), of_receipt)
        expect(f"receipts of worker {worker}", len(replies), len(receipts))


def check_folded(printed: Printed) -> None:
    """Checkpoints reported as many entries as each partition had at its last one."""
    counted = collections.Counter()
    for part, asked in (it for answers in printed.answers.values() for it in answers):
        if asked.is_checkpoint and not asked.is_refused:
            counted[part] += int(asked.lines[0].removeprefix("folded "))
    for part, folded in printed.folded.items():
        expect(f"partition {part}: entries up to its last checkpoint", counted[part], folded)


def in_one_order(printed: Printed) -> list[Receipt]:
    """The receipts in an order that each worker's receipts and each history keep, if each belongs to its entry."""
    ahead = {worker: collections.deque(receipts) for worker, receipts in printed.receipts.items()}
    entries = [[Receipt(part, place, *it) for place, it in enumerate(of)] for part, of in printed.histories.items()]
    left = [collections.deque(it) for it in entries]
    order, length = [], -1
    while length < len(order):
        length = len(order)
        for of in left:
            while of and ahead[of[0].worker] and ahead[of[0].worker][0] == of[0]:
                order.append(ahead[of[0].worker].popleft())
                of.popleft()
    for of in [*left, *ahead.values()]:
        if of:
            raise Wrong(f"no order has {of[0]}; next are {[it[0] for it in ahead.values() if it]}")
    return order


def check_replies(order: list[Receipt]) -> list:
    """Lists of rows give all kept answers, in this order. Returns the partitions at the end."""
    parts = Session(SPLITS).parts
    for number, (part, position, worker, asked) in enumerate(order):
        place = f"partition {part}, entry {position}, by worker {worker}, {number} of all: {asked.statement!r}"
        said = read_line(asked.statement.encode())
        is_own = not isinstance(said, str) and (said[0] not in ("delete", "update") or said[1][0] == part)
        if not is_own or (asked.key is not None and not parts[part].has(asked.key)):
            raise Wrong(f"{place} is no command of this partition")
        expect(place, parts[part].answer(*said), asked.lines)
    return parts


@dataclasses.dataclass
class Lived:
    """The final numbers of a partition: commands that it accepted, in all and since its last checkpoint, that it was
    asked, and that its gate refused."""

    part: int
    limits: Limits
    accepted: int = 0
    kept: int = 0
    was_folded: bool = False
    asked: int = 0
    gave_up: int = 0

    def check_checkpoint(self, asked: Asked) -> None:
        """A checkpoint reports at most as many entries as a history may have, or there is no such partition."""
        folded = asked.lines[0].removeprefix("folded ")
        is_right = folded.isdecimal() and int(folded) <= self.limits.history
        is_right = is_right if self.part in PARTS else asked.lines == ["refused 5"]
        if not is_right or asked.statement != f"checkpoint {self.part}":
            raise Wrong(f"partition {self.part}: {asked.statement!r} was answered {asked.lines!r}")

    def check(self, asked: Asked, was: set[str]) -> None:
        """A refusal has its cause. `was` is the worker's previous reply, after which only a checkpoint changes it."""
        is_there = self.part in PARTS
        is_outside = is_there and asked.key is not None and not Session(SPLITS).parts[self.part].has(asked.key)
        is_full = self.kept == self.limits.history or (self.was_folded and self.accepted >= self.limits.history)
        is_open, full = not is_outside and "refused 10" not in was, f"refused 6 {self.limits.history}"
        right = {
            "refused 4": is_outside,
            "refused 5": not is_there,
            full: is_open and is_full,
            "refused 7": is_there,
            "refused 9": asked.key is not None and is_open and self.accepted >= self.limits.cells,
            "refused 10": is_there and not is_outside and self.accepted == self.limits.life,
        }
        is_right = is_there and is_open and (full not in was or self.was_folded)
        if not (right.get(asked.lines[0], False) if asked.is_refused else is_right):
            raise Wrong(f"partition {self.part}: {asked} with {self}, after {was}")
        was.add(asked.lines[0])
        self.asked += 1
        self.gave_up += asked.lines[0] == "refused 7"


def check_refusals(printed: Printed, limits: Limits) -> None:
    """Refusals have their causes, limits hold, and the gate was asked once for each command."""
    lived = {part: Lived(part, limits) for part, _ in (it for found in printed.answers.values() for it in found)}
    for part in PARTS:
        accepted, folded = len(printed.histories[part]), printed.folded[part]
        lived[part] = Lived(part, limits, accepted, accepted - folded, folded > 0)
    for answers in printed.answers.values():
        was = collections.defaultdict(set)
        for part, asked in answers:
            if asked.is_checkpoint:
                lived[part].check_checkpoint(asked)
            else:
                lived[part].check(asked, was[part])
    for it in (lived[part] for part in PARTS):
        is_within = it.kept in range(limits.history + 1) and it.accepted <= limits.life
        if not is_within or it.gave_up != it.asked // REFUSED_BY_THE_GATE:
            raise Wrong(f"a limit was passed, or the gate was asked otherwise: {it}")


def check(printed: Printed, workers: int, statements: int, limits: Limits) -> tuple[int, int]:
    """Checks all of it. Returns how many entries there are, and how many of them follow one of another worker."""
    expect("partitions with histories", list(PARTS), list(printed.histories))
    expect("workers", list(range(workers)), list(printed.answers))
    expect("workers with receipts", list(range(workers)), list(printed.receipts))
    check_receipts(printed, statements)
    order = in_one_order(printed)
    rows = [len(it.rows) for it in check_replies(order)]
    check_folded(printed)
    check_refusals(printed, limits)
    if max(rows) > limits.cells:
        raise Wrong(f"partitions have {rows} rows, in at most {limits.cells} cells")
    kinds = collections.Counter(it.asked.lines[0].split(" ")[0] for it in order)
    totals = f"accepted {len(order)} inserted {kinds['row']} deleted {kinds['gone']} held {sum(rows)}"
    expect("totals", f"{totals}\n", printed.totals)
    follows = sum(one[0] != two[0] for history in printed.histories.values() for one, two in zip(history, history[1:]))
    return len(order), follows


def words_of(seed: int, statements: int, policy: str, workers: int = WORKERS) -> list[str]:
    """The command line of a run. By the seed histories get full, cells may run out, or lives end early."""
    each = statements * workers // len(PARTS)
    all_limits = [Limits(each // 2 + 1), Limits(MOST_ENTRIES, each // 16 + 1)]
    limits = [*all_limits, Limits(each // 8 + 1, life=each * 3 // 4 + 1)][seed % 3]
    return [str(it) for it in (seed, workers, statements, policy, *limits[:3])]


def check_seed(program: str, seed: int, statements: int = STATEMENTS) -> None:
    """Tests the runs of a seed, one under each policy."""
    for policy in POLICIES:
        words = words_of(seed, statements, policy)
        try:
            status, wrote, complained = ran([program, "histories", *words], "")
            expect("status and standard error", (0, ""), (status, complained))
            entries, follows = check(Printed(wrote), WORKERS, statements, Limits(*map(int, words[4:])))
        except Exception as error:
            raise Wrong(f"crack_bench histories {' '.join(words)}: {error}") from error
        print(f"histories: seed {seed}, {policy}: {entries} entries, of which {follows} follow one of another worker")


def soak(crackd: str, seed: int) -> None:
    """The same for the program that was built beside `crackd`, with ten times as many statements."""
    check_seed(built("crack_bench", pathlib.Path(crackd).resolve().parents[3]), seed, STATEMENTS_OF_A_SOAK)


class Histories(fixtures.Case):
    """The answers to the workers of each seed, under each policy."""

    needs = "crack_bench"


class Texts(unittest.TestCase):
    """The texts of data/histories.txt, which are of two workers."""

    def assert_passes(self, text: str, changes: str, asked: str, bounds: str) -> None:
        """A text passes with changes, each of two lines: the old text and the new one."""
        for old, new in re.findall(r"^- (.*)\n\+ ?(.*)$", changes, re.MULTILINE):
            old, new = old.replace("\\n", "\n"), new.replace("\\n", "\n")
            assert old in text, old
            text = text.replace(old, new)
        limits = Limits(**{word: int(number) for word, number in re.findall(r"(\w+) (\d+)", bounds)})
        check(Printed(text), 2, int(asked), limits)

    def assert_found(self, *given: str) -> None:
        self.assertRaises(Wrong, self.assert_passes, *given)


# a check for each text of data/histories.txt, and for each change that makes it wrong
for head, texts in fixtures.sections("histories.txt").items():
    right, *altered = texts.split("\n== ")
    name, asked, bounds = HEAD.match(f"{head}\n").groups()
    fixtures.add(Texts, name, Texts.assert_passes, f"{right.strip()}\n", "", asked, bounds)
    for it in altered:
        what, _, other = HEAD.match(f"{it}\n").groups()
        fixtures.add(Texts, f"{name}, {what}", Texts.assert_found, f"{right.strip()}\n", it, asked, other or bounds)
fixtures.add_seeds(Histories, extent.seeds(SEEDS, 2, "histories"), check_seed)
