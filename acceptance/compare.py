"""Compares what a session wrote with the lists of plain_session.py, even if memory ran out for some statements.

Each statement that is answered `refused 8` must ask a partition, and must have no earlier cause for a refusal; the
lists then never see it. (A range over several partitions may have been answered in part. That part is in their
histories, so a checkpoint may report that many more entries; no row changes.) Every other reply must be the lists', to
the last byte. A layout is checked by equations, since no rule determines more of it: the sizes of the pieces add up to
the column; column, pending insertions and free cells add up to the cells; the rows are the column minus the pending
deletions plus the pending insertions, and as many as the list has; the pieces cover the partition's keys from one end
to the other without gaps; and each number is at least the known minimum.
"""

import collections
import dataclasses
import functools
import re

from fixtures import Wrong, expect
from plain_session import NO_CELL, RANGES, Part, Said, Session

SHORT = "refused 8"
# lines with numbers; each # matches a number
LAYOUT, PIECE = "layout # rows # column # out # in # cells # free # pieces #", "piece # # #"
NUMBERS = ["rows", "pending_insertions", "pending_deletions", "pieces", "cells", "free_cells"]
NUMBERS += ["commands_accepted", "commands_since_checkpoint"]
TOTALS, FOLDED = "accepted # inserted # deleted # held #", "folded #"
# the totals, as replies show them: `least` and `most` commands in histories (since a refused range may have been
# answered in part), and rows that were `inserted`, `deleted` and `listed`
Counts = collections.Counter[str]


@dataclasses.dataclass
class Seen:
    """How many statements found no memory, the answers, and the totals as these show them."""

    short: int = 0
    answers: list[list[str]] = dataclasses.field(default_factory=list)
    counts: Counts = dataclasses.field(default_factory=collections.Counter)

    def count(self, said: Said, parts: int, answer: list[str] | Part) -> None:
        """Counts the answer to a statement that asks this many partitions."""
        is_kept = parts and not isinstance(answer, Part) and said[0] != "checkpoint"
        if is_kept and not answer[0].startswith("refused"):
            inserted, deleted = said[0] == "insert", answer[0].startswith("gone")
            self.counts.update(least=parts, most=parts, inserted=inserted, deleted=deleted)


@functools.cache
def pattern_of(form: str) -> re.Pattern[str]:
    return re.compile(form.replace(".", "[.]").replace("#", "(0|[1-9][0-9]*)"))


def numbers_of(line: str, form: str) -> list[int]:
    """The numbers of a line, written without leading zeros; None if it has another form."""
    found = pattern_of(form).fullmatch(line)
    return [int(it) for it in found.groups()] if found else []


def check_totals(line: str, counts: Counts) -> int:
    """Checks a totals line. Returns the number of accepted commands."""
    accepted, *others = numbers_of(line.removesuffix("\n"), TOTALS) or [-1]
    right = [counts["inserted"], counts["deleted"], counts["inserted"] - counts["deleted"]]
    if not counts["least"] <= accepted <= counts["most"] or others != right:
        raise Wrong(f"totals {line!r}, where replies say {dict(counts)}")
    return accepted


def check_layout(lines: list[str], part: Part, rows: int | None = None) -> list[int]:
    """Checks the layout at the start of these lines, of a partition with this many rows, if their number is known.

    Returns the numbers of its first line.
    """
    head = numbers_of(lines[0] if lines else "", LAYOUT)
    pieces = [numbers_of(it, PIECE) for it in lines[1 : head[-1] + 1]] if head else []
    if not head or len(pieces) != head[-1] or not all(pieces):
        raise Wrong(f"no layout, but {lines[:3]}")
    number, reported, column, out, pending, cells, free, _ = head
    lows, highs, sizes = ([it[at] for it in pieces] for at in range(3))
    expect("ends of pieces, which join", [part.low, *highs], [*lows, part.high])
    expect("ends of pieces, which rise", sorted([*lows, part.high]), [*lows, part.high])
    expect(lines[0], (part.number, sum(sizes), cells), (number, column, column + pending + free))
    expect(f"{lines[0]}: rows", (reported, reported if rows is None else rows), (column - out + pending, reported))
    return head


def look(lines: list[str], part: Part) -> int:
    """The same, and what is known of the partition's cells. Notes whether there is a cell for one more row.

    Returns how many lines it has.
    """
    _, _, column, out, pending, cells, free, pieces = check_layout(lines, part, len(part.rows))
    is_right = part.waiting <= out <= len(part.doomed) and cells <= part.limits.cells
    if not is_right or pending < len(part.fresh) or column - out < len(part.settled):
        known = f"out {part.waiting} to {len(part.doomed)}, in {len(part.fresh)} or more, settled {len(part.settled)}"
        raise Wrong(f"{lines[0]!r}, where cells are {part.limits.cells} at most, {known}")
    part.has_cell = cells < part.limits.cells or free > 0
    return pieces + 1


def check_numbers(lines: list[str], parts: list[Part]) -> int:
    """Checks the numbers at the start of these lines, which are those of these partitions. Returns how many lines they
    have."""
    if not parts:
        expect("the reply", ["refused 5"], lines[:1])
        return 1
    found = [numbers_of(line, f"{name} #") for name, line in zip(["stats", *NUMBERS], lines)]
    if len(found) <= len(NUMBERS) or not all(found) or found[0] != [len(NUMBERS)]:
        raise Wrong(f"no numbers, but {lines[: len(NUMBERS) + 1]}")
    rows, pending, doomed, pieces, cells, free, accepted, since = (it[0] for it in found[1:])
    kept, folded, untold = (sum(getattr(part, name) for part in parts) for name in ("kept", "folded", "untold"))
    expect("rows and cells", (sum(len(part.rows) for part in parts), rows + doomed + free), (rows, cells))
    is_right = pending <= rows and len(parts) <= pieces and kept <= since <= kept + untold
    if not is_right or not folded + kept <= accepted <= folded + kept + untold:
        raise Wrong(f"{lines[: len(NUMBERS) + 1]}, where {kept} to {kept + untold} are kept, and {folded} checkpointed")
    return len(found)


def answer_of(session: Session, said: Said, line: str) -> list[str] | Part:
    """The list's answer to a statement. It may depend on the first line that was written."""
    parts = session.parts_of(said)
    if parts and said[0] == "checkpoint":
        # as many entries as the list has kept, or up to `untold` more, which were never reported
        folded = numbers_of(line, FOLDED)
        if folded and parts[0].kept < folded[0] <= parts[0].kept + parts[0].untold:
            parts[0].kept = folded[0]
    if parts and line == NO_CELL and said[0] in ("insert", "update"):
        return session.without_cell(said)
    return session.answer(said)


def take(session: Session, said: Said, lines: list[str], seen: Seen, may_be_first: bool) -> int:
    """Checks the answer at the start of these lines; see `compare`. Returns how many lines it has."""
    if said[0] == "stats":
        return check_numbers(lines, session.parts_of(said))
    line, parts = lines[0] if lines else "", len(session.parts_of(said))
    if line == SHORT:
        seen.short += 1
        seen.counts["most"] += parts - 1 if said[0] in RANGES else 0
        if not parts or (session.is_refused_without_memory(said) and not may_be_first):
            raise Wrong(f"{SHORT} where no memory is asked for")
        session.leave_without_memory(said)
        return 1
    answer = answer_of(session, said, line)
    seen.count(said, parts, answer)
    if isinstance(answer, Part):
        return look(lines, answer)
    expect("the reply", answer, lines[: len(answer)])
    return len(answer)


def compare(
    said: list[Said], wrote: bytes, session: Session | None = None, short: int = 0, may_be_first: bool = False
) -> Seen:
    """Compares what a session wrote with what it was sent: at most `short` statements found no memory.

    If `may_be_first`, this refusal may come before another one that is due, as it does at a desk.
    """
    if not wrote.isascii() or wrote[-1:] not in (b"", b"\n"):
        raise Wrong(f"no lines of text: {wrote[-80:]!r}")
    session, seen, lines = session or Session(), Seen(), wrote.decode("ascii").split("\n")[:-1]
    for number, one in enumerate(said, 1):
        try:
            taken = take(session, one, lines, seen, may_be_first)
        except Wrong as wrong:
            raise Wrong(f"statement {number}, {one!r}: {wrong}") from wrong
        seen.answers.append(lines[:taken])
        lines = lines[taken:]
    expect("lines that answer nothing", [], lines)
    if seen.short > short:
        raise Wrong(f"{seen.short} statements were answered {SHORT}, and only {short} calls were refused")
    return seen
