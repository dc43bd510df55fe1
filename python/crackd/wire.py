"""The statements sent to a server and the meaning of its replies, apart from how they are sent.

Most functions are generators. Each yields statements with the number of lines of their replies, and receives these
lines. If the last line announces more lines, they are received with it. If the connection fails, the error is raised at
the `yield`. Its `given` has the whole lines that had come.
"""

from __future__ import annotations

from typing import Any, Generator, Optional

from .arrays import TOP, from_ints, joined_text, np, parsed, plain
from .base import MOST_PARTS
from .errors import refused
from .keys import Keys
from .layout import PartLayout
from .rows import SERIAL, SHIFT

FULL = b"refused 6 "
CHECKPOINTS = b"".join(b"checkpoint %d\n" % it for it in range(MOST_PARTS))
# the greatest number of statements that are sent before their replies are read
STATEMENTS_AT_ONCE = 100_000

Exchanges = Generator[tuple[bytes, int], bytes, Any]


def row_numbers(parts: Any, serials: Any) -> Any:
    """The row numbers made of these partitions and serials."""
    if np is not None:
        return parts << np.uint64(SHIFT) | serials
    return from_ints("Q", [part << SHIFT | serial for part, serial in zip(parts, serials)], "row numbers")


def listed(said: bytes) -> int:
    """The number of further lines that the last of these lines announces."""
    head = said[said.rfind(b"\n", 0, -1) + 1 :]
    return int(head.split()[-1]) if head.startswith((b"rows ", b"layout ", b"stats ")) else 0


def check(said: bytes, before: int = 0) -> None:
    """Raises an error if a reply is a refusal. Its `done` includes the `before` items of earlier blocks."""
    if b"refused" not in said:
        return
    lines = said.splitlines()
    is_refused = [line.startswith(b"refused") for line in lines]
    first = is_refused.index(True)
    raise refused(int(lines[first].split()[1]), before + first, is_refused[first:].count(False))


def placed(said: bytes) -> Any:
    """The row numbers in the replies to inserts."""
    told = parsed("Q", said.replace(b"row ", b"").replace(b".", b" "))
    return row_numbers(told[::2], told[1::2])


def numbers_of(rows: Any) -> tuple[list[int], list[int]]:
    """The partitions and the serials of row numbers."""
    return [it >> SHIFT for it in plain(rows)], [it & SERIAL for it in plain(rows)]


def asked(form: str, *columns: Any, heard: Optional[list[bytes]] = None) -> Exchanges:
    """Sends a statement for each row of the columns. Returns the replies, and adds them to `heard` as they come."""
    heard = [] if heard is None else heard
    for at in range(0, len(columns[0]), STATEMENTS_AT_ONCE):
        yield from asked_some(form, [it[at : at + STATEMENTS_AT_ONCE] for it in columns], heard)
        check(heard[-1], at)
    return b"".join(heard)


def asked_some(form: str, columns: list[Any], heard: list[bytes]) -> Exchanges:
    """Sends a statement for each row of the columns, and adds the replies to `heard`.

    If a history is full, makes checkpoints and sends the refused statements again.
    """
    try:
        heard.append((yield joined_text(form, *columns), len(columns[0])))
        if FULL in heard[-1]:
            heard[-1] = yield from again(form, columns, heard[-1])
    except BaseException as error:
        heard.append(getattr(error, "given", b""))
        raise


def again(form: str, columns: list[Any], said: bytes) -> Exchanges:
    """Sends again the statements that full histories refused, as long as checkpoints make room. Returns all replies."""
    lines, code = said.splitlines(keepends=True), 0
    full = [at for at, line in enumerate(lines) if line.startswith(FULL)]
    while full:
        text = joined_text(form, *([plain(it)[at] for at in full] for it in columns))
        code, replies = yield from after_checkpoints(text, len(full))
        for at, line in zip(full, replies.splitlines(keepends=True)):
            lines[at] = line
        left = [at for at in full if lines[at].startswith(FULL)]
        if code or len(left) == len(full):
            break
        full = left
    return b"".join(b"refused %d\n" % code if code and it.startswith(FULL) else it for it in lines)


def after_checkpoints(text: bytes, lines: int) -> Exchanges:
    """Sends statements directly after a checkpoint of each partition, so that no other call comes between.

    Returns the number of a checkpoint's refusal, or 0, and the replies to the statements.
    """
    said = yield CHECKPOINTS + text, MOST_PARTS + lines
    replies = said.split(b"\n", MOST_PARTS)
    return folded(replies[:-1])[1], replies[-1]


def folded(lines: list[bytes]) -> tuple[int, int]:
    """The number of entries that checkpoints removed, by their replies, and the number of a refusal, or 0."""
    said = [line.split() for line in lines]
    # 5 means that there are fewer partitions
    codes = [int(words[1]) for words in said if words[0] == b"refused" and words[1] != b"5"]
    return sum(int(words[1]) for words in said if words[0] == b"folded"), codes[0] if codes else 0


def answered(text: bytes, lines: int) -> Exchanges:
    """Sends statements, once more if a history is full. Returns their replies, or raises a refusal."""
    said = yield text, lines
    if FULL in said:
        code, said = yield from after_checkpoints(text, lines)
        said = b"refused %d\n" % code if code and FULL in said else said
    check(said)
    return said


# What a table does


def begin(policy: str) -> Exchanges:
    """Checks that the server answers a new connection, and sets the policy of its session."""
    # a server with too many clients refuses the first statement and closes the connection
    check((yield b"ping\n", 1))
    check((yield b"policy %b\n" % policy.encode("ascii"), 1))


def ping() -> Exchanges:
    """Checks that the server answers."""
    check((yield b"ping\n", 1))


def insert(key: int, payload: int) -> Exchanges:
    """Inserts a row. Returns its number."""
    rows = yield from insert_many(from_ints("Q", [key], "keys"), from_ints("q", [payload], "payloads"))
    return int(rows[0])


def insert_many(keys: Any, payloads: Any) -> Exchanges:
    """Inserts rows. Returns their numbers. An error has as `answers` those of the rows known to be inserted."""
    heard: list[bytes] = []
    try:
        return placed((yield from asked("insert %d %d\n", keys, payloads, heard=heard)))
    except BaseException as error:
        # a signal handler may raise anything
        lines = b"".join(heard).splitlines(keepends=True)
        error.answers = placed(b"".join(it for it in lines if it.startswith(b"row ")))  # type: ignore[attr-defined]
        raise


def take(row: int) -> Exchanges:
    """Deletes a row. Returns its key and payload, or None if it didn't exist."""
    words = (yield from asked("delete %d.%d\n", *numbers_of([row]))).split()
    return (int(words[1]), int(words[2])) if words[0] == b"gone" else None


def delete_many(rows: Any) -> Exchanges:
    """Deletes rows in order. Returns 1 for each that existed and 0 for each that didn't."""
    said = yield from asked("delete %d.%d\n", *numbers_of(rows))
    return from_ints("B", [line[:1] == b"g" for line in said.splitlines()], "flags")


def update_many(rows: Any, keys: Any, payloads: Any) -> Exchanges:
    """Replaces keys and payloads of rows, in order. Returns 1 for each row that exists, 0 for each other."""
    said = yield from asked("update %d.%d %d %d\n", *numbers_of(rows), keys, payloads)
    return from_ints("B", [line[:1] == b"c" for line in said.splitlines()], "flags")


def delete(row: int) -> Exchanges:
    """Deletes a row. Returns whether it existed."""
    return bool((yield from delete_many([row]))[0])


def update(row: int, key: int, payload: int) -> Exchanges:
    """Replaces the key and the payload of a row. Returns whether the row exists."""
    return bool((yield from update_many([row], [key], [payload]))[0])


def count(first: int, last: int) -> Exchanges:
    """Counts the rows whose keys have numbers from `first` to `last`, both included."""
    return int((yield from asked("count %d %d\n", [first], [last + 1]))[6:])


def count_many(firsts: Any, lasts: Any) -> Exchanges:
    """Counts the rows of each range, as `count` does."""
    said = yield from asked("count %d %d\n", firsts, [it + 1 for it in plain(lasts)])
    return parsed("q", said.replace(b"count ", b""))


def sum_of(first: int, last: int) -> Exchanges:
    """Sums the payloads of the rows whose keys have numbers from `first` to `last`, both included."""
    return int((yield from asked("sum %d %d\n", [first], [last + 1]))[4:])


def sum_many(firsts: Any, lasts: Any) -> Exchanges:
    """Sums the payloads of each range, as `sum_of` does."""
    said = yield from asked("sum %d %d\n", firsts, [it + 1 for it in plain(lasts)])
    return [int(line[4:]) for line in said.splitlines()]


def select(first: int, last: int) -> Exchanges:
    """Lists the rows whose keys are `first` to `last`, both included: row numbers, numbers of keys, payloads."""
    said = yield from answered(b"select %d %d\n" % (first, last + 1), 1)
    words = said.partition(b"\n")[2].replace(b".", b" ").split()
    numbers, keys, payloads = (parsed("Q", b" ".join(words[at::4])) for at in (0, 1)), words[2::4], words[3::4]
    return row_numbers(*numbers), parsed("Q", b" ".join(keys)), parsed("q", b" ".join(payloads))


def settle(policy: str) -> Exchanges:
    """Merges all pending rows, and sets the policy of the session again."""
    yield from answered(b"policy complete\ncount 0 %d\npolicy %b\n" % (TOP, policy.encode("ascii")), 3)


def checkpoint() -> Exchanges:
    """Makes a checkpoint of each partition. Returns how many commands they accepted since their last ones."""
    entries, code = folded((yield CHECKPOINTS, MOST_PARTS).splitlines())
    if code:
        raise refused(code)
    return entries


def stats(part: Optional[int]) -> Exchanges:
    """The numbers of the table and the server, or those of a partition, by name."""
    said = yield b"stats\n" if part is None else b"stats %d\n" % part, 1
    check(said)
    words = [line.split() for line in said.decode("ascii").splitlines()[1:]]
    return {name: int(number) for name, number in words}


def layouts(keys: Keys) -> Exchanges:
    """The layouts of all partitions."""
    found: list[PartLayout] = []
    for part in range(MOST_PARTS):
        said = yield b"layout %d\n" % part, 1
        if said == b"refused 5\n":
            break
        check(said)
        found.append(PartLayout.read(said.decode("ascii").splitlines(), keys))
    return found
