"""Seeded scripts of a thousand random statements of all kinds; plain_session.py must give the same answers.

The seed determines the number of splits, the greatest key, whether histories get full, whether limits are so small that
statements are often refused with 6, 9 and 10, and whether checkpoints are automatic, so that none is refused with 6.
Keys and range ends are often splits, or next to one, or at a limit; so are payloads, which have either sign.
Checkpoints occur among the other statements.
"""

import random
import typing

import compare
import fixtures
from plain_session import LEAST_PAYLOAD, MOST, MOST_PAYLOAD, NO_LIMIT, POLICIES, RANGES
from plain_session import Limits, Part, Session, read_line, statements

# the limits of numbers of 31, 32, 63 and 64 bits: with too few bits, or another sign, these become other numbers
EDGES = [0, 1, 2**31 - 1, 2**31, 2**32 - 1, 2**32, 2**32 + 1, 2**63 - 1, 2**63, 2**63 + 1, 2**64 - 2, 2**64 - 1, 2**64]
STATEMENTS = 1000
SEEDS = range(36)
# by the seed: the greatest key; how many splits there are, how many entries a full history has (that of the greatest
# keys gets full), and about how many commands a partition accepts in all if limits are small
KEYS = [20, 1000, MOST - 1]
SPLITS = [(0, 700, 500), (4, 200, 230), (15, 200, 110)]
# out of a thousand statements, how many of each kind
KINDS = {"insert": 300, "delete": 120, "update": 120, "count": 120, "sum": 90, "select": 60, "layout": 80}
KINDS |= {"checkpoint": 30, "policy": 20, "ping": 10, "stats": 20, "other part": 10, "bad range": 10, "bad line": 10}


def random_bound(numbers: random.Random, splits: list[int], most: int) -> int:
    """A number up to one above `most`, often a split or next to one, or at a limit."""
    drawn = numbers.random()
    if splits and drawn < 0.4:
        return numbers.choice(splits) + numbers.choice([-1, 0, 1])
    if drawn < 0.5:
        return min(numbers.choice(EDGES), most + 1)
    return numbers.randrange(most + 2)


def random_splits(numbers: random.Random, most: int, count: int) -> list[int]:
    """This many splits up to `most`, rising, some of them at limits."""
    found = {it for it in numbers.sample(EDGES, min(count // 2, len(EDGES))) if 1 <= it <= most}
    while len(found) < count:
        found.add(numbers.randrange(1, most + 1))
    return sorted(found)


def random_payload(numbers: random.Random) -> int:
    """A payload of any length, often at a limit; half of them are negative."""
    drawn = numbers.choice(EDGES) if numbers.random() < 0.4 else numbers.getrandbits(numbers.randrange(1, 64))
    return min(max(numbers.choice([-1, 1]) * drawn, LEAST_PAYLOAD), MOST_PAYLOAD)


def payload_text(numbers: random.Random, payload: int) -> str:
    """A spelling of a payload: 0 may have a sign, and any may have leading zeros."""
    sign = "-" if payload < 0 or payload == 0 and numbers.random() < 0.5 else ""
    return sign + str(abs(payload)).rjust(numbers.choice([0, 0, 0, 20]), "0")


def changed(numbers: random.Random, text: bytes, likely: bytes) -> bytes:
    """These bytes with one of them changed, inserted or removed; half of the time the new byte is a likely one."""
    at = numbers.randrange(len(text) + 1)
    byte = b"%c" % (numbers.randrange(256) if numbers.random() < 0.5 else numbers.choice(likely))
    return text[:at] + numbers.choice([byte, b""]) + text[at + numbers.randrange(2) :]


def bad_lines(key: int, serial: int, low: int) -> list[str]:
    """Lines that aren't statements: with unknown words, or with numbers and signs past the limits."""
    words = [f"insert {key}", f"Delete 0.{serial}", f"delete {serial}", f"sum {low}", "rows", "checkpoint"]
    payloads = [str(MOST_PAYLOAD + 1), str(LEAST_PAYLOAD - 1), "+1", "- 1", "--1", "-", "-" + "0" * 21, "1-"]
    keys = [f"insert {MOST} 1", "insert -1 1", "insert -0 1", f"count -1 {low}", f"sum {low} -0"]
    rows = [f"update 0.{serial} {MOST} 1", f"update 0.{serial} {key} {LEAST_PAYLOAD - 1}"]
    return [*words, *(f"insert {key} {it}" for it in payloads), *keys, *rows]


def kind_of(numbers: random.Random, often: dict[str, int]) -> str:
    """One of these kinds, drawn by these frequencies."""
    return numbers.choices(list(often), list(often.values()))[0]


def statement(kind: str, row: str, key: object, payload: object, low: object, high: object, policy: object) -> str:
    """A statement of a kind, from those of these arguments that it has."""
    words = {
        "insert": f"{key} {payload}",
        "delete": row,
        "update": f"{row} {key} {payload}",
        "layout": row.split(".")[0],
        "checkpoint": row.split(".")[0],
        "policy": policy,
        "ping": "",
        "stats": row.split(".")[0] if len(row) % 2 else "",
        "quit": "",
    }
    return f"{kind} {words.get(kind, f'{low} {high}')}".rstrip(" ")


def random_statement(numbers: random.Random, session: Session, most: int) -> str:
    """A random statement. Keys are at most `most`."""
    bound = lambda: random_bound(numbers, session.splits, most)
    key, payload = min(bound(), most), payload_text(numbers, random_payload(numbers))
    part, kind = numbers.choice(session.parts), kind_of(numbers, KINDS)
    number, serial = part.number, numbers.randrange(part.next + 2)
    low, high = sorted((bound(), numbers.choice([bound(), bound(), MOST, MOST, numbers.choice(EDGES)])))
    if kind == "bad line":
        return numbers.choice(bad_lines(key, serial, low))
    if kind == "other part":
        kind, number = numbers.choice(["delete", "update", "layout", "checkpoint", "stats"]), len(session.parts)
        number += numbers.randrange(3)
    elif kind == "update" and numbers.random() < 0.7:
        key = min(max(key, part.low), part.high - 1)
    elif kind == "bad range":
        kind = numbers.choice(RANGES)
        low, high = numbers.choice([(high + 1, high), (low, MOST + 1)])
    return statement(kind, f"{number}.{serial}", key, payload, low, high, numbers.choice(POLICIES))


def drawn(session: Session, many: int, draw: typing.Callable[[], str]) -> bytes:
    """A text of this many statements, each drawn once the session has answered those before it."""
    text = b""
    for _ in range(many):
        line = draw().encode("ascii")
        session.answer(read_line(line))
        text += line + b"\n"
    return text


def random_text(numbers: random.Random, session: Session, many: int, most: int) -> bytes:
    """A random session of this many statements."""
    return drawn(session, many, lambda: random_statement(numbers, session, most))


def script(seed: int) -> tuple[list[str], bytes, list[int], Limits]:
    """The words of the command line, the input, the splits and the limits."""
    numbers, given = random.Random(seed), b""
    most, (count, small, life) = KEYS[seed % 3], SPLITS[seed // 3 % 3]
    is_tight, is_automatic = bool(seed // 9 % 2), bool(seed // 18 % 2)
    splits = random_splits(numbers, most, count)
    limits = Limits(small if most == KEYS[-1] else NO_LIMIT, is_automatic=is_automatic)
    if is_tight:
        bounds = numbers.randrange(5, 60), numbers.randrange(3, 30), numbers.randrange(3 * life // 4, life)
        limits = Limits(*bounds, is_automatic=is_automatic)
    session, policy = Session(splits, limits), numbers.choice(POLICIES)
    while given.count(b"\n") < STATEMENTS - 1:
        line = random_statement(numbers, session, most)
        given += f"{line}\n".encode("ascii")
        answer = session.answer(read_line(line.encode("ascii")))
        is_full = not isinstance(answer, Part) and answer[0].startswith("refused 6")
        if is_tight and is_full and numbers.random() < 0.2:
            for part in session.parts:
                part.checkpoint()
                given += b"checkpoint %d\n" % part.number
    words = ["script", *map(str, splits[:2]), *limits.words(), "--policy", policy, *map(str, splits[2:])]
    return words, given + b"quit\n", splits, limits


def check_session(
    program: str, given: bytes, splits: typing.Iterable[int] = (), limits: Limits = Limits(), piece: int = 65536, **how
) -> None:
    """Checks the answers to a session, given in pieces of this size; the command line may have further words."""
    words = how.get("words", ["script", *limits.words(), *map(str, splits)])
    status, wrote, complained = fixtures.fed([program, *words], given, piece)
    fixtures.expect("status and standard error", (0, b""), (status, complained))
    compare.compare(statements(given), wrote, Session(splits, limits))


def check(program: str, seed: int) -> None:
    """Checks the program's answers to the script of a seed."""
    words, *given = script(seed)
    check_session(program, *given, words=words)
