"""Lines of all kinds, cut into pieces anywhere, and random scripts: the answers must be those of plain_session.py.

A line is made of the grammar's words, numbers at their limits, spaces, carriage returns and bytes 0 to 255, or is a
statement with a byte or a word changed, inserted or removed. A session is written in pieces, whose size depends on the
seed, so that the program's reads end anywhere. Also, statements are cut after each byte.
"""

import random
import re
import sys

import extent
import fixtures
import ordered_script
import random_script
import run_cases
from plain_session import FIELDS, LAST, POLICIES, Limits, Session, read_line, replies, statements

SESSION_LINES = 5000
NUMBERS = [0, 1, 2, 9, 10, 99, 100, 101, *random_script.EDGES, 2**64 + 1, 10**19, 10**20 - 1, 10**20]
ODD_NUMBERS = (
    b"|-1|+1|1.0|0x1|1e3|1_0|\xb2|00000000000000000001|000000000000000000001|-|-0|--1|- 1|+-1|1-|-1.0|-1_0|-\xb2|"
    b"\xe2\x88\x921|00000000000000000000|000000000000000000000|-00000000000000000000|-000000000000000000000"
).split(b"|")
WORDS = [it.encode() for it in [*FIELDS, "stats", "policy", *POLICIES]]
ODD_WORDS = b"INSERT inser inserts insert1 row refused bye none checkpoints fold \xc3\xa9 \0 # --".split(b" ")
# gaps between words; and lines without words
GAPS = [b" "] * 12 + [b"  ", b"   ", b"\t", b"", b"\r"]
SPACES = [b"", b" ", b"\r", b"\r\r", b" \r", b"\r ", b"\0", b"\x80", b" " * 200, b" " * 201, b" " * 200 + b"\r"]
# requests of HTTP, each with statements in its body
REQUESTS = [
    b"POST / HTTP/1.1\r\nHost: 127.0.0.1:4000\r\n\r\ninsert 1 1\ncount 0 5\n",
    b"GET /" + b"x" * 300 + b" HTTP/1.1\ncount 0 5\n",
    b"content-type:text/plain\n\nquit\n",
    b"X-1: 1\ninsert 1 1\n",
]
ENDS = [b"", b"quit", b"quit\n", b"quit\nlayout 0\n", b"count 0 5", b"count 0 5\r", b"count 0 ", b"\r", b" " * 201]
ENDS += REQUESTS
# how many bytes are written at a time
PIECES = [1, 2, 3, 7, 199, 201, 4095, 4096, 4097, 65536]
ASKED = b"\nselect 0 18446744073709551616\nsum 0 18446744073709551616\n"


def random_number(numbers: random.Random) -> bytes:
    """The digits of a number, often at a limit, sometimes with leading zeros, or something else."""
    drawn = numbers.random()
    if drawn < 0.08:
        return numbers.choice(ODD_NUMBERS)
    text = b"%d" % (numbers.choice(NUMBERS) if drawn < 0.4 else numbers.randrange(300))
    return text.rjust(numbers.randrange(1, 23), b"0") if drawn > 0.9 else text


def random_row(numbers: random.Random) -> bytes:
    """A row number, or nearly one."""
    drawn = numbers.random()
    if drawn < 0.1:
        between = numbers.choice([b".", b" .", b". ", b"..", b",", b""])
        return random_number(numbers) + between + random_number(numbers)
    if drawn < 0.3:
        return random_number(numbers) + b"." + random_number(numbers)
    return b"%d.%d" % (numbers.randrange(4), numbers.randrange(200))


def random_words(numbers: random.Random) -> list[bytes]:
    """The words of a statement, or of nearly one."""
    number = lambda: random_number(numbers)
    kind = numbers.choice(WORDS if numbers.random() < 0.95 else ODD_WORDS)
    row, payload = random_row(numbers), numbers.choice([b"", b"-"]) + number()
    if kind in (b"layout", b"checkpoint", b"stats"):
        row = b"%d" % numbers.randrange(5) if numbers.random() < 0.7 else number()
    drawn = [row, number(), payload, number(), number(), numbers.choice(WORDS[-4:])]
    line = random_script.statement(*(it.decode("latin-1") for it in [kind, *drawn]))
    words = line.encode("latin-1").split(b" ")
    if numbers.random() < 0.05:
        words.insert(numbers.randrange(1, len(words) + 1), numbers.choice([*WORDS, *ODD_WORDS, number()]))
    if len(words) > 1 and numbers.random() < 0.05:
        words.pop(numbers.randrange(1, len(words)))
    return words


def random_statement(numbers: random.Random) -> bytes:
    """A statement, or nearly one: its words with spaces between, sometimes very many, or a tab."""
    line = numbers.choice([b"", b"", b"", b" "])
    for word in random_words(numbers):
        gap = numbers.choice([*GAPS, b" " * numbers.randrange(200)])
        line += word + (b" " if numbers.random() < 0.9 else gap)
    return line if numbers.random() < 0.2 else line.rstrip(b" ")


def padded(numbers: random.Random, line: bytes) -> bytes:
    """A line that is filled up to about the greatest length of a line, or that of a read."""
    size = numbers.choice([199, 200, 201, 202, 203, 4095, 4096, 4097, 4296, 5000])
    filling = numbers.choice([b" ", b"0", b"x", b"\r"])
    return numbers.choice([line.ljust(size, filling), line.rjust(size, filling)])


def random_line(numbers: random.Random) -> bytes:
    """A line of any kind, without its line end."""
    drawn = numbers.random()
    if drawn < 0.6:
        return random_statement(numbers)
    if drawn < 0.85:
        return random_script.changed(numbers, random_statement(numbers), b" \r.09\0\n-+")
    if drawn < 0.9:
        return padded(numbers, random_statement(numbers))
    return numbers.randbytes(numbers.randrange(300)) if drawn < 0.95 else numbers.choice(SPACES)


def random_input(numbers: random.Random, many: int) -> bytes:
    """A session of this many random lines, of which only the last may end it, and which may break off inside a line."""
    given: list[bytes] = []
    while len(given) < many:
        line = random_line(numbers) + numbers.choice([b"\n", b"\n", b"\n", b"\r\n"])
        if not any(it[0] in LAST for it in statements(line)):
            given.append(line)
    return b"".join(given) + numbers.choice(ENDS)


def check(program: str, seed: int) -> None:
    """Checks the answers to the random lines of a seed."""
    numbers = random.Random(seed)
    splits = sorted(numbers.sample([1, 10, 99, 100, 101, *random_script.EDGES[2:-1]], numbers.randrange(4)))
    limits = numbers.choice([Limits(), Limits(200), Limits(100, 50, 1000)])
    given = random_input(numbers, SESSION_LINES)
    random_script.check_session(program, given, splits, limits, PIECES[seed % len(PIECES)])


class Lines(fixtures.Case):
    """Lines of all kinds."""

    def assert_answered(self, given: bytes, piece: int = 65536) -> None:
        with self.subTest(given[:80]):
            random_script.check_session(self.program, given, piece=piece)

    def test_each_line_on_a_fresh_table(self) -> None:
        """Each line at the limits of words is the whole input, alone, and followed by a question for all rows."""
        lines = [line for it in run_cases.all_cases("words") for line in it.given.split(b"\n")[:-1]]
        for it in extent.some(lines, 60, "lines"):
            for end in [b"\n", ASKED]:
                self.assert_answered(it + end)
        for it in [b"insert 1 1".ljust(200) + b"\r\n", b"\r", b"checkpoint 0"]:
            self.assert_answered(it)

    def test_cut_anywhere(self) -> None:
        """Statements are cut after each byte: each breaks off or ends a session there, and all are one session."""
        whole = run_cases.inputs("statements")
        cuts = [it[:size] for it in whole for size in range(len(it) + 1)]
        for cut in extent.some(cuts, 60, "cuts"):
            for end in [b"", b"\r"]:
                self.assert_answered(b"insert 7 70\n" + cut + end)
        rest = [it[size:] for it in whole for size in range(len(it) + 1)]
        kept = [it for it in [*cuts, *rest] if read_line(it)[0] not in LAST]
        self.assert_answered(b"".join(it + end for it in kept for end in [b"\n", b"\r\n"]), piece=1)

    def test_requests_of_http(self) -> None:
        """Requests of HTTP are written in pieces of all sizes, at the beginning of a session and inside it."""
        for it in REQUESTS:
            for piece in PIECES:
                self.assert_answered(it + ASKED, piece)
                self.assert_answered(b"insert 7 70\n" + it + ASKED, piece)

    def test_each_byte_anywhere(self) -> None:
        """Each of the 256 bytes is put before, in and after a statement, and around a sign."""
        places = b"|sum 0 5, sum 0|5, sum 0 |5, sum 0 5|, insert 1 |5, insert 1 |-5, insert 1 -|5".split(b", ")
        given = [it.replace(b"|", bytes([byte])) for byte in range(256) for it in places]
        self.assert_answered(b"".join(it + b"\n" for it in given), piece=7)


class RandomScripts(fixtures.Case):
    """A script for each seed of random_script.py, and one that goes on for ever."""

    def test_for_ever(self) -> None:
        """A script whose histories get full again and again is answered as if they had no limit."""
        given = random_script.random_text(random.Random(1), Session([100]), 500, 200)
        given = b"".join(re.findall(rb"(?m)^(?!layout|checkpoint|stats).*\n", given))
        answers, wanted = list(map(Session([100], Limits(20)).answer, statements(given))), replies(given, [100])
        self.assertIn(["refused 6 20"], answers)
        self.assertNotIn(b"refused 6", wanted)
        command = [sys.executable, fixtures.TOP / "examples" / "for_ever.py", self.program, "20", "100"]
        for more, last in [(b"", b""), (b"quit\ninsert 1 1\n", b"bye\n")]:
            fixtures.expect("for_ever.py", (0, wanted + last, b""), fixtures.ran(command, given + more))


fixtures.add_seeds(Lines, extent.seeds(range(1, 21), 4, "lines"), check)
class OrderedScripts(fixtures.Case):
    """A script for each seed of ordered_script.py."""


fixtures.add_seeds(OrderedScripts, extent.seeds(ordered_script.SEEDS, 2, "ordered scripts"), ordered_script.check)
fixtures.add_seeds(RandomScripts, extent.seeds(random_script.SEEDS, 6, "random scripts"), random_script.check)
