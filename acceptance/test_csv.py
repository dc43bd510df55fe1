"""CSV of all kinds, cut anywhere: the export must be that of plain_session.py."""

import random
import typing

import extent
import fixtures
import random_script
import run_cases
from fixtures import expect
from plain_session import HEADER, MARK, Limits, complaint, exported

SMALL = b"key,payload\n150,6\n50,5\n"
# fields beyond the limits of keys and of payloads; and fields that are neither
PAST = [[b"18446744073709551616", b"-1"], [b"9223372036854775808", b"-9223372036854775809"]]
NONE = [b"", b" 1", b"+1", b"- 1", b"-", b"x", b"0" * 21, b'1"2', MARK + b"1"]


def refused(record: int) -> fixtures.Ended:
    """The result of an input whose record with this number isn't a row."""
    return 1, b"", complaint(f"refused 19 {record}")


def check_input(
    program: str, given: bytes, splits=(), limits: Limits = Limits(), piece: int = 65536, wanted: typing.Any = None
) -> None:
    """Checks the result of these bytes, given in pieces."""
    words = ["csv", *limits.words(), *map(str, splits)]
    what = f"{given[:80]!r} (of {len(given)} bytes, in pieces of {piece}), {' '.join(words)}"
    expect(what, wanted or exported(given, splits, limits), fixtures.fed([program, *words], given, piece))


def random_field(numbers: random.Random, place: int) -> bytes:
    """A key, or at another place than the first a payload, often at a limit; rarely another text; sometimes quoted."""
    drawn = numbers.random()
    if place:
        text = random_script.payload_text(numbers, random_script.random_payload(numbers)).encode("ascii")
    else:
        key = numbers.randrange(300) if drawn < 0.8 else numbers.choice(random_script.EDGES[:-1])
        text = (b"%d" % key).rjust(numbers.choice([0, 0, 20]), b"0")
    if drawn > 0.995:
        text = numbers.choice([*PAST[min(place, 1)], *NONE])
    return b'"' + text + b'"' if numbers.random() < 0.2 else text


def random_input(numbers: random.Random) -> bytes:
    """Random records, most of them right, with or without a header."""
    given = numbers.choice([b"", HEADER, MARK, MARK + HEADER, b'"key","payload"\r\n'])
    for _ in range(numbers.randrange(400)):
        count = 2 if numbers.random() < 0.998 else numbers.randrange(5)
        fields = b",".join(random_field(numbers, place) for place in range(count))
        given += fields + numbers.choice([b"\n", b"\n", b"\r\n", b"\r", b"\n\n", b"\r\n\r"])
    return given


def check(program: str, seed: int) -> None:
    """Checks the results of the random records of a seed, whole, cut off, and with a byte changed."""
    numbers = random.Random(seed)
    splits = random_script.random_splits(numbers, numbers.choice([300, 2**64 - 1]), numbers.randrange(4))
    limits = numbers.choice([Limits()] * 5 + [Limits(100), Limits(cells=100), Limits(life=100)])
    given = random_input(numbers)
    cuts = [given[: numbers.randrange(len(given) + 1)] for _ in range(10)]
    others = [random_script.changed(numbers, given, b'",\r\n 09-+\0') for _ in range(10)]
    piece = numbers.choice([1, 3, 64, 4096, 65536])
    for it in [given, *cuts, *others]:
        check_input(program, it, splits, limits, piece)


def check_pieces(program: str, seed: int) -> None:
    """Checks that random records are loaded as a whole if each read gives a random number of their bytes."""
    numbers = random.Random(seed)
    given, splits = random_input(numbers), random_script.random_splits(numbers, 300, numbers.randrange(3))
    most, pieces, at = numbers.choice([10, 100, 4096]), [], 0
    while at < len(given):
        pieces.append(given[at : at + numbers.randint(1, most)])
        at += len(pieces[-1])
    words = ["csv", *map(str, splits)]
    what = f"{given[:80]!r} (of {len(given)} bytes, in {len(pieces)} pieces), {' '.join(words)}"
    expect(what, exported(given, splits), fixtures.fed_in_turns([program, *words], pieces))


class Csv(fixtures.Case):
    """CSV of all kinds."""

    def test_cut_anywhere(self) -> None:
        """A small input is cut after each byte; the specification's table and plain_session.py have the results."""
        # by the length: the number of the refused record, or 0, and how many rows are exported
        ends = [(0, 0)] + [(1, 0)] * 10 + [(0, 0)] * 2 + [(2, 0)] * 4 + [(0, 1)] * 2 + [(3, 1)] * 3 + [(0, 2)] * 2
        rows = [b"150,6\n", b"50,5\n"]
        for size, (record, count) in enumerate(ends):
            right = refused(record) if record else (0, HEADER + b"".join(rows[:count]), b"")
            self.assertEqual(exported(SMALL[:size]), right, "plain_session.py reads CSV otherwise than by the table")
            check_input(self.program, SMALL[:size], wanted=right, piece=size % 5 + 1)
        for size in range(len(SMALL) + 1):
            check_input(self.program, SMALL[:size], [100])

    def test_quotes_and_ends_of_all_kinds(self) -> None:
        """Quotes, line ends, byte order marks and signs, where they are allowed and where not, cut after each byte."""
        for it in run_cases.inputs("csv"):
            for size in range(1, len(it) + 1):
                check_input(self.program, it[:size])

    def test_a_byte_order_mark_in_pieces(self) -> None:
        """A byte order mark is dropped however it is read."""
        for piece in [1, 2, 3, 4]:
            check_input(self.program, MARK + b"key,payload\n1,2\n", piece=piece)


fixtures.add_seeds(Csv, extent.seeds(range(1, 21), 4, "csv"), check)
fixtures.add_seeds(Csv, extent.seeds(range(101, 121), 4, "pieces"), check_pieces)
