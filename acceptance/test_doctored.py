"""Tests of the checks: they pass right answers, and find answers that are dropped, doubled, changed or unfounded."""

import contextlib
import io
import pathlib
import random
import re
import tempfile
import typing
import unittest
import unittest.mock

import fixtures
import plain_session
import random_script
import run_cases
import soak
import test_csv
import test_devices
import test_memory
from client_rows import Account, Counts, Own, come_to
from compare import check_totals, compare
from fixtures import Wrong, length_of
from plain_session import Limits, Session, bounds_of, exported, statements, text_of

REFUSALS, FULL = "refused 4, refused 2, refused 1", "row 0.0, refused 6 7, refused 6 7"
TOTALS = "accepted 9 inserted 4 deleted 1 held 3\n"
COUNTS = Counts(least=8, most=9, inserted=4, deleted=1)
FOUND, FAULTS = (Wrong, ValueError, IndexError), ["drop", "double", "change", "short"]


class Kind(typing.NamedTuple):
    """A kind of data/doctored.txt: its name, the limits of the partitions, and its lines, each with its mark."""

    name: str
    bounds: dict[str, int]
    lines: list[tuple[str, str]]

    @property
    def limits(self) -> Limits:
        return Limits(**{word: it for word, it in self.bounds.items() if word in Limits._fields})


def kinds(section: str) -> list[Kind]:
    """The kinds of a section, with words in capitals replaced by their lines."""
    found, words = [], {}
    for line in fixtures.sections("doctored.txt")[section].splitlines():
        mark, _, rest = line.partition(" ")
        rest = re.sub(r"[A-Z]{3,}\d?", lambda it: words.get(it[0], it[0]), rest)
        if mark == "==":
            name, _, bounds = rest.rpartition(":")
            found.append(Kind(name, {word: int(it) for word, it in re.findall(r"(\w+) (\d+)", bounds)}, []))
        elif mark == "=":
            word, _, words[word] = line.removeprefix("= ").partition(" ")
        elif mark:
            found[-1].lines.append((mark, rest.replace("\\s", " ")))
    return found


def parted(lines: str) -> list[str]:
    return lines.split(", ") if lines else []


def answered(one: Own, asked: str, told: str) -> Own:
    """A client that was given these lines as answers to statements."""
    left = parted(told)
    for statement in parted(asked):
        count = length_of(left[0])
        one.take(statement, left[:count])
        left = left[count:]
    fixtures.expect("lines that answer nothing", [], left)
    return one


class Replies(unittest.TestCase):
    """The kinds of replies in data/doctored.txt."""

    def hold(self, mark: str, check: typing.Callable, *given: object) -> typing.Any:
        """What a check returns for lines marked +; it must find all others wrong."""
        if mark == "+":
            return check(*given)
        return self.assertRaises(FOUND, check, *given)

    def assert_session(self, kind: Kind) -> None:
        (_, asked), *replies = kind.lines
        splits, short = [kind.bounds["split"]] if "split" in kind.bounds else [], kind.bounds.get("short", 0)
        for mark, lines in replies:
            given = statements(text_of(parted(asked))), text_of(parted(lines)), Session(splits, kind.limits), short
            with self.subTest(lines):
                self.hold(mark, compare, *given)

    def assert_client(self, kind: Kind) -> None:
        (_, asked), *replies = kind.lines
        for mark, lines in replies:
            with self.subTest(lines):
                self.hold(mark, answered, Own([150], 100, 200, kind.limits), asked, lines)

    def assert_end(self, kind: Kind) -> None:
        for mark, text in kind.lines:
            rows, _, counts = text.partition(" = ")
            with self.subTest(text):
                came = self.hold(mark, self.come_to, kind, rows) if mark in "+-" else None
                if mark == "+":
                    names = ["least", "most", "inserted", "deleted", "listed"]
                    self.assertEqual([came[it] for it in names], list(map(int, counts.split())))

    def come_to(self, kind: Kind, rows: str) -> Counts:
        """The counts of the clients of a kind in the section `ends` if these rows are left."""
        clients, account = [], Account([150])
        for mark, text in kind.lines:
            if mark in "12":
                asked, told, unread = re.fullmatch(r"(.*?) > (.*?)(?: \? (.*))?", text).groups("")
                one = Own([150], *((100, 200) if mark == "1" else (0, 100)), kind.limits)
                clients.append(answered(one, asked, told))
                one.unread = parted(unread)
        first, second, lines = rows.split(" ", 2)
        account.given = [int(first), int(second)]
        if lines.startswith("closed "):
            account.closed = {0: int(lines.removeprefix("closed "))}
        else:
            account.read_rows(parted(lines))
        return come_to(account, clients)

    def test_what_was_accepted(self) -> None:
        asked = "insert 110 5, insert 180 6, delete 0.0, select 100 200, update 1.0 120 9, count 120 110, insert 1"
        one = answered(Own([150], 100, 200), asked, "row 0.0, row 1.0, gone 110 5, rows 1, 1.0 180 6, " + REFUSALS)
        self.assertEqual(one.counts(), Counts(least=5, most=5, inserted=2, deleted=1, listed=1))
        one = answered(Own([150], 100, 200, Limits(7)), "insert 110 5, count 100 200, count 100 150", FULL)
        self.assertEqual((one.counts(), one.folded), (Counts(least=1, most=2, inserted=1), Counts()))
        answered(one, "checkpoint 0, checkpoint 1", "folded 7, folded 0")
        self.assertEqual((one.counts(), one.folded), (Counts(least=1, most=2, inserted=1), {0: 7, 1: 0}))

    def test_totals(self) -> None:
        for accepted in (8, 9):
            self.assertEqual(check_totals(TOTALS.replace("9", str(accepted)), COUNTS), accepted)
        others = [("9", "10"), ("9", "7"), ("d 4", "d 5"), ("d 4", "d 3"), ("d 1", "d 0"), ("d 1", "d 2"), ("3", "4")]
        lines = [TOTALS.replace(*it) for it in [*others, ("3", "2"), (" held 3", ""), ("4", "x")]]
        for line in [*lines, "", TOTALS + TOTALS]:
            self.hold("-", check_totals, line, COUNTS)


SECTIONS = {"sessions": Replies.assert_session, "clients": Replies.assert_client, "ends": Replies.assert_end}
for section, check in SECTIONS.items():
    for it in kinds(section):
        fixtures.add(Replies, f"{section} {it.name}", check, it)


class Reference(unittest.TestCase):
    """The lists in Python answer the acceptance cases as these say."""

    def test_scripts(self) -> None:
        scripts = [it for it in run_cases.all_cases() if "script" in it.words and it.wanted and not it.status]
        self.assertGreater(len(scripts), 150)
        for it in scripts:
            with self.subTest(it.name):
                wrote = b"".join(line.text for line in it.wanted)
                compare(statements(it.given), wrote, Session(*bounds_of(it.words)))

    def test_csv(self) -> None:
        exports = [it for it in run_cases.all_cases() if "csv" in it.words and not (it.source or it.target or it.texts)]
        exports = [it for it in exports if it.given or not it.complaints]
        self.assertGreater(len(exports), 20)
        for it in exports:
            wanted, complained = (b"".join(line.text for line in of) for of in (it.wanted, it.complaints))
            right = int(it.status.text if it.status else b"0"), wanted, complained
            self.assertEqual(exported(it.given, *bounds_of(it.words)), right, it.name)

    def test_payloads_are_read_alike_in_csv(self) -> None:
        (typed,) = run_cases.all_cases("payloads-that-are-typed")
        for line in typed.given.splitlines()[:-1]:
            word, said = line.removeprefix(b"insert 7 "), plain_session.read_line(line)
            wrote = (1, b"", plain_session.complaint("refused 19 1"))
            if said != "refused 1":
                wrote = (0, b"key,payload\n7,%d\n" % said[1][1], b"")
            self.assertEqual(exported(b"7," + word), wrote, word)

    def test_typed_payloads_are_those_that_are_drawn(self) -> None:
        numbers = random.Random(1)
        drawn = [random_script.random_payload(numbers) for _ in range(2000)]
        for payload in drawn:
            typed = random_script.payload_text(numbers, payload).encode("ascii")
            self.assertEqual(plain_session.value(typed, *plain_session.PAYLOAD), payload)
        edges = {0, 1, -1, 2**32 - 1, -(2**32), 2**32, 2**63 - 1, -(2**63 - 1), -(2**63)}
        self.assertLessEqual(edges, set(drawn))

    def test_lines_end_as_the_rules_say(self) -> None:
        ends = {b"a\r\n\r\nb\r\r\nc\r": [b"a", b"", b"b\r", b"c"], b"": [], b"\n": [b""], b"\r": [b""]}
        for given, lines in ends.items():
            self.assertEqual(plain_session.lines(given), lines)
        self.assertEqual(statements(b"quit\nquit\n"), [("quit", [])])
        self.assertEqual(statements(b"count: 1\nquit\n"), [("http", [])])


def altered(lines: list[bytes], *more: typing.Callable) -> typing.Iterator[bytes]:
    """The text of these lines, with each line in turn dropped, doubled, changed or extended; or another number."""
    for at, line in enumerate(lines):
        puts = [[], [line, line], [line[:-2] + b"x\n"], *(it(line) for it in more)]
        for it in re.finditer(rb"\d+", line):
            puts.append([line[: it.start()] + b"%d" % (int(it[0]) + 1) + line[it.end() :]])
        yield from (b"".join([*lines[:at], *put, *lines[at + 1 :]]) for put in puts if put != [line])


class Comparison(fixtures.Case):
    """What is found wrong if something else is in what the program wrote."""

    GIVEN = (
        b"insert 1 -10\ninsert 2 -20\ndelete 0.7\nselect 0 5\nlayout 0\ncheckpoint 0\nnonsense\ndelete 0.0\nsum 0 5\n"
        b"layout 0\ncheckpoint 0\nquit\n"
    )
    OTHERS = ["refused 6 19", "refused 9", "refused 10", "folded 0", "folded 77", "row 0.0", "none", "changed"]

    def lines(self, given: bytes, *words: object) -> list[bytes]:
        """The lines that the program writes."""
        return fixtures.ran([self.program, *(words or ["script"])], given)[1].splitlines(keepends=True)

    def assert_found(self, check: typing.Callable[[bytes], object], texts: typing.Iterable[bytes]) -> None:
        """What a check finds wrong in each of these texts."""
        for it in texts:
            with self.subTest(it[-200:]):
                self.assertRaises(FOUND, check, it)

    def test_the_right_replies_pass_and_each_line_and_number_that_is_another_is_found(self) -> None:
        check, lines = lambda wrote: compare(statements(self.GIVEN), wrote), self.lines(self.GIVEN)
        self.assertEqual(check(b"".join(lines)).counts, Counts(least=6, most=6, inserted=2, deleted=1))
        pairs = [(b"-", b""), (b"-", b"--"), (b" ", b" +"), (b" ", b" -")]
        puts = [lambda line, pair=pair: [line.replace(*pair)] for pair in pairs]
        puts += [lambda line, put=put: [put, line] for put in (b"refused 1\n", b"\n")]
        puts += [lambda line: [line[:-1]], lambda line: [b" " + line], lambda line: [b"refused 8\n"]]
        self.assert_found(check, altered(lines, *puts))

    def test_each_reply_of_a_script_under_small_limits_that_is_another_is_found(self) -> None:
        words, given, *bounds = random_script.script(17)
        lines = [it.decode().rstrip("\n") for it in self.lines(given, *words)]
        check = lambda wrote: compare(statements(given), wrote, Session(*bounds))
        check(text_of(lines))
        refusals = {it.split(" ")[1] for it in lines if it.startswith("refused")}
        self.assertGreaterEqual(refusals, {"1", "2", "4", "5", "6", "9", "10"})
        of_kinds = [line if line.startswith("refused") else line.split(" ")[0].split(".")[0] for line in lines]
        for at in sorted(of_kinds.index(it) for it in set(of_kinds)):
            others = [it for it in self.OTHERS if it != lines[at]]
            self.assert_found(check, (text_of([*lines[:at], other, *lines[at + 1 :]]) for other in others))

    def test_each_line_and_each_total_of_a_batch_counts(self) -> None:
        texts = test_memory.worker_texts(1)
        words = ["batch", "--workers", test_memory.WORKERS, "--audit", *test_memory.SPLITS]
        lines = self.lines(test_memory.batch_text(texts), *words)
        check = lambda wrote: test_memory.check_batch(texts, wrote, 0)
        check(b"".join(lines))
        self.assert_found(check, altered(lines))

    def test_a_layout_that_a_refused_checkpoint_changed_is_found(self) -> None:
        given = statements(b"insert 1 1\ncount 5 9\nlayout 0\ncheckpoint 0\nlayout 0\n")
        text = "layout 0 rows {0} column {1} out 0 in {2} cells {0} free 0 pieces 3\npiece 0 5 {1}\npiece 5 9 0\n"
        text += f"piece 9 {plain_session.MOST} 0\n"
        none, pending, merged = (text.format(*it).encode() for it in [(0, 0, 0), (1, 0, 1), (1, 1, 0)])
        whole = compare(given, b"row 0.0\ncount 0\n" + pending + b"folded 2\n" + pending)
        check = lambda wrote: test_memory.check_layouts(given, compare(given, wrote, short=1), whole)
        kept = b"row 0.0\ncount 0\n" + pending
        check(kept + b"refused 8\n" + pending)
        # a refused row isn't there
        check(b"refused 8\ncount 0\n" + none + b"folded 1\n" + none)
        self.assert_found(check, [kept + b"refused 8\n" + merged, kept + b"folded 2\n" + merged])


def doctored(text: bytes, fault: str) -> bytes:
    """A text with a fault: its last line but one is dropped, doubled or changed; or its last statement is refused with
    8 though there is memory; or a byte is missing."""
    *front, line, last = [b"", b"", *text.splitlines(keepends=True)]
    put = {
        "drop": [last],
        "double": [line, line, last],
        "change": [line[:-2] + b"x\n" if line else line, last],
        "short": [line, b"refused 8\n"],
        "ahead": [line, last[:-1]],
    }
    return b"".join(front + put.get(fault, [line, last])) if text else text


class StandIns(fixtures.Case):
    """The checks themselves, over what the program writes, and over the same with a fault."""

    def with_fault(self, fault: str, check: typing.Callable, *given: object) -> None:
        """Runs a check over children whose output, or the file that they write to, has a fault."""

        def faulty(run: typing.Callable) -> typing.Callable:
            def ended(*words: typing.Any, **how: typing.Any) -> fixtures.Ended:
                status, wrote, complained = run(*words, **how)
                if "stdout" in how:
                    path = f"/proc/self/fd/{how['stdout'].fileno()}"
                    pathlib.Path(path).write_bytes(doctored(pathlib.Path(path).read_bytes(), fault))
                return status, wrote and doctored(wrote, fault), complained

            return ended

        patches = {name: faulty(getattr(fixtures, name)) for name in ("ran", "fed")}
        with unittest.mock.patch.multiple(fixtures, **patches):
            check(self.program, *given)

    def assert_finds(self, check: typing.Callable, *given: object, faults: typing.Iterable[str] = FAULTS) -> None:
        self.with_fault("none", check, *given)
        for fault in faults:
            with self.subTest(fault):
                self.assertRaises(FOUND, self.with_fault, fault, check, *given)

    def test_lines(self) -> None:
        given = random_script.random_text(random.Random(1), Session([100]), 200, 1000)
        self.assert_finds(random_script.check_session, given, [100], Limits(), 7)

    def test_csv(self) -> None:
        self.assert_finds(test_csv.check_input, test_csv.SMALL, [100])

    def test_devices(self) -> None:
        words, given, wanted = test_devices.SUBCOMMANDS[0]
        self.assert_finds(test_devices.check_file, words, given, wanted, len(wanted))
        for size in [5, len(wanted) - 1]:
            self.assert_finds(test_devices.check_file, words, given, wanted, size, faults=["ahead"])
        self.with_fault("ahead", test_devices.check_file, words, given, wanted, 0)

    @unittest.skipUnless(fixtures.refusing_library(), "no C compiler works here")
    def test_memory(self) -> None:
        given = test_memory.with_layouts(test_memory.scripts()["rows are updated"].given)
        check = lambda wrote, refused: compare(statements(given), wrote, short=refused)
        # a run has fewer calls for memory than this number, so none is refused
        which = {"from": test_memory.FOR_EVER, "to": test_memory.FOR_EVER}
        self.assert_finds(test_memory.run_once, ["script"], given, check, which)

    def test_a_sweep_that_refuses_a_checkpoint_is_found(self) -> None:
        run_once = lambda _program, _words, _given, check, _which, _text: check(b"row 0.0\nrefused 8\n", 1)
        with unittest.mock.patch.object(test_memory, "run_once", run_once):
            with self.assertRaisesRegex(Wrong, r"checkpoints that were refused: wanted '\[\]', got '\[1\]'"):
                test_memory.sweep_script(self.program, ["script"], b"insert 1 1\ncheckpoint 0\n", "alone")


class Soak(unittest.TestCase):
    def test_a_case_that_fails_is_reported_and_written(self) -> None:
        kind = soak.Kind("odd", None)
        with tempfile.TemporaryDirectory() as room, contextlib.redirect_stdout(io.StringIO()) as printed:
            failures = pathlib.Path(room) / "failures"
            for seed in range(4):
                kind.take_result(seed, f"{seed} is odd" if seed % 2 else None, 0.5, failures)
            written = {it.name: it.read_text() for it in failures.iterdir()}
        self.assertEqual(kind.told(), "soak: odd 2 passed, 2 failed, 2 seconds")
        self.assertEqual(written["odd-3.txt"], "python3 acceptance/soak.py --again odd 3\n\n3 is odd\n")
        self.assertIn("odd 1 FAILED", printed.getvalue())
        self.assertEqual(len(written), 2)

    def test_the_kind_that_had_the_least_time_is_next(self) -> None:
        first, second, shared = soak.Kind("a", None), soak.Kind("b", None, once=True), soak.Kind("c", None, shares=4)
        first.seconds, second.seconds, shared.seconds = 3, 2, 16
        self.assertIs(soak.next_kind([first, second, shared]), second)
        second.passed = 1
        self.assertIs(soak.next_kind([first, second, shared]), first)
        first.failed = soak.MOST_FAILURES
        self.assertIs(soak.next_kind([first, second, shared]), shared)
