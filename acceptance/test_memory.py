"""Refuses memory to scripts, CSV, batches, servers and the sweeps of test programs, call by call.

Each call for memory in a run is refused in turn, from the first on, until no call of a run is refused: the call alone;
the call and the next three; the call and all later ones; and each call by chance, one in fifty. The answers must be
those of the lists of plain_session.py that never saw the statements refused with 8. No more statements may be refused
than calls were. A run may also end with 8 when the program opens the table, and a run of CSV anywhere, after a prefix
of its text. A small library, c/refusing.c, refuses the calls; without a C compiler these checks are skipped.

Each worker of a batch has its own partitions, so its replies are those of a list whatever the other threads do; the
clients of a server come one after another. If a totals line is printed it must agree with the replies.
"""

import collections
import contextlib
import functools
import itertools
import pathlib
import random
import re
import socket
import subprocess
import typing

import extent
import fixtures
import random_script
import run_cases
import test_units
from compare import SHORT, Seen, check_totals, compare
from fixtures import CRATES, Wrong, expect, refusing
from plain_session import POLICIES, Limits, Part, Session, bounds_of, complaint, statements

SECONDS = 20
FOR_EVER = 2**63
STATEMENTS = 200
CHANCES, ONE_IN = 40, 50
REFUSED = complaint("refused 8")
# how many seeds there are of each kind
RANDOM_SWEEPS, WORKER_SWEEPS = 4, 2
# and how many scripts, each in one way under one policy, where not all is tried
FEW_SCRIPTS = 60
# runs that write one text: their command lines, and their input
RECORDS = b"key,payload\n" + b"".join(b'%d,"%d"\n' % (key, key % 7 - 3) for key in range(0, 400, 9))
TEXTS = {"csv": (["csv", "100", "200"], RECORDS), "help": (["script", "--help"], b"")}
# which calls the run with this number refuses
WAYS = {
    "alone": lambda number: {"from": number, "to": number},
    "four": lambda number: {"from": number, "to": number + 3},
    "all": lambda number: {"from": number, "to": FOR_EVER},
    "chance": lambda number: {"one_in": ONE_IN, "seed": number},
}
WORKERS, WORKER_WAYS = 3, ["alone", "all", "chance"]
SPLITS = [100, 200, 300, 400, 500]
LINES, SESSIONS, SESSION_LINES = 40, 3, 25
KINDS = {"insert": 8, "delete": 3, "update": 3, "count": 2, "sum": 2, "select": 2}
KINDS |= {"layout": 1, "checkpoint": 2, "policy": 1}
# a test that passes whichever of its calls for memory is refused
SWEEP = re.compile(r"^fn (sweep_\w+)", re.MULTILINE)
Check = typing.Callable[[bytes, int], object]


@functools.cache
def scripts() -> dict[str, run_cases.Case]:
    """The scripts of merges_and_checkpoints.cases."""
    return {it.name.replace("-", " "): it for it in run_cases.all_cases("merges_and_checkpoints")}


def with_layouts(given: bytes, after: bytes = b"\n") -> bytes:
    """Statements, with a layout after each that ends like this."""
    return given.replace(after, after + b"layout 0\n")


def sweep(way: str, once: typing.Callable[[dict[str, int]], int], *names: object) -> None:
    """Refuses calls in one way, number by number, until a run has none that is refused; by chance there are this many
    runs. Where not all is tried, numbers are left out, drawn by these names.

    A run is given which calls are refused, and returns how many were.
    """
    number, drawn = 1, extent.numbers(way, *names)
    while number <= (CHANCES if way == "chance" else FOR_EVER):
        try:
            refused = once(WAYS[way](number))
        except (Wrong, subprocess.TimeoutExpired) as error:
            raise Wrong(f"{way} {number}: {error}") from error
        if not refused and way != "chance":
            return
        number = extent.after(number, drawn)


def run_once(program: str, words: list, given: bytes, check: Check, which: dict[str, int], text: bytes = b"") -> int:
    """Runs the program, and checks its output: with 8 a prefix of a text. Returns how many calls were refused."""
    with refusing(**which) as (environment, counted):
        how = {"env": environment, "close_fds": False}
        status, wrote, complained = fixtures.ran([program, *words], given, SECONDS, **how)
        calls, refused = counted()
    expect("whether a call for memory was seen", True, calls > 0)
    if (status, complained) == (1, REFUSED) and refused:
        is_front = text.startswith(wrote) and wrote[-1:] in (b"", b"\n")
        expect(f"whether a front of the text was written: {wrote[-80:]!r}", True, is_front)
        return refused
    expect("status and standard error", (0, b""), (status, complained))
    check(wrote, refused)
    return refused


def sweep_runs(program: str, words: list, given: bytes, check: Check, way: str, text: bytes = b"") -> None:
    """Sweeps in one way over runs that a function checks."""
    sweep(way, lambda which: run_once(program, words, given, check, which, text), words, given)


def check_layouts(said: list, seen: Seen, whole: Seen) -> None:
    """Layouts must be as without refused memory up to the first answer that differs; checkpoints change none."""
    for number, (one, got, right) in enumerate(zip(said, seen.answers, whole.answers), 1):
        if one[0] not in ("checkpoint", "layout") and got != right:
            return
        if one[0] == "layout" and got not in (right, [SHORT]):
            raise Wrong(f"statement {number}: another layout than where no memory is refused")


def sweep_script(program: str, words: list[str], given: bytes, way: str) -> None:
    """Sweeps in one way over a session of one partition, in which no checkpoint may be refused."""
    said, bounds = statements(given), bounds_of(words)
    status, wrote, _ = fixtures.ran([program, *words], given, SECONDS)
    expect("status where no memory is refused", 0, status)
    whole = compare(said, wrote, Session(*bounds))

    def check(wrote: bytes, refused: int) -> None:
        seen = compare(said, wrote, Session(*bounds), refused)
        pairs = enumerate(zip(said, seen.answers))
        short = [at for at, (one, got) in pairs if one[0] == "checkpoint" and got == [SHORT]]
        expect("checkpoints that were refused", [], short)
        check_layouts(said, seen, whole)

    sweep_runs(program, words, given, check, way)


def check_script(program: str, way: str, policy: str, name: str) -> None:
    """Sweeps in one way over a script under a policy, with layouts; in a long script only after checkpoints."""
    it = scripts()[name]
    texts = [it.given]
    if it.given.count(b"\n") > STATEMENTS:
        texts = [with_layouts(it.given, b"checkpoint 0\n")]
    elif way != "all":
        texts = [with_layouts(it.given), *([] if b"checkpoint" in it.given else texts)]
    for given in texts:
        sweep_script(program, ["script", "--policy", policy, *it.words[1:]], given, way)


def check_text(program: str, way: str, name: str) -> None:
    """Sweeps in one way over a run that writes one text, or a prefix of it if it ends with 8."""
    words, given = TEXTS[name]
    text = fixtures.ran([program, *words], given, SECONDS)[1]
    sweep_runs(program, words, given, lambda wrote, _: expect("the text", text, wrote), way, text)


def check_random(program: str, way: str, seed: int) -> None:
    """Sweeps in one way over the random script of a seed."""
    numbers = random.Random(seed)
    most = numbers.choice(random_script.KEYS)
    splits = random_script.random_splits(numbers, most, numbers.choice([0, 1, 3, 8, 15]))
    # if a range over several partitions is refused with 8, nothing reports which of them have kept their part
    small = [Limits(STATEMENTS // 2), Limits(STATEMENTS // 10, 20, STATEMENTS // 2)]
    limits = Limits() if splits else numbers.choice([Limits(), *small])
    words = ["script", "--policy", numbers.choice(POLICIES), *limits.words(), *map(str, splits)]
    given = random_script.random_text(numbers, Session(splits, limits), STATEMENTS, most)
    said = statements(given)
    check = lambda wrote, refused: compare(said, wrote, Session(splits, limits), refused)
    sweep_runs(program, words, given, check, way)


def own_statement(numbers: random.Random, parts: list[Part]) -> str:
    """A random statement that asks only these neighbouring partitions."""
    low, high, part = parts[0].low, parts[-1].high, numbers.choice(parts)
    kind, key = random_script.kind_of(numbers, KINDS), numbers.randrange(low, min(high, low + 300))
    # an empty range at the end of these partitions would ask the next one
    first, last = sorted(numbers.choice([low, key, parts[-1].low, high]) for _ in range(2))
    first = first if first < high else low
    row, payload = f"{part.number}.{numbers.randrange(part.next + 2)}", random_script.random_payload(numbers)
    key = min(max(key, part.low), part.high - 1) if kind == "update" else key
    return random_script.statement(kind, row, key, payload, first, last, numbers.choice(POLICIES))


def worker_texts(seed: int) -> list[bytes]:
    """The statements of each worker of a batch, drawn from a seed."""
    numbers, texts = random.Random(seed), []
    for worker in range(WORKERS):
        session = Session(SPLITS)
        own = session.parts[2 * worker : 2 * worker + 2]
        texts.append(random_script.drawn(session, LINES, lambda: own_statement(numbers, own)))
    return texts


def batch_text(texts: list[bytes]) -> bytes:
    """The lines of a batch whose workers have these statements, mixed."""
    rounds = itertools.zip_longest(*(text.splitlines(keepends=True) for text in texts))
    return b"".join(b"%d %s" % (worker, line) for lines in rounds for worker, line in enumerate(lines) if line)


def check_batch(texts: list[bytes], wrote: bytes, refused: int) -> None:
    """Checks what a batch wrote whose workers had these statements."""
    before, *found = re.split(rb"^worker (\d+)\n", wrote, flags=re.MULTILINE)
    expect("workers", [b"", *(b"%d" % it for it in range(WORKERS))], [before, *found[::2]])
    *lines, totals = found[-1].splitlines(keepends=True)
    replies = [*found[1:-1:2], b"".join(lines)]
    seen = [compare(statements(one), it, Session(SPLITS), refused, True) for one, it in zip(texts, replies)]
    expect("whether fewer statements were refused than calls", True, sum(it.short for it in seen) <= refused)
    expect("the end of the totals", b"\n", totals[-1:])
    check_totals(totals.decode(), sum((it.counts for it in seen), collections.Counter()))


def sweep_batch(program: str, way: str, seed: int) -> None:
    """Sweeps in one way over the batch of a seed. If all calls from one on are refused, it must end with 8."""
    texts = worker_texts(seed)
    # half of the batches keep receipts
    audit = ["--audit"] if seed // 2 % 2 else []
    words = ["batch", "--workers", WORKERS, *audit, "--policy", POLICIES[seed % len(POLICIES)], *SPLITS]

    def check(wrote: bytes, refused: int) -> None:
        expect("calls that were refused though it ended well", 0, refused if way == "all" else 0)
        check_batch(texts, wrote, refused)

    sweep_runs(program, words, batch_text(texts), check, way)


def exchanged(port: int, given: bytes) -> bytes:
    """A server's answer to the bytes of a session, up to its end, or as far as it came."""
    got = b""
    with contextlib.suppress(OSError), socket.create_connection(("127.0.0.1", port), SECONDS) as it:
        it.sendall(given)
        it.shutdown(socket.SHUT_WR)
        while more := it.recv(65536):
            got += more
    return got


def check_served(texts: list[bytes], got: list[bytes], ended: fixtures.Ended, refused: int) -> None:
    """Checks the answers to a server's sessions, and how it ended."""
    session, counts, (status, wrote, complained) = Session(SPLITS), collections.Counter(), ended
    for text, replies in zip(texts, got):
        # a session without memory for its replies ends before it answers; so does one whose server ends
        if replies or not refused:
            counts += compare(statements(text), replies, session, refused, may_be_first=True).counts
    if (status, complained) == (1, REFUSED.decode()) and refused:
        expect("what a server wrote that ended with 8", "", wrote)
        return
    expect("status, standard error and sessions", (0, "", len(texts)), (status, complained, len(got)))
    check_totals(wrote, counts)


def sweep_server(program: str, way: str, seed: int) -> None:
    """Sweeps in one way over the server of a seed, which must always end by itself."""
    numbers, session = random.Random(seed), Session(SPLITS)
    draw = lambda: own_statement(numbers, session.parts)
    texts = [random_script.drawn(session, SESSION_LINES, draw) for _ in range(SESSIONS)]
    words = ["--sessions", str(SESSIONS), "--policy", POLICIES[seed % len(POLICIES)], "--quiet", *map(str, SPLITS)]

    def once(which: dict[str, int]) -> int:
        with refusing(**which) as (environment, counted):
            with fixtures.Server(program, 2, *words, environment=environment, may_end=True) as server:
                got = [exchanged(server.port, text) for text in texts if server.listens]
                ended = server.ended() if server.listens else server.last
            refused = counted()[1]
        check_served(texts, got, ended, refused)
        return refused

    sweep(way, once, seed)


def sweeps_of(crates: pathlib.Path) -> typing.Iterator[tuple[str, str]]:
    """The crates whose tests have sweeps, each with their names."""
    for path in sorted(crates.glob("*_tests/src/*.rt")):
        for name in SWEEP.findall(path.read_text(encoding="utf-8")):
            yield path.parts[-3], f"{path.stem}::{name}"


def check(program: str, seed: int) -> None:
    """Sweeps over the random script of a seed, which also determines the way."""
    check_random(program, list(WAYS)[seed % len(WAYS)], seed)


def check_workers(program: str, seed: int) -> None:
    """Sweeps over the batch or the server of a seed, which also determines the way."""
    [sweep_batch, sweep_server][seed % 2](program, WORKER_WAYS[seed // 2 % 3], seed)


class Sweeps(fixtures.Case):
    """Sweeps, if memory can be refused."""

    def setUp(self) -> None:
        super().setUp()
        if fixtures.refusing_library() is None:
            self.skipTest(f"no C compiler works here: {', '.join(fixtures.COMPILERS)}")


class Refused(Sweeps):
    """Sweeps over runs of the program. The names of checks have their arguments."""


class Tests(Sweeps):
    """Sweeps over the tests named sweep_.. in the test programs that tools/tests.py builds."""

    def test_there_are_sweeps(self) -> None:
        self.assertTrue(list(sweeps_of(CRATES)))

    def sweep(self, crate: str, name: str) -> None:
        """Refuses each call of a test alone."""
        built = test_units.test_program(crate)
        if not built.exists():
            self.skipTest(f"the tests of {crate} aren't built")

        def once(which: dict[str, int]) -> int:
            with refusing(**which) as (environment, counted):
                status, *wrote = fixtures.ran([built, name], b"", SECONDS, env=environment)
                expect(f"status, where {b''.join(wrote)[-300:]!r} was written", 0, status)
                return counted()[1]

        sweep("alone", once, crate, name)


def add(check: typing.Callable, *given: object, kind: str = "") -> None:
    """Adds a sweep over the program, named by its arguments."""
    way, *others = map(str, given)
    fixtures.add(Refused, " ".join([way, kind, *others]), lambda self: check(self.program, *given))


for crate, name in sweeps_of(CRATES):
    fixtures.add(Tests, f"{crate} {name}", Tests.sweep, crate, name)
for given in extent.some(itertools.product(WAYS, POLICIES, scripts()), FEW_SCRIPTS, "scripts"):
    add(check_script, *given)
for way in WAYS:
    for name in TEXTS:
        add(check_text, way, name)
    for seed in extent.seeds(range(1, RANDOM_SWEEPS + 1), 1, f"scripts {way}"):
        add(check_random, way, seed, kind="script of seed")
for way, seed in itertools.product(WORKER_WAYS, extent.seeds(range(1, WORKER_SWEEPS + 1), 1, "workers")):
    add(sweep_batch, way, seed, kind="batch of seed")
    add(sweep_server, way, seed, kind="server of seed")
