"""The program with devices that fail.

What was written when a device failed must be a prefix of what would have been written: if reading failed, whole replies
only; if writing failed, as much as the device took. The program then ends with 17 or 18, or by the signal that the
system sends it.
"""

import random
import resource
import signal
import subprocess
import tempfile

import extent
import fixtures
import plain_session
import random_script
from fixtures import SECONDS, Terminal, expect
from plain_session import Session, complaint

READ_FAULT, WRITE_FAULT = complaint("refused 17"), complaint("refused 18")
GIVEN = b"insert 1 10\ninsert 2 -20\nnonsense\nselect 0 5\nsum 0 5\n"
WANTED = b"row 0.0\nrow 0.1\nrefused 1\nrows 2\n0.0 1 10\n0.1 2 -20\nsum -10\n"
RECORDS = b"key,payload\n1,10\n2,-20\n"
BATCH_WROTE = b"worker 0\nrow 0.0\naccepted 1 inserted 1 deleted 0 held 1\n"
# the subcommands that read: arguments, input and output of each
SUBCOMMANDS = [
    (["script"], GIVEN, WANTED),
    (["batch", "--workers", "1"], b"0 insert 1 10\n", BATCH_WROTE),
    (["csv"], RECORDS, RECORDS),
]


def check_file(program: str, words: list[str], given: bytes, wanted: bytes, size: int) -> None:
    """Checks the contents of a file that takes this many bytes of this text."""

    def limit() -> None:
        signal.signal(signal.SIGXFSZ, signal.SIG_IGN)
        resource.setrlimit(resource.RLIMIT_FSIZE, (size, size))

    with tempfile.TemporaryFile() as target:
        how = {"stdout": target, "stderr": subprocess.PIPE, "preexec_fn": limit, "restore_signals": False}
        status, _, complained = fixtures.ran([program, *words], given, **how)
        target.seek(0)
        right = (0, wanted, b"") if size >= len(wanted) else (1, wanted[:size], WRITE_FAULT)
        expect(f"{words}, a file of {size} bytes", right, (status, target.read(), complained))


def check(program: str, seed: int) -> None:
    """Checks the result if the replies to the random session of a seed go to a file that takes some of them."""
    numbers = random.Random(seed)
    splits = sorted(numbers.sample(range(1, 1000), numbers.randrange(4)))
    text = random_script.random_text(numbers, Session(splits), random_script.STATEMENTS // 5, 1000)
    given = b"".join(it + b"\n" for it in text.splitlines() if not it.startswith((b"layout", b"stats")))
    wanted = plain_session.replies(given, splits)
    sizes = [numbers.randrange(len(wanted) + 2) for _ in range(20)] + [4096, 8192, len(wanted) - 1, len(wanted)]
    for size in sizes:
        check_file(program, ["script", *map(str, splits)], given, wanted, size)


class Devices(fixtures.Case):
    """Devices that fail, by kind."""

    def test_a_file_that_is_full_behind_each_byte(self) -> None:
        """What a file takes of a session, a batch and an export is a prefix of their text, whatever its size."""
        for one in SUBCOMMANDS:
            for size in extent.some(range(len(one[2]) + 1), 20, one[0]):
                check_file(self.program, *one, size)

    def test_a_terminal_that_hangs_up(self) -> None:
        """If a terminal hangs up, the signal ends the program; if that is ignored, the end of the input or a fault."""
        ends = {True: [(-signal.SIGHUP, b"")], False: [(0, b""), (1, READ_FAULT), (1, WRITE_FAULT)]}
        for heeds, right in ends.items():
            with tempfile.TemporaryFile() as complaints:
                how = {"stderr": complaints, "ignored": [] if heeds else [signal.SIGHUP]}
                with Terminal([self.program, "script"], "/", echoes=False, **how) as shown:
                    shown.type("insert 1 1\ncount 0 5\nins")
                    shown.wait_for("^row 0.0\ncount 1\n$")
                    shown.hang_up()
                    status = shown.process.wait(SECONDS)
                complaints.seek(0)
                self.assertIn((status, complaints.read()), right)


fixtures.add_seeds(Devices, extent.seeds(range(1, 5), 1, "devices"), check)
