"""Fixtures of the checks: the program, a server and its clients, and child processes that end, that run on a terminal,
or that are refused memory.

`python3 -m unittest acceptance.test_NAME` runs a module of checks on the program of this checkout, or on the one that
CRACKD names; `-k WORD` runs those whose name contains the word.
"""

import atexit
import concurrent.futures
import contextlib
import fcntl
import functools
import os
import pathlib
import pty
import re
import select
import shutil
import signal
import socket
import struct
import subprocess
import tempfile
import termios
import threading
import time
import typing
import unittest

TOP = pathlib.Path(__file__).resolve().parent.parent
CRATES = TOP / "crates"
# how long a child or a server may take, how long a client may wait for a reply, and how often another port is tried
SECONDS, PATIENT_SECONDS, TRIES, MOST_WORKERS = 60, 120, 5, 64
COMPILERS = ["cc", "gcc", "clang", "tcc"]
PORT_IS_TAKEN = "crackd: refused 17: reading failed, or the port is not available\n"
# the time of a line in a server's log, by RFC 3339 in UTC; such a line; and the line of a refused run, without a time
TIME = r"\d{4}-(?:0[1-9]|1[0-2])-(?:0[1-9]|[12]\d|3[01])T(?:[01]\d|2[0-3]):[0-5]\d:[0-5]\dZ"
TIMED, REFUSED_RUN = re.compile(rf"({TIME}) (crackd: .+)"), re.compile(r"crackd: refused \d+: .+")
CONTROL_C, CONTROL_D = "\x03", "\x04"
# a dumb terminal gets no escape sequences for line editing
DUMB = {"TERM": "dumb", "INPUTRC": "/dev/null"}
Ended = tuple[int, typing.Any, typing.Any]


class Wrong(AssertionError):
    """Something other than what was wanted."""


# the errors that end a check: a wrong reply, a lost connection or a silent program
FAULTS = (Wrong, OSError, ValueError, IndexError, subprocess.TimeoutExpired)


def expect(what: object, wanted: object, got: object) -> None:
    """Raises Wrong if the result isn't what was wanted."""
    if wanted != got:
        raise Wrong(f"{what}: wanted {str(wanted)[:200]!r}, got {str(got)[:200]!r}")


def built(name: str = "crackd", top: pathlib.Path | None = None) -> str:
    """The path of a program of this checkout, or of another: the proved one, or else the unproved one. CRACKD may name
    that of this checkout's `crackd`."""
    own = (top or TOP) / "crates" / name / "out" / name
    unproved = own.with_name(f"{name}-unproved")
    own = unproved if unproved.exists() and not own.exists() else own
    return str(pathlib.Path(os.environ.get("CRACKD", own) if name == "crackd" and not top else own).resolve())


def sections(name: str) -> dict[str, str]:
    """The sections of a text of data/, without its comments. Each begins with a line `---- NAME`."""
    text = re.sub(r"^#.*\n", "", (TOP / "acceptance" / "data" / name).read_text(encoding="utf-8"), flags=re.MULTILINE)
    return dict(it.strip().split("\n", 1) for it in f"\n{text}".split("\n---- ")[1:])


class Case(unittest.TestCase):
    """Checks of the program."""

    needs = "crackd"

    def setUp(self) -> None:
        self.program = built(self.needs)
        if not os.path.exists(self.program):
            self.skipTest(f"{self.needs} isn't built")


def add(of: type[unittest.TestCase], name: str, check: typing.Callable, *given: object) -> None:
    """Adds a check with this name, which calls a function with the case and what is given."""
    words = "_".join("".join(it if it.isalnum() else " " for it in name).split())
    setattr(of, f"test_{words}", lambda self: check(self, *given))


def add_seeds(of: type[Case], seeds: typing.Iterable[int], check: typing.Callable[[str, int], object]) -> None:
    """Adds a check for each seed, which calls a function with the program and the seed."""
    for seed in seeds:
        add(of, f"seed {seed:02}", lambda self, seed: check(self.program, seed), seed)


def ran(command: typing.Iterable[object], given: str | bytes | None = b"", seconds: float = SECONDS, **how) -> Ended:
    """Runs a child to its end. Returns its status, output and standard error, as text if it was given text."""
    streams = {} if {"stdout", "stderr"} & how.keys() else {"capture_output": True}
    how = streams | ({} if "stdin" in how else {"input": given}) | how
    it = subprocess.run(list(map(str, command)), text=isinstance(given, str), timeout=seconds, check=False, **how)
    return it.returncode, it.stdout, it.stderr


@contextlib.contextmanager
def side_by_side(work: typing.Callable[[], object]) -> typing.Iterator[None]:
    """Runs a function on its own thread during the block, and waits for its end."""
    thread = threading.Thread(target=work)
    thread.start()
    try:
        yield
    finally:
        thread.join()


def all_at_once(work: typing.Callable, given: typing.Sequence) -> list:
    """What a function returns for each of these arguments, each on its own thread."""
    with concurrent.futures.ThreadPoolExecutor(len(given)) as pool:
        return list(pool.map(work, given))


def fed(command: list[str], given: bytes, piece: int = 65536) -> Ended:
    """Runs a child that is given bytes in pieces of this size. Returns its status, output and standard error."""
    source, target = os.pipe()

    def feed() -> None:
        # a session that has ended reads nothing more
        with contextlib.suppress(BrokenPipeError), open(target, "wb", buffering=0) as file:
            for at in range(0, len(given), piece):
                file.write(given[at : at + piece])

    with side_by_side(feed), open(source, "rb") as file:
        return ran(command, stdin=file)


def fed_in_turns(command: list[str], pieces: list[bytes]) -> Ended:
    """The same for a child that is given each of these pieces once it has read those before: no read gives more."""
    source, target = os.pipe()
    ended = threading.Event()

    def feed() -> None:
        with contextlib.suppress(BrokenPipeError), open(target, "wb", buffering=0) as file:
            for it in pieces:
                file.write(it)
                while any(fcntl.ioctl(file, termios.FIONREAD, bytes(4))) and not ended.is_set():
                    time.sleep(0)

    with side_by_side(feed), open(source, "rb") as file:
        try:
            return ran(command, stdin=file)
        finally:
            ended.set()


def free_port() -> int:
    with socket.socket() as it:
        it.bind(("127.0.0.1", 0))
        return it.getsockname()[1]


def untimed(log: str) -> str:
    """The lines of a server's log without their times. Wrong if one has none."""
    lines = [TIMED.fullmatch(it) or REFUSED_RUN.fullmatch(it) for it in log.splitlines()]
    if None in lines:
        raise Wrong(f"a line without a time: {log.splitlines()[lines.index(None)]!r}")
    return "".join(f"{it[it.re.groups]}\n" for it in lines)


class Server:
    """A server that listens, and its port. It is killed at the end if it still runs. `may_end`: it needn't listen."""

    def __init__(self, program: str, workers: int, *words: str, environment={}, may_end: bool = False) -> None:
        pipes = {"stdin": subprocess.PIPE, "stdout": subprocess.PIPE, "env": {**os.environ, **environment}}
        # another program may take the port meanwhile; errors go to a file, since nobody reads them yet
        for _ in range(TRIES):
            self.port, self.log = free_port(), tempfile.TemporaryFile("a+", encoding="ascii")
            command = [program, "serve", "--port", str(self.port), "--workers", str(workers), *words]
            self.process = subprocess.Popen(command, text=True, stderr=self.log, **pipes)
            line = self.process.stdout.readline()
            self.listens = line == f"listening {self.port}\n"
            if self.listens:
                return
            self.last = self.ended()
            if self.last[2] != PORT_IS_TAKEN:
                break
            self.__exit__()
        if not may_end:
            self.__exit__()
            raise Wrong(f"the server said {line!r} and {self.last[2]!r}")

    def __enter__(self) -> typing.Any:
        return self

    def __exit__(self, *_: object) -> None:
        self.process.kill()
        self.process.wait()
        for pipe in (self.process.stdin, self.process.stdout, self.log):
            pipe.close()

    def close(self) -> None:
        """Ends the server's input."""
        self.process.stdin.close()

    def wait_for_line(self, text: str) -> None:
        """Waits until the log has a line with this text."""
        until = time.monotonic() + SECONDS
        while self.log.seek(0) or text not in self.log.read():
            if time.monotonic() > until:
                raise Wrong(f"the log has no {text!r}")
            time.sleep(0.05)

    def ended(self) -> Ended:
        """Waits for the server's end. Returns its status, its output after the first line, and its standard error,
        without the times of its lines."""
        try:
            status = self.process.wait(SECONDS)
        except subprocess.TimeoutExpired as error:
            raise Wrong("the server didn't end") from error
        self.log.seek(0)
        return status, self.process.stdout.read(), untimed(self.log.read())

    def wait(self, totals: typing.Sequence[object], *notes: str) -> None:
        """Waits for the server's end. It must have these totals, and these lines on standard error in any order."""
        status, wrote, complained = self.ended()
        expect("totals", "accepted {} inserted {} deleted {} held {}\n".format(*totals), wrote)
        expect("standard error", sorted(notes), sorted(complained.splitlines()))
        expect("status", 0, status)

    def notes(self, sessions: int, *cut_off: str) -> list[str]:
        """The lines that standard error must have after this many sessions, including those that were cut off."""
        end = f"crackd: ended: sessions {sessions}, cut off {len(cut_off)}"
        return [f"crackd: listening on 127.0.0.1:{self.port}", *cut_off, end]


@contextlib.contextmanager
def serving(program: str, totals: typing.Sequence, workers: int, sessions: int, *words: str) -> typing.Iterator[int]:
    """The port of a server that must end by itself once its clients have, with these totals."""
    with Server(program, workers, "--sessions", str(sessions), "--quiet", *words) as it:
        yield it.port
        it.wait(totals)


class Client:
    """A connection that sends lines and reads lines."""

    def __init__(self, port: int, room: int | None = None, seconds: float = PATIENT_SECONDS) -> None:
        self.socket = socket.socket()
        if room:
            self.socket.setsockopt(socket.SOL_SOCKET, socket.SO_RCVBUF, room)
        self.socket.settimeout(seconds)
        self.socket.connect(("127.0.0.1", port))
        self.address = "{}:{}".format(*self.socket.getsockname())
        self.lines = self.socket.makefile("r", encoding="ascii", newline="\n")

    def __enter__(self) -> typing.Any:
        return self

    def __exit__(self, *_: object) -> None:
        self.lines.close()
        self.socket.close()

    def send(self, text: str) -> None:
        self.socket.sendall(text.encode())

    def sends_no_more(self) -> None:
        self.socket.shutdown(socket.SHUT_WR)

    def reset(self) -> None:
        """Makes closing the connection reset it."""
        self.socket.setsockopt(socket.SOL_SOCKET, socket.SO_LINGER, struct.pack("ii", 1, 0))

    def reply(self) -> list[str]:
        """The lines of the next reply. Wrong if the server closed the connection in the middle of it."""
        lines = [self.lines.readline()]
        lines += [self.lines.readline() for _ in range(length_of(lines[0]) - 1)]
        if not lines[-1].endswith("\n"):
            raise Wrong(f"the replies broke off at {lines[-1]!r}")
        return [it[:-1] for it in lines]

    def answer(self, statement: str) -> list[str]:
        """Sends a statement. Returns the lines of its reply."""
        self.send(f"{statement}\n")
        return self.reply()

    def ask(self, statement: str, *wanted: str) -> None:
        """Sends a statement, whose reply must be these lines."""
        expect(statement, list(wanted), self.answer(statement))

    def is_at_end(self) -> None:
        expect("after the last reply", "", self.lines.readline())

    def end(self) -> None:
        self.ask("quit", "bye")
        self.is_at_end()


def length_of(head: str) -> int:
    """How many lines a reply has, from its first line."""
    words = head.split()
    return 1 + int(words[-1]) if words[:1] in (["rows"], ["layout"], ["stats"]) else 1


def bytes_of(process: int, name: str) -> int:
    """The number of bytes that a process's status has under this name; 0 once it has ended."""
    try:
        text = pathlib.Path(f"/proc/{process}/status").read_text(encoding="ascii")
    except (FileNotFoundError, ProcessLookupError):
        return 0
    found = re.search(rf"^{name}:\s*(\d+) kB$", text, re.MULTILINE)
    return int(found[1]) * 1024 if found else 0


def served_bytes(program: str, limit: int, *commands: int, audit: typing.Sequence[str] = ()) -> list[int]:
    """How many bytes a server uses after this many commands, and this many more: counts by four clients."""
    words = ["--until-eof", "--quiet", *audit, "--policy", "auto", "--auto-checkpoint", "--limit", str(limit)]
    rows, at_once, bytes_then = 1000, 5000, []
    replies = b"count 800\n" * at_once
    with Server(program, 4, *words) as server, contextlib.ExitStack() as stack:
        clients = [stack.enter_context(Client(server.port)) for _ in range(4)]
        for key in range(rows):
            clients[0].ask(f"insert {key} 1", f"row 0.{key}")

        def count_all(client: Client) -> None:
            for _ in range(more // len(clients) // at_once):
                client.send("count 100 900\n" * at_once)
                expect("counts", replies, client.lines.buffer.read(len(replies)))

        for more in commands:
            all_at_once(count_all, clients)
            bytes_then.append(bytes_of(server.process.pid, "VmRSS"))
        for it in clients:
            it.end()
        server.close()
        server.wait((rows + sum(commands), rows, 0, rows))
    return bytes_then


def greatest_bytes(command: list[str], given: bytes) -> int:
    """How many bytes a child has used at most when it writes, if that is more than a pipe takes."""
    with tempfile.TemporaryFile() as source:
        source.write(given)
        source.seek(0)
        with subprocess.Popen(command, stdin=source, stdout=subprocess.PIPE) as child:
            child.stdout.read(1)
            used = bytes_of(child.pid, "VmHWM")
            child.stdout.read()
    expect("status", 0, child.returncode)
    return used


@functools.cache
def library(source: str) -> str | None:
    """The library of a file of C in acceptance/c/, to be preloaded; None if it can't be compiled."""
    room = tempfile.mkdtemp(prefix="crackd-library-")
    atexit.register(shutil.rmtree, room, ignore_errors=True)
    made = pathlib.Path(room) / f"{source}.so"
    for compiler in filter(shutil.which, COMPILERS):
        if ran([compiler, "-O2", "-shared", "-fPIC", "-o", made, TOP / "acceptance" / "c" / source, "-ldl"])[0] == 0:
            return str(made)
    return None


def refusing_library() -> str | None:
    """The library that refuses memory; None if that can't be done."""
    return library("refusing.c")


@contextlib.contextmanager
def refusing(**which: int) -> typing.Iterator[tuple[dict[str, str], typing.Callable[[], tuple[int, int]]]]:
    """The environment of a child that is refused these calls, and a function that counts all and refused calls."""
    words = {f"REFUSE_{name.upper()}": str(it) for name, it in which.items()}
    with tempfile.NamedTemporaryFile(prefix="crackd-refused-") as file:
        file.truncate(16)
        words |= {"REFUSE_TELLS": file.name, "LD_PRELOAD": refusing_library() or ""}
        yield {**os.environ, **words}, lambda: struct.unpack("QQ", pathlib.Path(file.name).read_bytes())


class Terminal:
    """A pseudo-terminal, and a program that it controls, in a folder. It shows what is typed if it `echoes`."""

    def __init__(self, command: list[str], folder: str, environment={}, stderr=None, ignored=(), echoes=True) -> None:
        self.shown = ""
        self.end, other = pty.openpty()
        if not echoes:
            attributes = termios.tcgetattr(other)
            attributes[3] &= ~termios.ECHO
            termios.tcsetattr(other, termios.TCSANOW, attributes)

        def control() -> None:
            # makes a control-C and a hang-up of the terminal reach the program
            fcntl.ioctl(0, termios.TIOCSCTTY, 0)
            for number in (signal.SIGHUP, signal.SIGINT):
                signal.signal(number, signal.SIG_IGN if number in ignored else signal.SIG_DFL)

        how = {"stdin": other, "stdout": other, "stderr": stderr or other, "start_new_session": True}
        how |= {"cwd": folder, "env": {**os.environ, **DUMB, **environment}, "preexec_fn": control}
        self.process = subprocess.Popen(command, **how)
        os.close(other)

    def __enter__(self) -> typing.Any:
        return self

    def __exit__(self, *_: object) -> None:
        self.process.kill()
        self.process.wait()
        self.hang_up()

    def hang_up(self) -> None:
        """Closes the terminal, if it is open."""
        if self.end is not None:
            os.close(self.end)
        self.end = None

    def type(self, text: str) -> None:
        os.write(self.end, text.encode())

    def read(self, seconds: float) -> bool:
        """Whether more was shown within this time."""
        given = b""
        if select.select([self.end], [], [], seconds)[0]:
            # reading from a terminal whose program has ended is an error
            with contextlib.suppress(OSError):
                given = os.read(self.end, 65536)
        self.shown += given.decode().replace("\r\n", "\n")
        return bool(given)

    def wait_for(self, pattern: str) -> re.Match[str]:
        """Waits until a pattern is shown, and drops what was shown up to its end. Returns the match."""
        until = time.monotonic() + SECONDS
        while not (found := re.search(pattern, self.shown)):
            if not self.read(max(0, until - time.monotonic())):
                raise Wrong(f"wanted {pattern!r}, was shown {self.shown!r}")
        self.shown = self.shown[found.end() :]
        return found

    def expect_end(self, status: int) -> None:
        """The program must end with this status, and show nothing more."""
        while self.read(SECONDS):
            pass
        expect("status, and what else was shown", (status, ""), (self.process.wait(SECONDS), self.shown))
