"""`crackd serve` with what the program alone can't do: it ends in order at a signal, loads a file before the port is
opened, and saves the rows once the clients have left."""

from __future__ import annotations

import contextlib
import ctypes
import io
import os
import select
import signal
import socket
import subprocess
import sys
import time
from typing import Any, Callable, Optional, Sequence

from .arrays import TOP
from .base import POLICY, parts_to_load
from .channel import Channel
from .client import Client
from .csvfile import Column, CsvFile, read_columns
from .decimals import INTEGERS
from .errors import Disconnected, Error
from .keys import Keys, quantiles
from .layout import rows_text
from .saved import read_saved
from .server import find_program

# the program's options with a value
WITH_VALUES = ("port", "workers", "clients", "sessions", "idle", "drain", "limit", "cells", "life", "policy")
SIGNALS = (signal.SIGTERM, signal.SIGINT, signal.SIGHUP)
# a terminal that is closed may send the signal of it twice
SECONDS_OF_A_HANGUP = 1.0
SECONDS_OF_A_WAIT = 3600.0
PR_SET_PDEATHSIG = 1
NOT_DRAINED = "a signal ended the server at once, since one with --sessions can't be drained"

# why a file isn't loaded or saved
ERRORS = (Error, ImportError, OSError, ValueError, OverflowError, MemoryError)

HELP = """
Of the Python package:
      --load <FILE>      Loads the rows of a file before the port is opened
      --save <FILE>      Saves all rows to a file after the last session
A file whose name ends with .csv has records KEY,PAYLOAD; any other is one of
Table.save. Without --sessions, --until-eof is added. SIGTERM, SIGINT and SIGHUP
end the server as the end of its input does; a second one ends it at once.
"""


class Stopped(BaseException):
    """A signal ends the server at once. The text says which one."""


class BadArguments(Exception):
    """The command line is wrong. The text says why."""


class Options:
    """The command line: the words for the program, the two files, and whether there are splits or counted sessions."""

    def __init__(self, words: Sequence[str]):
        self.words: list[str] = []
        self.files: dict[str, str] = {}
        self.asks_for_help = self.has_splits = False
        given: set[str] = set()
        left = iter(words)
        for word in left:
            name, _, value = word.removeprefix("--").partition("=")
            if not word.startswith("-"):
                self.has_splits = True
            elif word in ("-h", "--help"):
                self.asks_for_help = True
            elif word.startswith("--"):
                given.add(name)
                if name in ("load", "save"):
                    self._take_file(name, value if "=" in word else next(left, ""))
                    continue
                if name in WITH_VALUES and "=" not in word:
                    self.words += [word, *([value] if (value := next(left, None)) is not None else [])]
                    continue
            self.words.append(word)
        self.is_counted, self.is_quiet = "sessions" in given, "quiet" in given
        if not (given & {"sessions", "until-eof"} or self.asks_for_help):
            self.words.append("--until-eof")

    def _take_file(self, name: str, path: str) -> None:
        if not path or name in self.files:
            raise BadArguments(f"--{name} needs a file" if not path else f"--{name} is given twice")
        self.files[name] = path

    @property
    def load(self) -> Optional[str]:
        """The file to load."""
        return self.files.get("load")

    @property
    def save(self) -> Optional[str]:
        """The file to save to."""
        return self.files.get("save")


def say(text: str, time_text: str = "") -> None:
    """Writes a line to standard error, unless its reader has stopped reading."""
    poll = select.poll()
    with contextlib.suppress(OSError):
        poll.register(2, select.POLLOUT)
        if poll.poll(0):
            os.write(2, f"{time_text}crackd: {text}\n".encode(errors="backslashreplace"))


def pass_on(line: str) -> None:
    """Writes a line of the program to standard output."""
    try:
        os.write(1, line.encode("ascii") + b"\n")
    except OSError as error:
        raise Stopped(f"standard output can't be written: {error.strerror}") from error


class Signals:
    """The signals that end the server. `drain` is called at the first one."""

    def __init__(self, drain: Callable[[], None]):
        self.drain, self.count, self.since, self.is_over = drain, 0, 0.0, False
        for it in SIGNALS:
            # `nohup` ignores the signal of a terminal that is closed
            if it != signal.SIGHUP or signal.getsignal(it) != signal.SIG_IGN:
                signal.signal(it, self.note)

    def note(self, number: int, _: Any) -> None:
        """Handles a signal: the first one drains, and the second one raises `Stopped`."""
        is_hangup_again = number == signal.SIGHUP and time.monotonic() - self.since < SECONDS_OF_A_HANGUP
        if self.is_over or (self.count and is_hangup_again):
            return
        self.count, self.since = self.count + 1, time.monotonic()
        try:
            if self.count > 1:
                raise Stopped(f"a second signal, {signal.Signals(number).name}, ended the server at once")
            self.drain()
        except Stopped:
            self.is_over = True
            raise

    def check(self, _: str) -> None:
        """A save isn't interrupted by the first signal."""


class Control(Channel):
    """A conversation over the program's standard input and output. Only `end` closes it."""

    def __init__(self, connection: socket.socket):
        self._use(connection, "the program")

    def _moment(self) -> float:
        # a signal ends the wait
        return SECONDS_OF_A_WAIT

    def close(self) -> None:
        """Does nothing, since a client closes its channel."""

    def end(self) -> None:
        """Ends the program's input."""
        with contextlib.suppress(OSError):
            self.socket.shutdown(socket.SHUT_WR)


class Attending(Client):
    """The supervisor's session, before or after those of clients."""

    def __exit__(self, kind: Any, *_: Any) -> None:
        if kind is not None and issubclass(kind, Stopped):
            # the program may not answer any more
            self._disconnect()
        self.close()


class Rows:
    """The rows of a file, which are read when this is made."""

    def __init__(self, path: str):
        self.path = path
        if is_csv(path):
            self.kind, self.payload_type = Keys.named("uint64"), INTEGERS
            file = CsvFile(path, ",", None, "utf-8-sig")
            self.keys, self.payloads = read_columns(file, 0, Column(least=0, most=TOP - 1), 1, Column())
        else:
            self.kind, self.payload_type, rows, _ = read_saved(path)
            self.keys = self.kind.of_raw(rows["key"])
            self.payloads = self.payload_type.exact(rows["payload"])

    def splits(self) -> list[int]:
        """Splits that divide the keys evenly."""
        parts = parts_to_load(len(self.keys))
        return quantiles(self.kind.many(self.keys), parts) if parts > 1 else []


def is_csv(path: str) -> bool:
    """Whether a file has the form of CSV, by its name."""
    return path.endswith(".csv")


class Run:
    """A run of the program. `process` is that of the program, once it is started."""

    def __init__(self, options: Options, program: str):
        self.options, self.program = options, program
        self.process: Optional[subprocess.Popen[bytes]] = None
        self.is_killed = False

    def start_program(self, words: Sequence[str], **pipes: Any) -> None:
        """Starts the program, which doesn't heed the signals, and on Linux ends when this process does."""
        parent, libc = os.getpid(), ctypes.CDLL(None) if sys.platform == "linux" else None

        def prepare() -> None:
            for it in SIGNALS:
                signal.signal(it, signal.SIG_IGN)
            signal.pthread_sigmask(signal.SIG_UNBLOCK, SIGNALS)
            if libc is not None:
                libc.prctl(PR_SET_PDEATHSIG, signal.SIGKILL)
                if os.getppid() != parent:
                    os._exit(1)

        command = [self.program, "serve", *self.options.words, *words]
        # a signal that comes amid this is handled once the process is known, so that it can be killed
        signal.pthread_sigmask(signal.SIG_BLOCK, SIGNALS)
        try:
            self.process = subprocess.Popen(command, preexec_fn=prepare, **pipes)
        finally:
            signal.pthread_sigmask(signal.SIG_UNBLOCK, SIGNALS)

    def wait(self) -> int:
        """Waits for the program. Returns its status as a shell gives it."""
        assert self.process is not None
        status = self.process.wait()
        if status < 0 and not self.is_killed:
            say(f"the program was ended by {signal.Signals(-status).name}")
        return status if status >= 0 else 128 - status

    def kill(self) -> None:
        """Ends the program at once."""
        self.is_killed = True
        if self.process is not None:
            self.process.kill()
            self.process.wait()


class Plain(Run):
    """A server that neither loads nor saves: the program writes to this process's own output."""

    def drain(self) -> None:
        """Handles the first signal: the end of the program's input."""
        if self.options.is_counted:
            raise Stopped(NOT_DRAINED)
        os.close(self.input)

    def run(self) -> int:
        """Serves until the end, and returns the exit status."""
        read, self.input = os.pipe()
        signals = Signals(self.drain)
        self.start_program([], stdin=read)
        os.close(read)
        status = self.wait()
        signals.is_over = True
        return status


class Supervised(Run):
    """A server that loads or saves. `status` is that of the run so far."""

    def __init__(self, options: Options, program: str):
        super().__init__(options, program)
        self.status, self.is_serving, self.is_drained = 0, False, False
        self.kind, self.payload_type = Keys.named("uint64"), INTEGERS
        self.signals = Signals(self.drain)

    def drain(self) -> None:
        """Handles the first signal: the end of the server's sessions."""
        if not self.is_serving:
            raise Stopped("a signal ended the server before it listened")
        if self.is_drained:
            return
        if self.options.is_counted:
            raise Stopped(NOT_DRAINED)
        with contextlib.suppress(OSError):
            # the program may have ended
            os.write(self.control.socket.fileno(), b"\n")

    def run(self) -> int:
        """Serves until the end, and returns the exit status."""
        try:
            rows = Rows(self.options.load) if self.options.load else None
        except ERRORS as error:
            return self.failed(f"{self.options.load} isn't loaded", error)
        try:
            self.start(rows.splits() if rows and not self.options.has_splits else [])
            self.before(rows)
            del rows
            self.serve()
            self.after()
        except Disconnected:
            return self.ended()
        return self.ended()

    def failed(self, what: str, error: object) -> int:
        """Says what wasn't done, and why. Returns the status 1."""
        strerror = getattr(error, "strerror", None)
        text = f"{strerror}" if strerror else str(error) or type(error).__name__
        say(f"{what}: {text}")
        self.status = 1
        return 1

    def start(self, splits: list[int]) -> None:
        """Starts the program."""
        ours, theirs = socket.socketpair()
        self.control = Control(ours)
        with theirs:
            self.start_program(["--supervised", *map(str, splits)], stdin=theirs, stdout=theirs)

    def session(self) -> Attending:
        """A session of the supervisor."""
        return Attending(self.control, self.kind, POLICY, self.payload_type)

    def before(self, rows: Optional[Rows]) -> None:
        """Loads the rows, and then lets the program open its port."""
        if rows is not None:
            self.kind, self.payload_type = rows.kind, rows.payload_type
        with self.session() as table:
            if rows is not None:
                try:
                    table.insert_rows(rows.keys, rows.payloads)
                    table.settle()
                except Disconnected:
                    raise
                except ERRORS as error:
                    self.failed(f"{rows.path} isn't loaded", error)
                    self.kill()
                    raise Disconnected from error
                self.note(f"loaded {rows_text(len(rows.keys))} from {rows.path}")

    def serve(self) -> None:
        """Passes on what the program prints until its sessions have ended."""
        line = self.control.line()
        # from here on a signal drains
        self.is_serving = True
        pass_on(line)
        self.control.block(1)
        self.is_drained = True

    def after(self) -> None:
        """Saves the rows, and passes on the totals."""
        path = self.options.save
        with self.session() as table:
            if path is not None:
                try:
                    # so that no history is too full for a select
                    table.checkpoint()
                    self.note(self.saved(table, path))
                except Disconnected:
                    raise
                except ERRORS as error:
                    self.failed(f"{path} isn't saved", error)
        self.control.end()
        line = self.control.line()
        while not line.startswith("accepted "):
            # what a save that failed hadn't read
            line = self.control.line()
        pass_on(line)

    def saved(self, table: Client, path: str) -> str:
        """Writes all rows to a file, which is replaced only when they are written. Returns what was done, in words."""
        if not is_csv(path):
            return f"saved {rows_text(table.save(path))} to {path}"
        from .shell.console import Shell
        from .shell.session import Session
        from .shell.texts import Fault

        try:
            with contextlib.redirect_stdout(io.StringIO()) as told:
                Shell(Session(self.control, self.signals, POLICY), self.signals, False).save(path)
        except Fault as fault:
            raise Error(str(fault).removeprefix("not saved: ")) from fault
        return told.getvalue().strip()

    def note(self, text: str) -> None:
        """Writes a line of the server's log, unless it is quiet."""
        if not self.options.is_quiet:
            say(text, time.strftime("%Y-%m-%dT%H:%M:%SZ ", time.gmtime()))

    def ended(self) -> int:
        """Waits for the program. Returns its status, or 1 if a file wasn't loaded or saved."""
        status = self.wait()
        if self.status:
            return self.status
        if status and self.is_serving and self.options.save:
            say(f"{self.options.save} isn't saved, since the program ended")
        return status


def main(words: list[str]) -> int:
    """Serves with the options in these words. Returns the exit status."""
    try:
        options = Options(words)
    except BadArguments as error:
        say(f"bad arguments: {error}")
        return 2
    program = find_program()
    if options.asks_for_help:
        status = subprocess.run([program, "serve", *options.words], check=False).returncode
        print(HELP, end="")
        return status
    folder = os.path.dirname(os.path.realpath(options.save or "."))
    if not os.path.isdir(folder):
        say(f"{options.save} can't be saved: there is no folder {folder}")
        return 1
    served = Supervised(options, program) if options.files else Plain(options, program)
    try:
        return served.run()
    except Stopped as it:
        served.kill()
        say(f"{it}; {options.save} isn't saved" if options.save else str(it))
        return 1
