"""A shell for `crackd serve`: python3 -m crackd shell [--program PATH] [--limit N] [--cells N] [--life N] [--policy
NAME] [FILE] [SPLIT ..], or python3 -m crackd shell --port N [FILE]

Without a port the shell starts its own server, which ends with it. The rows of a CSV file are loaded first. On a
terminal it prompts, explains refusals, reports how long each statement took, keeps typed lines in a file, and completes
words with Tab; `help` lists the statements. Without a terminal it is a filter, which answers line by line, and names
the lines that are no statements. The exit status is 1 if there is no server, if the server closed the connection, or if
a filter had a refused statement or a failed command. It is 2 for a bad command line, and otherwise 0.
"""

import argparse
import contextlib
import io
import os
import signal
import sys
import time
from typing import Any, Callable, Iterable, Iterator, Optional, Union

from ..base import POLICIES
from ..channel import Channel
from ..errors import Disconnected
from ..layout import rows_text
from ..server import NoServer, called, find_program, version_of
from ..wholefile import whole_text
from . import modes, typing
from .child import Interrupts, Server, channel_to
from .session import HTTP, POLICY, Records, Reply, Session
from .statements import MOST_LINE_BYTES, STATEMENTS, fault_in, help_of
from .texts import GREATEST_KEY, HELP, Ended, Fault, Interrupted, Left, complain, fault_text, in_words, time_text

PROMPT = "crackd> "
RANGED = (b"count", b"sum", b"select")
GREATEST_PORT = 65535
SECONDS_OF_A_PROGRESS = 0.1


@contextlib.contextmanager
def of_file(path: str) -> Iterator[None]:
    """A context that works with a file. Its errors become a `Fault` with the path."""
    try:
        yield
    except (OSError, ValueError) as error:
        raise Fault(fault_text(path, error)) from error


class Progress:
    """The line of progress on a terminal."""

    def __init__(self, is_shown: bool):
        self.is_shown, self.width, self.next = is_shown, 0, time.monotonic() + SECONDS_OF_A_PROGRESS

    def show(self, text: str) -> None:
        """Shows a text in place of the last one, unless that one was shown a moment ago."""
        if self.is_shown and time.monotonic() >= self.next:
            self.next = time.monotonic() + SECONDS_OF_A_PROGRESS
            self.width = max(self.width, len(text))
            print(f"\r{text:<{self.width}}", end="", flush=True)

    def clear(self) -> None:
        """Erases the line."""
        if self.width:
            print(f"\r{'':<{self.width}}\r", end="", flush=True)


class Shell:
    """Runs lines and shows the replies."""

    def __init__(self, session: Session, interrupts: Interrupts, is_terminal: bool):
        self.session, self.interrupts, self.is_terminal = session, interrupts, is_terminal
        # `faults` counts refused statements and failed commands
        self.answered = self.refused = self.faults = 0
        self.has_ended = self.bails = False
        self.mode = "lines"
        self.most_rows: Optional[int] = None
        # the files whose lines are being run, and the line that is being run, as complaints name it
        self.files: list[str] = []
        self.place = ""
        self.of_files: dict[str, Callable[[str], None]] = {".load": self.load, ".save": self.save, ".read": self.read}
        self.others: dict[str, Callable[[str], None]] = {".layout": self.layout, ".help": self.help, ".quit": self.quit}
        self.others |= {".mode": self.set_mode, ".limit": self.set_limit, ".bail": self.set_bail}

    def run(self, lines: Iterable[bytes]) -> None:
        """Runs lines until one ends the session, or there are no more."""
        for number, line in enumerate(lines, 1):
            self.interrupts.forget()
            faults, self.place = self.faults, f"line {number}"
            try:
                self.obey(line)
            except Interrupted as it:
                complain(f"interrupted: {it}")
            sys.stdout.flush()
            if self.interrupts.noted and not self.is_terminal:
                self.faults += 1
                return
            if self.has_ended:
                return
            if self.bails and self.faults > faults and not self.is_terminal:
                break
        self.quit()

    def obey(self, line: bytes) -> None:
        """Runs a line."""
        text = line[:-1] if line.endswith(b"\r") else line
        name, _, argument = text.strip(b" ").partition(b" ")
        if name.startswith(b"."):
            self.command(os.fsdecode(name), os.fsdecode(argument.strip(b" ")))
        elif ended(text).split(b" ")[0] == b"help":
            self.command(".help", os.fsdecode(ended(text)[len(b"help") :].strip(b" ")))
        elif name or len(text) > MOST_LINE_BYTES:
            # the server answers nothing to a blank line
            statement = ended(text) if text.rstrip(b" ").endswith(b";") else text
            self.statement(b"quit" if ended(text) == b"exit" else statement or text)

    def command(self, name: str, argument: str) -> None:
        """Runs a command. An error is reported, and the shell goes on."""
        try:
            if name in self.of_files and argument:
                self.of_files[name](os.path.expanduser(argument))
            elif name in self.others:
                self.others[name](argument)
            else:
                raise Fault(
                    f"{name} needs a file" if name in self.of_files else f"there is no {name}; .help lists the commands"
                )
        except Fault as fault:
            self.fail(fault)

    def fail(self, text: Union[str, Fault]) -> None:
        """Writes a fault to standard error, and counts it."""
        self.faults += 1
        complain(text)

    def statement(self, statement: bytes) -> None:
        """Sends a statement, counts it and a refusal, and shows the reply unless a control-C was noted."""
        # a line that looks like HTTP isn't sent, since the server would close the connection
        is_http = HTTP.match(statement[:MOST_LINE_BYTES])
        reply = Reply(["refused 1"], 0.0) if is_http else self.session.ask(with_ends(statement))
        self.answered += 1
        self.refused += reply.is_refusal
        self.faults += reply.is_refusal
        self.has_ended = reply.lines == ["bye"]
        self.interrupts.check("the statement was answered; its reply isn't shown")
        explained = explained_line(reply.lines[0], os.fsdecode(statement), bool(is_http))
        self.show(reply, explained)
        if reply.lines == ["refused 1"] and not self.is_terminal:
            complain(f"{self.place}: {explained}")

    def show(self, reply: Reply, explained: str) -> None:
        """Shows a reply in the current mode.

        On a terminal it also shows the time: after a reply of one line, or below a longer one; and a refusal is
        `explained`.
        """
        lines = modes.shown(reply.lines, self.mode, self.most_rows)
        if not self.is_terminal:
            print("\n".join(lines))
        elif len(lines) == 1:
            self.say(explained if self.mode == "lines" else lines[0], reply.seconds)
        else:
            for line in lines:
                self.interrupts.check("the rest isn't shown")
                print(line)
            hidden = modes.hidden(reply.lines, self.most_rows)
            print(
                f"({rows_text(hidden)} more; .limit off shows all)  {time_text(reply.seconds)}"
                if hidden
                else time_text(reply.seconds)
            )

    def say(self, text: str, seconds: float) -> None:
        """Prints what was done, and on a terminal how long it took."""
        print(f"{text}  {time_text(seconds)}" if self.is_terminal else text)

    @contextlib.contextmanager
    def waiting_for(self, path: str) -> Iterator[None]:
        """A context that opens or reads a file. That may wait for another program; a control-C ends the wait."""
        try:
            with of_file(path), self.interrupts.breaking_in():
                yield
        except KeyboardInterrupt:
            self.interrupts.noted = 1
            raise Interrupted(f"{path} wasn't read") from None

    def load(self, path: str) -> None:
        """Inserts the rows of a CSV file: all, or none."""
        with self.waiting_for(path):
            file = open(path, encoding="utf-8-sig", errors="surrogateescape", newline="")
        begun, progress = time.perf_counter(), Progress(self.is_terminal)
        with file:
            columns = Records(file).read(self.interrupts, progress)
        rows = self.session.load(columns, progress)
        self.say(f"loaded {rows_text(rows)}", time.perf_counter() - begun)

    def has_loaded(self, path: str) -> bool:
        """Loads the file of the command line. Returns whether the shell goes on: on a terminal it always does."""
        try:
            self.command(".load", path)
        except Interrupted as it:
            complain(f"interrupted: {it}")
            self.faults += 1
        return self.is_terminal or not self.faults

    def save(self, path: str) -> None:
        """Writes all rows to a CSV file."""
        begun = time.perf_counter()
        try:
            with of_file(path), whole_text(path) as file:
                rows = self.session.save(file)
        except Fault as fault:
            raise Fault(f"not saved: {fault}") from fault
        self.say(f"saved {rows_text(rows)} to {path}", time.perf_counter() - begun)

    def read(self, path: str) -> None:
        """Runs the lines of a file."""
        if os.path.realpath(path) in self.files:
            raise Fault(f"{path}: it is already being read")
        with self.waiting_for(path), open(path, "rb") as file:
            lines = file.read().split(b"\n")
        begun, answered, refused, faults, first = time.perf_counter(), self.answered, self.refused, self.faults, 0
        with self.within(path):
            for number, line in enumerate(lines, 1):
                self.place = f"{path}: line {number}"
                try:
                    self.obey(line)
                    self.interrupts.check("")
                except Interrupted:
                    raise Interrupted(f"{path} was read up to its line {number}") from None
                first = first or (number if self.refused > refused else 0)
                if self.has_ended:
                    return
                if self.bails and self.faults > faults:
                    self.fail(f"{path} was read up to its line {number}, since .bail is on")
                    return
        if self.is_terminal:
            told = f", {self.refused - refused} refused, the first in line {first}" if first else ""
            self.say(f"{path}: statements {self.answered - answered}{told}", time.perf_counter() - begun)

    @contextlib.contextmanager
    def within(self, path: str) -> Iterator[None]:
        """A context in which the lines of a file run."""
        self.files.append(os.path.realpath(path))
        try:
            yield
        finally:
            self.files.pop()

    def layout(self, partition: str) -> None:
        """Draws the column of one partition or of all."""
        one = self.session.layout(partition) if partition else None
        if partition and one is None:
            raise Fault(f"layout {partition}: {in_words('refused 5')}")
        for it in self.session.layouts() if one is None else [one]:
            self.interrupts.check("the rest isn't shown")
            print("\n".join(it.drawn()))

    def set_mode(self, name: str) -> None:
        """Chooses how replies are shown."""
        if name not in modes.MODES:
            raise Fault(f".mode is one of {', '.join(modes.MODES)}")
        self.mode = name

    def set_limit(self, number: str) -> None:
        """Chooses how many rows a select shows."""
        if number != "off" and not (number.isascii() and number.isdigit()):
            raise Fault(".limit needs a number of rows, or off")
        self.most_rows = None if number == "off" else int(number)

    def set_bail(self, word: str) -> None:
        """Chooses whether a file or a pipe ends at the first fault."""
        if word not in ("on", "off"):
            raise Fault(".bail is on or off")
        self.bails = word == "on"

    def help(self, name: str) -> None:
        """Prints the help, or that for one statement or command."""
        name = {"exit": "quit", "help": ".help"}.get(name, name)
        if name and name not in STATEMENTS and name not in typing.COMMANDS:
            raise Fault(f"there is no help for {name}; help lists the statements")
        if name in STATEMENTS:
            print(help_of(name))
        else:
            print("\n".join(it for it in HELP.splitlines() if not name or it.split(" ")[0] == name))

    def quit(self, _: str = "") -> None:
        """Ends the session."""
        self.session.ask("quit")
        self.has_ended = True


def explained_line(line: str, statement: str, is_http: bool) -> str:
    """The first line of a reply, in words if it is a refusal. That with 1 says what is wrong with the statement."""
    if line != "refused 1":
        return in_words(line)
    fault = "it looks like a line of HTTP, and wasn't sent" if is_http else fault_in(statement)
    return f"{line}: {fault}" if fault else in_words(line)


def ended(text: bytes) -> bytes:
    """A line without surrounding spaces, and without a ; at its end."""
    return text.strip(b" ").removesuffix(b";").rstrip(b" ")


def with_ends(statement: bytes) -> bytes:
    """A statement in which the number after the greatest key replaces the word `end` of a range."""
    words = statement.split(b" ")
    if ended(statement).split(b" ")[0] not in RANGED:
        return statement
    return b" ".join(b"%d" % (GREATEST_KEY + 1) if it == b"end" else it for it in words)


def typed_lines(interrupts: Interrupts) -> Iterator[bytes]:
    """The lines that a person types, until control-D. A control-C drops a half-typed line."""
    if isinstance(sys.stdin, io.TextIOWrapper):
        sys.stdin.reconfigure(errors="surrogateescape")
    with typing.edited():
        while True:
            try:
                with interrupts.breaking_in():
                    text = input(PROMPT)
            except KeyboardInterrupt:
                print()
                continue
            except (EOFError, OSError):
                print()
                return
            # pasted text may have several lines
            yield from os.fsencode(text).split(b"\n")


def given_lines(interrupts: Interrupts) -> Iterator[bytes]:
    """The lines of standard input."""
    while True:
        with interrupts.breaking_in():
            line = sys.stdin.buffer.readline()
        if not line:
            return
        yield line[:-1] if line.endswith(b"\n") else line


def is_with_a_person() -> bool:
    """Whether both input and output are a terminal."""
    return sys.stdin.isatty() and sys.stdout.isatty()


def talk(
    session: Session, port: int, file: Optional[str], interrupts: Interrupts, version: str = "crackd"
) -> bool:
    """Runs a session with the server at a port, which begins with a load of `file`, if there is one. Returns whether
    everything was done. `version` is that of the server's program, if it is known."""
    is_terminal = is_with_a_person()
    if is_terminal:
        print(f"{version} on port {port}; help lists the statements, control-D ends")
    shell = Shell(session, interrupts, is_terminal)
    if file is not None and not shell.has_loaded(file):
        shell.quit()
        return False
    shell.run(typed_lines(interrupts) if is_terminal else given_lines(interrupts))
    return is_terminal or not shell.faults


def talk_to_other(options: Any, interrupts: Interrupts) -> bool:
    """Runs a session with the server at the port of the options. Returns whether everything was done."""
    session = Session(channel_to(options.port, interrupts), interrupts, None)
    try:
        if options.policy:
            session.demand(f"policy {options.policy}")
        return talk(session, options.port, options.file, interrupts)
    finally:
        session.channel.close()


def program_of(path: Optional[str]) -> str:
    """The path of the program. Raises `Ended` if it isn't found."""
    try:
        return find_program(path)
    except NoServer as error:
        raise Ended(f"no server: {error}") from error


def talk_to_own(options: Any, interrupts: Interrupts) -> bool:
    """Runs a session with the shell's own server. Returns whether everything was done."""
    policy = options.policy or POLICY
    named = {"--limit": options.limit, "--cells": options.cells, "--life": options.life, "--policy": policy}
    words = [word for name, value in named.items() if value for word in (name, value)]
    with interrupts.breaking_in():
        path = program_of(options.program)
        server = Server(path, [*words, *options.splits])

    def renewed(splits: list[int]) -> Channel:
        server.renew([*words, *map(str, splits)])
        return channel_to(server.port, interrupts)

    session = Session(
        channel_to(server.port, interrupts), interrupts, policy, None if options.splits else renewed
    )
    try:
        version = version_of(path) if is_with_a_person() else "crackd"
        is_done = talk(session, server.port, options.file, interrupts, version)
        totals = server.totals()
        if is_with_a_person():
            print(totals)
        return is_done
    except Disconnected as left:
        raise Left("; ".join(filter(None, [str(left) if isinstance(left, Left) else "", server.why()]))) from left
    finally:
        session.channel.close()
        server.end()


def options_of(words: list[str]) -> Any:
    """The options of the command line."""
    parser = argparse.ArgumentParser(
        prog=f"{called()} shell",
        description="A shell over `crackd serve`. Without a port it starts a server of its own.",
    )
    parser.add_argument(
        "--program",
        metavar="PATH",
        help="the program crackd [default: the one built in this checkout, else that of PATH]",
    )
    parser.add_argument("--port", metavar="N", type=int, help="the port of a server on this machine")
    parser.add_argument(
        "--limit", metavar="N", help="how many commands a partition answers between two checkpoints, 1 to 1000000"
    )
    parser.add_argument("--cells", metavar="N", help="how many cells for rows a partition has, 1 to 16777215")
    parser.add_argument("--life", metavar="N", help="how many commands a partition answers in all, 1 to 1099511627776")
    parser.add_argument(
        "--policy",
        metavar="NAME",
        choices=POLICIES,
        help="how inserts and deletes are merged: complete, gradual, ripple or auto "
        "[default: auto, for a server that is started]",
    )
    parser.add_argument(
        "words",
        metavar="FILE | SPLIT",
        nargs="*",
        help="a CSV file whose rows are loaded first; where partitions begin: rising keys, each 1 to "
        "18446744073709551615 [default: one partition, or splits that suit the first load]",
    )
    options = parser.parse_args(words)
    options.splits = [it for it in options.words if it.isdecimal()]
    files = [it for it in options.words if not it.isdecimal()]
    if len(files) > 1:
        parser.error(f"there can be one file, and splits are numbers: {' '.join(files)}")
    options.file = files[0] if files else None
    if options.port is not None and not 1 <= options.port <= GREATEST_PORT:
        parser.error(f"a port must be 1 to {GREATEST_PORT}")
    if options.port is not None and (
        options.program or options.limit or options.cells or options.life or options.splits
    ):
        parser.error("with --port there is a server already: program, limits and splits can't be given")
    return options


def main(words: list[str]) -> int:
    """Runs a shell with the options in these words. Returns the exit status."""
    options, interrupts = options_of(words), Interrupts()
    if isinstance(sys.stdout, io.TextIOWrapper):
        sys.stdout.reconfigure(errors="backslashreplace")
    try:
        is_done = (talk_to_own if options.port is None else talk_to_other)(options, interrupts)
        sys.stdout.flush()
        return 0 if is_done else 1
    except Disconnected as left:
        complain("the server left" + (f": {left}" if isinstance(left, Left) else ""))
    except (Ended, Fault) as fault:
        complain(fault)
    except KeyboardInterrupt:
        signal.signal(signal.SIGINT, signal.SIG_IGN)
        complain("interrupted: the session has ended")
    except BrokenPipeError:
        # nobody reads the replies any more
        os.dup2(os.open(os.devnull, os.O_WRONLY), sys.stdout.fileno())
    return 1
