"""`python3 -m crackd shell` on a terminal, by docs/SPECIFICATION.md, and the shell's own texts.

Most of it is in data/shell.txt; what the shell writes as a filter is in cases/shell.cases.
"""

import contextlib
import functools
import importlib.util
import os
import pathlib
import re
import socket
import tempfile
import threading
import time
import typing

import fixtures
from fixtures import CONTROL_C, CONTROL_D, SECONDS, expect
from plain_session import MOST
from run_cases import SHELL, SHELL_ENVIRONMENT

PROMPT = "crackd> "
TIME = r"  \([0-9.]+ m?s\)\n"
# the line of progress, which appears if the machine is slow for a moment
PROGRESS = "(?:\r.*)?"
EVERYTHING = f"0 {MOST}"
SERVED = r"^crackd( \d+\.\d+\.\d+( \(\w[\w ]*\))?)? on port \d+; .*\n"


class Shell(fixtures.Terminal):
    """The shell on a terminal, in a folder."""

    def ask(self, line: str, *wanted: str) -> None:
        """Types a line at the prompt. These patterns must be shown directly after it, one after another."""
        self.wait_for(f"^{PROMPT}")
        self.type(line + "\n")
        self.wait_for(f"^{re.escape(line)}\n" + "".join(wanted))

    def leave(self, *totals: object) -> None:
        """Ends the session with control-D. The server's last line must have these totals."""
        self.wait_for(f"^{PROMPT}")
        self.type(CONTROL_D)
        self.wait_for("^\naccepted {} inserted {} deleted {} held {}\n".format(*totals))
        self.expect_end(0)


@contextlib.contextmanager
def talking(*words: str, files={}, shown: str = SERVED, **names: str) -> typing.Iterator[tuple[Shell, pathlib.Path]]:
    """The shell with this command line and environment, which shows this first, and its folder with these files."""
    with tempfile.TemporaryDirectory() as room:
        for name, text in files.items():
            (pathlib.Path(room) / name).write_text(text)
        with Shell([*SHELL[:-1], *words], room, SHELL_ENVIRONMENT | names) as shell:
            shell.wait_for(shown)
            yield shell, pathlib.Path(room)


class ByHand:
    """A server whose replies are written by hand, to one connection."""

    def __enter__(self) -> typing.Any:
        self.socket = socket.create_server(("127.0.0.1", 0))
        self.socket.settimeout(SECONDS)
        self.words = ["--port", str(self.socket.getsockname()[1])]
        return self

    def __exit__(self, *_: object) -> None:
        self.socket.close()

    @functools.cached_property
    def lines(self) -> typing.TextIO:
        """The connection, once there is one."""
        with self.socket.accept()[0] as connection:
            return connection.makefile("rw", encoding="ascii")

    def write(self, text: str) -> None:
        """Writes a text, or closes the connection if there is none."""
        self.lines.write(text)
        self.lines.flush()
        if not text:
            self.lines.close()


def unescaped(text: str) -> str:
    return text.replace("\\n", "\n").replace("\\r", "\r")


def pattern_of(shown: str) -> str:
    """The pattern of a line that must be shown: @ matches a time, and % the progress of a load."""
    text = shown[:1].replace("%", PROGRESS) + shown[1:]
    return text.replace(" @", TIME).replace("@", TIME.strip()) + ("" if "@" in shown else "\n")


class Sessions(fixtures.Case):
    """The sessions of data/shell.txt, with servers of the program or by hand."""

    def assert_shows(self, words: list[str], lines: list[str]) -> None:
        files = {mark: dict(it[2:].split(" ", 1) for it in lines if it.startswith(mark)) for mark in "<>"}
        before, after = ({name: unescaped(text) for name, text in of.items()} for of in files.values())
        with ByHand() as server:
            start = server.words if words == ["by-hand"] else words
            start = start if start[:1] in (["--port"], ["--program"]) else ["--program", self.program, *words]
            first = f"^{lines[0][2:]}\n" if lines[0].startswith("& ") else SERVED
            with talking(*start, files=before, shown=first) as (shell, folder):
                for line in lines:
                    self.do(shell, server, line)
                if lines[-1][0] != "=":
                    shell.expect_end(0)
                expect("files", before | after, {it.name: it.read_bytes().decode() for it in folder.iterdir()})

    def do(self, shell: Shell, server: ByHand, line: str) -> None:
        """Does what a line of a session says, and waits for what must be shown."""
        typed, *shown = line.removesuffix("|").split(" | ")
        mark, _, text = typed.partition(" ")
        match mark:
            case "<" | ">" | "&":
                return
            case "=" if " " in text:
                shell.leave(*text.split())
            case "=":
                shell.expect_end(int(text))
            case "?":
                expect("what was sent", f"{text}\n", server.lines.readline())
            case "!":
                server.write(unescaped(text))
            case "^C":
                shell.type(CONTROL_C)
            case _:
                shell.ask(typed.replace("\\s", " "))
        shell.wait_for("^" + "".join(map(pattern_of, shown)))


for head, lines in fixtures.sections("shell.txt").items():
    name, words = head.split(":")
    fixtures.add(Sessions, name, Sessions.assert_shows, words.split(), lines.split("\n"))


class Typed(fixtures.Case):
    """Control-C, the shell's file of earlier lines, and completion."""

    def test_control_c_at_the_prompt(self) -> None:
        """A half-typed line is dropped, and a new prompt comes."""
        with talking("--program", self.program) as (shell, _):
            shell.wait_for(PROMPT)
            shell.type("insert 1 ")
            shell.wait_for("^insert 1 ")
            shell.type(CONTROL_C)
            if not shell.read(5):
                # a control-C just before the shell waits for a line is noticed only with the next line
                shell.type(CONTROL_C)
            shell.wait_for("^.*\n")
            shell.ask(f"count {EVERYTHING}", "count 0" + TIME)
            shell.leave(1, 0, 0, 0)

    def test_control_c_in_a_load(self) -> None:
        """An interrupted load leaves no row."""

        def feed(path: pathlib.Path) -> None:
            with contextlib.suppress(OSError), open(path, "w") as file:
                while True:
                    file.write("7,1\n" * 1000)
                    # so that memory isn't full too soon
                    time.sleep(0.01)

        with talking("--program", self.program) as (shell, folder):
            endless = folder / "endless"
            os.mkfifo(endless)
            feeder = threading.Thread(target=feed, args=[endless], daemon=True)
            feeder.start()
            shell.ask(".load endless", r"\r\d+ rows read")
            shell.type(CONTROL_C)
            shell.wait_for(r"shell: interrupted: nothing is loaded\n")
            shell.ask(f"count {EVERYTHING}", "count 0" + TIME)
            feeder.join(SECONDS)
            shell.leave(1, 0, 0, 0)

    def test_history_and_completion(self) -> None:
        """Typed lines are kept in a file and can be recalled; Tab completes words."""
        if importlib.util.find_spec("readline") is None:
            self.skipTest("this Python has no readline")
        typed = {
            "cou\t0 10": r"^count 0 10\ncount 0" + TIME,
            "policy comp\t": "^policy complete ?\npolicy complete" + TIME,
            ".load ro\t": rf"^\.load rows\.csv ?\n{PROGRESS}loaded 1 row" + TIME,
            "exit": "held 1\n",
        }
        with tempfile.TemporaryDirectory() as room:
            how = {"CRACKD_HISTORY": f"{room}/history"}
            with talking("--program", self.program, files={"rows.csv": "1,2\n"}, **how) as (shell, _):
                for line, wanted in typed.items():
                    shell.wait_for(f"^{PROMPT}")
                    shell.type(line + "\n")
                    shell.wait_for(wanted)
                shell.expect_end(0)
            with talking("--program", self.program, **how) as (shell, _):
                shell.wait_for(f"^{PROMPT}")
                # control-P, four lines up
                shell.type("\x10" * 4 + "\n")
                shell.wait_for(r"count 0 10[ \x08]*\ncount 0" + TIME)
                shell.leave(1, 0, 0, 0)
