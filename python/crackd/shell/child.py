"""The shell's own server, its connection to a server, and the handling of control-C."""

import contextlib
import signal
import subprocess
import time
from typing import Any, Iterator, Sequence

from ..channel import Channel
from ..server import TRIES, free_port, output_of
from .texts import Ended, Interrupted, complain, fault_text, in_words

SECONDS_OF_AN_END = 60
# how long a server that is started anew tries to get the port, and how often
SECONDS_OF_A_PORT, SECONDS_BETWEEN = 5, 0.05


class Interrupts:
    """Notes a control-C, so that the running statement or command ends in order. A second one ends the shell."""

    def __init__(self) -> None:
        self.noted, self.is_told = 0, False
        signal.signal(signal.SIGINT, self.note)

    def note(self, *_: Any) -> None:
        """Handles the signal of a control-C: notes it, and raises KeyboardInterrupt if one was noted before."""
        self.noted += 1
        if self.noted > 1:
            raise KeyboardInterrupt

    def forget(self) -> None:
        """Forgets a control-C that was noted."""
        self.noted, self.is_told = 0, False

    def check(self, left_undone: str) -> None:
        """Raises `Interrupted` if a control-C was noted."""
        if self.noted:
            raise Interrupted(left_undone)

    @contextlib.contextmanager
    def breaking_in(self) -> Iterator[None]:
        """A context that waits for a person, a file or a program, and in which the first control-C ends the wait."""
        try:
            signal.signal(signal.SIGINT, signal.default_int_handler)
            yield
        finally:
            signal.signal(signal.SIGINT, self.note)

    def tell_once(self) -> None:
        """Reports, once after a control-C, that the server hasn't answered yet."""
        if self.noted and not self.is_told:
            self.is_told = True
            complain("the server hasn't answered yet; control-C again ends the session")


class Server:
    """The shell's own server, for one connection. Its process has a session of its own, which no control-C reaches."""

    def __init__(self, program: str, words: Sequence[str]):
        self.program = program
        for _ in range(TRIES):
            self.port = free_port()
            self.process = self.started(words)
            if self.has_begun():
                return
            complaint = self.process.communicate()[1].strip()
            # another program may have taken the port meanwhile: try another one
            if not is_of_port(complaint):
                raise Ended(f"no server: {self.end_text(complaint)}")
        raise Ended("no server: no port was free")

    def renew(self, words: Sequence[str]) -> None:
        """Starts a server with these words on the same port, once this one has ended, which was sent `quit`."""
        self.totals()
        end = time.monotonic() + SECONDS_OF_A_PORT
        while True:
            self.process = self.started(words)
            if self.has_begun():
                return
            complaint = self.process.communicate()[1].strip()
            if not is_of_port(complaint) or time.monotonic() > end:
                raise Ended(f"no server: {self.end_text(complaint)}")
            time.sleep(SECONDS_BETWEEN)

    def started(self, words: Sequence[str]) -> subprocess.Popen[str]:
        """Starts the server's process."""
        command = [
            self.program,
            "serve",
            "--port",
            str(self.port),
            "--workers",
            "1",
            "--sessions",
            "1",
            "--quiet",
            *words,
        ]
        pipe = subprocess.PIPE
        try:
            return subprocess.Popen(
                command,
                stdin=subprocess.DEVNULL,
                stdout=pipe,
                stderr=pipe,
                text=True,
                errors="replace",
                start_new_session=True,
            )
        except (OSError, ValueError) as error:
            raise Ended(f"no server: {fault_text(self.program, error)}") from error

    def has_begun(self) -> bool:
        """Waits until the process listens or ends. Returns whether it listens."""
        try:
            return output_of(self.process).readline() == f"listening {self.port}\n"
        except BaseException:
            self.end()
            raise

    def end_text(self, complaint: str) -> str:
        """The last line that the program wrote to standard error, in words, or else how the program ended."""
        status = self.process.returncode
        if complaint:
            line = complaint.splitlines()[-1].replace("crackd: ", "", 1)
            # the shell has longer words for a refusal than the program
            return in_words(line.partition(": ")[0] if line.startswith("refused ") else line)
        return (
            f"{self.program} was ended by signal {-status}"
            if status < 0
            else f"{self.program} ended with status {status}"
        )

    def totals(self) -> str:
        """Waits until the server has ended. Returns its last line."""
        try:
            wrote, complaint = self.process.communicate(timeout=SECONDS_OF_AN_END)
        except subprocess.TimeoutExpired as error:
            raise Ended("the server didn't end after its session") from error
        if self.process.returncode:
            raise Ended(self.end_text(complaint))
        return wrote.rstrip("\n")

    def why(self) -> str:
        """Why the server closed the connection."""
        try:
            return self.end_text(self.process.communicate(timeout=1)[1])
        except subprocess.TimeoutExpired:
            return "it cut the session off"

    def end(self) -> None:
        """Kills the server if it hasn't ended."""
        if self.process.poll() is None:
            self.process.kill()
        self.process.communicate()


def is_of_port(complaint: str) -> bool:
    """Whether a program complains that it can't listen on its port."""
    return complaint.partition(":")[2].strip().partition(":")[0] == "refused 17"


def channel_to(port: int, interrupts: Interrupts) -> Channel:
    """Connects to the server on a port of this machine."""
    try:
        return Channel("127.0.0.1", port, interrupts.tell_once)
    except OSError as error:
        raise Ended(f"no server on port {port}: {error.strerror or error}") from error
