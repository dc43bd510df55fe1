"""Servers that are child processes of this one, and the search for the program crackd."""

from __future__ import annotations

import functools
import os
import pathlib
import shutil
import socket
import subprocess
import sys
import tempfile
from typing import IO, Any, AnyStr, Optional, Sequence

from .arrays import items_of, sized, whole
from .base import MOST_PARTS, POLICIES, POLICY, parts_for
from .client import Client, connect
from .decimals import INTEGERS, PayloadType
from .errors import Error, Forked, refused
from .keys import Keys, keys_for, quantiles

TRIES = 5
SECONDS_OF_AN_END = 10
# the programs that `make prove` and `make run` build, if this package is the one in a checkout's python/
BUILT = pathlib.Path(__file__).resolve().parent.parent.parent / "crates" / "crackd" / "out" / "crackd"
UNPROVED = BUILT.with_name("crackd-unproved")


class NoServer(Error):
    """A server couldn't be started."""


def find_program(path: Optional[str] = None) -> str:
    """Finds the program crackd and returns its path. Raises `NoServer` if there is none.

    It is `path` if that is given, or else that of the environment variable CRACKD, the program built in this checkout,
    the program on PATH, or the unproved program of this checkout. A line on standard error reports the use of the last.
    """
    found = path or os.environ.get("CRACKD") or (str(BUILT) if BUILT.exists() else program_of_path())
    if found is None and UNPROVED.exists():
        _report_unproved()
        return str(UNPROVED)
    if found is None:
        is_checkout = BUILT.parent.parent.exists()
        raise NoServer(
            (f"{BUILT} isn't built, and " if is_checkout else "")
            + "PATH has no crackd; `make run` in the repository compiles it, and `make prove` proves it"
        )
    return str(found)


def program_of_path() -> Optional[str]:
    """The program crackd on PATH. Skips scripts: this package installs one of the same name."""
    for folder in os.get_exec_path():
        found = shutil.which("crackd", path=folder)
        if found is not None and not is_script(found):
            return found
    return None


def version_of(path: str) -> str:
    """The version of the program at a path, as it says it, or `crackd` if it says none."""
    try:
        how: dict[str, Any] = {"capture_output": True, "text": True, "errors": "replace", "timeout": SECONDS_OF_AN_END}
        lines = subprocess.run([path, "--version"], check=True, **how).stdout.splitlines()
    except (OSError, subprocess.SubprocessError):
        return "crackd"
    return lines[0] if len(lines) == 1 and lines[0].startswith("crackd ") else "crackd"


def called() -> str:
    """The command by which this package was started, for its help."""
    return "crackd" if os.path.basename(sys.argv[0]) == "crackd" else "python3 -m crackd"


def is_script(path: str) -> bool:
    """Whether a file begins with #!, as scripts do."""
    try:
        with open(path, "rb") as file:
            return file.read(2) == b"#!"
    except OSError:
        return False


@functools.cache
def _report_unproved() -> None:
    """Reports once that the program in use wasn't proved here."""
    print(f"crackd: using {UNPROVED}, which wasn't proved here", file=sys.stderr)


def free_port() -> int:
    """A port of 127.0.0.1 that no process listens on now. Another one may take it before it is used."""
    with socket.socket() as it:
        it.bind(("127.0.0.1", 0))
        return int(it.getsockname()[1])


def output_of(process: subprocess.Popen[AnyStr]) -> IO[AnyStr]:
    """The standard output of a process that was started with a pipe for it."""
    assert process.stdout is not None
    return process.stdout


class Server:
    """A server that `serve` started. It listens on 127.0.0.1, port `port`.

    Examples
    --------
    >>> with crackd.serve(workers=1) as server, server.connect() as table:
    ...     row = table.insert(5, 70)
    ...     print(table.count(0, 10), table.sum())
    1 70
    """

    def __init__(self, command: Sequence[str], keys: Keys, policy: str, payloads: PayloadType = INTEGERS):
        self._keys, self._payloads, self._policy, self._parent = keys, payloads, policy, os.getpid()
        for _ in range(TRIES):
            self.port = free_port()
            self._start(command)
            if output_of(self._process).readline() == f"listening {self.port}\n".encode("ascii"):
                return
            complaint = self._complaint()
            # another program may have taken the port meanwhile: try another one
            if "refused 17" not in complaint:
                self._complain(complaint)
        raise NoServer("no port was free")

    def _start(self, command: Sequence[str]) -> None:
        words = [command[0], "serve", "--port", str(self.port), *command[1:]]
        # a file, since a server that writes much would block on a full pipe
        self._errors = tempfile.TemporaryFile()
        # the server ends when its input ends, so it also ends if this process is killed
        pipe = subprocess.PIPE
        try:
            self._process = subprocess.Popen(
                words, stdin=pipe, stdout=pipe, stderr=self._errors, start_new_session=True
            )
        except OSError as error:
            self._errors.close()
            raise NoServer(f"{command[0]}: {error.strerror}") from error

    def _complaint(self) -> str:
        """Waits until the program has ended. Returns what it wrote to standard error."""
        self._process.communicate()
        self._errors.seek(0)
        with self._errors:
            return self._errors.read().decode("utf-8", "replace").strip()

    def _complain(self, complaint: str) -> None:
        said = complaint.partition("refused ")[2].split()
        if said and said[0].rstrip(":").isdigit():
            raise refused(int(said[0].rstrip(":")))
        raise NoServer(complaint or f"the program ended with status {self._process.returncode}")

    def connect(self, **options: Any) -> Client:
        """Makes a new connection to the table, with the options of `crackd.connect`.

        A server serves up to 10,000 connections at a time.
        """
        types: dict[str, Any] = {"key_type": self._keys, "payload_decimals": self._payloads.decimals}
        table = connect("127.0.0.1", self.port, **{**types, "policy": self._policy, **options})
        # a server that nobody refers to any more ends, so `serve().connect()` would leave a table without one
        table._server = self
        return table

    def close(self) -> None:
        """Ends the server and its table. A second call does nothing."""
        if os.getpid() != self._parent:
            raise Forked("the server is that of the parent process, which alone ends it")
        if self._errors.closed:
            return
        self._process.terminate()
        try:
            self._process.communicate(timeout=SECONDS_OF_AN_END)
        except subprocess.TimeoutExpired:
            self._process.kill()
            self._process.communicate()
        self._errors.close()

    def __reduce_ex__(self, _: Any) -> Any:
        raise TypeError("a server can't be copied or pickled; other processes connect to its port")

    def __enter__(self) -> "Server":
        return self

    def __exit__(self, *_: Any) -> None:
        self.close()

    def __del__(self) -> None:
        process = getattr(self, "_process", None)
        if process is not None and os.getpid() == self._parent and process.poll() is None:
            process.kill()
            process.wait()


def splits_of(
    keys: Keys,
    sample: Any,
    rows: Optional[int],
    partitions: Optional[int],
    splits: Optional[Sequence[Any]],
    shards: Optional[int] = None,
    by_default: int = 1,
) -> list[int]:
    """The splits of a table, as numbers.

    They are `splits`, or else quantiles of `sample`, so that partitions get about equally many rows. `shards` is the
    number of shards, and `by_default` their number if it is None. A shard has up to 64 partitions.
    """
    most = MOST_PARTS * (shards or 1)
    if partitions is not None and not 1 <= whole(partitions, "partitions") <= most:
        raise ValueError(f"partitions must be 1 to {most}, not {partitions}")
    if splits is not None:
        splits = items_of(splits, "splits")
        if partitions not in (None, len(splits) + 1):
            raise ValueError(f"{len(splits)} splits make {len(splits) + 1} partitions, not {partitions}")
        return [int(it) for it in keys.many(splits)]
    if not len(sample):
        if partitions not in (None, 1):
            raise ValueError(f"{partitions} partitions need a sample of the keys, or splits")
        return []
    divided = shards or by_default
    count = partitions or divided * parts_for((len(sample) if rows is None else rows) // divided)
    return quantiles(keys.many(sample), count) if count > 1 else []


def serve(
    sample: Any = (),
    rows: Optional[int] = None,
    *,
    key_type: Any = None,
    key_decimals: Optional[int] = None,
    payload_decimals: Optional[int] = None,
    zone: Any = None,
    partitions: Optional[int] = None,
    splits: Optional[Sequence[Any]] = None,
    workers: int = 8,
    policy: str = POLICY,
    history: Optional[int] = None,
    cells: Optional[int] = None,
    program: Optional[str] = None,
) -> Server:
    """Starts `crackd serve` with an empty table, as a child of this process.

    `close`, or the end of a `with` statement, ends the server.

    Parameters
    ----------
    sample : array_like, optional
        Keys distributed like those that the table will hold. Its quantiles divide the keys into partitions.
    rows : int, optional
        About how many rows the table will hold. The default is the length of `sample`.
    key_type, key_decimals, payload_decimals, zone, partitions, splits, policy
        Those of `Table`. The server itself has integers: `connect` of the returned object knows what they stand for.
    workers : int, optional
        The number of threads that serve connections, 1 to 64.
    history, cells : int, optional
        The greatest number of entries in a partition's history, and of rows in a partition. A full history is emptied;
        by default it has no limit.
    program : str, optional
        The path of the program crackd.

    Returns
    -------
    Server

    Raises
    ------
    NoServer
        If the program isn't found or can't be started.
    """
    if policy not in POLICIES:
        raise ValueError(f"policy must be one of {', '.join(POLICIES)}, not {policy}")
    sample, splits = sized(sample), None if splits is None else sized(splits)
    kind, sample = keys_for(sample, key_type, key_decimals, zone)
    payloads = PayloadType(payload_decimals)
    cuts = splits_of(kind, sample, rows, partitions, splits)
    limits = (("--workers", "workers", workers), ("--limit", "history", history), ("--cells", "cells", cells))
    words = [word for option, name, it in limits if it is not None for word in (option, str(whole(it, name)))]
    command = [find_program(program), "--until-eof", "--auto-checkpoint", "--quiet", *words, *map(str, cuts)]
    return Server(command, kind, policy, payloads)
