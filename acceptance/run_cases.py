"""Runs the program on the acceptance cases: run_cases.py PROGRAM [WORD ..]

With words, only the cases whose name or file name contains one of them; cases/README.txt describes the format. For each
case that fails it prints the file, the first line that differs, what was wanted there and what came, and last
'acceptance: N passed, M failed'.
"""

import contextlib
import dataclasses
import itertools
import os
import pathlib
import re
import subprocess
import sys
import tempfile
import time
import typing

import fixtures

CASES = fixtures.TOP / "acceptance" / "cases"
SECONDS = 20
LINE = re.compile(rb"[^\n]*\n|[^\n]+")
REPEATED = re.compile(rb"\\\{(\d+) ([^}]*)\}")
ESCAPED = re.compile(rb"\\(x[0-9a-f]{2}|.)", re.DOTALL)
PLAIN = {b"r": b"\r", b"t": b"\t", b"n": b"\n", b"s": b" ", b"\\": b"\\", b"c": b""}
MARKED = re.compile(r"([$<>!=~+@#])(?: (.*))?")
REPLY = re.compile(r"(.*?)\s*(?<!\S)\|(?: (.*))?")
DEVICE = re.compile(r"(from|to) (\S+)")
SHELL = [sys.executable, "-m", "crackd", "shell", "--program"]
SHELL_ENVIRONMENT = {"PYTHONPATH": str(fixtures.TOP / "python"), "CRACKD_HISTORY": ""}


class Misfit(Exception):
    """Something in a file of cases that isn't allowed there."""


class Wanted(typing.NamedTuple):
    """A line that is wanted: its bytes, the line of the file that says so, and its worker in a batch."""

    text: bytes
    line: int
    worker: int | None = None


@dataclasses.dataclass
class Case:
    """A case of a file."""

    path: pathlib.Path
    line: int
    name: str
    words: list[str] | None = None
    given: bytes = b""
    wanted: list[Wanted] = dataclasses.field(default_factory=list)
    complaints: list[Wanted] = dataclasses.field(default_factory=list)
    texts: list[Wanted] = dataclasses.field(default_factory=list)
    files: dict[str, bytes] = dataclasses.field(default_factory=dict)
    status: Wanted | None = None
    source: str = ""
    target: str = ""

    def output(self) -> list[Wanted]:
        """The lines of output; in a batch, worker by worker."""
        is_batch = self.wanted and "batch" in self.words[:2]
        workers = int(dict(zip(self.words, self.words[1:])).get("--workers", 0)) if is_batch else 0
        heads = [Wanted(b"worker %d\n" % it, self.line, it) for it in range(workers)]
        said = [it for it in [*heads, *self.wanted] if it.worker is not None]
        said.sort(key=lambda it: it.worker % workers if workers else 0)
        return said + [it for it in self.wanted if it.worker is None]

    def place(self, line: int) -> str:
        """The file and a line of it, as text."""
        return f"{self.path.relative_to(fixtures.TOP)}:{line}"


def unescaped(text: str) -> bytes:
    """The bytes of a line, with its line feed if it has one."""

    def byte(found: re.Match[bytes]) -> bytes:
        if len(found[1]) == 3:
            return bytes.fromhex(found[1][1:].decode())
        if found[1] not in PLAIN:
            raise Misfit(f"not an escape: {found[0].decode(errors='replace')!r}")
        return PLAIN[found[1]]

    times = lambda it: b"".join(it[2].replace(b"#", b"%d" % number) for number in range(int(it[1])))
    return ESCAPED.sub(byte, REPEATED.sub(times, text.encode())) + (b"" if text.endswith("\\c") else b"\n")


def inputs(section: str) -> list[bytes]:
    """The inputs of a section of data/cut.txt."""
    return list(map(unescaped, fixtures.sections("cut.txt")[section].splitlines()))


def take_statement(to: Case, text: str, number: int) -> None:
    """Takes a statement with a line of its reply, or a further line of a reply."""
    found = REPLY.fullmatch(text)
    if not found:
        raise Misfit("not a statement with its reply")
    statement = unescaped(found[1].strip()) if found[1].strip() else b""
    to.given += statement
    worker = to.wanted[-1].worker if to.wanted else None
    if statement:
        first = statement.split(b" ")[0].strip()
        worker = int(first) if first.isdigit() else 0
    if worker is None:
        raise Misfit("no statement is above this line of a reply")
    to.wanted += [Wanted(line, number, worker) for line in LINE.findall(unescaped(found[2] or ""))]


def take(to: Case, mark: str, rest: str, number: int) -> None:
    """Takes a line of a case, which begins with a mark."""
    device = DEVICE.fullmatch(rest)
    match mark:
        case "$":
            to.words = [unescaped(it)[:-1].decode() for it in rest.split()]
        case "<":
            to.given += unescaped(rest)
        case ">" | "!":
            (to.wanted if mark == ">" else to.complaints).append(Wanted(unescaped(rest), number))
        case "~":
            to.texts.append(Wanted(unescaped(rest)[:-1], number))
        case "=":
            to.status = Wanted(rest.encode(), number)
        case "+":
            name, _, text = rest.partition(" ")
            to.files[name] = unescaped(text)
        case "@" if not device:
            raise Misfit("no path")
        case "@":
            setattr(to, {"from": "source", "to": "target"}[device[1]], device[2])


def held(it: Case) -> Case:
    """A case that was read whole. A misfit if its lines don't go together."""
    place = f"{it.path.name}:{it.line}"
    if it.words is None:
        raise Misfit(f"{place}: no line with the words of the command line")
    if bool(it.given) + bool(it.source) > 1 or bool(it.wanted) + bool(it.texts) + bool(it.target) > 1:
        raise Misfit(f"{place}: what is read, or what is written, is given twice")
    return it


def cases_of(path: pathlib.Path) -> typing.Iterator[Case]:
    """The cases of a file. A misfit names its line."""
    last = None
    for number, text in enumerate(path.read_text(encoding="utf-8").split("\n"), 1):
        marked = MARKED.fullmatch(text)
        if text.startswith("== "):
            if last:
                yield held(last)
            last = Case(path, number, text[3:].strip())
        elif last and text.strip():
            try:
                take(last, marked[1], marked[2] or "", number) if marked else take_statement(last, text, number)
            except (Misfit, ValueError) as error:
                raise Misfit(f"{path.name}:{number}: {error}") from error
        elif text.strip() and not text.startswith("#"):
            raise Misfit(f"{path.name}:{number}: no case has begun")
    if last:
        yield held(last)


def all_cases(*words: str) -> list[Case]:
    """The cases of all files, in order; with words, those whose name or file name contains one of them."""
    found = [it for path in sorted(CASES.glob("*.cases")) for it in cases_of(path)]
    names = [it.name for it in found]
    twice = sorted({it for it in names if names.count(it) > 1})
    if twice:
        raise Misfit(f"two cases of one name: {', '.join(twice)}")
    return [it for it in found if not words or any(word in it.name or word in it.path.stem for word in words)]


def said(client: fixtures.Client, statement: str) -> str:
    """The reply to a client's statement, or what follows something else that it does."""
    word, _, text = statement.partition(" ")
    if not word.startswith("."):
        return "".join(f"{it}\n" for it in client.answer(statement))

    def send() -> None:
        # the connection of a client that was never served may be reset
        with contextlib.suppress(OSError):
            client.send(text.replace("\\n", "\n"))
            if word == ".ends":
                client.sends_no_more()

    wrote = ""
    with contextlib.suppress(ConnectionError), fixtures.side_by_side(send):
        wrote = client.lines.read() if word == ".ends" else ""
    if word == ".resets":
        client.reset()
    if word in (".leaves", ".resets"):
        client.__exit__()
    return wrote


def served(program: str, of: Case) -> fixtures.Ended:
    """The outcome of a server whose clients are answered one statement after the other."""
    lines = [it.partition(" ")[::2] for it in of.given.decode().splitlines()]
    ends = ["--sessions", str(len({number for number, _ in lines})), "--quiet"]
    if "--until-eof" in of.words:
        lines, ends = [*lines, ("eof", "")], []
    clients: dict[str, fixtures.Client] = {}
    wrote = ""
    with fixtures.Server(program, *of.words[2:], *ends) as server, contextlib.ExitStack() as stack:
        for number, text in lines:
            if number == "eof":
                server.close()
            elif number == "wait":
                time.sleep(float(text))
            else:
                if number not in clients:
                    clients[number] = stack.enter_context(fixtures.Client(server.port, seconds=SECONDS))
                wrote += said(clients[number], text)
        status, totals, complained = server.ended()
    complained = complained.replace(f":{server.port}\n", ":PORT\n")
    for number, client in clients.items():
        complained = complained.replace(f"client {client.address}:", f"client {number}:")
    return status, f"{wrote}{totals}".encode(), complained.encode()


def ran(program: str, of: Case) -> fixtures.Ended:
    """The outcome: the status, standard output (None if it went elsewhere) and standard error."""
    if of.words[:2] == ["serve", "--workers"] and of.given:
        return served(program, of)
    command, how = [program, *of.words], {}
    if of.words[:1] == ["shell"]:
        command, how = [*SHELL, program, *of.words[1:]], {"env": {**os.environ, **SHELL_ENVIRONMENT}}
    with tempfile.TemporaryDirectory() as room, contextlib.ExitStack() as stack:
        for name, text in of.files.items():
            (pathlib.Path(room) / name).write_bytes(text)
        for stream, path, flags in [("stdin", of.source, os.O_RDONLY), ("stdout", of.target, os.O_WRONLY)]:
            if path:
                how[stream] = os.open(pathlib.Path(room) / path, flags)
                stack.callback(os.close, how[stream])
        if of.target:
            how["stderr"] = subprocess.PIPE
        return fixtures.ran(command, of.given, SECONDS, cwd=room, **how)


def first_difference(of: Case, what: str, wanted: list[Wanted], wrote: bytes) -> list[str]:
    """The first line that differs from what was wanted."""
    got = LINE.findall(wrote)
    for it, came in itertools.zip_longest(wanted, got[: len(wanted)], fillvalue=b""):
        if it.text != came:
            return [f"{of.place(it.line)}: {what}: wanted {it.text!r}, got {came or 'no more'!r}"]
    more = got[len(wanted) :]
    said = f"{of.place(of.line)}: {what}: {len(more)} lines more than are wanted, the first"
    return [f"{said} {more[0]!r}"] if more else []


def output_faults(of: Case, wrote: bytes) -> list[str]:
    """What is wrong with the output of a case, one line each."""
    if not of.texts:
        return first_difference(of, "output", of.output(), wrote)
    return [f"{of.place(it.line)}: the output lacks {it.text!r}" for it in of.texts if it.text not in wrote]


def faults(program: str, of: Case) -> list[str]:
    """What is wrong with a case, one line each."""
    try:
        status, wrote, complained = ran(program, of)
    except fixtures.FAULTS as error:
        return [f"{of.place(of.line)}: it could not be run to its end: {error}"]
    found = output_faults(of, wrote) if wrote is not None else []
    found += first_difference(of, "standard error", of.complaints, complained)
    wanted = of.status or Wanted(b"0", of.line)
    if status != int(wanted.text):
        found.append(f"{of.place(wanted.line)}: status: wanted {int(wanted.text)}, got {status}")
    return found


def run_all(program: str | pathlib.Path, *words: str) -> tuple[int, int]:
    """Runs the cases whose name or file name contains a word. Returns how many passed, and how many failed."""
    program = str(pathlib.Path(program).resolve())
    passed = failed = 0
    for it in all_cases(*words):
        found = faults(program, it)
        passed, failed = passed + (not found), failed + bool(found)
        if found:
            print(f"acceptance: {it.name} FAILED", *found, sep="\n    ")
    if not passed and not failed:
        print(f"acceptance: no case's name has {' or '.join(map(repr, words))}")
        failed = 1
    print(f"acceptance: {passed} passed, {failed} failed", flush=True)
    return passed, failed


if __name__ == "__main__":
    if len(sys.argv) < 2:
        sys.exit(__doc__)
    sys.exit(1 if run_all(*sys.argv[1:])[1] else 0)
