"""Runs the commands of README, the guide, docs/C.md and the pages of pages/, one check per section, and compares
their output with what the page says.

The following kinds of fenced blocks are run. Those of a section run in one shell, in a folder that has `events.csv`,
`examples`, `python` and `lib`:

    console   a line after `$ ` is a command for the shell; the lines up to the next `$ ` are its output
    pycon     a session of Python, as doctest reads it
    python    a program, which must succeed, followed by a block `text` if it writes something
    c         a program, which is written to rows.c

In output `...` matches any text. The shell finds `crackd` and the package, and port 4000 of a server is replaced by a
free port. A word `needs=NAME` after the kind of a block names what the block can't be run without: a program on PATH, a
Python module, or `library`, which `make lib` and `make lib-unproved` build. A section with a block that can't be run
counts as skipped if its other blocks pass.
"""

import contextlib
import functools
import os
import pathlib
import re
import shutil
import signal
import subprocess
import tempfile
import typing
import unittest

import fixtures
import package
from fixtures import TOP

PAGES = ["README.md", "docs/GUIDE.md", "docs/C.md"]
PAGES += [f"acceptance/pages/{name}.txt" for name in ("examples", "library", "devices", "bounds")]
SECONDS, PORT = 120, "4000"
FENCE = re.compile(r"^```(\w+)(.*)\n((?:.*\n)*?)```$(?:\n+```text\n((?:.*\n)*?)```$)?", re.MULTILINE)
COMMAND = re.compile(r"^\$ (.*\n(?:> .*\n)*)((?:(?!\$ ).*\n)*)", re.MULTILINE)
END = "-- end of a command --"
# the command that runs a block's program, which the shell has written to a file
PROGRAMS = {"python": "python3 block", "pycon": "python3 -m doctest -o ELLIPSIS block", "c": "mv block rows.c"}


class Block(typing.NamedTuple):
    """A fenced block: where it begins, what it needs, and the shell's commands, each with its output."""

    place: str
    needs: list[str]
    commands: list[tuple[str, str]]


def sections(page: pathlib.Path) -> dict[str, list[Block]]:
    """The blocks that are run, by the headings of their sections. A line that begins with `> ` continues a command."""
    found: dict[str, list[Block]] = {}
    whole = page.read_text(encoding="utf-8")
    for fence in FENCE.finditer(whole):
        kind, needs, text, output = fence.groups("")
        before = whole[: fence.start()]
        commands = [(it.replace("\n> ", "\n").rstrip("\n"), wrote) for it, wrote in COMMAND.findall(text)]
        if kind in PROGRAMS:
            command = f"cat > block << 'END OF BLOCK'\n{text}END OF BLOCK\n{PROGRAMS[kind]}"
            commands = [(f'{command} || echo "(ended with status $?)"', output)]
        if kind in ("console", *PROGRAMS):
            heading = re.findall(r"^## (.*)$|\A", before, re.MULTILINE)[-1]
            place = f"{page.name}:{before.count(chr(10)) + 1}"
            found.setdefault(heading, []).append(Block(place, re.findall(r"needs=(\S+)", needs), commands))
    return found


@functools.cache
def is_there(needed: str) -> bool:
    """Whether something that a block needs is available."""
    if needed == "library":
        return (TOP / "lib" / "libcrackd.so").exists()
    return shutil.which(needed) is not None or fixtures.ran([package.interpreter(), "-c", f"import {needed}"])[0] == 0


def fits(wanted: str, came: str) -> bool:
    """Whether a text is the wanted one, in which `...` matches any text."""
    return re.fullmatch(".*".join(map(re.escape, wanted.split("..."))), came, re.DOTALL) is not None


def environment_for(program: str, folder: str) -> dict[str, str]:
    """An environment in which `crackd` is the program, and package and library are found, by files in a folder."""
    links = {"crackd": program, "crackd.h": TOP / "include" / "crackd.h"}
    for made in sorted((TOP / "lib").glob("libcrackd*.so")):
        # the proved library comes last, and so replaces the other
        links |= {"libcrackd.so": made, made.name: made}
    for name, target in links.items():
        (pathlib.Path(folder) / name).symlink_to(target)
    # this `make run` only answers statements, as the built program does; other targets do nothing
    scripts = {"python3": f'exec {package.interpreter()} "$@"', "make": 'test "$1" != run || exec crackd script'}
    for name, script in scripts.items():
        path = pathlib.Path(folder) / name
        path.write_text(f"#!/bin/sh\n{script}\n", encoding="ascii")
        path.chmod(0o755)
    found = {it: folder for it in ("CPATH", "LIBRARY_PATH", "LD_LIBRARY_PATH")} | {"TOP": str(TOP)}
    found |= {"PATH": os.pathsep.join([folder, os.environ.get("PATH", "")]), "CRACKD": str(program)}
    found |= {"PYTHONWARNINGS": "ignore:Port"}  # Dask warns if another cluster has the port of its page
    return {**os.environ, **found, "PYTHONPATH": str(package.PACKAGE), "LC_ALL": "C.UTF-8"}


def wrote_in_shell(commands: list[str], folder: str, environment: dict[str, str]) -> list[str]:
    """What each command writes in one shell, with nothing to read."""
    script = "".join(f"{{ {it}\n}} < /dev/null\necho '{END}'\n" for it in commands)
    with tempfile.TemporaryFile("w+", errors="replace") as output:
        how = {"stdin": subprocess.PIPE, "stdout": output, "stderr": subprocess.STDOUT, "start_new_session": True}
        shell = subprocess.Popen(["bash"], cwd=folder, env=environment, text=True, **how)
        with contextlib.suppress(subprocess.TimeoutExpired):
            shell.communicate(script, SECONDS)
        # also ends whatever the shell left running
        with contextlib.suppress(ProcessLookupError):
            os.killpg(shell.pid, signal.SIGKILL)
        shell.wait()
        output.seek(0)
        *wrote, rest = output.read().split(f"{END}\n")
    lost = [f"{rest}(the shell has ended)\n"] + ["(the shell had ended)\n"] * len(commands)
    return (wrote + lost)[: len(commands)]


def run(blocks: list[Block], program: str) -> tuple[int, list[str], list[str]]:
    """Runs the blocks of a section. Returns how many commands passed, what is wrong, and what was skipped."""
    has_port = any(f"--port {PORT}" in command for it in blocks for command, _ in it.commands)
    port, asked, skipped = str(fixtures.free_port()) if has_port else PORT, [], []
    for it in blocks:
        missing = [needed for needed in it.needs if not is_there(needed)]
        skipped += [f"{missing[0]} isn't there ({it.place})"] if missing else []
        asked += [] if missing else [(it.place, *(text.replace(PORT, port) for text in both)) for both in it.commands]
    with tempfile.TemporaryDirectory() as folder, tempfile.TemporaryDirectory() as bin:
        shutil.copy(TOP / "examples" / "events.csv", folder)
        for name in ("examples", "python"):
            (pathlib.Path(folder) / name).symlink_to(TOP / name)
        (pathlib.Path(folder) / "lib").symlink_to(bin)
        wrote = wrote_in_shell([command for _, command, _ in asked], folder, environment_for(program, bin))
    faults = [
        f"{place}: {command}\n    wanted {wanted!r}\n    came   {came!r}"
        for (place, command, wanted), came in zip(asked, wrote)
        if not fits(wanted, came)
    ]
    return len(asked) - len(faults), faults, skipped


PAGE = (TOP / "acceptance" / "pages" / "page.txt").read_text(encoding="utf-8")


class Checker(unittest.TestCase):
    """What counts as a command, and that one with other output is found."""

    def assert_counts(self, passed: int, failed: int, *changes: str) -> list[str]:
        with tempfile.TemporaryDirectory() as folder:
            page = pathlib.Path(folder) / "PAGE.md"
            page.write_text(PAGE.replace(*changes) if changes else PAGE, encoding="utf-8")
            ran = [run(blocks, "/bin/true") for blocks in sections(page).values()]
        self.assertEqual((sum(it[0] for it in ran), sum(len(it[1]) for it in ran)), (passed, failed), changes)
        return [line for it in ran for line in it[2]]

    def test_each_command_is_run_once_and_what_lacks_something_is_skipped(self) -> None:
        (skipped,) = self.assert_counts(5, 0)
        self.assertEqual(skipped, "no-such-program isn't there (PAGE.md:34)")

    def test_a_command_that_writes_something_else_or_fails_fails(self) -> None:
        self.assert_counts(4, 1, "\none\n", "\ntwo\n")
        self.assert_counts(4, 1, "\n2\n```\n\n## Two", "\n3\n```\n\n## Two")
        self.assert_counts(4, 1, "\n2\n```\n\n```console", "\n3\n```\n\n```console")
        self.assert_counts(4, 1, "print(1 + 1)", "print(2)\nraise SystemExit(1)")
        self.assert_counts(4, 1, "echo one", "no-such-command")
        self.assert_counts(1, 4, "echo one", "exit")

    def test_dots_stand_for_any_text(self) -> None:
        self.assertTrue(fits("took ... ms\n", "took 1.5\n2 ms\n"))
        self.assertFalse(fits("took ... ms\n", "took 1.5 s\n"))


class Commands(fixtures.Case):
    """The commands of each section."""

    def assert_holds(self, blocks: list[Block]) -> None:
        _, faults, skipped = run(blocks, self.program)
        self.assertEqual(faults, [])
        if skipped:
            self.skipTest(", ".join(skipped))


for page in map(TOP.joinpath, PAGES):
    for heading, blocks in sections(page).items():
        fixtures.add(Commands, f"{page.stem} {heading}".lower(), Commands.assert_holds, blocks)
