"""The version, which is the same from the program, the library, the package and the shell's first line. It ends with
nothing if the program was proved here, and else with ` (proved elsewhere)` or ` (unproved)`."""

import os
import pathlib
import re
import subprocess
import sys

import fixtures
from test_shell import talking

FORM = r"crackd \d+\.\d+\.\d+( \((proved elsewhere|unproved)\))?"
PACKAGE = fixtures.TOP / "python"


def said(*command: str) -> str:
    """What a command writes, with the package at hand."""
    environment = {**os.environ, "PYTHONPATH": str(PACKAGE)}
    return subprocess.run(command, env=environment, capture_output=True, text=True, check=True).stdout


class Versions(fixtures.Case):
    def test_the_program_says_whether_it_was_proved(self) -> None:
        found = re.fullmatch(f"{FORM}\n", said(self.program, "--version"))
        self.assertIsNotNone(found)
        out, path = fixtures.TOP / "crates" / "crackd" / "out", pathlib.Path(self.program)
        if path == out / "crackd":
            self.assertIsNone(found[1])
        if path == out / "crackd-unproved":
            self.assertIsNotNone(found[1])

    def test_library_and_package_have_the_version_of_the_program(self) -> None:
        name = "libcrackd-unproved.so" if self.program.endswith("-unproved") else "libcrackd.so"
        path = PACKAGE / "crackd" / name
        if not path.exists():
            self.skipTest(f"{name} isn't built")
        os.environ["CRACKD_LIBRARY"] = str(path)
        self.addCleanup(os.environ.pop, "CRACKD_LIBRARY")
        of_library = said(sys.executable, "-c", "from crackd import library; print(library.version())")
        self.assertRegex(of_library, f"^{FORM}\n$")
        self.assertEqual(said(sys.executable, "-m", "crackd", "--version"), of_library)
        # (what it ends with is another if only one of them uses a crate that changed)
        self.assertEqual(of_library.split()[:2], said(self.program, "--version").split()[:2])

    def test_the_first_line_of_a_shell_has_it(self) -> None:
        version = said(self.program, "--version").rstrip()
        with talking(shown=rf"^{re.escape(version)} on port \d+; .*\n", CRACKD=self.program) as (shell, _):
            shell.leave(0, 0, 0, 0)
