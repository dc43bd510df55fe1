"""The sums that `.ci/run` prints, and when it fails. It is run in a folder whose steps are stand-ins."""

import os
import pathlib
import re
import shutil
import subprocess
import tempfile
import unittest

TOP = pathlib.Path(__file__).resolve().parent.parent
# each step's script, and how many tests pass in it
STEPS = {
    "tools/prove.py": 25,
    "tools/tests.py": 1900,
    "tools/test_tools.py": 19,
    "tools/test_builds.py": 1,
    "tools/sums.py": 1,
    "tools/edits.py": 893,
}
PROGRAM = "crates/crackd/out/crackd"
FAILS = "raise SystemExit(1)"


def ran(program: str = PROGRAM, **scripts: str) -> tuple[int, list[str]]:
    """The status and the lines of `.ci/run` with these steps, and for others ones that pass."""
    with tempfile.TemporaryDirectory() as room:
        top = pathlib.Path(room)
        texts = {path: f"print('{passed} passed, 0 failed')" for path, passed in STEPS.items()}
        texts["tools/build.py"] = ""
        texts |= {path: text for path in texts for name, text in scripts.items() if path.endswith(f"/{name}.py")}
        # a stand-in, so that nothing is installed
        texts["bin/apt-get"] = "#!/bin/sh\n"
        for path in [".ci/run", *texts, program]:
            (top / path).parent.mkdir(parents=True, exist_ok=True)
            (top / path).write_text(texts.get(path, ""))
        (top / "bin" / "apt-get").chmod(0o755)
        shutil.copy(TOP / ".ci" / "run", top / ".ci" / "run")
        environment = {**os.environ, "PATH": f"{top / 'bin'}{os.pathsep}{os.environ['PATH']}"}
        how = {"cwd": top, "env": environment, "capture_output": True, "text": True, "check": False}
        done = subprocess.run(["sh", ".ci/run"], **how)
        return done.returncode, done.stdout.splitlines()


class Gate(unittest.TestCase):
    def test_the_last_line_is_the_sum_of_all_and_the_one_before_has_the_seconds(self) -> None:
        status, lines = ran()
        self.assertEqual((status, lines[-1]), (0, f"{sum(STEPS.values())} passed, 0 failed"))
        self.assertEqual([it for it in lines[:-1] if re.fullmatch(r"\d+ passed, \d+ failed", it)], [])
        steps = ", ".join(rf"{it} \d+" for it in ("proofs", "tests", "tools", "builds", "sums", "edits"))
        seconds = rf"seconds on \d+ processors: whole \d+, {steps}"
        self.assertRegex(lines[-2], f"^{seconds}$")

    def test_what_was_skipped_is_counted_at_the_end(self) -> None:
        says = "print('{} passed, 0 failed, {} skipped')"
        status, lines = ran(tests=says.format(1890, 10), edits=says.format(800, 93))
        self.assertEqual((status, lines[-1]), (0, f"{sum(STEPS.values()) - 103} passed, 0 failed, 103 skipped"))
        self.assertIn("edits: 800 passed, 0 failed, 93 skipped", lines)

    def test_what_failed_is_counted(self) -> None:
        for text, skipped in ("398 passed, 2 failed", ""), ("398 passed, 2 failed, 4 skipped", ", 4 skipped"):
            status, lines = ran(tests=f"print('{text}'); {FAILS}")
            passed = sum(STEPS.values()) - STEPS["tools/tests.py"] + 398
            self.assertEqual((status, lines[-1]), (1, f"{passed} passed, 2 failed{skipped}"))

    def test_a_step_that_ends_without_a_sum_or_with_a_bad_status_has_failed_once(self) -> None:
        for text in ("print('all is well')", FAILS, f"print('400 passed, 0 failed, 1 skipped'); {FAILS}"):
            with self.subTest(text):
                status, lines = ran(tests=text)
                self.assertEqual(status, 1)
                self.assertIn("tests: FAILED", lines)
                self.assertRegex(lines[-1], r"^\d+ passed, 1 failed(, 1 skipped)?$")

    def test_edits_get_the_time_that_is_left(self) -> None:
        asks = "import sys; print(sys.argv[1:]); print('1 passed, 0 failed')"
        _, lines = ran(edits=asks)
        self.assertTrue(any(re.fullmatch(r"\['--due', '(9000|8\d\d\d)'\]", it) for it in lines), lines)

    def test_without_a_library_it_fails(self) -> None:
        self.assertEqual(ran(build=FAILS)[0], 1)

    def test_without_a_proved_program_nothing_is_tested_and_it_fails(self) -> None:
        status, lines = ran(program="crates/crackd/out/crackd-unproved")
        self.assertEqual(status, 1)
        self.assertEqual([it for it in lines if it.startswith("tests: 1900")], [])
