#!/usr/bin/env python3
"""Tests of the builds without a proof, which compile a small program several times: a minute or two."""

import pathlib
import shutil
import signal
import subprocess
import sys
import tempfile
import unittest

TOP = pathlib.Path(__file__).resolve().parent.parent
MAIN = """#![tactic(auto)]

use crack_arguments::VERSION;
use std::io;

fn main(rt: HostRuntime) -> io::Result<()> {
    let version = VERSION;
    println!(rt; "crackd {version}")?;
    let cells = [7u64, 8, 9];
    for line in rt.lines(rt.alloc()) {
        let at = line?.as_str().len();
        let found = if at < cells.len() { cells[at] } else { 0 };
        println!(rt; "{found}")?;
    }
    Ok(())
}
"""
FILES = {
    "crates.txt": "crack_arguments:\ncrackd: crack_arguments\n\n# not proved: none\n",
    "HANDLES": "Handles allowed: none.\n",
    "include/crackd.h": "",
    "crates/crack_arguments/src/lib.rt": '#![tactic(auto)]\n\n/// The version.\npub const VERSION: &str = "0.1.0";\n',
    "crates/crackd/src/main.rt": MAIN,
}
# writes the sums of the sources as they are, as `make sums` does after a proof
WRITE = "import crates, sums; sums.FILE.write_text(''.join(f'{sums.line_of(it)}\\n' for it in crates.proved()))"


class Tree(unittest.TestCase):
    """A checkout of a small program, with these tools."""

    def setUp(self):
        folder = tempfile.TemporaryDirectory()
        self.addCleanup(folder.cleanup)
        self.top = pathlib.Path(folder.name)
        shutil.copytree(TOP / "tools", self.top / "tools", ignore=shutil.ignore_patterns("__pycache__"))
        for path, text in FILES.items():
            (self.top / path).parent.mkdir(parents=True, exist_ok=True)
            (self.top / path).write_text(text, encoding="utf-8")
        self.made = self.top / "crates" / "crackd" / "out" / "crackd-unproved"

    def call(self, *words):
        how = {"cwd": self.top / "tools", "capture_output": True, "text": True}
        return subprocess.run([sys.executable, *words], input="\na\naa\naaa\n", check=False, **how)

    def run_program(self):
        """The exit status and the lines of `build.py run`, which builds first where it must."""
        ended = self.call("build.py", "run")
        return ended.returncode, ended.stdout.split("\n")[:-1], ended.stderr

    def test_what_runs_is_of_its_sources_and_a_changed_body_is_stopped_by_its_check(self):
        replies = ["7", "8", "9", "0"]
        self.call("-c", WRITE)
        proved = self.made.with_name("crackd")
        proved.parent.mkdir(parents=True)
        # a program of older sources
        proved.write_text("#!/bin/sh\necho an older one\n", encoding="ascii")
        proved.chmod(0o755)
        self.assertEqual(self.run_program()[:2], (0, ["crackd 0.1.0 (proved elsewhere)", *replies]))
        self.assertFalse(proved.exists())
        was = self.made.stat()
        # the second time nothing is compiled
        status, lines, said = self.run_program()
        self.assertEqual((status, lines[1:], said), (0, replies, ""))
        self.assertEqual((self.made.stat().st_ino, self.made.stat().st_mtime_ns), (was.st_ino, was.st_mtime_ns))
        # an index one too far, after which nothing is written
        changed = MAIN.replace("at < cells.len()", "at <= cells.len()")
        (self.top / "crates" / "crackd" / "src" / "main.rt").write_text(changed, encoding="utf-8")
        status, lines, _ = self.run_program()
        self.assertEqual((status, lines), (-signal.SIGILL, ["crackd 0.1.0 (unproved)", *replies[:3]]))


if __name__ == "__main__":
    ran = unittest.main(exit=False).result
    wrong = len(ran.failures) + len(ran.errors)
    print(f"{ran.testsRun - wrong} passed, {wrong} failed")
    sys.exit(1 if wrong else 0)
