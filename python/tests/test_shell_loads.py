"""Loads of the shell over the program: the file of its command line, and the splits of its own server."""

import os
import pathlib
import subprocess
import sys
import tempfile
import unittest

from ways import crackd, wants_program

from crackd.server import find_program
from crackd.shell.child import Server

# rows for two partitions, of which every seventh is examined
ROWS = 70_000


@wants_program
class Loads(unittest.TestCase):
    """What a shell in a pipe writes."""

    def setUp(self):
        room = tempfile.TemporaryDirectory()
        self.addCleanup(room.cleanup)
        self.room = pathlib.Path(room.name)
        (self.room / "few.csv").write_text("key,payload\n5,50\n6,-60\n")
        (self.room / "bad.csv").write_text("5,50\n6,x\n")
        (self.room / "many.csv").write_text("".join(f"{it},{it}\n" for it in range(ROWS)))

    def run_shell(self, words, *lines):
        """The status, the output and the errors of a shell with these words that reads these lines."""
        environment = {**os.environ, "PYTHONPATH": str(pathlib.Path(crackd.__file__).parent.parent)}
        environment["CRACKD"] = find_program()
        done = subprocess.run(
            [sys.executable, "-m", "crackd", "shell", *words],
            input="".join(f"{it}\n" for it in lines),
            capture_output=True,
            text=True,
            cwd=self.room,
            env=environment,
            timeout=100,
        )
        return done.returncode, done.stdout.splitlines(), done.stderr

    def rows(self, words, *lines):
        """The numbers of rows of the partitions after these lines."""
        _, output, _ = self.run_shell(words, *lines, "layout 0", "layout 1", "layout 2")
        return [int(it.split()[3]) for it in output if it.startswith("layout")]

    def test_a_file_is_loaded_first(self):
        found = self.run_shell(["few.csv"], "sum 0 end")
        self.assertEqual(found, (0, ["loaded 2 rows", "sum -10"], ""))

    def test_a_file_that_is_bad_ends_a_pipe(self):
        status, output, errors = self.run_shell(["bad.csv"], "insert 1 1")
        self.assertEqual((status, output), (1, []))
        self.assertRegex(errors, "^shell: record 2: refused 19: .*'6,x'; nothing is loaded\n$")
        found = self.run_shell(["none.csv"], "insert 1 1")
        self.assertEqual(found, (1, [], "shell: none.csv: No such file or directory\n"))

    def test_one_file_at_most(self):
        status, output, errors = self.run_shell(["few.csv", "bad.csv"])
        self.assertEqual((status, output), (2, []))
        self.assertIn("there can be one file", errors)

    def test_splits_that_suit_the_keys(self):
        half = ROWS // 2
        for words, lines, rows in [
            (["many.csv"], [], [half, ROWS - half]),
            ([], [".load many.csv"], [half, ROWS - half]),
            ([], ["count 0 end", "delete 0.0", ".load many.csv"], [half, ROWS - half]),
            # without keys of other rows nothing is known of the next load
            ([], ["insert 9 9", "delete 0.0", ".load many.csv"], [ROWS]),
            ([], [".load few.csv", ".load many.csv"], [ROWS + 2]),
            ([], [".load many.csv", ".load few.csv"], [half + 2, ROWS - half]),
            (["many.csv", "100"], [], [100, ROWS - 100]),
            (["--cells", "40000", "many.csv"], [], [half, ROWS - half]),
        ]:
            with self.subTest(words, lines=lines):
                self.assertEqual(self.rows(words, *lines), rows)

    def test_the_options_and_the_policy_of_the_session_stay(self):
        for words, lines in [(["--policy", "gradual"], []), ([], ["policy gradual"])]:
            _, output, _ = self.run_shell(words, *lines, ".load many.csv", "count 0 10", "layout 0")
            # under auto all rows would be merged
            layout = next(it for it in output if it.startswith("layout"))
            self.assertEqual(layout.split()[4:10], ["column", "10", "out", "0", "in", str(ROWS // 2 - 10)])
        status, output, errors = self.run_shell(["--cells", "34999", "many.csv"])
        self.assertEqual((status, output), (1, []))
        self.assertRegex(errors, "^shell: record 35000: refused 9: .*; nothing is loaded\n$")

    def test_a_file_into_another_server(self):
        with crackd.serve(workers=1) as server, server.connect() as table:
            status, output, _ = self.run_shell(["--port", str(server.port), "few.csv"], "count 0 end")
            self.assertEqual((status, output), (0, ["loaded 2 rows", "count 2"]))
            self.run_shell(["--port", str(server.port)], ".load many.csv")
            self.assertEqual([it.rows for it in table.layout().parts], [ROWS + 2])

    def test_a_server_that_is_started_anew_has_the_same_port(self):
        server = Server(find_program(), [])
        self.addCleanup(lambda: server.end())
        port, first = server.port, server.process
        for splits in (["5"], ["6", "7"]):
            with crackd.connect(port=port) as table:
                table.insert(1, 1)
            server.renew(splits)
            self.assertEqual(server.port, port)
        with crackd.connect(port=port) as table:
            self.assertEqual((len(table), table.partitions), (0, 3))
        self.assertEqual(first.returncode, 0)


if __name__ == "__main__":
    unittest.main()
