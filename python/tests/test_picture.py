"""Pictures of scripts."""

import contextlib
import io
import os
import pathlib
import tempfile
import unittest

from ways import crackd, wants_program

from crackd import picture

TOP = pathlib.Path(__file__).resolve().parent.parent.parent
OF_EXAMPLES = ["--csv", str(TOP / "examples" / "events.csv"), str(TOP / "examples" / "queries.txt")]


@wants_program
class Pictures(unittest.TestCase):
    def drawn(self, *words):
        printed = io.StringIO()
        with contextlib.redirect_stdout(printed):
            self.assertEqual(picture.main(words), 0)
        return printed.getvalue()

    def of_script(self, text, *words):
        with tempfile.TemporaryDirectory() as room:
            path = os.path.join(room, "script.txt")
            pathlib.Path(path).write_text(text, encoding="ascii")
            return self.drawn(path, *words)

    def test_the_pictures_of_the_documents_are_those_of_the_examples(self):
        self.assertEqual(self.drawn(*OF_EXAMPLES), (TOP / "docs" / "cracking.svg").read_text(encoding="utf-8"))
        self.assertEqual(
            self.drawn("--policies", *OF_EXAMPLES), (TOP / "docs" / "policies.svg").read_text(encoding="utf-8")
        )

    def test_what_a_query_cracked_and_merged(self):
        statements = [
            "policy auto",
            "insert 30 3",
            "insert 10 1",
            "insert 40 4",
            "sum 15 35",
            "insert 20 2",
            "count 20 35",
            "count 20 35",
        ]
        found = picture.run(crackd.server.find_program(), statements, 0, [])
        self.assertEqual(
            [(it.reply, it.new_bounds(), it.cracked(), it.merged()) for it in found],
            [("sum 3", [15, 35], 0, 3), ("count 2", [20], 1, 1), ("count 2", [], 0, 0)],
        )

    def test_a_partition_is_drawn_within_its_ends(self):
        drawn = self.of_script(
            "insert 10 1\ninsert 150 2\ninsert 300 3\ncount 120 160\n", "--partition", "1", "100", "200"
        )
        self.assertIn(">100</text>", drawn)
        self.assertIn(">199</text>", drawn)

    def test_deletions_also_wait_to_be_merged(self):
        script = "insert 10 1\ninsert 20 2\ncount 0 100\ndelete 0.0\ninsert 30 3\ncount 50 60\n"
        drawn = self.of_script(script, "--policies")
        for name, count in [("complete", 2), ("gradual", 2), ("ripple", 2), ("auto", 0)]:
            self.assertIn(f">{name}: {count}</text>", drawn)

    def test_statements_as_in_the_shell(self):
        text = "insert 10 1;\ninsert 20 2\n\ncount 15 end;\nsum 0 end\n"
        number = text.replace("end", str(2**64)).replace(";", "")
        self.assertEqual(self.of_script(text), self.of_script(number))
        self.assertIn(">count 15 end</text>", self.of_script(text))

    def test_bad_words(self):
        for words, wanted in [([], "SCRIPT is missing"), (["script.txt", "--partition", "x"], "invalid int value")]:
            printed = io.StringIO()
            with contextlib.redirect_stderr(printed), self.assertRaises(SystemExit) as caught:
                picture.main(words)
            self.assertEqual(caught.exception.code, 2)
            self.assertIn(wanted, printed.getvalue())

    def test_scripts_that_cannot_be_drawn(self):
        for text, wanted in [
            ("insert 1 1\n", "no count, sum or select"),
            ("count 0 1\n", "inserts no row"),
            ("insert 1 1\nfetch\ncount 0 9\n", "fetch: refused 1"),
        ]:
            with self.assertRaisesRegex(picture.ScriptError, wanted):
                self.of_script(text)
