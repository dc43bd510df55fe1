"""What run_cases.py reads as a case, and which line of its file it names if the output differs."""

import pathlib
import tempfile
import unittest

import run_cases

BATCH = """# Two workers.

== a-batch
$ batch --workers 2 100
1 insert 150 6\\r | row 1.0
< \\s\\s
0 select 0 \\{2 1} | rows 1
                | 0.0 5 -5
> accepted 2 inserted 1 deleted 0 held 1
! crackd: a word\\c
+ rows.csv 1,2\\n\\c
= 1
"""
GIVEN = b"1 insert 150 6\r\n  \n0 select 0 11\n"
WROTE = b"worker 0\nrows 1\n0.0 5 -5\nworker 1\nrow 1.0\naccepted 2 inserted 1 deleted 0 held 1\n"
# the line of the file for each line of output
LINES = [3, 7, 8, 3, 5, 9]
# texts that aren't cases, and the line that is named
WRONG = {
    "$ script\n": 1,
    "== a\n": 1,
    "== a\n\ninsert 1 1\n": 3,
    "== a\n$ script\n| row\n": 3,
    "== a\n$ script\n@ into x\n": 3,
    "== a\n$ script\ninsert \\q | row\n": 3,
}


def cases(text: str) -> list[run_cases.Case]:
    """The cases of a file with this text."""
    with tempfile.TemporaryDirectory() as room:
        path = pathlib.Path(room) / "batches.cases"
        path.write_text(text, encoding="utf-8")
        return list(run_cases.cases_of(path))


class Cases(unittest.TestCase):
    def test_a_case_is_read_byte_by_byte_and_a_batch_worker_by_worker(self) -> None:
        (case,) = cases(BATCH)
        self.assertEqual((case.name, case.words, case.given), ("a-batch", ["batch", "--workers", "2", "100"], GIVEN))
        self.assertEqual(b"".join(it.text for it in case.output()), WROTE)
        self.assertEqual([it.line for it in case.output()], LINES)
        self.assertEqual((case.complaints[0].text, case.status.text), (b"crackd: a word", b"1"))
        self.assertEqual(case.files, {"rows.csv": b"1,2\n"})

    def test_the_line_that_first_differs_is_named(self) -> None:
        (case,) = cases(BATCH)
        lines = WROTE.splitlines(keepends=True)
        case.path = run_cases.CASES / "batches.cases"
        self.assertEqual(run_cases.first_difference(case, "output", case.output(), WROTE), [])
        for at, line in enumerate(LINES):
            for put in [[], [lines[at][:-1]], [b"x\n"]]:
                wrote = b"".join([*lines[:at], *put, *lines[at + 1 :]])
                (fault,) = run_cases.first_difference(case, "output", case.output(), wrote)
                place = f"acceptance/cases/batches.cases:{line}: output: wanted {lines[at]!r}"
                self.assertTrue(fault.startswith(place), fault)
        (more,) = run_cases.first_difference(case, "output", case.output(), WROTE + b"more\n")
        self.assertIn("1 lines more than are wanted, the first b'more\\n'", more)

    def test_what_is_no_case_is_named_with_its_line(self) -> None:
        for text, line in WRONG.items():
            with self.assertRaisesRegex(run_cases.Misfit, f"batches.cases:{line}: "):
                cases(text)
