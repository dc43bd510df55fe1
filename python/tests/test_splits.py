"""Splits of a file's keys, and quantiles: of all keys if a file is read, and of a sample elsewhere."""

import contextlib
import io
import pathlib
import tempfile
import unittest
from unittest import mock

from ways import crackd

from crackd import __main__ as program
from crackd.keys import quantiles

TOP = 2**64


class Quantiles(unittest.TestCase):
    """Where numbers are cut."""

    def test_parts_are_nearly_equal(self):
        for count in (1, 2, 3, 7, 64, 100, 1000):
            numbers = [it * 7919 % count + 1 for it in range(count)]
            for parts in (1, 2, 3, 7, 63, 64):
                cuts = quantiles(numbers, parts)
                self.assertEqual(cuts, sorted(set(cuts)))
                self.assertEqual(len(cuts), min(parts, count) - 1 if parts <= count else len(cuts))
                ends = [0, *cuts, TOP]
                sizes = [sum(low <= it < high for it in numbers) for low, high in zip(ends, ends[1:])]
                self.assertLessEqual(max(sizes) - min(sizes), 1 if parts <= count else count)

    def test_few_different_numbers(self):
        self.assertEqual(quantiles([], 5), [])
        self.assertEqual(quantiles([0] * 10, 5), [])
        self.assertEqual(quantiles([7] * 10, 5), [7])
        self.assertEqual(quantiles([0, 0, 0, 5], 4), [5])
        self.assertEqual(quantiles([0, TOP - 1], 2), [TOP - 1])

    def test_a_sample_has_about_as_many_as_it_may(self):
        numbers = list(range(1, 30_001))
        self.assertEqual(quantiles(numbers, 3, 30_000), [10_001, 20_001])
        self.assertEqual(quantiles(numbers, 3, 3), [10_001, 20_001])
        self.assertEqual(quantiles(numbers, 2), [15_001])


class Program(unittest.TestCase):
    """`python3 -m crackd splits` and the words that it takes."""

    def run_program(self, *words):
        out, errors = io.StringIO(), io.StringIO()
        with contextlib.redirect_stdout(out), contextlib.redirect_stderr(errors):
            try:
                status = program.main(list(words))
            except SystemExit as end:
                status = end.code
        return status, out.getvalue(), errors.getvalue()

    def test_its_usage_names_the_command_that_was_called(self):
        for path, name in (("/usr/bin/crackd", "crackd"), ("/lib/crackd/__main__.py", "python3 -m crackd")):
            with mock.patch("sys.argv", [path]):
                self.assertIn(f"usage: {name} COMMAND", self.run_program("--help")[1])
                for command in ("splits", "picture", "shell"):
                    self.assertIn(f"usage: {name} {command}", self.run_program(command, "--help")[1])

    def test_all_keys_of_a_file_count(self):
        # every second key is large, so that a sample of every second key might have none of them
        with tempfile.TemporaryDirectory() as room:
            path = pathlib.Path(room) / "rows.csv"
            path.write_text("".join(f"{it % 2 * 10**6 + it},1\n" for it in range(40_000)), encoding="utf-8")
            found = self.run_program("splits", str(path), "4")
        self.assertEqual(found, (0, "20000 1000001 1020001\n", ""))

    def test_keys_are_0_to_the_greatest_of_64_bits(self):
        with tempfile.TemporaryDirectory() as room:
            path = pathlib.Path(room) / "rows.csv"
            path.write_text(f"0,1\n{TOP - 1},1\n", encoding="utf-8")
            self.assertEqual(self.run_program("splits", str(path), "2"), (0, f"{TOP - 1}\n", ""))
            for key in (-1, TOP):
                path.write_text(f"5,1\n{key},1\n", encoding="utf-8")
                status, out, errors = self.run_program("splits", str(path), "2")
                self.assertEqual((status, out), (1, ""))
                self.assertIn(f"line 2, column 1: '{key}' isn't 0 to {TOP - 1}", errors)

    def test_words(self):
        for words in ([], ["none"], ["splits"], ["splits", "rows.csv", "0"], ["splits", "rows.csv", "65"]):
            status, out, errors = self.run_program(*words)
            self.assertEqual((status, out, "usage:" in errors), (2, "", True))
        for words in (["--help"], ["-h"]):
            status, out, errors = self.run_program(*words)
            self.assertEqual((status, out.startswith("usage:"), errors), (0, True, ""))
        for delimiter in ("", ";;"):
            status, out, errors = self.run_program("splits", "rows.csv", "3", "--delimiter", delimiter)
            self.assertEqual((status, out, "a delimiter must be one character" in errors), (2, "", True))
        self.assertEqual(
            self.run_program("splits", "missing.csv", "3"), (1, "", "crackd: missing.csv: No such file or directory\n")
        )


if __name__ == "__main__":
    unittest.main()
