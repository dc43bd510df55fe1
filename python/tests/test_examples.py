"""The programs in examples/."""

import csv
import decimal
import pathlib
import subprocess
import sys
import unittest

from ways import crackd, wants_library, wants_numpy

EXAMPLES = pathlib.Path(crackd.__file__).resolve().parents[2] / "examples"


class Examples(unittest.TestCase):
    """What they print."""

    def test_an_example_without_arguments_prints_its_usage(self):
        programs = sorted(EXAMPLES.glob("*.py"))
        self.assertGreater(len(programs), 3)
        for program in programs:
            with self.subTest(program.name):
                ran = subprocess.run([sys.executable, program], capture_output=True, text=True, check=False)
                self.assertEqual((ran.returncode, ran.stdout), (2, ""))
                self.assertTrue(ran.stderr.startswith(f"usage: {program.name} "), ran.stderr)

    @wants_library
    @wants_numpy
    def test_the_sums_of_months(self):
        """Those of rides.csv, by the module csv and by decimals."""
        wanted = {f"2026-{month:02}": decimal.Decimal() for month in range(1, 13)}
        with open(EXAMPLES / "rides.csv", encoding="ascii", newline="") as file:
            for ride in csv.DictReader(file):
                wanted[ride["pickup"][:7]] += decimal.Decimal(ride["fare"] or 0)
        command = [sys.executable, EXAMPLES / "months.py", EXAMPLES / "rides.csv"]
        ran = subprocess.run(command, capture_output=True, text=True, check=True)
        self.assertEqual(ran.stdout, "".join(f"{month} {fares:.2f}\n" for month, fares in wanted.items()))


if __name__ == "__main__":
    unittest.main()
