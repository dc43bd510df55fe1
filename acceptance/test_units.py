"""The unit tests of the crates that only test: each test by itself, in the test program of its crate."""

import pathlib
import re
import typing

import fixtures
from fixtures import CRATES

TEST = re.compile(r"^ *#\[test\]\n(?: *#\[.*\n)* *(?:pub )?fn (\w+)", re.MULTILINE)
# how many seconds a test may take
SECONDS = 120


def tests_of(crates: pathlib.Path) -> typing.Iterator[tuple[str, str]]:
    """The crates that only test, each with the names of its tests."""
    for path in sorted(crates.glob("*_tests/src/*.rt")):
        for name in TEST.findall(path.read_text(encoding="utf-8")):
            yield path.parts[-3], name if path.stem == "lib" else f"{path.stem}::{name}"


def test_program(crate: str) -> pathlib.Path:
    """The test program of a crate, as tools/tests.py builds it."""
    return CRATES / crate / "out" / f"{crate}_tests"


def run(case: fixtures.Case, crate: str, name: str) -> None:
    program = test_program(crate)
    if not program.exists():
        case.skipTest(f"the tests of {crate} aren't built")
    status, *wrote = fixtures.ran([program, name], b"", SECONDS)
    case.assertEqual(status, 0, b"".join(wrote)[-2000:].decode(errors="replace"))


class Units(fixtures.Case):
    """The unit tests. The names of checks have the crate and the name."""

    def test_there_are_tests(self) -> None:
        self.assertGreater(len(list(tests_of(CRATES))), 100)


for crate, name in tests_of(CRATES):
    fixtures.add(Units, f"{crate} {name}", run, crate, name)
