#!/usr/bin/env python3
"""The sums of what was proved: sums.py proves all that users run and writes proved.txt; sums.py --check compares it

proved.txt has a line for each crate that is proved: its name, the sum of its line in crates.txt and of its files, and
that of the toolchain. Where a crate and all below it are exactly those, it was proved somewhere, by this toolchain, so
it can be compiled without checks. A line for other sources is worth nothing. Only this writes the file.
"""

import sys

import crates
import prove

FILE = crates.TOP / "proved.txt"


def line_of(crate):
    """The line of a crate as it is."""
    return f"{crate.name} {crates.own_sum(crate.name)} {crates.kit_sum()}"


def known():
    """The lines of the file."""
    return crates.read(FILE).splitlines() if FILE.exists() else []


def are_known(wanted):
    """Whether each of these crates is exactly as it was proved."""
    lines = {*known()}
    return all(line_of(it) in lines for it in wanted)


def check():
    """Says whether the file is up to date. If it isn't, nothing has failed: what it says of other sources is unused."""
    is_current = known() == sorted(map(line_of, crates.proved()))
    if not is_current:
        print("sums: proved.txt isn't that of these sources: after a proof `make sums` writes it, and it is committed")
    print("1 passed, 0 failed" if is_current else "0 passed, 0 failed, 1 skipped")
    return 0


def write():
    """Proves all that users run, and writes the file."""
    if not prove.prove_names([it.name for it in crates.proved()]):
        return 1
    lines = sorted(map(line_of, crates.proved()))
    if not all(map(prove.is_current, crates.proved())):
        sys.exit("a file changed meanwhile: run this again")
    FILE.write_text("".join(f"{it}\n" for it in lines), encoding="utf-8")
    print(f"{FILE.name} has the sums of {len(lines)} crates", file=sys.stderr)
    return 0


def main(words):
    if words not in ([], ["--check"]):
        sys.exit(__doc__)
    return check() if words else write()


if __name__ == "__main__":
    sys.exit(main(sys.argv[1:]))
