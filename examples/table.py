#!/usr/bin/env python3
"""A table in the process: table.py ROWS

It needs libcrackd.so, which `make lib-unproved` compiles and `make lib` proves. Row i has key i and payload 2i.
"""

import argparse
import pathlib
import sys

sys.path.insert(0, str(pathlib.Path(__file__).resolve().parent.parent / "python"))

import crackd


def main(count):
    with crackd.Table.from_arrays(range(count), range(0, 2 * count, 2)) as table:
        print("count", table.count(count // 4, 3 * count // 4))
        print("sum", table.sum(count // 4, 3 * count // 4))
        got = table.select(10, 13)
        print("select", [(int(key), int(payload)) for key, payload in zip(got.keys, got.payloads)])
        table.delete_many(table.row_numbers[count // 4 : count // 4 + 2])
        table.insert(count // 2, 4)
        print("after updates", table.count(count // 4, 3 * count // 4))
        print("sum", table.sum(count // 4, 3 * count // 4))


if __name__ == "__main__":
    arguments = argparse.ArgumentParser(description=__doc__)
    arguments.add_argument("rows", metavar="ROWS", type=int)
    main(arguments.parse_args().rows)
