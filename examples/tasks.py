#!/usr/bin/env python3
"""Tasks of asyncio that share a connection with a server: tasks.py CRACKD

Starts the program CRACKD as a server, which ends with this program. Task i moves its row from key i to 1000 + i.
"""

import argparse
import asyncio
import pathlib
import sys

sys.path.insert(0, str(pathlib.Path(__file__).resolve().parent.parent / "python"))

import crackd

TASKS = 100


async def move_one(table, key):
    row = await table.insert(key, 2 * key)
    return await table.move(row, 1000 + key)


async def ask(port):
    async with await crackd.connect_async(port=port) as table:
        rows = await asyncio.gather(*(move_one(table, key) for key in range(TASKS)))
        print(len(set(rows)), "rows")
        print("counts", list(map(int, await table.count_by([0, 1000, 1050, 1100]))))
        print("mean", await table.mean(1000, 1100))


def main(program):
    with crackd.serve(splits=[1000], key_type="uint64", workers=1, program=program) as server:
        asyncio.run(ask(server.port))


if __name__ == "__main__":
    arguments = argparse.ArgumentParser(description=__doc__)
    arguments.add_argument("program", metavar="CRACKD")
    main(arguments.parse_args().program)
