#!/usr/bin/env python3
"""Threads that share the table of a server: served.py CRACKD

Starts the program CRACKD as a server, which ends with this program. Each thread has its own connection.
"""

import argparse
import pathlib
import sys
import threading

sys.path.insert(0, str(pathlib.Path(__file__).resolve().parent.parent / "python"))

import crackd

CLIENTS, ROWS = 4, 1000


def insert_some(server, number):
    with server.connect() as table:
        keys = range(number * ROWS, (number + 1) * ROWS)
        table.insert_many(keys, keys)


def main(program):
    sample = range(0, CLIENTS * ROWS, 10)
    with crackd.serve(sample, CLIENTS * ROWS, partitions=CLIENTS, workers=CLIENTS + 1, program=program) as server:
        threads = [threading.Thread(target=insert_some, args=(server, number)) for number in range(CLIENTS)]
        for it in threads:
            it.start()
        for it in threads:
            it.join()
        print(CLIENTS, "clients")
        with server.connect() as table:
            table.settle()
            print("rows", table.count())
            print("sum", table.sum())


if __name__ == "__main__":
    arguments = argparse.ArgumentParser(description=__doc__)
    arguments.add_argument("program", metavar="CRACKD")
    main(arguments.parse_args().program)
