#!/usr/bin/env python3
"""Lets `crackd script` go on for ever: for_ever.py CRACKD LIMIT [SPLIT ..]

Passes standard input on to `crackd script --limit LIMIT --auto-checkpoint`, which makes a checkpoint of a partition
when its history is full: that empties the history and keeps the rows. Prints its replies, and exits with its status.
"""

import argparse
import subprocess
import sys


def main(program: str, limit: str, *splits: str) -> int:
    """The exit status of the script, which reads and writes what this program does."""
    return subprocess.call([program, "script", "--limit", limit, "--auto-checkpoint", *splits])


if __name__ == "__main__":
    arguments = argparse.ArgumentParser(description=__doc__)
    arguments.add_argument("program", metavar="CRACKD")
    arguments.add_argument("limit", metavar="LIMIT")
    arguments.add_argument("splits", metavar="SPLIT", nargs="*")
    given = arguments.parse_args()
    sys.exit(main(given.program, given.limit, *given.splits))
