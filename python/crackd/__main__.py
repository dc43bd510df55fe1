"""usage: python3 -m crackd COMMAND ..

  shell              a shell over a server, of its own or another
  top                the numbers of a server, on a screen or for Prometheus
  splits FILE.csv N  prints where to cut keys into partitions, for `crackd serve`
  picture SCRIPT     draws a column as the queries of a script crack it, as SVG

  serve              a server that drains at a signal, and loads and saves files

Each has --help. script, batch and csv are handed to the program crackd, if it is there; serve runs it.
"""

from __future__ import annotations

import argparse
import os
import sys
from typing import Callable

from . import __version__, version
from .arrays import TOP
from .base import MOST_PARTS
from .csvfile import Column, CsvFile
from .errors import Error
from .keys import quantiles
from .picture import main as picture
from .server import called, find_program
from .supervised import main as serve
from .top import main as top

OF_THE_PROGRAM = ("script", "batch", "csv")


def splits(words: list[str]) -> int:
    """Prints splits that cut the keys of a CSV file into nearly equal parts."""
    about = "Prints splits that divide the keys of a CSV file into N nearly equal parts, for `crackd serve` and others."
    parser = argparse.ArgumentParser(prog=f"{called()} splits", description=about)
    parser.add_argument(
        "file", metavar="FILE.csv", help="a file whose keys are integers from 0 to 18446744073709551615"
    )
    parser.add_argument(
        "parts",
        metavar="N",
        type=int,
        help=f"how many partitions, 1 to {MOST_PARTS}; there are fewer if there are few different keys",
    )
    parser.add_argument(
        "--key",
        metavar="COLUMN",
        default="0",
        help="the column of the keys: a name of the header, or a number from 0 [default: 0]",
    )
    parser.add_argument(
        "--delimiter", metavar="CHARACTER", default=",", help="the character between fields [default: ,]"
    )
    options = parser.parse_args(words)
    if not 1 <= options.parts <= MOST_PARTS:
        parser.error(f"N must be 1 to {MOST_PARTS}")
    key = int(options.key) if options.key.isdecimal() else options.key
    try:
        file = CsvFile(options.file, options.delimiter, None, "utf-8-sig")
    except ValueError as error:
        parser.error(str(error))
    keys = [row[0] for row in file.rows([(key, Column(least=0, most=TOP - 1))])]
    print(*quantiles(keys, options.parts, max(1, len(keys))))
    return 0


def handed(words: list[str]) -> int:
    """Replaces this process by the program crackd, which gets the same arguments."""
    path = find_program()
    os.execv(path, [path, *words])


def version_here() -> str:
    """The version of the library, or that of the package if there is no library."""
    try:
        return version()
    except ImportError:
        return f"crackd {__version__}"


def main(words: list[str]) -> int:
    """Runs the command that the words name, or prints the help. Returns the exit status."""
    if words[:1] in (["--version"], ["-V"]):
        print(version_here())
        return 0
    if words[:1] == ["shell"]:
        from .shell import main as shell

        return shell(words[1:])
    commands: dict[str, Callable[[list[str]], int]] = {"splits": splits, "picture": picture, "top": top, "serve": serve}
    commands |= dict.fromkeys(OF_THE_PROGRAM, lambda _: handed(words))
    if not words or words[0] not in commands:
        is_help = words[:1] in (["--help"], ["-h"])
        print(__doc__.replace("python3 -m crackd", called()), end="", file=sys.stdout if is_help else sys.stderr)
        return 0 if is_help else 2
    try:
        return commands[words[0]](words[1:])
    except (Error, UnicodeDecodeError) as error:
        print(f"crackd: {error}", file=sys.stderr)
    except OSError as error:
        print(f"crackd: {error.filename}: {error.strerror}", file=sys.stderr)
    return 1


def run() -> int:
    """The command `crackd`, which pip installs."""
    return main(sys.argv[1:])


if __name__ == "__main__":
    sys.exit(run())
