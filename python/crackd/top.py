"""Shows the numbers of a server, each second on a screen or on request for Prometheus.

The server doesn't speak HTTP. This program answers requests of Prometheus by sending the server the statement `stats`.
"""

from __future__ import annotations

import argparse
import contextlib
import http.server
import operator
import sys
import time
from typing import Any, Callable, Iterator, NamedTuple, Optional

from .base import MOST_PARTS
from .client import Client, connect
from .errors import Disconnected, Error, NoSuchPartition
from .server import called

SECONDS = 1.0
# how many seconds the server may be silent
TIMEOUT = 10.0
CLEARED = "\x1b[H\x1b[2J"
TITLES = ("partition", "rows", "+pending", "-pending", "pieces", "cells", "free", "commands", "since", "/s")
COLUMNS = (
    "rows",
    "pending_insertions",
    "pending_deletions",
    "pieces",
    "cells",
    "free_cells",
    "commands_accepted",
    "commands_since_checkpoint",
)
ACCEPTED = "commands_accepted"
# numbers that only grow, which Prometheus calls counters
COUNTED = (ACCEPTED, "sessions")
ABOUT = {
    "up": "Whether the server answers.",
    "rows": "Rows of the partition.",
    "pending_insertions": "Rows that wait to be merged into the column.",
    "pending_deletions": "Rows of the column that wait to be taken out.",
    "pieces": "Pieces of the cracked column.",
    "cells": "Cells for rows, including free ones.",
    "free_cells": "Cells that are free.",
    "commands_accepted": "Commands accepted since the opening.",
    "commands_since_checkpoint": "Commands accepted since the last checkpoint.",
    "clients": "Clients that are connected.",
    "sessions": "Sessions that have begun.",
    "statements_per_second": "Statements answered a second, over the last minute.",
    "longest_microseconds": "The longest time for the statements of one read, in the last minute.",
    "uptime_seconds": "Seconds since the server started.",
}


class Numbers(NamedTuple):
    """A server's numbers at one moment: those of the table and the server, and those of each partition."""

    when: float
    whole: dict[str, int]
    parts: list[dict[str, int]]


def numbers_of(table: Client) -> Numbers:
    """Asks a server for its numbers."""
    whole, parts = table.stats(), []
    with contextlib.suppress(NoSuchPartition):
        for part in range(MOST_PARTS):
            parts.append(table.stats(part))
    return Numbers(time.monotonic(), whole, parts)


# The screen


def rate(now: Numbers, before: Optional[Numbers], lists: Callable[[Numbers], list[dict[str, int]]], at: int) -> str:
    """The number of commands accepted per second between two moments, as text. A hyphen if there is only one."""
    if before is None or now.when <= before.when:
        return "-"
    accepted = lists(now)[at][ACCEPTED] - lists(before)[at][ACCEPTED]
    return f"{accepted / (now.when - before.when):.0f}"


def words_of(numbers: dict[str, int]) -> list[str]:
    """The numbers of the columns as words."""
    return [str(numbers[it]) for it in COLUMNS]


def lines_of(now: Numbers, before: Optional[Numbers]) -> Iterator[list[str]]:
    """Yields the words of a line for each partition, and of one for the sums if there are several."""
    for part, numbers in enumerate(now.parts):
        yield [str(part), *words_of(numbers), rate(now, before, operator.attrgetter("parts"), part)]
    if len(now.parts) > 1:
        yield ["all", *words_of(now.whole), rate(now, before, lambda it: [it.whole], 0)]


def time_text(seconds: int) -> str:
    """A time as days, hours, minutes and seconds."""
    days, rest = divmod(seconds, 86400)
    clock = f"{rest // 3600}:{rest // 60 % 60:02}:{rest % 60:02}"
    return f"{days} d {clock}" if days else clock


def head(peer: str, whole: dict[str, int]) -> str:
    """The line about the server. If the server doesn't count its clients, it has only the server's name."""
    if "clients" not in whole:
        return f"crackd {peer}"
    return (
        f"crackd {peer}  up {time_text(whole['uptime_seconds'])}  clients {whole['clients']}  "
        f"sessions {whole['sessions']}  statements/s {whole['statements_per_second']}  "
        f"longest {whole['longest_microseconds']} us"
    )


def screen(peer: str, now: Numbers, before: Optional[Numbers]) -> str:
    """The text of a screen."""
    lines = [list(TITLES), *lines_of(now, before)]
    widths = [max(map(len, column)) for column in zip(*lines)]
    table = ["  ".join(map(str.rjust, words, widths)) for words in lines]
    return "\n".join([head(peer, now.whole), "", *table])


def show(table: Client, peer: str, is_once: bool) -> int:
    """Prints a screen each second until control-C, or only once."""
    before: Optional[Numbers] = None
    with contextlib.suppress(KeyboardInterrupt):
        while True:
            now = numbers_of(table)
            apart = CLEARED if sys.stdout.isatty() else "\n" if before else ""
            print(apart + screen(peer, now, before), flush=True)
            if is_once:
                break
            before = now
            time.sleep(SECONDS)
    return 0


# Prometheus


def metric(name: str, values: list[tuple[str, int]]) -> list[str]:
    """The lines of a metric: its description and type, and its value for each label."""
    kind, whole = ("counter", f"crackd_{name}_total") if name in COUNTED else ("gauge", f"crackd_{name}")
    about = [f"# HELP {whole} {ABOUT[name]}", f"# TYPE {whole} {kind}"]
    return about + [f"{whole}{label} {value}" for label, value in values]


def metrics(now: Optional[Numbers]) -> str:
    """The text for Prometheus: whether the server answers, and its numbers if it does."""
    lines = metric("up", [("", int(now is not None))])
    if now is not None:
        for name in COLUMNS:
            lines += metric(name, [(f'{{partition="{part}"}}', it[name]) for part, it in enumerate(now.parts)])
        for name in now.whole:
            if name in ABOUT and name not in COLUMNS:
                lines += metric(name, [("", now.whole[name])])
    return "\n".join([*lines, ""])


class Watched:
    """A server that is asked from time to time. It is connected to again if the connection has ended."""

    def __init__(self, host: str, port: int):
        self.host, self.port = host, port
        self._table: Optional[Client] = None

    def numbers(self) -> Optional[Numbers]:
        """The server's numbers, or None if it doesn't answer."""
        # the connection may have ended since the last request, so a second attempt makes a new one
        for _ in range(2):
            with contextlib.suppress(Error):
                self._table = self._table or connect(self.host, self.port, timeout=TIMEOUT)
                return numbers_of(self._table)
            self._table = None
        return None


def handler_of(watched: Any) -> type[http.server.BaseHTTPRequestHandler]:
    """The class that answers HTTP requests of Prometheus."""

    class Handler(http.server.BaseHTTPRequestHandler):
        def do_GET(self) -> None:
            if self.path.partition("?")[0] != "/metrics":
                self.send_error(404)
                return
            text = metrics(watched.numbers()).encode("ascii")
            self.send_response(200)
            self.send_header("Content-Type", "text/plain; version=0.0.4; charset=utf-8")
            self.send_header("Content-Length", str(len(text)))
            self.end_headers()
            self.wfile.write(text)

        def log_message(self, *_: Any) -> None:
            """Logs nothing."""

    return Handler


def answer(host: str, port: int, metrics_port: int) -> int:
    """Answers requests of Prometheus, one at a time, until control-C."""
    with http.server.HTTPServer(("127.0.0.1", metrics_port), handler_of(Watched(host, port))) as server:
        print(f"metrics at http://127.0.0.1:{server.server_address[1]}/metrics", flush=True)
        with contextlib.suppress(KeyboardInterrupt):
            server.serve_forever()
    return 0


def main(words: list[str]) -> int:
    """Shows the numbers of a server as the options in these words say. Returns the exit status."""
    about = "Shows the numbers of a server, a line for each partition, anew each second, until control-C."
    parser = argparse.ArgumentParser(prog=f"{called()} top", description=about)
    parser.add_argument("--host", default="127.0.0.1", help="where the server listens [default: 127.0.0.1]")
    parser.add_argument("--port", type=int, default=4000, metavar="N", help="its port [default: 4000]")
    parser.add_argument("--once", action="store_true", help="prints them once")
    parser.add_argument(
        "--prometheus", type=int, metavar="N", help="answers GET /metrics at this port of 127.0.0.1 instead"
    )
    options = parser.parse_args(words)
    if options.prometheus is not None:
        return answer(options.host, options.port, options.prometheus)
    try:
        with connect(options.host, options.port, timeout=TIMEOUT) as table:
            return show(table, f"{options.host}:{options.port}", options.once)
    except Disconnected as error:
        print(f"crackd: {error}", file=sys.stderr)
        return 1
