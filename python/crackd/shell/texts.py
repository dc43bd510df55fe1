"""The texts of the shell: the meanings of refusals, the help, times, and error messages."""

import re
import sys
from typing import Any

from ..errors import Disconnected

GREATEST_KEY = 18446744073709551615
LEAST_PAYLOAD, GREATEST_PAYLOAD = -9223372036854775808, 9223372036854775807
REFUSED = re.compile("refused ([0-9]+)")

MEANINGS = {
    "1": "this isn't a statement; help lists them",
    "2": "the low end of the range is above its high end, or that is above 18446744073709551616",
    "4": "the key belongs to another partition, and a row never leaves its own",
    "5": "there is no such partition",
    "6": "the history is full: it has as many entries as the limit says; checkpoint P makes room in partition P, "
    "and its rows stay",
    "7": "a gate refused a thousand times",
    "8": "memory ran out; no row has changed",
    "9": "no cell is free for the row; a deleted or updated row may hold one until a query over its key",
    "10": "the partition's life is over: it has answered as many commands as it ever may",
    "11": "the splits don't rise, or one isn't 1 to 18446744073709551615",
    "12": "there are more than 63 splits",
    "13": "the number of workers isn't 1 to 64",
    "14": "a limit is out of its range: histories 1 to 1000000, cells 1 to 16777215, lives 1 to 1099511627776",
    "15": "a worker's receipts are missing",
    "16": "workers and partitions don't agree at the end",
    "17": "reading failed, or the server can't listen on the port",
    "18": "writing failed",
    "19": "a record isn't a key from 0 to 18446744073709551615 and a payload from -9223372036854775808 to "
    "9223372036854775807",
    "20": "the server has as many clients as it may",
}

HELP = """\
insert K V        inserts a row with key K and payload V; the reply is its row number P.S
delete P.S        deletes that row
update P.S K V    that row gets a new key and payload
count LO HI       how many rows have keys from LO up to but not including HI; the word end is past all keys: count 0 end
sum LO HI         the sum of their payloads
select LO HI      these rows, a line P.S K V for each
layout P          how the rows of partition P are laid out, as numbers
checkpoint P      empties the history of partition P; its rows stay, and the reply is how many entries it had
stats             the numbers of the table and the server, a line NAME N for each; stats P: those of partition P
policy NAME       how inserts and deletes are merged: complete, gradual, ripple or auto
ping              the reply is pong
quit              ends the session; so does exit

A ; at the end of a statement is ignored. Keys are whole numbers from 0 to 18446744073709551615,
payloads from -9223372036854775808 to 9223372036854775807.

.load FILE        inserts the rows of CSV, with or without the header key,payload: all, or none
.save FILE        writes all rows as CSV
.read FILE        runs the lines of a file
.layout [P]       draws the columns of all partitions, or of one
.mode NAME        how replies are shown: lines as the server gives them, csv, or json with a value a line
.limit N          a select shows at most N rows; .limit off shows all
.bail on          a file or a pipe ends at a refused statement or a failed command; .bail off: it goes on
.help [NAME]      prints this, or explains one statement; so does help
.quit             ends the session; so does control-D

Control-C ends what is running; rows of earlier statements stay."""


class Fault(Exception):
    """Something wasn't done. The text says why. The shell goes on."""


class Interrupted(Exception):
    """A control-C ended something. The text says what is left undone. The shell goes on, but a filter ends."""


class Ended(Exception):
    """The shell must end. The text says why."""


class Left(Disconnected):
    """The server closed the connection. The text says what had been done by then."""


def complain(text: object) -> None:
    """Writes a line to standard error."""
    sys.stdout.flush()
    print(f"shell: {text}", file=sys.stderr, flush=True)


def in_words(line: str) -> str:
    """A reply, followed by what it means if it is a refusal."""
    refused = REFUSED.match(line)
    return f"{line}: {MEANINGS[refused[1]]}" if refused and refused[1] in MEANINGS else line


def fault_text(path: Any, error: Any) -> str:
    """The text of an error of a file or a program."""
    return f"{getattr(error, 'filename', None) or path}: {getattr(error, 'strerror', None) or error}"


def time_text(seconds: float) -> str:
    """A time in parentheses, in seconds or milliseconds."""
    return f"({seconds:.2f} s)" if seconds >= 1 else f"({seconds * 1000:.3f} ms)"
