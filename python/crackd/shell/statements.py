"""The statements that the shell knows: what they take, what they do, and what is wrong with one that was refused."""

import dataclasses
import difflib
import re

from ..base import POLICIES
from .texts import GREATEST_KEY, GREATEST_PAYLOAD, LEAST_PAYLOAD

NUMBER = re.compile("[0-9]{1,20}")
GREATEST_SERIAL, GREATEST_PARTITION = 2**64 - 1, 2**32 - 1
MOST_LINE_BYTES = 200


@dataclasses.dataclass(frozen=True)
class Statement:
    """A statement: its arguments, of which the last may be left out, what it does, and an example with the reply."""

    arguments: tuple[str, ...]
    does: str
    example: str
    least: int = -1

    @property
    def fewest(self) -> int:
        """How many arguments it needs."""
        return len(self.arguments) if self.least < 0 else self.least


STATEMENTS = {
    "insert": Statement(("K", "V"), "inserts a row with key K and payload V", "insert 7 -70 is answered row 0.0"),
    "delete": Statement(("P.S",), "deletes the row with row number P.S", "delete 0.0 is answered gone 7 -70, or none"),
    "update": Statement(
        ("P.S", "K", "V"), "gives a row a new key and payload", "update 0.0 8 80 is answered changed, or none"
    ),
    "count": Statement(("LO", "HI"), "counts the rows with keys from LO up to but not including HI", "count 5 10"),
    "sum": Statement(("LO", "HI"), "adds up the payloads of the keys from LO up to but not including HI", "sum 5 10"),
    "select": Statement(("LO", "HI"), "lists the rows with keys from LO up to but not including HI", "select 5 10"),
    "layout": Statement(("P",), "shows how the rows of partition P are laid out", "layout 0"),
    "checkpoint": Statement(("P",), "empties the history of partition P; its rows stay", "checkpoint 0"),
    "stats": Statement(("P",), "lists the numbers of partition P, or of the table and its server", "stats", 0),
    "policy": Statement(("NAME",), "chooses how inserts and deletes are merged from now on", "policy auto"),
    "ping": Statement((), "checks that the server answers", "ping is answered pong"),
    "quit": Statement((), "ends the session; so does exit", "quit"),
}
MEANS = {
    "K": f"K is a key, a whole number from 0 to {GREATEST_KEY}",
    "V": f"V is a payload, a whole number from {LEAST_PAYLOAD} to {GREATEST_PAYLOAD}",
    "P.S": "P.S is a row number, as an insert or a select gives it",
    "LO": "LO is the first key of the range",
    "HI": "HI is the key past its last one; the word end is past all keys",
    "P": "P is the number of a partition, from 0",
    "NAME": f"NAME is one of {', '.join(POLICIES)}",
}


def form_of(name: str) -> str:
    """A statement with the words that stand for its arguments."""
    known = STATEMENTS[name]
    words = [it if at < known.fewest else f"[{it}]" for at, it in enumerate(known.arguments)]
    return " ".join([name, *words])


def help_of(name: str) -> str:
    """The help for one statement."""
    known = STATEMENTS[name]
    lines = [f"{form_of(name)}: {known.does}", *(MEANS[it] for it in known.arguments), f"example: {known.example}"]
    return "\n  ".join(lines)


def fault_in(line: str) -> str:
    """What is wrong with a line that was refused with 1, or an empty text if that isn't known."""
    if len(line) > MOST_LINE_BYTES:
        return f"the line has more than {MOST_LINE_BYTES} bytes"
    words = [it for it in line.split(" ") if it]
    name = words[0] if words else ""
    if name not in STATEMENTS:
        return unknown_word(name)
    given, known = words[1:], STATEMENTS[name]
    if len(given) < known.fewest:
        return f"{name} needs {' and '.join(known.arguments[len(given):])}: {form_of(name)}"
    if len(given) > len(known.arguments):
        return f"{name} takes no {given[len(known.arguments)]!r}: {form_of(name)}"
    return next(filter(None, map(fault_of, known.arguments, given)), "")


def unknown_word(name: str) -> str:
    """What is wrong with a first word that is no statement."""
    small = name.lower()
    if small in STATEMENTS:
        return f"statements are in lower case: {small}"
    near = difflib.get_close_matches(small, STATEMENTS, 1)
    return f"{name!r} isn't a statement; help lists them" + (f"; is it {near[0]}?" if near else "") if name else ""


def fault_of(kind: str, word: str) -> str:
    """What is wrong with an argument, or an empty text if nothing is."""
    if kind == "NAME":
        return "" if word in POLICIES else f"{word!r} isn't a policy; {MEANS[kind]}"
    if kind == "P.S":
        return fault_of_row_number(word)
    least, most = RANGES[kind]
    digits = word.removeprefix("-") if least < 0 else word
    if NUMBER.fullmatch(digits) and least <= int(word) <= most:
        return ""
    if re.fullmatch(r"[-+]?[0-9]*\.[0-9]*", word):
        return f"{word} isn't a whole number; {MEANS[kind]}"
    if word.startswith("+"):
        return f"{word} has a sign; {MEANS[kind]}"
    return f"{word!r} is no {NAMES[kind]}; {MEANS[kind]}"


def fault_of_row_number(word: str) -> str:
    """What is wrong with a row number, or an empty text if nothing is."""
    part, stop, serial = word.partition(".")
    if not (stop and NUMBER.fullmatch(part) and NUMBER.fullmatch(serial)):
        return f"{word!r} is no row number; {MEANS['P.S']}: 0.{word if NUMBER.fullmatch(word) else 7}"
    is_known = int(part) <= GREATEST_PARTITION and int(serial) <= GREATEST_SERIAL
    return "" if is_known else f"{word} is greater than any row number"


# a range's ends are checked only for their digits: a greater one is refused with 2
RANGES = {
    "K": (0, GREATEST_KEY),
    "V": (LEAST_PAYLOAD, GREATEST_PAYLOAD),
    "LO": (0, 10**20),
    "HI": (0, 10**20),
    "P": (0, GREATEST_PARTITION),
}
NAMES = {"K": "key", "V": "payload", "LO": "key", "HI": "key", "P": "partition"}
