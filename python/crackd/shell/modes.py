"""The formats in which replies are shown: as the server sends them, as CSV, or as JSON with one value per line."""

import json
from typing import Any, Optional, Sequence, Union

from ..errors import REASONS

MODES = ("lines", "csv", "json")
ROW = ("row", "key", "payload")
PIECE = ("low", "high", "rows")
NUMBER = ("name", "number")


def is_list_of_rows(lines: Sequence[str]) -> bool:
    """Whether a reply is a list of rows."""
    return lines[0].startswith("rows ")


def hidden(lines: Sequence[str], most: Optional[int]) -> int:
    """The number of rows of a reply that aren't shown if at most `most` are."""
    return max(0, len(lines) - 1 - most) if most is not None and is_list_of_rows(lines) else 0


def shown(lines: list[str], mode: str, most: Optional[int]) -> list[str]:
    """The lines that show a reply, with at most `most` of its rows, or with all if `most` is None."""
    kept = lines[: len(lines) - hidden(lines, most)]
    if mode == "lines":
        return kept
    return [json.dumps(value(kept))] if mode == "json" else records(kept)


def number(word: str) -> Union[int, str]:
    """A word of a reply, as an int if it is an integer."""
    return int(word) if word.removeprefix("-").isdigit() else word


def of_names(names: Sequence[str], line: str) -> dict[str, Union[int, str]]:
    """The words of a line, by name."""
    return dict(zip(names, map(number, line.split(" "))))


def value(lines: Sequence[str]) -> Any:
    """A reply as a value for JSON."""
    words = lines[0].split(" ")
    match words[0]:
        case "rows":
            return [of_names(ROW, line) for line in lines[1:]]
        case "layout":
            told = dict(zip(words[::2], map(int, words[1::2])))
            return {**told, "pieces": [of_names(PIECE, line.removeprefix("piece ")) for line in lines[1:]]}
        case "stats":
            return {"stats": {name: int(number) for name, number in map(str.split, lines[1:])}}
        case "gone":
            return {"gone": of_names(ROW[1:], " ".join(words[1:]))}
        case "refused":
            code = int(words[1])
            return {"refused": code, "reason": REASONS.get(code, ""), "numbers": [int(it) for it in words[2:]]}
        case _:
            return {words[0]: number(words[1]) if len(words) > 1 else True}


def records(lines: Sequence[str]) -> list[str]:
    """A reply as records of CSV: rows, pieces and numbers below a header, any other reply as a record of its words."""
    if is_list_of_rows(lines):
        return [",".join(ROW), *(line.replace(" ", ",") for line in lines[1:])]
    if lines[0].startswith("layout "):
        return [",".join(PIECE), *(line.removeprefix("piece ").replace(" ", ",") for line in lines[1:])]
    if lines[0].startswith("stats "):
        return [",".join(NUMBER), *(line.replace(" ", ",") for line in lines[1:])]
    return [lines[0].replace(" ", ",")]
