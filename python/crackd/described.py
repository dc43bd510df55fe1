"""The text of tables that `repr` and notebooks show. Neither merges rows, and `repr` asks no server or cluster."""

from __future__ import annotations

import html
from typing import Any, Iterator

from .errors import Closed, Error

CELL = '<td style="text-align: left; padding: 0 1em 0 0">'


def state_of(table: Any) -> str:
    """Why a table can't be used, or an empty text if it can."""
    try:
        table._check_open()
    except Closed:
        return "closed"
    except Error:
        return "of the parent process"
    return ""


def facts_of(table: Any, is_asking: bool) -> Iterator[tuple[str, str]]:
    """The facts about a table, as pairs of a name and a text.

    Rows are counted if they are in this process, or if `is_asking` allows a call to another one.
    """
    state = state_of(table)
    if not state and (is_asking or table._is_here):
        yield "rows", f"{table._rows():,}"
    yield "keys", table.key_type
    yield from facts_of_types(table)
    yield from table._facts()
    if not state and table._is_here:
        yield "memory", size_text(table._memory())
    if state:
        yield "state", state


def facts_of_types(table: Any) -> Iterator[tuple[str, str]]:
    """What a table's keys and payloads are besides integers, as pairs of a name and a text."""
    if table.key_decimals:
        yield "key decimals", str(table.key_decimals)
    if table.payload_decimals:
        yield "payload decimals", str(table.payload_decimals)
    if table.zone:
        yield "zone", table.zone


def name_of(table: Any) -> str:
    """The name of a table's class as users write it, such as `crackd.Table`."""
    return f"{type(table).__module__.replace('crackd.cluster', 'cluster').partition('.')[0]}.{type(table).__name__}"


def text_of(table: Any) -> str:
    """A table in one line: <crackd.Table: 5 rows, int64 keys, 1 partition, policy auto, memory about 0.5 MB>."""
    forms = {"rows": "{} rows", "keys": "{} keys", "partitions": "{} partitions", "shards": "{} shards"}
    said = [(forms.get(name, "{}" if name == "state" else name + " {}"), it) for name, it in facts_of(table, False)]
    return f"<{name_of(table)}: {', '.join(plural(form.format(it), it) for form, it in said)}>"


def size_text(count: int) -> str:
    """A number of bytes as text, in MB."""
    return f"about {count / 1e6:,.{0 if count >= 10**7 else 1}f} MB"


def plural(text: str, count: str) -> str:
    """A text without its final s if the count is 1."""
    return text[:-1] if count == "1" and text.endswith("s") else text


def html_of(table: Any) -> str:
    """A table as an HTML table with a row for each fact."""
    lines = [f"<tr>{CELL}{html.escape(name)}</td>{CELL}{html.escape(it)}</td></tr>" for name, it in asked(table)]
    return f"<table><caption>{html.escape(name_of(table))}</caption><tbody>{''.join(lines)}</tbody></table>"


def asked(table: Any) -> list[tuple[str, str]]:
    """The facts about a table, with the number of rows, or with the error if the table doesn't answer."""
    try:
        return list(facts_of(table, True))
    except Error as error:
        return [*facts_of(table, False), ("state", str(error))]
