"""A cracked table: rows in memory that each query sorts a little further, so that no index need be built.

`Table` is a table in this process. `connect` connects to a table on a server, `serve` starts a server, and
`crackd.cluster.Table` spreads a table over a Dask cluster. All tables have the same methods. Keys are integers, floats
or numpy dates. Payloads are signed 64-bit integers. `load_csv`, `from_pandas`, `from_arrow` and `from_arrays` make a
table of the rows of a file, a frame, Arrow data and arrays. numpy is used if installed.
"""

from .aio import AsyncTable, connect_async
from .base import Row, Rows, row_text
from .client import Client, connect
from .errors import (
    BadLimit,
    BadSplits,
    Busy,
    Closed,
    Disconnected,
    Error,
    Forked,
    Full,
    HistoryFull,
    LifeOver,
    NoSuchPartition,
    OutOfMemory,
    Refused,
    TimedOut,
    WrongPartition,
)
from .layout import Layout, PartLayout, Piece
from .library import version
from .loading import load_csv
from .rows import Rebalanced
from .saved import BadSave
from .server import NoServer, Server, serve
from .source import CsvError
from .table import Table, from_arrays, from_arrow, from_pandas

__version__ = "0.1.0"

__all__ = [
    "AsyncTable",
    "BadLimit",
    "BadSave",
    "BadSplits",
    "Busy",
    "Client",
    "Closed",
    "CsvError",
    "Disconnected",
    "Error",
    "Forked",
    "Full",
    "HistoryFull",
    "Layout",
    "LifeOver",
    "NoServer",
    "NoSuchPartition",
    "OutOfMemory",
    "PartLayout",
    "Piece",
    "Rebalanced",
    "Refused",
    "Row",
    "Rows",
    "Server",
    "Table",
    "TimedOut",
    "WrongPartition",
    "__version__",
    "connect",
    "connect_async",
    "from_arrays",
    "from_arrow",
    "from_pandas",
    "load_csv",
    "row_text",
    "serve",
    "version",
]
