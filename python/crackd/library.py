"""Loads the library and declares its functions, as crackd.h does."""

from __future__ import annotations

import ctypes
import os
import pathlib
from typing import TYPE_CHECKING, Any, Optional

# the libraries that `make lib` and `make lib-unproved` build
NAMES = ("libcrackd.so", "libcrackd-unproved.so")
HERE = pathlib.Path(__file__).resolve().parent


class Handle(ctypes.Structure):
    """A handle of the library, which may hold a table. A handle whose bytes are all zero holds none."""

    _fields_ = [("at", ctypes.c_void_p), ("is_open", ctypes.c_bool)]


TOTALS = ("rows", "column", "pending_out", "pending_in", "cells", "free", "pieces")


class Totals(ctypes.Structure):
    """The numbers of a partition's layout, without its pieces."""

    _fields_ = [(name, ctypes.c_uint64) for name in TOTALS]


_HANDLE, _U32, _U64, _I64 = ctypes.POINTER(Handle), ctypes.c_uint32, ctypes.c_uint64, ctypes.c_int64
# a pointer to a number; a list, as its address and its length
_AT, _LIST = ctypes.c_void_p, [ctypes.c_void_p, ctypes.c_size_t]

FORMS = {
    "open": [_HANDLE, *_LIST, _U64, _U64, _U64],
    "close": [_HANDLE],
    "insert": [_HANDLE, _U64, _I64, _AT, _AT],
    "delete": [_HANDLE, _U32, _U64, _AT, _AT, _AT],
    "update": [_HANDLE, _U32, _U64, _U64, _I64, _AT],
    "count": [_HANDLE, _U32, _U64, _U64, _AT],
    "sum": [_HANDLE, _U32, _U64, _U64, _AT, _AT],
    "select": [_HANDLE, _U32, _U64, _U64, *_LIST * 4, _AT],
    "layout": [_HANDLE, _U32, _AT, *_LIST * 2],
    "checkpoint": [_HANDLE, _U32, _AT],
    "insert_many": [_HANDLE, *_LIST * 4, _AT],
    "delete_many": [_HANDLE, *_LIST * 3, _AT],
    "update_many": [_HANDLE, *_LIST * 5, _AT],
    "count_many": [_HANDLE, _U32, *_LIST * 3, _AT],
    "sum_many": [_HANDLE, _U32, *_LIST * 4, _AT],
}
# these functions are loaded twice: under their own names they hold the interpreter's lock; with the prefix `long_` they
# release it, as all other functions do
SINGLE = ("insert", "delete", "update", "count", "sum")
FORMS |= {f"long_{name}": FORMS[name] for name in SINGLE}


class Library:
    """The functions of crackd.h, without the prefix `crackd_`."""

    if TYPE_CHECKING:

        def __getattr__(self, name: str) -> Any: ...

    def __init__(self, path: str):
        loaded, holding = ctypes.CDLL(path), ctypes.PyDLL(path)
        for name, form in FORMS.items():
            call = getattr(holding if name in SINGLE else loaded, f"crackd_{name.removeprefix('long_')}")
            call.argtypes, call.restype = form, _U32
            setattr(self, name, call)
        loaded.crackd_version.argtypes, loaded.crackd_version.restype = [], ctypes.c_char_p
        self.path, self.version = path, loaded.crackd_version().decode("ascii")


_loaded: Optional[Library] = None


def find_library() -> Optional[str]:
    """The path of the library, or None: the environment variable CRACKD_LIBRARY, or else the file in this package.

    The proved library is preferred to the unproved one.
    """
    named = os.environ.get("CRACKD_LIBRARY")
    return named or next((str(HERE / it) for it in NAMES if (HERE / it).exists()), None)


def library() -> Library:
    """Returns the library, which the first call loads. Raises ImportError if it isn't built or can't be loaded."""
    global _loaded
    if _loaded is None:
        path = find_library()
        if path is None:
            raise ImportError(
                f"{NAMES[0]} isn't built: run `make lib-unproved` in the repository, or `make lib`, which proves it; "
                f"both put it into {HERE}. Or set CRACKD_LIBRARY to its path"
            )
        try:
            _loaded = Library(path)
        except (OSError, AttributeError) as error:
            raise ImportError(f"{path} can't be loaded: {error}") from error
    return _loaded


def version() -> str:
    """The version of the library. It ends with " (proved elsewhere)" if it was built without a proof from sources that
    were proved, and with " (unproved)" if from others."""
    return str(library().version)
