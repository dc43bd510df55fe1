"""Line editing at the prompt: completion by Tab and a file of earlier lines, if the module readline is installed."""

import contextlib
import glob
import os
from typing import Iterator, Optional

from ..base import POLICIES
from .modes import MODES

WORDS = [
    "insert",
    "delete",
    "update",
    "count",
    "sum",
    "select",
    "layout",
    "checkpoint",
    "stats",
    "policy",
    "ping",
    "quit",
    "exit",
    "help",
]
COMMANDS = [".load", ".save", ".read", ".layout", ".mode", ".limit", ".bail", ".help", ".quit"]
# the words that may follow a word
AFTER = {"policy": list(POLICIES), ".mode": list(MODES), ".bail": ["on", "off"], ".limit": ["off"]}
AFTER |= {name: WORDS + COMMANDS for name in ("help", ".help")}
OF_FILES = (".load", ".save", ".read")
MOST_KEPT = 1000


def history_file() -> str:
    """The file for typed lines: that of the environment variable CRACKD_HISTORY, or by default ~/.crackd_history.

    An empty variable means no file.
    """
    return os.environ.get("CRACKD_HISTORY", os.path.expanduser("~/.crackd_history"))


def completions(line: str, word: str) -> list[str]:
    """The completions of the last word of a line."""
    before = line[: len(line) - len(word)].split()
    if not before:
        return [f"{it} " for it in WORDS + COMMANDS if it.startswith(word)]
    if before[0] in OF_FILES and len(before) == 1:
        found = sorted(glob.glob(glob.escape(os.path.expanduser(word)) + "*"))
        return [it + ("/" if os.path.isdir(it) else " ") for it in found]
    return [f"{it} " for it in AFTER.get(before[0], []) if len(before) == 1 and it.startswith(word)]


@contextlib.contextmanager
def edited() -> Iterator[None]:
    """A context in which typed lines can be edited, earlier ones can be recalled, and new ones are kept."""
    try:
        import readline
    except ImportError:
        yield
        return
    readline.set_completer_delims(" ")

    def completed(word: str, at: int) -> Optional[str]:
        found = completions(readline.get_line_buffer()[: readline.get_endidx()], word)
        return found[at] if at < len(found) else None

    readline.set_completer(completed)
    readline.parse_and_bind("bind ^I rl_complete" if "libedit" in (readline.__doc__ or "") else "tab: complete")
    path = history_file()
    if path:
        with contextlib.suppress(OSError):
            readline.read_history_file(path)
    readline.set_history_length(MOST_KEPT)
    try:
        yield
    finally:
        if path:
            with contextlib.suppress(OSError):
                readline.write_history_file(path)
