"""The text of a CSV file, which may be compressed, or of a file object. It can be read from its start again."""

from __future__ import annotations

import codecs
import contextlib
import copy
import gzip
import io
import os
import re
import zlib
from typing import Any, Iterator, Optional

from .errors import Error

# the first bytes of a gzip file, which are no text
GZIP = b"\x1f\x8b"
UTF_16 = (codecs.BOM_UTF16_LE, codecs.BOM_UTF16_BE)
# what stands for bytes that aren't text, if the encoding is UTF-8 and if it isn't
WRONG = re.compile("[\udc80-\udcff]"), re.compile("\ufffd")


class CsvError(Error, ValueError):
    """A CSV file can't be loaded.

    Attributes
    ----------
    path : str
    line, column : int, or None
        The place, both from 1, or None if it is the whole file, or no single column.
    needs : dict
        Arguments of `load_csv` with which the file can be loaded, each with a tuple of values: one of them says how the
        file is to be read. The first values of all arguments go together. It is empty if none is known.
    """

    def __init__(
        self,
        path: str,
        line: Optional[int],
        column: Optional[int],
        name: str,
        what: str,
        needs: Optional[dict[str, Any]] = None,
    ):
        where = [f"line {line}"] * (line is not None)
        where += [f"column {column}{f' ({name})' if name else ''}"] * (column is not None)
        self.needs = dict(needs or {})
        super().__init__(f"{', '.join([path, *where])}: {what}{needs_text(self.needs)}")
        self.path, self.line, self.column, self.name, self.what = path, line, column, name, what


def needs_text(needs: dict[str, Any]) -> str:
    """The arguments that are needed, as a sentence after the reason."""
    if not needs:
        return ""
    each = [" or ".join(f"{name}={it!r}" for it in values) for name, values in needs.items()]
    return f"; it needs {', '.join(each)}"


class Source:
    """A file to read: a path, which may be that of a gzip file, or an open file of bytes or text."""

    def __init__(self, file: Any, encoding: str):
        self.encoding = encoding
        self._content: Any = None
        if hasattr(file, "read"):
            name = getattr(file, "name", None)
            self.path = name if isinstance(name, str) else f"<{type(file).__name__}>"
            self._content = file.read()
            if isinstance(self._content, str):
                self._content = self._content.removeprefix("\ufeff")
        else:
            self.path = os.fsdecode(file)

    def encoded(self, encoding: str) -> "Source":
        """The same file with another encoding."""
        found = copy.copy(self)
        found.encoding = encoding
        return found

    def size(self) -> int:
        """The number of bytes or characters, compressed or not."""
        return os.path.getsize(self.path) if self._content is None else len(self._content)

    @contextlib.contextmanager
    def text(self) -> Iterator[Any]:
        """A context with the text from its start, as a file. Raises CsvError for what isn't text in the encoding."""
        with self._opened("strict") as text:
            try:
                yield text
            except UnicodeDecodeError as error:
                raise self.not_text(error) from None
            except (EOFError, zlib.error, gzip.BadGzipFile) as error:
                raise CsvError(self.path, None, None, "", f"the gzip file is damaged: {error}") from None

    @contextlib.contextmanager
    def lenient_text(self) -> Iterator[Any]:
        """A context with the text, in which other characters stand for what isn't text in the encoding."""
        with self._opened("replace") as text:
            yield text

    @contextlib.contextmanager
    def _opened(self, errors: str) -> Iterator[Any]:
        if isinstance(self._content, str):
            yield io.StringIO(self._content, newline="")
            return
        with self._bytes() as file:
            yield io.TextIOWrapper(file, encoding=self.encoding, errors=errors, newline="")

    @contextlib.contextmanager
    def _bytes(self) -> Iterator[Any]:
        with contextlib.ExitStack() as stack:
            raw = stack.enter_context(open(self.path, "rb") if self._content is None else io.BytesIO(self._content))
            is_gzip = raw.peek(2)[:2] == GZIP if hasattr(raw, "peek") else self._content[:2] == GZIP
            yield stack.enter_context(gzip.GzipFile(fileobj=raw)) if is_gzip else raw

    def not_text(self, error: UnicodeDecodeError) -> CsvError:
        """The error for bytes that aren't text in the encoding, with the first line that has such bytes."""
        with self._bytes() as file:
            other = "utf-16" if file.read(2) in UTF_16 else "latin-1"
        name = "UTF-8" if self.encoding in ("utf-8", "utf-8-sig", "utf8") else self.encoding
        what = f"the text isn't {name}: {error.reason}"
        return CsvError(self.path, self.line_of_wrong(), None, "", what, {"encoding": (other,)})

    def line_of_wrong(self) -> Optional[int]:
        """The first line that isn't text in the encoding. Lines end with a line feed, a carriage return or both."""
        with self._bytes() as file:
            is_utf_8 = codecs.lookup(self.encoding).name.startswith("utf-8")
            errors, wrong = ("surrogateescape", WRONG[0]) if is_utf_8 else ("replace", WRONG[1])
            text = io.TextIOWrapper(file, encoding=self.encoding, errors=errors)
            return next((number for number, line in enumerate(text, 1) if wrong.search(line)), None)
