"""Writes files whole: a reader, or another process that writes the same file, meets all of the old content or all of
the new, and after an error the file is as it was."""

from __future__ import annotations

import codecs
import contextlib
import errno
import os
import shutil
import stat
import sys
import tempfile
import uuid
from typing import IO, Any, Iterator, Optional

# a file's name with a mark and the suffix .part has at most 255 bytes, which is the most that most systems allow
MOST_NAME_BYTES = 200
# what `fsync` reports for pipes and other files that no disk has
NOT_ON_DISK = (errno.EINVAL, errno.ENOTSUP, errno.ENOSYS, errno.EROFS)


@contextlib.contextmanager
def whole_file(path: Any, *, is_rewound: bool = False) -> Iterator[IO[bytes]]:
    """A context that writes a file of bytes.

    A regular file is replaced at the end of the block, by a rename, once the new content is on disk. The content is in
    a temporary file of its own in the same folder until then, so several writers don't meet, and the last rename
    stands. The file keeps its mode, and its owner if this process may set it; a symlink stays, and the file that it
    names is replaced. A new file has the mode 666 less the umask.

    Anything else, such as a pipe, a device or this process's standard output, is written to, in order with what the
    process has already written there. `is_rewound` says that the block also writes at earlier places of the file. Then
    such a file gets everything at the end of the block.
    """
    name = name_of(path)
    own, found = descriptor_of(name), stat_of(name)
    if own is None and (found is None or stat.S_ISREG(found.st_mode)):
        with _replaced(name, found) as file:
            yield file
        return
    for stream in (sys.stdout, sys.stderr):
        # a stream may be None or closed
        with contextlib.suppress(AttributeError, ValueError):
            stream.flush()
    with os.fdopen(os.open(name, os.O_WRONLY) if own is None else os.dup(own), "wb") as file:
        if is_rewound:
            with tempfile.TemporaryFile() as whole:
                yield whole
                whole.seek(0)
                shutil.copyfileobj(whole, file)
        else:
            yield file
        file.flush()
        sync(file.fileno())


@contextlib.contextmanager
def whole_text(path: Any) -> Iterator[Any]:
    """A context that writes a file of ASCII text as `whole_file` does."""
    with whole_file(path) as file:
        # unlike a TextIOWrapper this has no buffer of its own, which would have to be flushed or dropped
        yield codecs.getwriter("ascii")(file)


def name_of(path: Any) -> str:
    """A path as text. Raises ValueError if it is empty, and TypeError if it isn't a path."""
    name = os.fsdecode(path)
    if not name:
        raise ValueError("a path to save to can't be empty")
    return name


def stat_of(name: str) -> Optional[os.stat_result]:
    """What the system knows about a file, or None if there is none."""
    try:
        return os.stat(name)
    except FileNotFoundError:
        return None


def descriptor_of(name: str) -> Optional[int]:
    """The descriptor of this process that a path names, such as 1 for /dev/stdout, or None.

    A file to which standard output or standard error is redirected is that descriptor under its own name too, since
    replacing the file would lose what this process writes there.
    """
    folder, last = os.path.split(name)
    if last.isdecimal() and os.path.realpath(folder) == f"/proc/{os.getpid()}/fd":
        return int(last)
    found = stat_of(name)
    for descriptor in (1, 2):
        # the descriptor may be closed
        with contextlib.suppress(OSError):
            if found is not None and os.path.samestat(found, os.fstat(descriptor)):
                return descriptor
    return None


@contextlib.contextmanager
def _replaced(name: str, found: Optional[os.stat_result]) -> Iterator[IO[bytes]]:
    """A context that writes a file which then takes the place of a regular file, or of none."""
    target = os.path.realpath(name)
    folder, last = os.path.split(target)
    short = os.fsdecode(os.fsencode(last)[:MOST_NAME_BYTES])
    part = os.path.join(folder, f"{short}.{uuid.uuid4().hex[:16]}.part")
    # nobody else may read the new content before it has the mode of the old
    mode = 0o666 if found is None else 0o600
    try:
        with _about(name):
            file = open(part, "xb", opener=lambda it, flags: os.open(it, flags, mode))
        with file:
            yield file
            file.flush()
            if found is not None:
                take_over(file.fileno(), found)
            sync(file.fileno())
        with _about(name):
            os.replace(part, target)
    except BaseException:
        with contextlib.suppress(OSError):
            os.unlink(part)
        raise
    sync_folder(folder)


@contextlib.contextmanager
def _about(name: str) -> Iterator[None]:
    """A context whose system errors name this file, and not the temporary one."""
    try:
        yield
    except OSError as error:
        error.filename, error.filename2 = name, None
        raise


def take_over(descriptor: int, found: os.stat_result) -> None:
    """Gives a file the mode of another one, and its owner and group as far as this process may."""
    for owner in (found.st_uid, -1):
        try:
            os.fchown(descriptor, owner, found.st_gid)
            break
        except OSError:
            continue
    os.fchmod(descriptor, stat.S_IMODE(found.st_mode))


def sync(descriptor: int) -> None:
    """Waits until a file, or the entries of a folder, are on disk. Does nothing for files that no disk has."""
    try:
        os.fsync(descriptor)
    except OSError as error:
        if error.errno not in NOT_ON_DISK:
            raise


def sync_folder(folder: str) -> None:
    """Waits until the entries of a folder are on disk, if this process may read it."""
    try:
        descriptor = os.open(folder, os.O_RDONLY | os.O_DIRECTORY)
    except PermissionError:
        return
    try:
        sync(descriptor)
    finally:
        os.close(descriptor)
