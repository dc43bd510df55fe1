"""The folder of a cluster's save: the parts that the shards write, and the manifest that names them.

The names of a save's parts have a mark of its own. While the save runs it holds a lock on a file with this mark, and
a load holds one on the first part of the save that it reads. So no save removes the parts of another that still runs,
or that is being read; locks of processes that were killed are gone.
"""

from __future__ import annotations

import contextlib
import errno
import fcntl
import json
import os
import pathlib
import re
import uuid
import zlib
from typing import IO, Any, Iterator, Mapping, Optional, Sequence

from .arrays import TOP
from .decimals import PayloadType
from .keys import Keys
from .saved import BadSave, fields_of
from .wholefile import name_of, whole_file

MANIFEST = "manifest.json"
# the number of the form, which is written into each manifest; manifests of the earlier form have no checksum
FORM, EARLIER = 3, 2
NAMES = ("form", "keys", "splits", "files", "counts", "sums")
# files whose names go on have been written in part; a killed save leaves them
PART = re.compile(r"shard-[0-9]{4}-(?P<mark>[0-9a-f]{12})\.npy(\..+)?")
LOCK = re.compile(r"save-(?P<mark>[0-9a-f]{12})\.lock")


def folder_of(path: Any) -> pathlib.Path:
    """The folder at a path, as an absolute path, since workers may run in other folders."""
    return pathlib.Path(name_of(path)).resolve()


@contextlib.contextmanager
def saving(folder: pathlib.Path, shards: int) -> Iterator[list[str]]:
    """A context of a save that runs. Yields the names of its parts, one for each shard.

    At the end of the block, which writes the manifest, the parts of earlier saves are removed; after an error those of
    this save.
    """
    mark = uuid.uuid4().hex[:12]
    lock = folder / f"save-{mark}.lock"
    try:
        with _locked(lock):
            try:
                yield [f"shard-{it:04}-{mark}.npy" for it in range(shards)]
            except BaseException:
                if not _stands(folder, mark):
                    _remove(folder, mark, set())
                raise
            # the save stands; what can't be removed now is left to the next one
            with contextlib.suppress(OSError, BadSave):
                clean(folder, mark)
    finally:
        lock.unlink(missing_ok=True)


@contextlib.contextmanager
def _locked(path: pathlib.Path) -> Iterator[None]:
    """A context that holds the lock of a new file."""
    while True:
        with open(path, "ab") as file:
            with contextlib.suppress(OSError):
                fcntl.flock(file, fcntl.LOCK_EX)
            # else another save has taken the lock in between, and has removed the file
            if _is_at(file, path):
                yield
                return


def _is_at(file: IO[bytes], path: pathlib.Path) -> bool:
    """Whether a path still names an open file."""
    try:
        return os.path.samestat(os.fstat(file.fileno()), os.stat(path))
    except FileNotFoundError:
        return False


def clean(folder: pathlib.Path, own: str) -> None:
    """Removes the parts that the manifest doesn't name, except those of other saves that still run, or are being read.

    `own` is the mark of the save that calls this.
    """
    found = [PART.fullmatch(it) or LOCK.fullmatch(it) for it in os.listdir(folder)]
    marks = {it["mark"] for it in found if it}
    ended = {it for it in marks if it == own or not _is_running(folder, it)}
    # read only now, when the manifests of these saves are there
    kept = named(folder)
    for mark in ended:
        with _alone(folder / f"shard-0000-{mark}.npy") as is_alone:
            if is_alone:
                _remove(folder, mark, kept)


def named(folder: pathlib.Path) -> set[str]:
    """The parts that the manifest names. Raises `BadSave` if it can't be read."""
    try:
        return set(read_manifest(folder / MANIFEST)["files"])
    except FileNotFoundError:
        return set()


def _stands(folder: pathlib.Path, mark: str) -> bool:
    """Whether the manifest may name the parts of a save."""
    try:
        return any(mark in it for it in named(folder))
    except BadSave:
        return False
    except OSError:
        return True


def _is_running(folder: pathlib.Path, mark: str) -> bool:
    """Whether a save still runs. Removes the lock of one that was killed."""
    lock = folder / f"save-{mark}.lock"
    with _alone(lock) as is_alone:
        if is_alone:
            lock.unlink(missing_ok=True)
        return not is_alone


@contextlib.contextmanager
def _alone(path: pathlib.Path) -> Iterator[bool]:
    """A context that says whether nobody else has a lock of a file, and keeps it so."""
    with contextlib.ExitStack() as stack:
        try:
            # some file systems lock files against others only if they may be written
            file = stack.enter_context(open(path, "r+b" if os.access(path, os.W_OK) else "rb"))
            fcntl.flock(file, fcntl.LOCK_EX | fcntl.LOCK_NB)
            is_alone = True
        except FileNotFoundError:
            is_alone = True
        except OSError:
            # somebody has a lock, or the file system has none
            is_alone = False
        yield is_alone


def _remove(folder: pathlib.Path, mark: str, kept: set[str]) -> None:
    """Removes the parts of a save except these, beginning with the first."""
    for name in sorted(os.listdir(folder)):
        found = PART.fullmatch(name)
        if found and found["mark"] == mark and name not in kept:
            (folder / name).unlink(missing_ok=True)


@contextlib.contextmanager
def reading(folder: pathlib.Path) -> Iterator[dict[str, Any]]:
    """A context of a load. Yields the manifest, whose parts aren't removed before the end of the block."""
    if not folder.exists():
        raise FileNotFoundError(errno.ENOENT, "there is no such folder", str(folder))
    if not (folder / MANIFEST).exists():
        said = "the folder of a save has this file, and it isn't there"
        raise FileNotFoundError(errno.ENOENT, said, str(folder / MANIFEST))
    manifest, before = read_manifest(folder / MANIFEST), None
    # a later save may have removed them since the manifest was read
    while (first := _held(folder / manifest["files"][0])) is None and manifest != before:
        manifest, before = read_manifest(folder / MANIFEST), manifest
    with first or contextlib.nullcontext():
        yield manifest


def _held(path: pathlib.Path) -> Optional[IO[bytes]]:
    """A file, opened with a lock that others may have too. None if it isn't there."""
    try:
        file = open(path, "rb")
    except OSError:
        return None
    with contextlib.suppress(OSError):
        fcntl.flock(file, fcntl.LOCK_SH)
    if _is_at(file, path):
        return file
    file.close()
    return None


# Manifests


def write_manifest(folder: pathlib.Path, told: Mapping[str, Any]) -> dict[str, Any]:
    """Writes a manifest, with its form and its checksum. Returns it."""
    manifest = {"form": FORM, **told}
    manifest["crc32"] = _crc32_of(manifest)
    with whole_file(folder / MANIFEST) as file:
        file.write((json.dumps(manifest, indent=1) + "\n").encode("ascii"))
    return manifest


def _crc32_of(manifest: Mapping[str, Any]) -> int:
    """The checksum of a manifest without its checksum."""
    told = {name: it for name, it in manifest.items() if name != "crc32"}
    return zlib.crc32(json.dumps(told, sort_keys=True).encode("ascii"))


def read_manifest(path: pathlib.Path) -> dict[str, Any]:
    """Reads the manifest of a save, with a value for each of `FIELDS`.

    Raises `BadSave` if the file is anything else.
    """
    try:
        manifest: dict[str, Any] = json.loads(path.read_text(encoding="ascii"))
        form = manifest["form"]
        is_known = form == EARLIER or form == FORM and manifest["crc32"] == _crc32_of(manifest)
        fault = "" if is_known else f"is no manifest of form {FORM}, or has changed"
        fault = fault or _fault_of(manifest)
    except (ValueError, KeyError, TypeError, AttributeError, RecursionError) as error:
        raise BadSave(f"{path} is no manifest: {type(error).__name__}: {error}") from error
    if fault:
        raise BadSave(f"{path} {fault}")
    known = NAMES if form == EARLIER else (*NAMES, "crc32")
    return {**manifest, **fields_of(path, manifest, known)}


def _fault_of(manifest: Mapping[str, Any]) -> str:
    """What is wrong with the lists of a manifest, or an empty text."""
    kind = Keys.named(manifest["keys"])
    kind.with_decimals(manifest.get("key_decimals", 0)).with_zone(manifest.get("zone"))
    PayloadType(manifest.get("payload_decimals"))
    splits, files, counts, sums = (manifest[it] for it in ("splits", "files", "counts", "sums"))
    if not {len(files), len(counts), len(sums)} == {len(splits) + 1}:
        return f"is no manifest: {len(splits)} splits make {len(splits) + 1} parts, and others are named"
    numbers = [it for each in (splits, counts, sums) for it in each]
    if any(type(it) is not int for it in numbers) or not all(type(it) is str for it in files):
        return "is no manifest: it has other things than numbers, and names of files"
    if any(it < 0 for it in counts) or not _rise([0, *splits, TOP]):
        return "is no manifest: its splits don't rise, or a count is below 0"
    if any(os.path.basename(it) != it for it in files):
        return "is no manifest: its files are in other folders"
    return ""


def _rise(numbers: Sequence[int]) -> bool:
    return all(low < high for low, high in zip(numbers, numbers[1:]))
