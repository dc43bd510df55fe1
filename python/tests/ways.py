"""The ways to reach a table over which the cases are run, and why a way isn't available here."""

import asyncio
import contextlib
import inspect
import os
import pathlib
import shutil
import socket
import subprocess
import sys
import threading
import unittest
from unittest import mock

sys.path.insert(0, str(pathlib.Path(__file__).resolve().parent.parent))

import crackd
from crackd import arrays, library, server

np = arrays.np
wants_numpy = unittest.skipIf(np is None, "numpy isn't installed")


def has_program():
    try:
        return os.access(server.find_program(), os.X_OK)
    except crackd.NoServer:
        return False


wants_shards = unittest.skipIf(np is None or library.find_library() is None, "there is no numpy or no libcrackd.so")
wants_library = unittest.skipIf(library.find_library() is None, "libcrackd.so isn't built")
wants_gcc = unittest.skipIf(shutil.which("gcc") is None, "gcc isn't installed")
wants_program = unittest.skipUnless(has_program(), "the program crackd isn't built")


def refusing(room, **environment):
    """The environment of a program whose library is refused memory, with its files in this folder."""
    source, made, told = (
        pathlib.Path(crackd.__file__).parents[2] / "acceptance" / "c" / "refusing.c",
        f"{room}/refusing.so",
        f"{room}/told",
    )
    subprocess.run(["gcc", "-shared", "-fPIC", "-O2", "-o", made, source, "-ldl"], check=True)
    pathlib.Path(told).write_bytes(bytes(16))
    return {"LD_PRELOAD": made, "REFUSE_TELLS": told, "REFUSE_SWITCHED": "1", **environment}


@contextlib.contextmanager
def standing_in(play, first=(b"pong\n", b"policy auto\n")):
    """The port of a stand-in for a server. It takes one connection, answers its first statements, which are by default
    those of a client of this package, and then calls a function with it."""
    with socket.socket() as listening:
        listening.bind(("127.0.0.1", 0))
        listening.listen()

        def answer():
            with listening.accept()[0] as connection:
                for said in first:
                    connection.recv(4096)
                    connection.sendall(said)
                play(connection)

        thread = threading.Thread(target=answer)
        thread.start()
        yield listening.getsockname()[1]
        thread.join()


class InProcess:
    """Tables of this process."""

    @contextlib.contextmanager
    def table(self, sample=(), rows=None, **options):
        with crackd.Table(sample, rows, **options) as table:
            yield table


class InShards:
    """Tables of this process with several shards, which answer every call for many side by side, also for few."""

    SHARDS, ALWAYS, AT_ONCE = 3, dict.fromkeys(crackd.table.LONG, 0), True

    @contextlib.contextmanager
    def table(self, sample=(), rows=None, shards=SHARDS, **options):
        if not len(sample) and not {"splits", "partitions"} & set(options):
            options["splits"] = splits_amid(crackd.keys.Keys.named(options.get("key_type") or "int64"))
        with contextlib.ExitStack() as stack:
            if self.AT_ONCE:
                stack.enter_context(mock.patch.multiple(crackd.table, LONG=self.ALWAYS, MANY_ROWS=0, FEW_ITEMS=-1))
            yield stack.enter_context(crackd.Table(sample, rows, shards=shards, **options))


def splits_amid(kind):
    """Two splits for keys of a kind, beside 0 and 1."""
    if kind.kind == "f":
        return [0.0, 1.0]
    return [kind.back_one(it + (0 if kind.kind == "u" else arrays.SIGN)) for it in (1, 2)]


class OverTcp:
    """Tables on a server that is started for each."""

    @contextlib.contextmanager
    def table(self, sample=(), rows=None, **options):
        with crackd.serve(sample, rows, workers=1, **options) as server, server.connect() as table:
            yield table


class Awaited:
    """A table of asyncio whose methods are called as others are, each until it ends. `loop` is that of its calls."""

    def __init__(self, loop, table):
        self._loop, self._table = loop, table

    def __getattr__(self, name):
        found = getattr(self._table, name)
        if inspect.isasyncgenfunction(found):
            return lambda *words, **options: iter(self._loop.run_until_complete(listed(found(*words, **options))))
        if not inspect.iscoroutinefunction(found):
            return found
        return lambda *words, **options: self._loop.run_until_complete(found(*words, **options))

    def __len__(self):
        return self.count()

    def __bool__(self):
        return True

    def __repr__(self):
        return repr(self._table)

    @property
    def partitions(self):
        return len(self.layout().parts)


async def listed(them):
    """What an asynchronous generator yields."""
    return [it async for it in them]


class OverAsyncio:
    """Tables on a server that is started for each, over asyncio."""

    @contextlib.contextmanager
    def table(self, sample=(), rows=None, **options):
        with contextlib.closing(asyncio.new_event_loop()) as loop, crackd.serve(
            sample, rows, workers=1, **options
        ) as served:
            words = {"key_type": served._keys, "policy": served._policy}
            words["payload_decimals"] = served._payloads.decimals
            table = Awaited(loop, loop.run_until_complete(crackd.connect_async(port=served.port, **words)))
            try:
                yield table
            finally:
                table.close()
