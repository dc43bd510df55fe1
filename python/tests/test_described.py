"""What tables look like in a line, in a notebook, and to a type checker."""

import contextlib
import ctypes
import gc
import inspect
import io
import pathlib
import shutil
import subprocess
import tempfile
import textwrap
import unittest
import xml.etree.ElementTree
from unittest import mock

from ways import InProcess, OverAsyncio, OverTcp, crackd, wants_library, wants_numpy, wants_program

from crackd import described, progress

TOP = pathlib.Path(crackd.__file__).resolve().parents[1]


class Allocated(ctypes.Structure):
    """What the C library has given, in bytes: in its heap, and in pages of its own."""

    NAMES = ("arena", "ordblks", "smblks", "hblks", "hblkhd", "usmblks", "fsmblks", "uordblks", "fordblks", "keepcost")
    _fields_ = [(it, ctypes.c_size_t) for it in NAMES]


def allocated():
    """How many bytes the C library has given to this process."""
    gc.collect()
    call = ctypes.CDLL(None).mallinfo2
    call.restype = Allocated
    found = call()
    return found.uordblks + found.hblkhd


class Described:
    """What each kind of table says of itself."""

    def html(self, table):
        """The facts that a notebook shows, by their names, and the caption."""
        root = xml.etree.ElementTree.fromstring(table._repr_html_())
        lines = [[it.text for it in line] for line in root.iter("tr")]
        return dict(lines), root.find("caption").text


@wants_library
class InProcessDescribed(Described, InProcess, unittest.TestCase):
    """In the process."""

    def test_a_table_in_a_line(self):
        with self.table(splits=[5], policy="ripple") as table:
            said = "<crackd.Table: {} rows, int64 keys, 2 partitions, policy ripple, memory about {} MB>"
            self.assertEqual(repr(table), said.format(0, "0.0"))
            table.insert_many(range(1234), range(1234))
            self.assertEqual((repr(table), str(table)), (said.format("1,234", "0.8"),) * 2)
            # nothing was merged
            self.assertEqual(sum(it.pending_in for it in table.layout().parts), 1234)
        self.assertEqual(repr(table), "<crackd.Table: int64 keys, 2 partitions, policy ripple, closed>")
        with self.table(key_type="float64") as table:
            table.insert(1, 1)
            said = "<crackd.Table: 1 row, float64 keys, 1 partition, policy auto, memory about 0.3 MB>"
            self.assertEqual(repr(table), said)

    def test_a_table_in_a_notebook(self):
        with self.table(key_type="uint64") as table:
            table.insert_many([1, 2], [1, 2])
            wanted = {"rows": "2", "keys": "uint64", "partitions": "1", "policy": "auto", "memory": "about 0.3 MB"}
            self.assertEqual(self.html(table), (wanted, "crackd.Table"))
        del wanted["rows"], wanted["memory"]
        self.assertEqual(self.html(table), ({**wanted, "state": "closed"}, "crackd.Table"))

    def test_sizes(self):
        for size, said in [(0, "0.0"), (949_999, "0.9"), (9_940_000, "9.9"), (10**7, "10"), (12_345_678_901, "12,346")]:
            self.assertEqual(described.size_text(size), f"about {said} MB")

    @unittest.skipUnless(hasattr(ctypes.CDLL(None), "mallinfo2"), "this C library doesn't say how much it gave")
    def test_memory_is_about_what_the_library_took(self):
        for rows, splits in [(3000, []), (30_000, []), (200_000, [50_000, 150_000])]:
            before = allocated()
            with self.subTest(rows), self.table(splits=splits, partitions=None if splits else 1) as table:
                for at in range(0, rows, 1000):
                    table.insert_many(range(at, at + 1000), [0] * 1000)
                table.settle(), table.checkpoint()
                took, said = allocated() - before, sum(it.memory() for it in table._shards)
                self.assertTrue(took / 1.4 < said < took * 1.4, (took, said))

    def test_what_it_says_can_be_asked_for(self):
        with self.table(policy="complete") as table:
            self.assertEqual((table.key_type, table.policy, table.partitions), ("int64", "complete", 1))

    def test_numbers_of_rows_are_there_for_each_way_to_make_a_table(self):
        with crackd.Table.from_arrays([5, 1], [7, 8]) as table:
            self.assertEqual([table.get(it) for it in table.row_numbers], [(5, 7), (1, 8)])
            found = table.rebalanced()
            with found.table as other:
                self.assertEqual(len(found.new), 2)
                self.assertEqual(other.sum(), 15)


@wants_program
class OverTcpDescribed(Described, OverTcp, unittest.TestCase):
    """Over TCP."""

    def test_a_table(self):
        with self.table() as table:
            server = table._peer
            table.insert_many([1, 2], [1, 2])
            self.assertEqual(repr(table), f"<crackd.Client: int64 keys, policy auto, server {server}>")
            wanted = {"rows": "2", "keys": "int64", "policy": "auto", "server": server}
            self.assertEqual(self.html(table), (wanted, "crackd.Client"))
        self.assertEqual(repr(table), f"<crackd.Client: int64 keys, policy auto, server {server}, closed>")

    def test_a_server_that_is_gone(self):
        with crackd.serve() as served:
            table = served.connect()
        self.assertIn("server 127.0.0.1:", repr(table))
        self.assertIn("the server closed the connection", self.html(table)[0]["state"])
        self.assertEqual(self.html(table)[0]["state"], "closed")


@wants_program
class OverAsyncioDescribed(OverAsyncio, unittest.TestCase):
    """Over TCP, by asyncio."""

    def test_a_table(self):
        with self.table() as table:
            self.assertRegex(repr(table), "^<crackd.AsyncTable: int64 keys, policy auto, server 127.0.0.1:[0-9]+>$")
        self.assertTrue(repr(table).endswith(", closed>"))


class Reports(unittest.TestCase):
    """How far a load is, on standard error."""

    def told(self, times):
        """What is written of loads of 200 rows, each of whose steps ends at these seconds."""
        written = io.StringIO()
        clock = mock.patch("crackd.progress.time.monotonic", side_effect=[0.0, *times])
        with clock, contextlib.redirect_stderr(written):
            bar = progress.reporter(True)
            for at in range(len(times)):
                bar(200 * (at + 1) // len(times), 200)
        return written.getvalue()

    def test_a_short_load_is_silent(self):
        self.assertEqual(self.told([0.1, 0.5, 0.99]), "")

    def test_a_long_load_is_reported_now_and_then(self):
        first, last = "\rcrackd: 100 of 200 rows, 50%", "\rcrackd: 200 of 200 rows, 100%\n"
        self.assertEqual(self.told([0.5, 1.0, 1.1, 1.15]), first + last)
        self.assertEqual(self.told([0.5, 3.0]), last)

    def test_no_report(self):
        self.assertIsNone(progress.reporter(False))
        self.assertIsNone(progress.reporter(None))
        self.assertIs(progress.reporter(print), print)


class Documented(unittest.TestCase):
    """What `help` says."""

    def test_each_method_is_documented(self):
        for kind in (crackd.Table, crackd.Client, crackd.AsyncTable):
            for name in dir(kind):
                if not name.startswith("_"):
                    self.assertTrue(getattr(kind, name).__doc__, (kind, name))

    def test_each_kind_of_table_takes_the_same_words(self):
        for name, method in inspect.getmembers(crackd.base.AnyTable, inspect.isfunction):
            if not name.startswith("_"):
                wanted = [(it.name, it.kind, it.default) for it in inspect.signature(method).parameters.values()]
                for kind in (crackd.Table, crackd.Client, crackd.AsyncTable):
                    with self.subTest(name, kind=kind):
                        found = inspect.signature(getattr(kind, name)).parameters.values()
                        self.assertEqual([(it.name, it.kind, it.default) for it in found], wanted)

    def test_tasks_have_each_method(self):
        names = {it for it in dir(crackd.Client) if not it.startswith("_")} - {"partitions"}
        self.assertEqual({it for it in dir(crackd.AsyncTable) if not it.startswith("_")}, names)


@wants_numpy
@unittest.skipIf(shutil.which("mypy") is None, "mypy isn't installed")
class Typed(unittest.TestCase):
    """A program that `mypy --strict` takes, and what it says of results."""

    PROGRAM = """
        import fractions
        from typing import Optional

        import numpy as np
        import numpy.typing as npt

        import crackd


        def ask(table: crackd.Table) -> None:
            number: int = table.insert(1, 2)
            rows: npt.NDArray[np.uint64] = table.insert_many([1], [2])
            flags: npt.NDArray[np.bool_] = table.delete_many(rows)
            counts: npt.NDArray[np.int64] = table.count_by([1, 2])
            mean: Optional[fractions.Fraction] = table.mean()
            found = table.select(1, 2)
            payloads: npt.NDArray[np.int64] = found.payloads
            row: Optional[crackd.Row] = table.get(number)
            reveal_type(table.count())
            reveal_type(table.sum_many([1], [2]))
            reveal_type(table.move(number, 5))
            reveal_type(table.row_numbers)
            reveal_type(table.delete_range(1, 2))
            reveal_type(found)
            reveal_type(crackd.Table.load("rows.npy"))
            reveal_type(crackd.Table.load("rows.npy", into=table))
            reveal_type(table.rebalanced().table)
            print(flags, counts, mean, payloads, row)


        class Mine(crackd.Table):
            pass


        with Mine.from_arrays([1]) as mine:
            reveal_type(mine)
        with crackd.serve() as server, server.connect() as client:
            reveal_type(client)


        async def wait() -> None:
            async with await crackd.connect_async() as table:
                reveal_type(table)
                reveal_type(await table.count(1, 2))
    """
    WANTED = ["builtins.int", "builtins.list[builtins.int]", "Union[builtins.int, None]"]
    WANTED += ["numpy.ndarray[Any, numpy.dtype[numpy.unsignedinteger[numpy._typing._64Bit]]]", "builtins.int"]
    WANTED += ["crackd.rows.Rows", "crackd.table.Table", "crackd.table.Table", "crackd.base.AnyTable", "typed.Mine"]
    WANTED += ["crackd.client.Client", "crackd.aio.AsyncTable", "builtins.int"]

    def test_the_package(self):
        with tempfile.TemporaryDirectory() as room:
            ran = subprocess.run(["mypy", "--cache-dir", room], cwd=TOP, capture_output=True, text=True, check=False)
        self.assertEqual(ran.returncode, 0, ran.stdout)

    def test_a_program(self):
        with tempfile.TemporaryDirectory() as room:
            path = pathlib.Path(room) / "typed.py"
            path.write_text(textwrap.dedent(self.PROGRAM), encoding="utf-8")
            (pathlib.Path(room) / "crackd").symlink_to(TOP / "crackd")
            command = ["mypy", "--strict", "--follow-imports=silent", "--cache-dir", f"{room}/cache", "typed.py"]
            ran = subprocess.run(command, cwd=room, capture_output=True, text=True, check=False)
        self.assertEqual(ran.returncode, 0, ran.stdout)
        found = [it.partition("Revealed type is ")[2].strip('"') for it in ran.stdout.splitlines() if "Revealed" in it]
        # mypy shows a named tuple with the types of its items
        named = [it.partition("fallback=")[2].rstrip("]") for it in found]
        self.assertEqual([name or it for name, it in zip(named, found)], self.WANTED)


if __name__ == "__main__":
    unittest.main()
