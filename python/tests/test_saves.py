"""Saved files and folders: their form, damages, earlier forms, and several saves and loads at a time."""

import asyncio
import contextlib
import json
import os
import pathlib
import random
import stat
import struct
import subprocess
import sys
import tempfile
import threading
import unittest
import zlib
from unittest import mock

from amounts import amount
from clusters import cluster, local, wants_cluster
from ways import (
    InProcess,
    InShards,
    OverTcp,
    crackd,
    np,
    wants_library,
    wants_numpy,
    wants_program,
    wants_shards,
)

from crackd import saved

if cluster is not None:
    from crackd import folders

PACKAGE = pathlib.Path(crackd.__file__).resolve().parents[1]
MAGIC = b"\x93CRACKD\n"
SHARED = {}


def setUpModule():
    """Starts a cluster for all classes of this module."""
    if cluster is not None and crackd.library.find_library() is not None:
        SHARED["stack"] = contextlib.ExitStack()
        SHARED["client"] = SHARED["stack"].enter_context(local(2))


def tearDownModule():
    if SHARED:
        SHARED["stack"].close()


def earlier(rows, names="'key', '<i8'"):
    """A file of the earlier form: a head of 192 bytes, and the rows."""
    said = f"{{'descr': [({names}), ('payload', '<i8')], 'fortran_order': False, 'shape': ({len(rows) // 16},)}}"
    return b"\x93NUMPY\x01\x00" + struct.pack("<H", 182) + said.encode().ljust(181) + b"\n" + rows


def packed(rows):
    """Rows of integers as a file has them."""
    return b"".join(struct.pack("<qq", *it) for it in rows)


def rows_of(table):
    """All rows of a table, sorted, with the type of the keys."""
    found = table.select()
    return table.key_type, sorted(zip(found.keys.tolist(), found.payloads.tolist()))


class InARoom(unittest.TestCase):
    """Cases with a folder of their own."""

    def setUp(self):
        room = tempfile.TemporaryDirectory()
        self.addCleanup(room.cleanup)
        self.room = pathlib.Path(room.name)
        self.path = self.room / "rows.npy"

    def seeded(self):
        """A random generator, whose seed is printed; the same one is used if the environment has it."""
        seed = int(os.environ.get("CRACKD_SEED") or random.SystemRandom().randrange(2**32))
        print(f"{self.id()}: CRACKD_SEED={seed}", file=sys.stderr)
        return random.Random(seed)

    def damaged(self, rng, content):
        """A content with another byte, or cut."""
        if rng.random() < 0.3:
            return content[: rng.randrange(len(content))]
        # a third of the changes are near each end
        near = rng.choice([range(len(content)), range(min(300, len(content))), range(len(content))[-150:]])
        at = rng.choice(near)
        byte = rng.choice([rng.randrange(256), content[at] ^ 1 << rng.randrange(8)])
        return content[:at] + bytes([byte if byte != content[at] else byte ^ 1]) + content[at + 1 :]


@wants_shards
class Forms(InARoom):
    """What a file has, byte by byte."""

    def test_a_file(self):
        with crackd.Table() as table:
            table.insert_many([5, -7], [70, 80])
            self.assertEqual(table.save(self.path), 2)
        content = self.path.read_bytes()
        self.assertEqual((content[:10], content[255:256]), (b"\x93NUMPY\x01\x00" + struct.pack("<H", 246), b"\n"))
        rows, rest = content[256:288], content[288:]
        self.assertEqual(sorted(struct.iter_unpack("<qq", rows)), [(-7, 80), (5, 70)])
        length, crc32, magic = struct.unpack("<II8s", rest[-16:])
        self.assertEqual((length, crc32, magic), (len(rest) - 16, zlib.crc32(rest[:-16]), MAGIC))
        wanted = {"rows": 2, "keys": "int64", "crc32": zlib.crc32(content[:256], zlib.crc32(rows))}
        self.assertEqual(json.loads(rest[:-16]), wanted)
        self.assertEqual(np.load(self.path).tolist(), np.load(self.path, mmap_mode="r").tolist())
        self.assertEqual(sorted(np.load(self.path).tolist()), [(-7, 80), (5, 70)])

    def test_files_of_the_earlier_form(self):
        for rows in ([], [(1, 2)], [(5, 70), (-7, 80), (5, 70)]):
            self.path.write_bytes(earlier(packed(rows)))
            with crackd.Table.load(self.path) as table:
                self.assertEqual(rows_of(table), ("int64", sorted(rows)))
            # rows that were written by numpy
            np.save(self.path, np.array(rows, [("key", "int64"), ("payload", "int64")]))
            with crackd.Table.load(self.path) as table:
                self.assertEqual(rows_of(table), ("int64", sorted(rows)))
                self.assertEqual(table.save(self.path), len(rows))
            self.assertEqual(self.path.read_bytes()[-8:], MAGIC)

    def test_a_number_that_is_no_key(self):
        nan = struct.pack("<dqdq", 1.5, 1, float("nan"), 2)
        self.path.write_bytes(earlier(nan, "'key', '<f8'"))
        self.assertRaisesRegex(crackd.BadSave, "rows.npy can't be read: a key isn't", crackd.Table.load, self.path)
        self.path.write_bytes(earlier(struct.pack("<qqqq", 1, 1, -(2**63), 2), "'key', '<M8[s]'"))
        self.assertRaisesRegex(crackd.BadSave, "rows.npy can't be read: a key isn't", crackd.Table.load, self.path)

    def expect_bad(self, content, *words):
        self.path.write_bytes(content)
        with self.assertRaises(crackd.BadSave) as caught:
            crackd.Table.load(self.path)
        for word in (str(self.path), *words):
            self.assertIn(word, str(caught.exception))

    def test_what_is_wrong_is_said(self):
        with crackd.Table.from_arrays([5, -7], [70, 80]) as table:
            table.save(self.path)
        whole, old = self.path.read_bytes(), earlier(packed([(5, 70), (-7, 80)]))
        for content, *words in [
            (b"", "it is empty"),
            (whole[:-1], "its last bytes are missing or have changed; it has"),
            (whole[:-1] + b"x", "its last bytes are missing or have changed"),
            (whole[:288], "its last bytes are missing or have changed; it has 288"),
            (whole[:100], "its last bytes are missing or have changed; it has 100"),
            (whole + b"x", "its last bytes are missing or have changed"),
            (whole[:-17] + b" " + whole[-16:], "what it says about its rows has changed"),
            (whole[:256] + bytes(1) + whole[257:], "its rows have changed since they were saved"),
            (whole[:272] + whole[288:], "it has 16 bytes of rows, and 2 rows need 32"),
            (whole.replace(b"(2,)", b"(1,)", 1), "its head isn't that of 2 rows with keys of int64"),
            (b"x" + whole[1:], "can't be read"),
            (old[:-1], "it has 31 bytes of rows, and 2 rows need 32"),
            (old + b"x", "it has 33 bytes of rows, and 2 rows need 32"),
            (old.replace(b"(2,)", b"(1,)"), "it has 32 bytes of rows, and 1 rows need 16"),
            (old.replace(b"'<i8'", b"'<u4'", 1), "has no rows of a table, but"),
            (old.replace(b"(2,)", b"(2 )"), "can't be read"),
            (old.replace(b"{", b"(", 1), "can't be read"),
        ]:
            with self.subTest(words):
                self.expect_bad(content, *words)
        for told, *words in [
            ({"rows": 2, "keys": "int64"}, "doesn't say what its rows are: KeyError: 'crc32'"),
            ({"rows": 2, "keys": "text", "crc32": 0}, "doesn't say what its rows are: TypeError"),
            ({"rows": None, "keys": "int64", "crc32": 0}, "can't be read"),
            ({"rows": 2, "keys": "int64", "crc32": 0}, "its rows have changed since they were saved"),
            ({"rows": 2, "keys": "int64", "crc32": 0, "sort": "UTC", "x": 1}, "doesn't know", "sort, x"),
            ([], "is no dict"),
            (5, "is no dict"),
        ]:
            with self.subTest(told):
                self.expect_bad(whole[:288] + saved.end_of(told), *words)
        text = b"no json"
        self.expect_bad(whole[:288] + text + struct.pack("<II8s", 7, zlib.crc32(text), MAGIC), "no dict")
        text = b"{" * 300
        self.expect_bad(whole[:288] + text + struct.pack("<II8s", 999, zlib.crc32(text), MAGIC), "last bytes")

    def test_what_is_no_file(self):
        self.assertRaises(IsADirectoryError, crackd.Table.load, self.room)
        self.assertRaises(FileNotFoundError, crackd.Table.load, self.path)
        said = "/dev/null can't be read: it isn't a regular file"
        self.assertRaisesRegex(crackd.BadSave, said, crackd.Table.load, "/dev/null")

    def test_what_a_save_says_about_its_rows(self):
        """Names that aren't known are refused, those that aren't there have a default, and a load keeps them."""
        with crackd.Table.from_arrays([5, 6]) as table, mock.patch.dict(saved.FIELDS, {"source": None, "places": 0}):
            table.save(self.path)
            with crackd.Table.load(self.path) as plain:
                self.assertEqual(plain._told, {"found": None, "source": None, "places": 0})
                plain._told = {"source": "a file", "places": 0}
                plain.save(self.path)
            found = saved.read_saved(self.path)
            self.assertEqual(found.told, {"found": None, "source": "a file", "places": 0})
            with crackd.Table.load(self.path) as loaded:
                loaded.save(self.path)
                self.assertEqual(saved.read_saved(self.path).told, found.told)
            np.save(self.path.with_name("old.npy"), np.load(self.path))
            with crackd.Table.load(self.path.with_name("old.npy")) as old:
                self.assertEqual(old._told, {"found": None, "source": None, "places": 0})
        said = "doesn't know what it says of its rows: source, places"
        self.assertRaisesRegex(crackd.BadSave, said, crackd.Table.load, self.path)

    def test_the_checksum_is_that_of_zlib_for_any_size(self):
        rng = random.Random(5)
        for size in (0, 1, 999, 5000):
            content = rng.randbytes(size)
            with mock.patch.object(saved, "BYTES_AT_ONCE", 1000):
                self.assertEqual(saved.crc32_of(np.frombuffer(content, np.uint8)), zlib.crc32(content))


@wants_shards
class Damages(InARoom):
    """Files with another byte, and files that are cut."""

    TYPES = ("int64", "uint64", "float64", "datetime64[s]")

    def test_no_damaged_file_loads(self):
        rng = self.seeded()
        wholes = []
        patch = mock.patch.object(saved, "BYTES_AT_ONCE", 5000)
        patch.start()
        self.addCleanup(patch.stop)
        for key_type in self.TYPES:
            for size in (0, 1, 60, 1000):
                keys = np.array([rng.randrange(1000) for _ in range(size)]).astype(key_type)
                with crackd.Table.from_arrays(keys, [rng.randrange(-100, 100) for _ in keys]) as table:
                    table.save(self.path)
                wholes.append(self.path.read_bytes())
        for _ in range(amount(1500)):
            whole = rng.choice(wholes)
            content = self.damaged(rng, whole)
            self.path.write_bytes(content)
            with self.assertRaisesRegex(crackd.BadSave, "rows.npy "):
                crackd.Table.load(self.path).close()
            # without the checksum the head and the end are still read as those of a save
            with contextlib.suppress(crackd.BadSave):
                saved.read_saved(self.path, is_checked=False)

    def test_a_damaged_file_of_the_earlier_form_raises_no_other_error(self):
        rng = self.seeded()
        wholes = [earlier(packed([(it, -it) for it in range(20)])), earlier(packed([(5, 6)]), "'key', '<f8'")]
        wholes += [earlier(packed([(1, 2)] * 3), "'key', '<M8[us]'"), earlier(b"", "'key', '<u8'")]
        refused = 0
        for _ in range(amount(3000)):
            whole = rng.choice(wholes)
            content = self.damaged(rng, whole)
            self.path.write_bytes(content)
            try:
                with crackd.Table.load(self.path) as table:
                    # as many rows; such a file has no checksum, so they may be others
                    self.assertEqual(len(table), (len(content) - 192) // 16)
                    self.assertEqual(len(content), len(whole))
            except crackd.BadSave as error:
                refused += 1
                self.assertIn(str(self.path), str(error))
        self.assertGreater(refused, amount(3000) // 4)


@wants_library
@wants_cluster
class DamagedFolders(InARoom):
    """Folders of a cluster with another byte in one of their files, and with files that are cut."""

    def test_no_damaged_folder_loads_other_rows(self):
        rng, folder = self.seeded(), self.room / "saved"
        keys = [rng.randrange(300) for _ in range(60)]
        with cluster.Table(SHARED["client"], splits=[100], key_type="int64") as table:
            table.insert_many(keys, keys)
            manifest, wanted = table.save(folder), rows_of(table)
        wholes = {it: (folder / it).read_bytes() for it in ("manifest.json", *manifest["files"])}
        refused = 0
        for _ in range(amount(500)):
            name = rng.choice(list(wholes))
            (folder / name).write_bytes(self.damaged(rng, wholes[name]))
            try:
                with cluster.Table.restore(SHARED["client"], folder) as table:
                    # a blank of the manifest, say
                    self.assertEqual((rows_of(table), name), (wanted, "manifest.json"))
            except crackd.BadSave as error:
                refused += 1
                self.assertIn(str(folder), str(error))
            (folder / name).write_bytes(wholes[name])
        self.assertGreater(refused, amount(500) // 2)
        with cluster.Table.restore(SHARED["client"], folder) as table:
            self.assertEqual(rows_of(table), wanted)


@wants_numpy
class AtOnce:
    """Several saves to one file, and loads of it, at a time."""

    TIMES, SIZES = 8, (1000, 3000)

    def expect_whole(self, save, times):
        """Runs threads that save each of two tables, and loads meanwhile. One of the two stands."""
        wrong, over = [], threading.Event()

        def saves(at):
            for _ in range(times):
                found = save(at)
                if found != self.SIZES[at]:
                    wrong.append(found)

        threads = [threading.Thread(target=saves, args=(at,)) for at in (0, 1)]
        for it in threads:
            it.start()
        loaded = set()
        while not over.is_set():
            if not any(it.is_alive() for it in threads):
                over.set()
            if self.path.exists():
                with crackd.Table.load(self.path) as table:
                    loaded.add((len(table), table.sum()))
        for it in threads:
            it.join()
        self.assertEqual((wrong, loaded - {(it, it * it) for it in self.SIZES}), ([], set()))
        self.assertTrue(loaded)
        self.assertEqual(os.listdir(self.room), ["rows.npy"])

    def fill(self, table, at):
        """A table's rows show how many they are."""
        size = self.SIZES[at]
        table.insert_many(range(size), [size] * size)

    def test_threads(self):
        with self.table() as one, self.table() as other:
            tables = one, other
            for at, table in enumerate(tables):
                self.fill(table, at)
            self.expect_whole(lambda at: tables[at].save(self.path), self.TIMES)


@wants_library
class AtOnceInProcess(AtOnce, InProcess, InARoom):
    """In the process."""

    def test_processes(self):
        code = f"import sys; sys.path.insert(0, {str(PACKAGE)!r})\nimport crackd\nsize = int(sys.argv[1])\n"
        code += "with crackd.Table.from_arrays(range(size), [size] * size) as table:\n"
        code += f"    print(*(table.save({str(self.path)!r}) for _ in range({self.TIMES})))"

        def save(at):
            command = [sys.executable, "-c", code, str(self.SIZES[at])]
            found = subprocess.run(command, check=True, capture_output=True, text=True).stdout.split()
            return self.SIZES[at] if found == [str(self.SIZES[at])] * self.TIMES else found

        self.expect_whole(save, 1)


@wants_shards
class AtOnceInShards(AtOnce, InShards, InARoom):
    """In several shards."""


@wants_program
class AtOnceOverTcp(AtOnce, OverTcp, InARoom):
    """Over TCP."""

    def test_clients(self):
        with crackd.serve(workers=2) as server, crackd.serve(workers=2) as second:
            with contextlib.ExitStack() as stack:
                clients = [[stack.enter_context(it.connect()) for _ in range(2)] for it in (server, second)]
                for at, (first, _) in enumerate(clients):
                    self.fill(first, at)
                turns = [iter([0, 1] * self.TIMES), iter([1, 0] * self.TIMES)]
                self.expect_whole(lambda at: clients[at][next(turns[at])].save(self.path), self.TIMES)

    def test_tasks(self):
        async def saved_by_tasks():
            async with contextlib.AsyncExitStack() as stack:
                tables = []
                for at in (0, 1):
                    server = stack.enter_context(crackd.serve(workers=1))
                    table = await stack.enter_async_context(await crackd.connect_async(port=server.port))
                    await table.insert_many(range(self.SIZES[at]), [self.SIZES[at]] * self.SIZES[at])
                    tables.append(table)
                saves = [tables[it % 2].save(self.path) for it in range(2 * self.TIMES)]
                self.assertEqual(await asyncio.gather(*saves), list(self.SIZES) * self.TIMES)
                cancelled = asyncio.ensure_future(tables[0].save(self.path))
                await asyncio.sleep(0)
                cancelled.cancel()
                await asyncio.gather(cancelled, return_exceptions=True)

        asyncio.run(saved_by_tasks())
        with crackd.Table.load(self.path) as table:
            self.assertIn((len(table), table.sum()), [(it, it * it) for it in self.SIZES])
        self.assertEqual(os.listdir(self.room), ["rows.npy"])


@wants_program
class OfTheShell(InARoom):
    """What `.save` of the shell writes."""

    def run_shell(self, lines, out):
        """Runs the shell, with standard output to a file, and returns what that file has then."""
        command = [sys.executable, "-c", f"import sys; sys.path.insert(0, {str(PACKAGE)!r})\n"]
        command[-1] += "from crackd.__main__ import main\nsys.exit(main(sys.argv[1:]))"
        with open(out, "wb") as file:
            environment = {name: it for name, it in os.environ.items() if name != "PYTHONUNBUFFERED"}
            words = {"input": lines.encode(), "stdout": file, "cwd": self.room, "env": environment, "timeout": 60}
            subprocess.run([*command, "shell", "100"], check=True, **words)
        return pathlib.Path(out).read_text()

    def test_standard_output_keeps_its_order(self):
        for name in ("/dev/stdout", "out"):
            lines = f"insert 150 -6\ninsert 50 5\n.save {name}\ncount 0 end\n"
            wanted = f"row 1.0\nrow 0.0\nkey,payload\n50,5\n150,-6\nsaved 2 rows to {name}\ncount 2\n"
            with self.subTest(name):
                self.assertEqual(self.run_shell(lines, self.room / "out"), wanted)
                self.assertEqual(os.listdir(self.room), ["out"])

    def test_modes_and_links(self):
        path, link = self.room / "rows.csv", self.room / "link"
        path.touch(0o600)
        link.symlink_to("rows.csv")
        out = self.run_shell("insert 5 7\n.save link\n", self.room / "out")
        self.assertEqual(out, "row 0.0\nsaved 1 row to link\n")
        self.assertEqual((path.read_text(), stat.S_IMODE(path.stat().st_mode)), ("key,payload\n5,7\n", 0o600))
        self.assertTrue(link.is_symlink())


@wants_cluster
class Folders(InARoom):
    """Saves of a folder that run at a time, that were killed, or that are being read, without a cluster."""

    def names(self):
        return sorted(os.listdir(self.room))

    def write(self, files, told=None):
        """What a save writes: its parts, and the manifest unless `told` is False."""
        for name in files:
            (self.room / name).write_bytes(b"rows")
        if told is not False:
            splits = list(range(1, len(files)))
            lists = {"counts": [0] * len(files), "sums": [0] * len(files), **(told or {})}
            folders.write_manifest(self.room, {"keys": "int64", "splits": splits, "files": files, **lists})

    def save(self, shards=2):
        with folders.saving(self.room, shards) as files:
            self.write(files)
        return files

    def expect(self, *files):
        self.assertEqual(self.names(), sorted(["manifest.json", *files]))

    def test_each_save_has_names_of_its_own(self):
        first = self.save()
        self.expect(*first)
        second = self.save(3)
        self.assertEqual((len(set(first + second)), len(second)), (5, 3))
        self.expect(*second)

    def test_a_save_that_runs_keeps_its_parts(self):
        for is_last in (False, True):
            with folders.saving(self.room, 2) as files:
                self.write(files, False)
                (self.room / (files[1] + ".xx.part")).write_bytes(b"half")
                other = self.save()
                self.assertTrue({*files, files[1] + ".xx.part", *other, "manifest.json"} <= set(self.names()))
                self.assertEqual(len(self.names()), 7)
                if is_last:
                    self.write(files)
            # the manifest names the parts of one of them, and those of the other are gone
            self.expect(*(files if is_last else other))

    def test_a_save_that_fails_leaves_the_one_before(self):
        first = self.save()
        for fault in (OSError("full"), KeyboardInterrupt()):
            with self.assertRaises(type(fault)), folders.saving(self.room, 2) as files:
                self.write(files, False)
                raise fault
            self.expect(*first)
        with self.assertRaises(KeyboardInterrupt), folders.saving(self.room, 2) as files:
            self.write(files)
            raise KeyboardInterrupt
        # it had its manifest already
        self.assertTrue({"manifest.json", *files} <= set(self.names()))
        self.expect(*self.save())

    def test_a_save_that_was_killed(self):
        first, child = self.save(), os.fork()
        if child == 0:
            with folders.saving(self.room, 2) as files:
                self.write(files, False)
                os._exit(0)
        os.waitpid(child, 0)
        left = set(self.names()) - {"manifest.json", *first}
        self.assertEqual((len(left), len([it for it in left if it.endswith(".lock")])), (3, 1))
        self.expect(*self.save())

    def test_another_process_that_saves(self):
        source, target = os.pipe()
        child = os.fork()
        if child == 0:
            with folders.saving(self.room, 2) as files:
                self.write(files, False)
                os.write(target, "\n".join(files).encode())
                signalled = os.path.join(self.room, "go")
                while not os.path.exists(signalled):
                    pass
                os.unlink(signalled)
                self.write(files)
            os._exit(0)
        files = os.read(source, 999).decode().split("\n")
        other = self.save()
        self.assertTrue({*files, *other} <= set(self.names()))
        (self.room / "go").touch()
        os.waitpid(child, 0)
        self.expect(*files)
        os.close(source), os.close(target)

    def test_what_is_being_read_stays(self):
        first = self.save()
        with folders.reading(self.room) as manifest, folders.reading(self.room):
            self.assertEqual(manifest["files"], first)
            second = self.save()
            self.expect(*first, *second)
            third = self.save()
            self.expect(*first, *third)
        fourth = self.save()
        self.expect(*fourth)

    def test_a_manifest_whose_parts_have_just_gone_is_read_again(self):
        first, read = self.save(), folders.read_manifest
        old = read(self.room / "manifest.json")
        second = self.save()
        told = [old]
        with mock.patch.object(folders, "read_manifest", lambda path: told.pop() if told else read(path)):
            with folders.reading(self.room) as manifest:
                self.assertEqual((manifest["files"], old["files"]), (second, first))
        # so is a second one
        then = read(self.room / "manifest.json")
        third, told = self.save(), [then, old]
        with mock.patch.object(folders, "read_manifest", lambda path: told.pop() if told else read(path)):
            with folders.reading(self.room) as manifest:
                self.assertEqual((manifest["files"], told), (third, []))
        (self.room / third[0]).unlink()
        with folders.reading(self.room) as manifest:
            self.assertEqual(manifest["files"], third)

    def test_a_part_that_goes_before_it_is_locked(self):
        first, lock = self.save(), folders.fcntl.flock
        wanted = []

        def slow(file, how):
            if how == folders.fcntl.LOCK_SH and not wanted:
                wanted.append(None)
                wanted[0] = self.save()
            lock(file, how)

        with mock.patch.object(folders.fcntl, "flock", slow), folders.reading(self.room) as manifest:
            self.assertEqual((manifest["files"], first[0] in self.names()), (wanted[0], False))

    def test_a_save_that_ends_while_another_one_looks_for_those_that_run(self):
        """The manifest that stands is then that of the other, which the first must not have read before."""
        stack, is_running = contextlib.ExitStack(), folders._is_running
        files = stack.enter_context(folders.saving(self.room, 2))
        self.write(files, False)

        def ended(folder, mark):
            if mark in files[0] and "manifest.json" in self.names() and not done:
                done.append(mark)
                self.write(files)
                stack.close()
            return is_running(folder, mark)

        done = []
        with mock.patch.object(folders, "_is_running", ended):
            self.save()
        self.assertEqual(len(done), 1)
        self.expect(*files)

    def test_without_locks_the_parts_of_others_stay(self):
        """Some file systems have no locks, so nobody knows whether a save still runs."""
        with mock.patch.object(folders.fcntl, "flock", side_effect=OSError(95, "not supported")):
            with folders.saving(self.room, 2) as files:
                self.write(files, False)
                other = self.save()
                self.assertTrue({*files, *other} <= set(self.names()))
                self.write(files)
            with folders.reading(self.room) as manifest:
                self.assertEqual(manifest["files"], files)

    def test_other_files_stay(self):
        others = ["save-.lock", "save-xyz.lock", "shard-1.npy", "rows.npy", "shard-0000-0123456789ab.npz"]
        others += ["manifest.json.old", "xshard-0000-0123456789ab.npy"]
        for it in others:
            (self.room / it).touch()
        self.expect(*self.save(), *others)

    def test_a_manifest_of_a_later_version_is_left(self):
        files = self.save()
        manifest = json.loads((self.room / "manifest.json").read_text())
        del manifest["crc32"]
        folders.write_manifest(self.room, {**manifest, "source": "UTC"})
        with self.assertRaisesRegex(crackd.BadSave, "manifest.json can't be read: this version doesn't know.*: source"):
            folders.read_manifest(self.room / "manifest.json")
        with mock.patch.dict(saved.FIELDS, {"source": None}):
            self.assertEqual(folders.read_manifest(self.room / "manifest.json")["source"], "UTC")
        self.expect(*files)

    def test_modes(self):
        self.save()
        path = self.room / "manifest.json"
        path.chmod(0o600)
        self.save()
        self.assertEqual(stat.S_IMODE(path.stat().st_mode), 0o600)


@wants_library
@wants_cluster
class AtOnceOnACluster(InARoom):
    """Two tables of a cluster that are saved to one folder, and restored meanwhile."""

    def test_saves_and_loads(self):
        folder, client, wrong = self.room / "saved", SHARED["client"], []
        with contextlib.ExitStack() as stack:
            tables = []
            for size in (1000, 3000):
                tables.append(stack.enter_context(cluster.Table(client, splits=[500])))
                tables[-1].insert_many(range(size), [size] * size)

            def save(table):
                for _ in range(10):
                    manifest = table.save(folder)
                    if sum(manifest["counts"]) != len(table):
                        wrong.append(manifest)

            tables[0].save(folder)
            threads = [threading.Thread(target=save, args=(it,)) for it in tables]
            for it in threads:
                it.start()
            found, times = set(), 0
            while any(it.is_alive() for it in threads) or not times:
                with cluster.Table.restore(client, folder, shards=1) as table:
                    found.add((table.count(), table.sum()))
                    times += 1
            for it in threads:
                it.join()
        self.assertEqual((wrong, found - {(1000, 1000**2), (3000, 3000**2)}), ([], set()))
        manifest = json.loads((folder / "manifest.json").read_text())
        # a load may have kept the parts that it read from being removed
        with cluster.Table.restore(client, folder, shards=1) as table:
            self.assertIn((table.count(), table.sum()), [(1000, 1000**2), (3000, 3000**2)])
            manifest = table.save(folder)
        self.assertEqual(sorted(os.listdir(folder)), sorted(["manifest.json", *manifest["files"]]))

    def test_a_folder_that_cannot_be_synced(self):
        """The save stands, so its parts do as well."""
        folder, client = self.room / "saved", SHARED["client"]
        with cluster.Table(client, splits=[500]) as table:
            table.insert_many([1, 2], [3, 4])
            table.save(folder)
            table.insert(501, 5)
            with mock.patch("crackd.wholefile.sync_folder", side_effect=OSError(5, "Input/output error")):
                self.assertRaises(OSError, table.save, folder)
        with cluster.Table.restore(client, folder) as table:
            self.assertEqual((table.count(), table.sum()), (3, 12))

    def test_what_a_save_says_about_its_rows(self):
        folder, client = self.room / "saved", SHARED["client"]
        with mock.patch.dict(saved.FIELDS, {"source": None}):
            with cluster.Table(client) as table:
                table._told = {"source": "UTC"}
                table.insert(1, 2)
                manifest = table.save(folder)
            self.assertEqual(manifest["source"], "UTC")
            self.assertEqual(saved.read_saved(folder / manifest["files"][0]).told, {"found": None, "source": "UTC"})
        self.assertRaisesRegex(crackd.BadSave, "source", cluster.Table.restore, client, folder)

    def test_no_folder(self):
        with cluster.Table(SHARED["client"]) as table:
            for wrong in ("", b""):
                self.assertRaisesRegex(ValueError, "can't be empty", table.save, wrong)
                self.assertRaisesRegex(ValueError, "can't be empty", cluster.Table.restore, SHARED["client"], wrong)
            self.assertRaises(FileExistsError, table.save, __file__)


if __name__ == "__main__":
    unittest.main()
