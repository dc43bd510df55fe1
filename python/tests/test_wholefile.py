"""Files that are written whole: their modes and owners, links, devices and standard output, and writers at a time."""

import contextlib
import os
import pathlib
import stat
import subprocess
import sys
import tempfile
import threading
import unittest
from unittest import mock

from ways import crackd

from crackd import wholefile
from crackd.wholefile import whole_file, whole_text

# the module alone, since the package takes a moment to be imported
FOUND = f"import sys; sys.path.append({str(pathlib.Path(crackd.__file__).resolve().parent)!r})\n"
FOUND += "from wholefile import whole_file\n"
OTHER = 1234
is_root = unittest.skipUnless(os.geteuid() == 0, "only root may give files to others")


class InARoom(unittest.TestCase):
    """Cases with a folder of their own."""

    def setUp(self):
        room = tempfile.TemporaryDirectory()
        self.addCleanup(room.cleanup)
        self.room = pathlib.Path(room.name)
        self.path = self.room / "rows"

    def names(self):
        return sorted(os.listdir(self.room))

    def write(self, content=b"new", path=None, **options):
        with whole_file(self.path if path is None else path, **options) as file:
            file.write(content)

    def mode(self, path=None):
        return stat.S_IMODE(os.stat(path or self.path).st_mode)

    def in_child(self, work, uid=0):
        """Runs a function in a forked child, as another user."""
        child = os.fork()
        if child == 0:
            status = 1
            with contextlib.suppress(BaseException):
                if uid:
                    os.setgroups([])
                    os.setgid(uid)
                    os.setuid(uid)
                work()
                status = 0
            os._exit(status)
        self.assertEqual(os.waitpid(child, 0)[1], 0)


class Regular(InARoom):
    """Regular files."""

    def test_modes(self):
        for mask in (0o022, 0o027, 0o077, 0o000):
            before = os.umask(mask)
            try:
                self.write()
            finally:
                os.umask(before)
            self.assertEqual(self.mode(), 0o666 & ~mask)
            for mode in (0o600, 0o644, 0o664, 0o640, 0o444, 0o777):
                # an empty file has a mode as well
                self.path.write_bytes(b"old" if mode & 0o040 else b"")
                self.path.chmod(mode)
                self.write()
                self.assertEqual((self.mode(), self.path.read_bytes(), self.names()), (mode, b"new", ["rows"]))
            self.path.unlink()

    def test_nobody_else_may_read_what_will_be_secret(self):
        self.write()
        self.path.chmod(0o640)
        with whole_file(self.path) as file:
            file.write(b"secret")
            (part,) = set(self.names()) - {"rows"}
            self.assertEqual(self.mode(self.room / part), 0o600)
        self.assertEqual(self.mode(), 0o640)

    @is_root
    def test_owners(self):
        self.write()
        for owner, group in [(OTHER, OTHER), (OTHER, 0), (0, OTHER), (0, 0)]:
            os.chown(self.path, owner, group)
            self.path.chmod(0o640)
            self.write()
            found = os.stat(self.path)
            self.assertEqual((found.st_uid, found.st_gid, self.mode()), (owner, group, 0o640))

    @is_root
    def test_an_owner_that_may_not_be_set(self):
        os.chmod(self.room, 0o777)
        for group, kept in [(0, OTHER), (OTHER, OTHER)]:
            self.write(b"old")
            self.path.chmod(0o664)
            os.chown(self.path, 0, group)
            self.in_child(self.write, OTHER)
            found = os.stat(self.path)
            self.assertEqual((found.st_uid, found.st_gid, self.mode()), (OTHER, kept, 0o664))
            self.assertEqual((self.path.read_bytes(), self.names()), (b"new", ["rows"]))
            self.path.unlink()

    def test_the_group_is_kept_where_the_owner_may_not_be_set(self):
        asked = []

        def refused(descriptor, owner, group):
            asked.append((owner, group))
            if owner != -1:
                raise PermissionError(1, "not permitted")

        self.write(b"old")
        found = os.stat(self.path)
        with mock.patch.object(os, "fchown", refused):
            self.write()
        self.assertEqual(asked, [(found.st_uid, found.st_gid), (-1, found.st_gid)])
        self.assertEqual(self.path.read_bytes(), b"new")

    def test_through_symlinks(self):
        (self.room / "deep").mkdir()
        target, link, second = self.room / "deep" / "target", self.room / "link", self.room / "second"
        link.symlink_to("deep/target")
        second.symlink_to(link)
        for content in (b"first", b"then"):
            self.write(content, second)
            self.assertEqual((os.readlink(link), os.readlink(second)), ("deep/target", str(link)))
            self.assertEqual((target.read_bytes(), os.listdir(self.room / "deep")), (content, ["target"]))
        os.chmod(target, 0o600)
        self.write(b"last", link)
        self.assertEqual((self.mode(target), self.names()), (0o600, ["deep", "link", "second"]))
        (self.room / "loop").symlink_to("loop")
        with self.assertRaises(OSError) as caught:
            self.write(b"x", self.room / "loop")
        self.assertEqual(caught.exception.filename, str(self.room / "loop"))

    def test_long_names(self):
        for name in ("x" * 255, "é" * 127, "x" + "é" * 127):
            self.write(b"long", self.room / name)
            self.assertEqual((self.room / name).read_bytes(), b"long")
            os.unlink(self.room / name)
        self.assertEqual(self.names(), [])

    def test_paths(self):
        for path in (str(self.path), os.fsencode(self.path), self.path):
            self.write(path=path)
            self.assertEqual(self.path.read_bytes(), b"new")
            self.path.unlink()
        for wrong in ("", b"", "a\0b"):
            self.assertRaises(ValueError, self.write, path=wrong)
        for wrong in (5, 1.5, self):
            self.assertRaises(TypeError, self.write, path=wrong)
        for path, kind in [
            (self.room, IsADirectoryError),
            (self.room / "no" / "rows", FileNotFoundError),
            (self.path / "rows", NotADirectoryError),
        ]:
            if kind is NotADirectoryError:
                self.write()
            with self.assertRaises(kind) as caught:
                self.write(path=path)
            self.assertEqual((caught.exception.filename, caught.exception.filename2), (str(path), None))
        self.assertEqual(self.names(), ["rows"])

    def test_errors_leave_the_old_content(self):
        for is_there in (False, True):
            for name in ("fsync", "replace", "fchmod"):
                if is_there:
                    self.path.write_bytes(b"old")
                with mock.patch.object(os, name, side_effect=OSError(28, "No space left on device")):
                    if name == "fchmod" and not is_there:
                        continue
                    self.assertRaisesRegex(OSError, "No space", self.write)
                self.assertEqual(self.names(), ["rows"] * is_there)
                if is_there:
                    self.assertEqual(self.path.read_bytes(), b"old")

    def test_a_folder_that_cannot_be_synced(self):
        """The new content stands: whether it's on disk isn't known, which the error says."""
        sync = os.fsync

        def failing(descriptor):
            if stat.S_ISDIR(os.fstat(descriptor).st_mode):
                raise OSError(5, "Input/output error")
            sync(descriptor)

        with mock.patch.object(os, "fsync", failing):
            self.assertRaisesRegex(OSError, "Input/output error", self.write)
        self.assertEqual((self.path.read_bytes(), self.names()), (b"new", ["rows"]))

    @is_root
    def test_a_folder_that_may_not_be_read(self):
        os.chown(self.room, OTHER, OTHER)
        os.chmod(self.room, 0o300)
        self.in_child(self.write, OTHER)
        self.assertEqual(self.path.read_bytes(), b"new")

    def test_text(self):
        with whole_text(self.path) as file:
            file.write("key,payload\n")
            file.writelines(f"{it},{it}\n" for it in range(2))
        self.assertEqual(self.path.read_bytes(), b"key,payload\n0,0\n1,1\n")
        with self.assertRaises(UnicodeEncodeError), whole_text(self.path) as file:
            file.write("é")
        self.assertEqual(self.path.read_bytes(), b"key,payload\n0,0\n1,1\n")

    def test_several_at_a_time(self):
        """Threads and processes: a reader meets one whole content, and one stands."""
        contents = [bytes([at]) * (100_000 + at) for at in range(6)]
        self.write(contents[0])
        found, over = [], threading.Event()

        def read():
            while not over.is_set():
                found.append(self.path.read_bytes())

        def write(at):
            for _ in range(20):
                self.write(contents[at])

        code = f"{FOUND}for _ in range(20):\n"
        code += f"    with whole_file({str(self.path)!r}) as file: file.write(eval(sys.argv[1]))"
        processes = [
            subprocess.Popen([sys.executable, "-c", code, f"bytes([{at}]) * {100_000 + at}"]) for at in range(3, 6)
        ]
        threads = [threading.Thread(target=write, args=(at,)) for at in range(3)]
        reader = threading.Thread(target=read)
        for it in (reader, *threads):
            it.start()
        for it in threads:
            it.join()
        self.assertEqual([it.wait() for it in processes], [0] * 3)
        over.set()
        reader.join()
        self.assertGreater(len(found), 10)
        self.assertEqual({it for it in found if it not in contents}, set())
        self.assertIn(self.path.read_bytes(), contents)
        self.assertEqual(self.names(), ["rows"])


class Others(InARoom):
    """What isn't a regular file."""

    def test_pipes(self):
        pipe = self.room / "pipe"
        os.mkfifo(pipe)
        # opened for reading and writing, so that neither side waits for the other
        end = os.open(pipe, os.O_RDWR | os.O_NONBLOCK)
        try:
            for options in ({}, {"is_rewound": True}):
                self.write(b"rows", pipe, **options)
                self.assertEqual(os.read(end, 99), b"rows")
        finally:
            os.close(end)
        self.assertEqual((self.names(), pipe.is_fifo()), (["pipe"], True))

    def test_what_is_written_at_earlier_places_goes_into_a_pipe_in_order(self):
        pipe = self.room / "pipe"
        os.mkfifo(pipe)
        end = os.open(pipe, os.O_RDWR | os.O_NONBLOCK)
        try:
            with whole_file(pipe, is_rewound=True) as file:
                file.write(b"....rows")
                file.seek(0)
                file.write(b"head")
            self.assertEqual(os.read(end, 99), b"headrows")
            # after an error there is nothing
            with self.assertRaises(KeyError), whole_file(pipe, is_rewound=True) as file:
                file.write(b"half")
                raise KeyError
            self.assertRaises(BlockingIOError, os.read, end, 99)
        finally:
            os.close(end)

    def test_devices(self):
        """As root a replaced device would stay replaced, so this makes its own."""
        for name, number in (("null", (1, 3)), ("full", (1, 7))):
            try:
                os.mknod(self.room / name, 0o666 | stat.S_IFCHR, os.makedev(*number))
                os.close(os.open(self.room / name, os.O_WRONLY))
            except OSError:
                self.skipTest("devices can't be made here")
        for options in ({}, {"is_rewound": True}):
            self.write(b"gone", self.room / "null", **options)
            with self.assertRaises(OSError) as caught:
                self.write(b"too much", self.room / "full", **options)
            self.assertEqual(caught.exception.errno, 28)
        self.assertEqual(self.names(), ["full", "null"])
        self.assertTrue(all(stat.S_ISCHR(os.stat(self.room / it).st_mode) for it in self.names()))

    def run_code(self, lines, **options):
        """Runs Python with these lines, in which `save` writes `[rows]` to a path."""
        code = f"{FOUND}import os\n"
        code += "def save(path, **options):\n    with whole_file(path, **options) as file: file.write(b'[rows]')\n"
        command = [sys.executable, "-c", code + lines]
        # what isn't flushed is written late
        environment = {name: it for name, it in os.environ.items() if name != "PYTHONUNBUFFERED"}
        return subprocess.run(command, check=True, timeout=60, cwd=self.room, env=environment, **options)

    def test_standard_output_keeps_its_order(self):
        for path in ("/dev/stdout", "/dev/fd/1", "/proc/self/fd/1", "link", "out"):
            for options in ("", ", is_rewound=True"):
                lines = f"print('before'); save({path!r}{options}); print('after')"
                wanted = b"before\n[rows]after\n"
                if path == "link":
                    (self.room / "link").unlink(missing_ok=True)
                    (self.room / "link").symlink_to("/dev/stdout")
                for mode in ("wb", "ab"):
                    (self.room / "out").write_bytes(b"old\n")
                    with self.subTest(path=path, mode=mode), open(self.room / "out", mode) as out:
                        self.run_code(lines, stdout=out)
                        old = b"old\n" if mode == "ab" else b""
                        self.assertEqual((self.room / "out").read_bytes(), old + wanted)
                if path != "out":
                    self.assertEqual(self.run_code(lines, stdout=subprocess.PIPE).stdout, wanted)

    def test_standard_error_and_other_descriptors(self):
        with open(self.room / "out", "wb") as out:
            self.run_code("print('before', file=sys.stderr); save('/dev/stderr'); os.write(2, b'after')", stderr=out)
        self.assertEqual((self.room / "out").read_bytes(), b"before\n[rows]after")
        with open(self.room / "out", "wb") as out:
            number = out.fileno()
            lines = f"os.write({number}, b'before'); save('/dev/fd/{number}'); os.write({number}, b'after')"
            self.run_code(lines, pass_fds=[number])
        self.assertEqual((self.room / "out").read_bytes(), b"before[rows]after")
        with self.assertRaises(OSError), open(self.room / "out", "rb") as out:
            self.write(path=f"/dev/fd/{out.fileno()}")
        self.assertEqual((self.room / "out").read_bytes(), b"before[rows]after")

    def test_closed_streams(self):
        for lines in ("sys.stdout = None", "sys.stdout.close()", "os.close(1); sys.stdout = None"):
            self.run_code(f"{lines}\nsave('rows')")
            self.assertEqual(self.path.read_bytes(), b"[rows]")
            self.path.unlink()

    def test_no_descriptor(self):
        for name in ("rows", "/dev/fd/x", "/dev/fd", f"{self.room}/1", str(self.room)):
            self.assertIsNone(wholefile.descriptor_of(name))


if __name__ == "__main__":
    unittest.main()
