"""Servers whose program is a script of the tests: one that doesn't end, that finds its port taken, or that is refused.
Also files that aren't crackd's library."""

import ctypes.util
import os
import pathlib
import subprocess
import sys
import tempfile
import time
import unittest
from unittest import mock

from ways import crackd, wants_library, wants_program

from crackd import server

LISTENING = 'import sys, time\nport = sys.argv[sys.argv.index("--port") + 1]\n'
READY = 'print("listening", port, flush=True)\n'


class Libraries(unittest.TestCase):
    """Files that stand in for the library."""

    def test_one_that_cannot_be_loaded(self):
        # a file that doesn't exist, one that isn't a library, and a library with other functions
        for path in filter(None, ("missing/libcrackd.so", "/dev/null", ctypes.util.find_library("c"))):
            forgotten = mock.patch.object(crackd.library, "_loaded", None)
            with self.subTest(path), forgotten, mock.patch.dict(os.environ, {"CRACKD_LIBRARY": path}):
                for call in (crackd.version, crackd.Table):
                    with self.assertRaises(ImportError) as caught:
                        call()
                    self.assertIn(f"{path} can't be loaded: ", str(caught.exception))


class Programs(unittest.TestCase):
    """Programs that stand in for crackd."""

    def program(self, text):
        room = tempfile.TemporaryDirectory()
        self.addCleanup(room.cleanup)
        self.room = pathlib.Path(room.name)
        path = self.room / "program"
        path.write_text(f"#!/usr/bin/env python3\n{LISTENING}here = {room.name!r}\n{text}")
        path.chmod(0o755)
        return str(path)

    def starts(self):
        """How often the program was started."""
        return len((self.room / "starts").read_text()) if (self.room / "starts").exists() else 0

    COUNTED = 'with open(here + "/starts", "a") as file: file.write("x")\n'

    def test_one_that_does_not_end(self):
        text = "import signal\nsignal.signal(signal.SIGTERM, signal.SIG_IGN)\n" + READY + "time.sleep(60)\n"
        with mock.patch.object(server, "SECONDS_OF_AN_END", 0.3):
            served = crackd.serve(program=self.program(text))
            process, begin = served._process, time.monotonic()
            self.assertIsNone(process.poll())
            served.close()
        self.assertIsNotNone(process.poll())
        self.assertLess(time.monotonic() - begin, 30)
        served.close()

    def test_a_port_that_is_taken(self):
        # the third try succeeds
        text = self.COUNTED + 'if len(open(here + "/starts").read()) < 3: sys.exit("refused 17: the port is taken")\n'
        with crackd.serve(program=self.program(text + READY + "sys.stdin.read()\n")) as served:
            self.assertIsNone(served._process.poll())
        self.assertEqual(self.starts(), 3)
        with self.assertRaises(crackd.NoServer) as caught:
            crackd.serve(program=self.program(self.COUNTED + 'sys.exit("refused 17: the port is taken")\n'))
        self.assertEqual((str(caught.exception), self.starts()), ("no port was free", server.TRIES))

    def test_one_that_is_refused(self):
        for code, kind in [(14, crackd.BadLimit), (11, crackd.BadSplits), (12, crackd.BadSplits), (13, crackd.Refused)]:
            for colon in ("", ":"):
                text = self.COUNTED + f'sys.exit("crackd: refused {code}{colon} for a reason")\n'
                with self.subTest(code, colon=colon), self.assertRaises(kind) as caught:
                    crackd.serve(program=self.program(text))
                self.assertEqual((type(caught.exception), caught.exception.code, self.starts()), (kind, code, 1))

    def test_one_that_ends(self):
        for text, said in [("", "status 0"), ("sys.exit(3)\n", "status 3"), ('sys.exit("a fault")\n', "a fault")]:
            with self.subTest(said), self.assertRaises(crackd.NoServer) as caught:
                crackd.serve(program=self.program(self.COUNTED + text))
            self.assertIn(said, str(caught.exception))
            self.assertEqual(self.starts(), 1)

    def test_one_that_writes_many_errors(self):
        text = READY + 'sys.stderr.write("x" * 1_000_000)\nsys.stderr.flush()\nopen(here + "/starts", "w").write("x")\n'
        with crackd.serve(program=self.program(text + "sys.stdin.read()\n")):
            begin = time.monotonic()
            while not self.starts() and time.monotonic() - begin < 30:
                time.sleep(0.01)
            self.assertEqual(self.starts(), 1)

    def test_a_control_c_of_the_terminal_does_not_reach_it(self):
        """It goes to all processes of the session's foreground group, or of a notebook's kernel: not to the server."""
        text = 'import os\nopen(here + "/session", "w").write(f"{os.getpid()} {os.getsid(0)} {os.getpgid(0)}")\n'
        with crackd.serve(program=self.program(text + READY + "sys.stdin.read()\n")) as served:
            found = [int(it) for it in (self.room / "session").read_text().split()]
            self.assertEqual(found, [served._process.pid] * 3)
            self.assertNotIn(os.getsid(0), found)

    def test_its_words(self):
        text = 'open(here + "/words", "w").write(" ".join(sys.argv[4:]))\n' + READY + "sys.stdin.read()\n"
        cases = [
            ({}, {"workers": 8}, []),
            ({"workers": 3, "history": 7, "cells": 9}, {"workers": 3, "limit": 7, "cells": 9}, []),
            ({"splits": [5, 9], "key_type": "uint64"}, {"workers": 8}, [5, 9]),
            ({"splits": [-1, 0]}, {"workers": 8}, [2**63 - 1, 2**63]),
            ({"sample": range(100), "partitions": 4}, {"workers": 8}, [2**63 + it for it in (25, 50, 75)]),
            ({"sample": range(100), "rows": 3 * 4096 + 4095}, {"workers": 8}, [2**63 + it for it in (33, 66)]),
        ]
        for options, limits, splits in cases:
            with self.subTest(options), crackd.serve(program=self.program(text), **options):
                words = (self.room / "words").read_text().split()
                flags = [it for it in ("--until-eof", "--quiet", "--auto-checkpoint") if it in words]
                self.assertEqual(flags[:2], ["--until-eof", "--quiet"])
                found = {name: int(words[words.index("--" + name) + 1]) for name in limits}
                given = [word for name, it in limits.items() for word in ("--" + name, str(it))]
                self.assertEqual(found, limits)
                self.assertEqual(sorted([*given, *flags, *map(str, splits)]), sorted(words))
                self.assertEqual([int(it) for it in words if it.isdigit() and int(it) in splits], splits)

    def test_where_it_is(self):
        with mock.patch.dict(os.environ, {"CRACKD": "/from/the/environment"}):
            self.assertEqual(server.find_program(), "/from/the/environment")
            self.assertEqual(server.find_program("/given"), "/given")

    def test_its_version_is_what_it_says_on_one_line(self):
        path = pathlib.Path(self.program(""))
        for text, wanted in [
            ("echo 'crackd 0.1.0'", "crackd 0.1.0"),
            ("test $1 = --version && echo 'crackd 0.1.0 (unproved)'", "crackd 0.1.0 (unproved)"),
            ("echo 'crackd 0.1.0'; exit 3", "crackd"),
            ("echo another 1", "crackd"),
            ("echo crackd 1; echo crackd 2", "crackd"),
            ("true", "crackd"),
        ]:
            path.write_text(f"#!/bin/sh\n{text}\n", encoding="ascii")
            self.assertEqual(server.version_of(str(path)), wanted)
        self.assertEqual(server.version_of(str(path.with_name("missing"))), "crackd")

    def test_the_command_of_the_package_is_not_taken_for_it(self):
        self.program("")
        folders = [self.room / it for it in ("scripts", "missing", "programs")]
        for folder, text in ((folders[0], "#!/usr/bin/env python3\n"), (folders[2], "\x7fELF")):
            folder.mkdir()
            (folder / "crackd").write_text(text, encoding="ascii")
            (folder / "crackd").chmod(0o755)
        for paths, wanted in ((folders, str(folders[2] / "crackd")), (folders[:2], None)):
            with mock.patch.dict(os.environ, {"PATH": os.pathsep.join(map(str, paths))}):
                self.assertEqual(server.program_of_path(), wanted)

    def test_the_command_of_the_package_hands_on_what_the_program_does(self):
        path = pathlib.Path(self.program(""))
        path.write_text("#!/bin/sh\necho program $*\nexit 7\n", encoding="ascii")
        environment = {**os.environ, "CRACKD": str(path), "PYTHONPATH": str(pathlib.Path(crackd.__file__).parents[1])}
        for words in (["script", "1", "2"], ["serve", "--sessions", "1"], ["batch", "--help"], ["csv", "--cells", "5"]):
            command = [sys.executable, "-m", "crackd", *words]
            ran = subprocess.run(command, env=environment, capture_output=True, text=True, check=False)
            self.assertEqual((ran.returncode, ran.stdout), (7, f"program {' '.join(words)}\n"))


@wants_program
@wants_library
class Openings(unittest.TestCase):
    """Splits, partitions and samples that don't fit together, alike here and on a server."""

    def test_wrong_options(self):
        wrong = [
            {"partitions": 0},
            {"partitions": 65, "sample": range(100)},
            {"partitions": 2},
            {"partitions": 2, "splits": [1, 2]},
            {"partitions": 1, "splits": [1]},
            {"policy": "none"},
            {"splits": [2, 1]},
            {"splits": range(64)},
        ]
        for options in wrong:
            for opened in (crackd.Table, crackd.serve):
                with self.subTest(options, opened=opened), self.assertRaises(ValueError):
                    opened(**options).close()

    def test_limits_that_are_no_integers(self):
        for options in ({"history": 1.5}, {"cells": "5"}, {"history": True}, {"partitions": 2.0, "sample": [1, 2]}):
            for opened in (crackd.Table, crackd.serve):
                with self.subTest(options, opened=opened), self.assertRaises(TypeError):
                    opened(**options).close()

    def test_limits_that_are_out_of_range(self):
        for name, most in [("history", 10**6), ("cells", 2**24 - 1)]:
            for limit in (0, -1, most + 1, 2**64 - 1, 2**64, 2**64 + 5, -(2**64) + 5):
                with self.subTest(name, limit=limit):
                    self.assertRaises(crackd.BadLimit, crackd.Table, **{name: limit})
                    # a server's program refuses a limit that it can't read without giving the number of a refusal
                    self.assertRaises((crackd.BadLimit, crackd.NoServer), crackd.serve, **{name: limit})
            for limit in (1, most):
                with self.subTest(name, limit=limit), crackd.Table(**{name: limit}) as table:
                    self.assertEqual((table.insert(1, 5), table.sum()), (0, 5))

    def test_how_many_partitions_there_are(self):
        right = [
            ({"partitions": 1}, 1),
            ({"partitions": 3, "splits": [1, 2]}, 3),
            ({"splits": range(1, 64)}, 64),
            ({"sample": range(100), "partitions": 64}, 64),
            ({"sample": range(100), "rows": 4096 * 3}, 3),
            ({"sample": range(100), "rows": 4096 * 3 - 1}, 2),
            ({"sample": range(100)}, 1),
            ({"sample": range(4096 * 2)}, 2),
            ({"sample": [7] * 100, "partitions": 9}, 2),
        ]
        for options, parts in right:
            with self.subTest(options), crackd.Table(**options) as table:
                self.assertEqual((table.partitions, len(table.layout().parts)), (parts, parts))
            with self.subTest(options), crackd.serve(**options) as served, served.connect() as table:
                self.assertEqual((table.partitions, len(table.layout().parts)), (parts, parts))


if __name__ == "__main__":
    unittest.main()
