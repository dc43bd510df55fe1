"""`python3 -m crackd serve`: signals, files that are loaded and saved, and the program's own output and status."""

import contextlib
import json
import os
import pathlib
import re
import resource
import shlex
import signal
import socket
import subprocess
import sys
import tempfile
import threading
import time
import unittest
from unittest import mock

from ways import crackd, np, wants_numpy, wants_program

from crackd import supervised
from crackd.server import find_program, free_port

SECONDS = 60
CLIENTS = 500 if os.environ.get("CRACKD_TESTS") == "all" else 20
PACKAGE = str(pathlib.Path(crackd.__file__).resolve().parent.parent)
GUIDE = pathlib.Path(PACKAGE).parent / "docs" / "GUIDE.md"
OLD = "key,payload\n1,10\n2,20\n3,30\n"


class Served:
    """A server by the package, whose standard input is /dev/null, in a folder."""

    def __init__(self, room, *words, program=None, errors=subprocess.PIPE, prepare=None, port=None, has_port=False):
        self.port = port or free_port()
        words = words if has_port else ["--port", str(self.port), *words]
        environment = {**os.environ, "PYTHONPATH": PACKAGE, "CRACKD": program or find_program()}
        command = [sys.executable, "-m", "crackd", "serve", *words]
        self.process = subprocess.Popen(
            command,
            stdin=subprocess.DEVNULL,
            stdout=subprocess.PIPE,
            stderr=errors,
            text=True,
            cwd=room,
            env=environment,
            preexec_fn=prepare,
        )

    def listening(self):
        """Waits until it listens."""
        line = self.process.stdout.readline()
        if line != f"listening {self.port}\n":
            raise AssertionError(f"{line!r}, {self.end()}")
        return self

    def signal(self, number):
        self.process.send_signal(number)

    def end(self):
        """Its status, the rest of its output, and its standard error, once it has ended."""
        output, errors = self.process.communicate(timeout=SECONDS)
        return self.process.returncode, output, errors or ""

    def client(self):
        return socket.create_connection(("127.0.0.1", self.port), SECONDS)

    def is_open(self):
        try:
            self.client().close()
        except (ConnectionRefusedError, ConnectionResetError):
            # (the port may be closed while this connects)
            return False
        return True

    def program(self):
        """The process of the program, a child of the package's."""
        children = pathlib.Path(f"/proc/{self.process.pid}/task/{self.process.pid}/children").read_text().split()
        return int(children[0])


def all_of(connection):
    """What a connection still brings until it ends, also if it is reset."""
    found = b""
    with contextlib.suppress(ConnectionError):
        while more := connection.recv(65536):
            found += more
    return found


def end_process(number):
    """Ends a process that should have ended, if it hasn't."""
    with contextlib.suppress(ProcessLookupError):
        os.kill(number, signal.SIGKILL)


class InARoom(unittest.TestCase):
    """Cases with a folder of their own, which end their servers."""

    def setUp(self):
        room = tempfile.TemporaryDirectory()
        self.addCleanup(room.cleanup)
        self.room = pathlib.Path(room.name)

    def start(self, *words, **how):
        served = Served(self.room, *words, **how)
        self.addCleanup(self.kill, served.process)
        return served

    def kill(self, process):
        process.kill()
        process.wait()
        for pipe in filter(None, (process.stdout, process.stderr)):
            pipe.close()

    def names(self):
        return sorted(it.name for it in self.room.iterdir())

    def assert_closed(self, served):
        """The port is closed soon."""
        end = time.monotonic() + SECONDS
        while served.is_open():
            self.assertLess(time.monotonic(), end)
            time.sleep(0.05)


@wants_program
class Signals(InARoom):
    """What ends a server."""

    def test_it_drains_at_each_signal(self):
        for number in (signal.SIGTERM, signal.SIGINT, signal.SIGHUP):
            served = self.start().listening()
            with self.subTest(number), served.client() as one, served.client() as two:
                one.sendall(b"insert 5 50\n")
                self.assertEqual(one.recv(100), b"row 0.0\n")
                two.sendall(b"insert 6 60\ncount 0 10\n")
                time.sleep(0.1)
                served.signal(number)
                self.assertEqual((all_of(one), all_of(two)), (b"", b"row 0.1\ncount 2\n"))
                status, output, errors = served.end()
                self.assertEqual((status, output), (0, "accepted 3 inserted 2 deleted 0 held 2\n"))
                self.assertTrue(errors.endswith("crackd: ended: sessions 2, cut off 0\n"), errors)

    def test_a_second_signal_ends_it_at_once(self):
        for files in ([], ["--save", "rows.csv"]):
            (self.room / "rows.csv").write_text(OLD)
            served = self.start("--drain", "1000", *files).listening()
            with self.subTest(files), served.client() as busy:
                # the server waits at its end for a client that takes no replies
                busy.sendall(b"insert 1 1\n" + b"layout 0\n" * 200_000)
                time.sleep(0.5)
                served.signal(signal.SIGTERM)
                time.sleep(0.5)
                self.assertIsNone(served.process.poll())
                begun = time.monotonic()
                served.signal(signal.SIGINT)
                status, output, errors = served.end()
                self.assertLess(time.monotonic() - begun, SECONDS / 2)
            said = "crackd: a second signal, SIGINT, ended the server at once"
            self.assertEqual((status, output), (1, ""))
            self.assertIn(said + ("; rows.csv isn't saved\n" if files else "\n"), errors)
            self.assertEqual((self.names(), (self.room / "rows.csv").read_text()), (["rows.csv"], OLD))
            self.assert_closed(served)

    def test_a_terminal_that_is_closed_may_tell_it_twice(self):
        served = self.start("--drain", "2").listening()
        with served.client() as busy:
            # the server waits at its end for a client that takes no replies
            busy.sendall(b"layout 0\n" * 200_000)
            for _ in range(2):
                time.sleep(0.3)
                served.signal(signal.SIGHUP)
            self.assertEqual(served.end()[0], 0)

    def test_a_closed_terminal_may_be_ignored(self):
        prepare = lambda: signal.signal(signal.SIGHUP, signal.SIG_IGN)
        served = self.start(prepare=prepare).listening()
        served.signal(signal.SIGHUP)
        time.sleep(0.3)
        self.assertTrue(served.is_open())
        served.signal(signal.SIGTERM)
        self.assertEqual(served.end()[0], 0)

    def test_sessions_that_are_counted(self):
        served = self.start("--sessions", "1", "--save", "rows.csv").listening()
        with served.client() as one:
            one.sendall(b"insert 5 50\nquit\n")
            self.assertEqual(all_of(one), b"row 0.0\nbye\n")
        self.assertEqual(served.end()[:2], (0, "accepted 2 inserted 1 deleted 0 held 1\n"))
        self.assertEqual((self.room / "rows.csv").read_text(), "key,payload\n5,50\n")
        for files in ([], ["--save", "rows.csv"]):
            served = self.start("--sessions", "1", *files).listening()
            served.signal(signal.SIGTERM)
            status, output, errors = served.end()
            self.assertEqual((status, output), (1, ""))
            self.assertIn("since one with --sessions can't be drained", errors)
            self.assert_closed(served)
        self.assertEqual((self.room / "rows.csv").read_text(), "key,payload\n5,50\n")

    @unittest.skipUnless(sys.platform == "linux", "only Linux ends a child with its parent")
    def test_the_program_ends_with_it(self):
        for words in (["--sessions", "9"], ["--until-eof"], ["--save", "rows.csv"]):
            served = self.start(*words).listening()
            self.addCleanup(end_process, served.program())
            with self.subTest(words), served.client() as one:
                one.sendall(b"layout 0\n" * 100_000)
                self.kill(served.process)
                self.assert_closed(served)
            self.assertEqual(self.names(), [])

    @unittest.skipUnless(sys.platform == "linux", "it needs /proc")
    def test_a_signal_to_the_program_alone_does_nothing(self):
        """As systemd's, which sends it to all processes of a unit."""
        served = self.start().listening()
        program = served.program()
        for number in (signal.SIGTERM, signal.SIGINT, signal.SIGHUP):
            os.kill(program, number)
        time.sleep(0.3)
        self.assertTrue(served.is_open())
        os.kill(program, signal.SIGKILL)
        status, _, errors = served.end()
        self.assertEqual(status, 128 + 9)
        self.assertTrue(errors.endswith("crackd: the program was ended by SIGKILL\n"), errors)

    def test_a_signal_amid_the_start_ends_the_program(self):
        (self.room / "program").write_text("#!/bin/sh\nexec sleep 1000\n")
        (self.room / "program").chmod(0o755)
        for it in supervised.SIGNALS:
            self.addCleanup(signal.signal, it, signal.getsignal(it))

        def popen(*words, start=subprocess.Popen, **pipes):
            # to this thread: the threads of other tests don't block it
            signal.raise_signal(signal.SIGTERM)
            return start(*words, **pipes)

        run = supervised.Plain(supervised.Options(["--sessions", "1"]), str(self.room / "program"))
        with mock.patch.object(subprocess, "Popen", popen), self.assertRaises(supervised.Stopped):
            run.run()
        run.kill()
        self.assertEqual(run.process.returncode, -signal.SIGKILL)

    def test_all_of_many_clients_end(self):
        """None is cut off under load, and what was answered is saved."""
        soft, hard = resource.getrlimit(resource.RLIMIT_NOFILE)
        resource.setrlimit(resource.RLIMIT_NOFILE, (max(soft, min(hard, 4 * CLIENTS + 200)), hard))
        self.addCleanup(resource.setrlimit, resource.RLIMIT_NOFILE, (soft, hard))
        served = self.start("--save", "rows.csv").listening()
        answered, ends = [0] * CLIENTS, []

        def ask(at):
            with served.client() as connection:
                with contextlib.suppress(ConnectionError):
                    while True:
                        connection.sendall(b"insert %d 1\n" % at)
                        found = connection.recv(100)
                        if not found:
                            break
                        answered[at] += found.count(b"row ")
            ends.append(at)

        threads = [threading.Thread(target=ask, args=[at]) for at in range(CLIENTS)]
        for it in threads:
            it.start()
        while not all(answered):
            time.sleep(0.05)
        served.signal(signal.SIGTERM)
        for it in threads:
            it.join(SECONDS)
        status, output, errors = served.end()
        self.assertEqual((status, len(ends)), (0, CLIENTS))
        self.assertIn(f"crackd: ended: sessions {CLIENTS}, cut off 0\n", errors)
        keys = [line.split(",")[0] for line in (self.room / "rows.csv").read_text().splitlines()[1:]]
        self.assertRegex(output, rf"^accepted \d+ inserted {len(keys)} deleted 0 held {len(keys)}\n$")
        for at, count in enumerate(answered):
            self.assertLessEqual(count, keys.count(str(at)))


@wants_program
class Files(InARoom):
    """Rows that are loaded before the port is open, and saved after the last session."""

    def assert_fails(self, served, said):
        """A load fails: it says why, and never listens."""
        status, output, errors = served.end()
        self.assertEqual((status, output), (1, ""))
        self.assertRegex(errors, said)
        self.assertFalse(served.is_open())

    def test_nobody_connects_before_all_is_loaded(self):
        rows = 100_000
        (self.room / "rows.csv").write_text("".join(f"{it},1\n" for it in range(rows)))
        # a partition for each 65,536 rows, unless splits are given
        for splits, parts in [([], [rows // 2] * 2), (["5"], [5, rows - 5])]:
            served = self.start("--load", "rows.csv", *splits)
            while not served.is_open():
                self.assertIsNone(served.process.poll())
            with served.client() as one:
                one.sendall(b"stats\n")
                self.assertIn(b"\nrows %d\npending_insertions 0\n" % rows, one.recv(1000))
            served.listening()
            with crackd.connect(port=served.port) as table:
                self.assertEqual([it.rows for it in table.layout().parts], parts)
            served.signal(signal.SIGTERM)
            self.assertEqual(served.end()[0], 0)

    def test_the_port_is_closed_while_a_file_is_read(self):
        os.mkfifo(self.room / "rows.csv")
        served = self.start("--load", "rows.csv", "5")
        with open(self.room / "rows.csv", "w") as file:
            file.write("key,payload\n4,40\n")
            file.flush()
            time.sleep(0.5)
            self.assertFalse(served.is_open())
            file.write("5,50\n")
        served.listening()
        # splits that are given are kept
        with crackd.connect(port=served.port) as table:
            self.assertEqual([it.rows for it in table.layout().parts], [1, 1])

    def test_a_load_that_fails(self):
        for name, text, said in [
            ("bad.csv", "1,10\n2,x\n", r"^crackd: bad.csv isn't loaded: .*line 2, column 2: 'x'"),
            ("none.csv", None, "^crackd: none.csv isn't loaded: No such file or directory\n$"),
            ("none.npy", None, "^crackd: none.npy isn't loaded: "),
            ("many.csv", OLD, "^crackd: many.csv isn't loaded: refused 9: .*\n$"),
            ("bad.npy", "x" * 500, "^crackd: bad.npy isn't loaded: "),
        ]:
            if text is not None:
                (self.room / name).write_text(text)
            if np is not None or name.endswith(".csv"):
                with self.subTest(name):
                    self.assert_fails(self.start("--load", name, "--save", name, "--cells", "2"), said)
                    self.assertEqual((self.room / name).read_text() if text else None, text)

    def test_a_signal_before_it_listens(self):
        os.mkfifo(self.room / "rows.csv")
        served = self.start("--load", "rows.csv", "--save", "saved.csv")
        with open(self.room / "rows.csv", "w"):
            served.signal(signal.SIGTERM)
            self.assert_fails(served, "a signal ended the server before it listened; saved.csv isn't saved\n$")
        self.assertEqual(self.names(), ["rows.csv"])

    def test_rows_of_a_csv_file_go_round(self):
        (self.room / "rows.csv").write_text(OLD)
        # a history that is full lets the rows be saved nevertheless
        served = self.start("--load", "rows.csv", "--save", "rows.csv", "--limit", "5", "2").listening()
        with served.client() as one, served.client() as late:
            one.sendall(b"delete 0.0\ninsert 18446744073709551615 -7\ninsert 0 0\nquit\n")
            self.assertEqual(all_of(one), b"gone 1 10\nrow 1.2\nrow 0.1\nbye\n")
            late.sendall(b"insert 1 11\n")
            time.sleep(0.2)
            served.signal(signal.SIGTERM)
            self.assertEqual(all_of(late), b"row 0.2\n")
        status, output, errors = served.end()
        self.assertEqual((status, output.split()[2:]), (0, "inserted 6 deleted 1 held 5".split()))
        self.assertRegex(errors, r"(?m)^\S+Z crackd: loaded 3 rows from rows.csv$")
        self.assertRegex(errors, r"(?m)^\S+Z crackd: saved 5 rows to rows.csv$")
        saved = "key,payload\n0,0\n1,11\n2,20\n3,30\n18446744073709551615,-7\n"
        self.assertEqual((self.room / "rows.csv").read_text(), saved)
        # once more, and without a change
        served = self.start("--load", "rows.csv", "--save", "again.csv", "--quiet").listening()
        served.signal(signal.SIGTERM)
        status, _, errors = served.end()
        self.assertEqual((status, errors), (0, ""))
        self.assertEqual((self.room / "again.csv").read_text(), saved)

    @wants_numpy
    def test_rows_of_other_files_go_round_with_their_type(self):
        kinds = [("int64", [-5, 3], -7), ("float64", [-0.5, 2.25], 1e300), ("uint64", [5, 2**64 - 1], 7)]
        for kind, keys, more in kinds:
            rows = np.zeros(2, [("key", kind), ("payload", "int64")])
            rows["key"], rows["payload"] = keys, [-1, 1]
            np.save(self.room / "rows.npy", rows)
            served = self.start("--load", "rows.npy", "--save", "saved.npy").listening()
            with self.subTest(kind), crackd.connect(port=served.port, key_type=kind) as table:
                self.assertEqual(table.count(keys[0], None), 2)
                table.insert(more, 70)
            served.signal(signal.SIGTERM)
            self.assertEqual(served.end()[0], 0)
            saved = np.load(self.room / "saved.npy")
            self.assertEqual((saved.dtype, sorted(saved["key"].tolist())), (rows.dtype, sorted([*keys, more])))

    def test_a_save_that_fails_leaves_the_old_file(self):
        for name in ["rows.csv", *(["rows.npy"] if np is not None else [])]:
            (self.room / name).write_text(OLD)
            prepare = lambda: resource.setrlimit(resource.RLIMIT_FSIZE, (2048, 2048))
            served = self.start("--save", name, prepare=prepare).listening()
            with self.subTest(name), crackd.connect(port=served.port) as table:
                table.insert_many(range(1000), range(1000))
            served.signal(signal.SIGTERM)
            status, output, errors = served.end()
            self.assertEqual((status, output.split()[2:]), (1, "inserted 1000 deleted 0 held 1000".split()))
            self.assertRegex(errors, rf"crackd: {name} isn't saved: .*File too large\n$")
            self.assertEqual(((self.room / name).read_text(), self.names()), (OLD, [name]))
            (self.room / name).unlink()

    def test_a_folder_that_is_missing_is_noticed_at_once(self):
        said = f"^crackd: no/rows.csv can't be saved: there is no folder {self.room.resolve()}/no\n$"
        self.assert_fails(self.start("--save", "no/rows.csv"), said)

    # a program that stands in for crackd, whose answer to a select of rows never ends
    ENDLESS = """#!/usr/bin/env python3
import sys, time
answers = {"ping": "pong", "policy auto": "policy auto", "quit": "bye", "layout 1": "refused 5"}
answers["select"] = "rows 3\\n0.0 1 1"
answers["layout 0"] = "layout 0 rows 3 column 3 out 0 in 0 cells 3 free 0 pieces 1\\npiece 0 18446744073709551616 3"
def answer():
    for line in sys.stdin:
        found = answers.get(line.strip(), answers.get(line.split()[0], "folded 1"))
        print(found, flush=True)
        if found == "bye":
            return
        if line.startswith("select"):
            print("selecting", file=sys.stderr, flush=True)
            time.sleep(1000)
answer()
print("listening", sys.argv[sys.argv.index("--port") + 1], flush=True)
sys.stdin.readline()
print("drained", flush=True)
answer()
"""

    def test_a_second_signal_amid_a_save_leaves_the_old_file(self):
        program = self.room / "program"
        program.write_text(self.ENDLESS)
        program.chmod(0o755)
        for name in ["rows.csv", *(["rows.npy"] if np is not None else [])]:
            (self.room / name).write_text(OLD)
            served = self.start("--save", name, program=str(program)).listening()
            served.signal(signal.SIGTERM)
            self.assertEqual(served.process.stderr.readline(), "selecting\n")
            served.signal(signal.SIGTERM)
            status, output, errors = served.end()
            self.assertEqual((status, output), (1, ""))
            self.assertIn(f"ended the server at once; {name} isn't saved\n", errors)
            self.assertEqual(((self.room / name).read_text(), self.names()), (OLD, ["program", name]))
            (self.room / name).unlink()


@wants_program
class Words(InARoom):
    """The command line, and what is passed on."""

    def test_what_the_program_refuses_is_passed_on(self):
        for words, status, said in [
            (["--workers", "0"], 1, "crackd: refused 13"),
            (["5", "4"], 1, "crackd: refused 11"),
            (["--frobnicate"], 2, "crackd: bad arguments"),
            (["--sessions", "x"], 2, "crackd: bad arguments"),
            (["--sessions", "1", "--until-eof"], 2, "crackd: bad arguments"),
            (["--workers"], 2, "crackd: bad arguments"),
        ]:
            for files in ([], ["--save", "rows.csv"]):
                with self.subTest(words, files=files):
                    found = self.start(*words, *files).end()
                    self.assertEqual(found[:2], (status, ""))
                    self.assertTrue(found[2].startswith(said), found[2])
                    self.assertEqual(self.names(), [])

    def test_a_port_that_is_taken(self):
        with socket.create_server(("127.0.0.1", 0)) as taken:
            for files in ([], ["--save", "rows.csv"]):
                status, output, errors = self.start(*files, port=taken.getsockname()[1]).end()
                self.assertEqual((status, output), (1, ""))
                self.assertTrue(errors.startswith("crackd: refused 17"), errors)

    def test_files_without_names(self):
        for words, said in [
            (["--load"], "--load needs a file"),
            (["--save="], "--save needs a file"),
            (["--save", "a.csv", "--save=b.csv"], "--save is given twice"),
        ]:
            self.assertEqual(self.start(*words).end(), (2, "", f"crackd: bad arguments: {said}\n"))

    def test_the_help_has_both(self):
        status, output, _ = self.start("--help").end()
        self.assertEqual(status, 0)
        for it in ("--until-eof", "--policy", "--load <FILE>", "--save <FILE>"):
            self.assertIn(it, output)

    def test_options_and_values_are_told_apart_from_splits(self):
        listed = subprocess.run([find_program(), "serve", "--help"], capture_output=True, text=True, check=True).stdout
        with_values = re.findall(r"^ +--(\S+) <", listed, re.MULTILINE)
        self.assertEqual(sorted(with_values), sorted(supervised.WITH_VALUES))
        for name in with_values:
            for words in ([f"--{name}", "7"], [f"--{name}=7"]):
                found = supervised.Options([*words, "--until-eof"])
                self.assertEqual((found.words, found.has_splits), ([*words, "--until-eof"], False))
        for words, passed, has_splits in [
            (["--port", "1", "--load", "x"], ["--port", "1", "--until-eof"], False),
            (["--port=1", "--quiet", "--load=x"], ["--port=1", "--quiet", "--until-eof"], False),
            (["--limit", "9", "--load=x", "7"], ["--limit", "9", "7", "--until-eof"], True),
            (["7", "--policy", "auto"], ["7", "--policy", "auto", "--until-eof"], True),
            (["--until-eof", "--workers", "2"], ["--until-eof", "--workers", "2"], False),
            (["--sessions=3"], ["--sessions=3"], False),
        ]:
            found = supervised.Options(words)
            self.assertEqual((words, found.words, found.has_splits), (words, passed, has_splits))
            self.assertEqual(found.load, "x" if any("load" in it for it in words) else None)

    def test_a_reader_of_the_log_that_stopped_reading(self):
        (self.room / "bad.csv").write_text("x\n")
        read, write = os.pipe()
        os.set_blocking(write, False)
        with contextlib.suppress(BlockingIOError):
            while True:
                os.write(write, b"x" * 4096)
        os.set_blocking(write, True)
        served = self.start("--load", "bad.csv", errors=write)
        self.assertEqual(served.process.wait(SECONDS), 1)
        for it in (read, write):
            os.close(it)

    def test_a_reader_of_the_output_that_is_gone(self):
        served = self.start("--save", "rows.csv").listening()
        served.process.stdout.close()
        served.signal(signal.SIGTERM)
        self.assertEqual(served.process.wait(SECONDS), 1)
        self.assertEqual(self.names(), ["rows.csv"])


@wants_program
class Guide(InARoom):
    """The commands of the guide's unit of systemd and of its container, with another port and folder."""

    def lines(self, kind):
        """The lines of the guide's block of this kind."""
        return re.search(rf"```{kind}\n(.*?)```", GUIDE.read_text(), re.DOTALL)[1].splitlines()

    def run_twice(self, command, begin=lambda: None):
        """Runs the command twice, as a service that is started again. The rows of the first run are there."""
        port = free_port()
        command = [it.replace("4000", str(port)).replace("/data", str(self.room)) for it in command]
        self.assertEqual(command[1:4], ["-m", "crackd", "serve"])
        for rows in (1, 2):
            begin()
            served = self.start(*command[4:], port=port, has_port=True).listening()
            with crackd.connect(port=port) as table:
                table.insert(rows, rows)
                self.assertEqual(len(table), rows)
            served.signal(signal.SIGTERM)
            self.assertEqual(served.end()[0], 0)
        self.assertEqual((self.room / "rows.csv").read_text(), "key,payload\n1,1\n2,2\n")

    def test_the_unit(self):
        unit = dict(it.split("=", 1) for it in self.lines("ini") if "=" in it)
        self.assertEqual((unit["KillMode"], unit["WorkingDirectory"]), ("mixed", "/var/lib/" + unit["StateDirectory"]))
        before = lambda: subprocess.run(shlex.split(unit["ExecStartPre"]), cwd=self.room, check=True)
        self.run_twice(shlex.split(unit["ExecStart"]), before)

    def test_the_entry_of_a_container(self):
        (self.room / "rows.csv").write_text("key,payload\n")
        self.run_twice(json.loads(self.lines("dockerfile")[0].removeprefix("ENTRYPOINT ")))


if __name__ == "__main__":
    unittest.main()
