"""The shell's files, its line of progress, and what a control-C leaves undone, over a stand-in for the connection."""

import contextlib
import io
import os
import pathlib
import signal
import tempfile
import unittest
from unittest import mock

import ways  # finds the package
from test_shell_replies import Answering, Calm

from crackd import wholefile
from crackd.shell import child, console, modes, texts
from crackd.shell.session import Session

OLD = "an old file\n"


def served(line):
    """What a server with two rows says."""
    said = {"quit": ["bye"], "layout 0": [
        "layout 0 rows 2 column 2 out 0 in 0 cells 9 free 7 pieces 1", "piece 0 18446744073709551616 2"
    ]}
    said["select 0 18446744073709551616"] = ["rows 2", "0.0 7 70", "0.1 8 -80"]
    return said.get(line) or (["row 0.0"] if line.startswith("insert") else ["count 5"] if "count" in line else [
        "refused 5" if line.startswith("layout") else "refused 1"
    ])


class InARoom(unittest.TestCase):
    """Cases with a folder of their own."""

    def setUp(self):
        room = tempfile.TemporaryDirectory()
        self.addCleanup(room.cleanup)
        self.room = pathlib.Path(room.name)

    def names(self):
        return sorted(it.name for it in self.room.iterdir())

    def run_lines(self, *lines, answer=served, is_terminal=False, calm=None):
        """The shell that ran these lines, and what it wrote to standard output and to standard error."""
        calm = calm or Calm()
        self.channel = Answering(answer)
        shell = console.Shell(Session(self.channel, calm, "auto"), calm, is_terminal)
        out, errors = io.StringIO(), io.StringIO()
        with contextlib.redirect_stdout(out), contextlib.redirect_stderr(errors):
            shell.run([it if isinstance(it, bytes) else it.encode() for it in lines])
        return shell, out.getvalue(), errors.getvalue()


class Replacing(InARoom):
    """A file that replaces another, or doesn't."""

    def test_errors_amid_leave_what_was_there(self):
        for fault in (ValueError, OSError(28, "No space left on device"), KeyboardInterrupt, texts.Interrupted("x")):
            for is_there in (False, True):
                path = self.room / "rows.csv"
                if is_there:
                    path.write_text(OLD)
                with self.assertRaises(fault if isinstance(fault, type) else type(fault)):
                    with wholefile.whole_text(path) as file:
                        file.write("new")
                        raise fault
                self.assertEqual(self.names(), ["rows.csv"] * is_there)
                if is_there:
                    self.assertEqual(path.read_text(), OLD)
                    path.unlink()

    def test_it_is_replaced_at_the_end_alone(self):
        path = self.room / "rows.csv"
        path.write_text(OLD)
        with wholefile.whole_text(str(path)) as file:
            file.write("new")
            file.flush()
            self.assertEqual(path.read_text(), OLD)
        self.assertEqual((path.read_text(), self.names()), ("new", ["rows.csv"]))

    def test_a_part_that_another_shell_writes_is_left_alone(self):
        (self.room / "rows.csv").write_text(OLD)
        (self.room / "rows.csv.part").write_text("of another")
        _, out, errors = self.run_lines(f".save {self.room}/rows.csv")
        self.assertEqual((out, errors), (f"saved 2 rows to {self.room}/rows.csv\n", ""))
        self.assertEqual((self.room / "rows.csv").read_text(), "key,payload\n7,70\n8,-80\n")
        self.assertEqual((self.room / "rows.csv.part").read_text(), "of another")
        self.assertEqual(self.names(), ["rows.csv", "rows.csv.part"])

    def test_a_pipe_is_written_and_not_replaced(self):
        pipe, got = self.room / "pipe", []
        os.mkfifo(pipe)
        # opened for reading and writing, so that neither side waits for the other
        end = os.open(pipe, os.O_RDWR | os.O_NONBLOCK)
        try:
            _, out, errors = self.run_lines(f".save {pipe}")
            got.append(os.read(end, 4096))
        finally:
            os.close(end)
        self.assertEqual((out, errors), (f"saved 2 rows to {pipe}\n", ""))
        self.assertEqual((got, self.names(), pipe.is_fifo()), ([b"key,payload\n7,70\n8,-80\n"], ["pipe"], True))

    def test_what_cannot_be_written(self):
        for path, said in [
            (f"{self.room}", f"not saved: {self.room}: Is a directory"),
            (f"{self.room}/no/rows.csv", f"not saved: {self.room}/no/rows.csv: No such file or directory"),
        ]:
            shell, out, errors = self.run_lines(f".save {path}")
            self.assertEqual((out, errors, shell.faults), ("", f"shell: {said}\n", 1))
        self.assertEqual(self.names(), [])

    def test_a_home_is_known(self):
        with mock.patch.dict(os.environ, HOME=str(self.room)):
            _, out, _ = self.run_lines(".save ~/rows.csv", ".load ~/rows.csv")
        self.assertEqual(out, f"saved 2 rows to {self.room}/rows.csv\nloaded 2 rows\n")
        self.assertEqual(self.channel.sent[-3:], ["insert 7 70", "insert 8 -80", "quit"])

    def test_a_control_c_saves_nothing(self):
        calm, path = Calm(), self.room / "rows.csv"
        path.write_text(OLD)

        def interrupted(line):
            calm.noted = line.startswith("select")
            return served(line)

        shell, out, errors = self.run_lines(f".save {path}", "count 0 1", answer=interrupted, calm=calm)
        self.assertEqual((out, errors), ("", "shell: interrupted: nothing is saved\n"))
        self.assertEqual((path.read_text(), self.names(), shell.faults), (OLD, ["rows.csv"], 1))
        self.assertNotIn("count 0 1", self.channel.sent)


class Loading(InARoom):
    """Files of rows of any bytes."""

    def test_each_form(self):
        for text, sent, fault in [
            (b"1,2\n3,-4\n", 2, ""),
            (b"1,2\r\n3,-4\r\n", 2, ""),
            (b"\xef\xbb\xbf1,2\n3,-4", 2, ""),
            (b"\xef\xbb\xbfkey,payload\n1,2\n3,-4", 2, ""),
            (b'"1","2"\n\n\n"3","-4"\n\n', 2, ""),
            (b'"key","payload"\r\n1,2\r\n3,-4\r\n', 2, ""),
            (b"key,payload\n", 0, ""),
            (b"key,payload", 0, ""),
            (b"", 0, ""),
            (b"\n\r\n", 0, ""),
            (b"1,2\n\xff,4\n", 1, "record 2: refused 19: "),
            (b"1,2\n3,4\xe9\n", 1, "record 2: refused 19: "),
            (b"key,payload\n1,2\n3,\xff\n", 1, "record 3: refused 19: "),
            (b"1,2\n3 ,4\n", 1, "record 2: refused 19: "),
            (b'1,2\n"3\n",4\n', 1, "record 2: refused 19: "),
            (b"Key,Payload\n1,2\n", 0, "record 1: refused 19: "),
            (b"1,2\nkey,payload\n", 1, "record 2: refused 19: "),
        ]:
            path = self.room / "rows.csv"
            path.write_bytes(text)
            shell, out, errors = self.run_lines(f".load {path}")
            wanted = [] if fault else ["insert 1 2", "insert 3 -4"][:sent]
            self.assertEqual((text, self.channel.sent), (text, [*wanted, "quit"]))
            self.assertEqual((text, shell.faults), (text, int(bool(fault))))
            counted = "1 row" if sent == 1 else f"{sent} rows"
            self.assertEqual(out, "" if fault else f"loaded {counted}\n")
            if fault:
                self.assertTrue(errors.startswith(f"shell: {fault}"), errors)
                self.assertTrue(errors.endswith("; nothing is loaded\n"), errors)

    def test_a_control_c_amid_the_file_of_the_command_line(self):
        """A filter ends, with a fault; an interactive shell goes on."""
        (self.room / "rows.csv").write_text("1,2\n")
        for is_terminal in (False, True):
            calm = Calm()
            calm.noted = 1
            shell = console.Shell(Session(Answering(served), calm, "auto"), calm, is_terminal)
            with contextlib.redirect_stderr(io.StringIO()) as errors:
                goes_on = shell.has_loaded(f"{self.room}/rows.csv")
            self.assertEqual((goes_on, shell.faults), (is_terminal, 1))
            self.assertEqual(errors.getvalue(), "shell: interrupted: nothing is loaded\n")

    def test_what_cannot_be_read(self):
        for name in (".load", ".read"):
            for path, said in [(f"{self.room}", "Is a directory"), (f"{self.room}/no", "No such file or directory")]:
                shell, out, errors = self.run_lines(f"{name} {path}")
                self.assertEqual((out, errors, shell.faults), ("", f"shell: {path}: {said}\n", 1))
                self.assertEqual(self.channel.sent, ["quit"])


class Reading(InARoom):
    """Files of lines."""

    def lines(self, text, name="lines"):
        path = self.room / name
        path.write_bytes(text)
        return path

    def test_lines_end_at_line_feeds_alone(self):
        for text, sent in [
            (b"count 0 1\rcount 2 3\n", ["count 0 1\rcount 2 3"]),
            (b"count 0 1\r\ncount 2 3", ["count 0 1", "count 2 3"]),
            (b"\n\ncount 0 1\x0bx\n\n", ["count 0 1\x0bx"]),
            (b"", []),
        ]:
            sent = [piece for it in sent for piece in it.splitlines()]
            self.run_lines(f".read {self.lines(text)}")
            self.assertEqual((text, self.channel.sent), (text, [*sent, "quit"]))
        heard = []
        channel = mock.Mock(line=lambda: "count 1", send=heard.append)
        calm = Calm()
        with contextlib.redirect_stdout(io.StringIO()):
            shell = console.Shell(Session(channel, calm, "auto"), calm, False)
            shell.read(str(self.lines(b"count 0 1\rcount 2 3\r\ncount 4 5\x85\n")))
        self.assertEqual(heard, [b"count 0 1\rcount 2 3\n", b"count 4 5\x85\n"])

    def test_a_file_that_reads_itself_by_another_name(self):
        path = self.room / "lines"
        (self.room / "link").symlink_to(path)
        path.write_text(f".read {self.room}/link\ncount 0 1\n")
        shell, out, errors = self.run_lines(f".read {path}", f".read {self.room}/link")
        self.assertEqual(errors, f"shell: {self.room}/link: it is already being read\n" * 2)
        self.assertEqual((out, shell.faults), ("count 5\ncount 5\n", 2))

    def test_a_file_may_be_read_again_after_an_error(self):
        path = self.lines(b".limit x\ncount 0 1\n")
        for bail in ("on", "off"):
            shell, _, errors = self.run_lines(f".bail {bail}", f".read {path}", f".read {path}", is_terminal=True)
            self.assertNotIn("already", errors)
            self.assertEqual(errors.count(".limit needs"), 2)
        self.assertEqual(shell.files, [])

    def test_faults_before_a_file_do_not_end_it(self):
        path = self.lines(b"count 0 1\ncount 2 3\n")
        _, _, errors = self.run_lines("x", ".bail on", f".read {path}", "count 4 5", is_terminal=True)
        self.assertEqual(self.channel.sent, ["x", "count 0 1", "count 2 3", "count 4 5", "quit"])
        self.assertEqual(errors, "")

    def test_a_control_c_amid_a_file(self):
        """It ends at the line that was interrupted, a statement or a command."""
        rows = self.lines(b"1,1\n2,2\n", "rows.csv")
        for lines, number in [
            ([b"count 0 1", b"count 7 7", b"count 2 3"], 2),
            ([b"count 7 7"], 1),
            ([b"count 0 1", b"count 0 1", b".load %s" % os.fsencode(rows), b"count 2 3"], 3),
        ]:
            for is_terminal in (False, True):
                calm = Calm()

                def interrupted(line):
                    calm.noted = calm.noted or int(line in ("count 7 7", "insert 1 1"))
                    return served(line)

                path = self.lines(b"\n".join(lines))
                shell, _, errors = self.run_lines(
                    f".read {path}", "count 8 9", answer=interrupted, is_terminal=is_terminal, calm=calm
                )
                self.assertIn(f"shell: interrupted: {path} was read up to its line {number}\n", errors)
                self.assertNotIn("count 2 3", self.channel.sent)
                # an interactive shell goes on, but a filter ends
                self.assertEqual("count 8 9" in self.channel.sent, is_terminal)
                self.assertEqual(shell.files, [])
                self.assertTrue(is_terminal or shell.faults)


class Statements(InARoom):
    """Lines at the limits of what is sent."""

    def test_ends_and_lengths(self):
        for line, sent in [
            ("count 0 5;;", ["count 0 5;"]),
            (";", [";"]),
            (" ; ", [" ; "]),
            ("count 0 5", ["count 0 5"]),
            ("  count 0 5", ["  count 0 5"]),
            ("count 0 5\r\r", ["count 0 5\r"]),
            ("EXIT", ["EXIT"]),
            ("exit now", ["exit now"]),
            ("help me", []),
            ("helpme", ["helpme"]),
            ("GETS 1", ["GETS 1"]),
            ("GET", []),
            ("  POST /", []),
            ("get / x", ["get / x"]),
            ("a" * 199 + ":", []),
            ("a" * 200 + ":", ["a" * 200 + ":"]),
            (" " * 197 + "GETS", []),
            (" " * 198 + "GETS", [" " * 198 + "GETS"]),
            ("a b:", ["a b:"]),
            ("count 0 end;", [f"count 0 {2**64}"]),
            ("sum end end", [f"sum {2**64} {2**64}"]),
            ("insert end 5", ["insert end 5"]),
        ]:
            heard, calm = [], Calm()
            channel = mock.Mock(line=lambda: "bye", send=heard.append)
            with contextlib.redirect_stdout(io.StringIO()), contextlib.redirect_stderr(io.StringIO()):
                console.Shell(Session(channel, calm, "auto"), calm, False).obey(line.encode())
            self.assertEqual((line, heard), (line, [it.encode() + b"\n" for it in sent]))

    def test_no_rows_are_shown_with_a_limit_of_none(self):
        select = "select 0 end"
        for mode, shown in [("lines", "rows 2\n"), ("csv", "row,key,payload\n"), ("json", "[]\n")]:
            _, out, _ = self.run_lines(f".mode {mode}", ".limit 0", select)
            self.assertEqual(out, shown)
        for limit, rows in (("1", 1), ("2", 2), ("3", 2), ("off", 2)):
            _, out, _ = self.run_lines(".mode csv", f".limit {limit}", select)
            self.assertEqual(out.splitlines(), ["row,key,payload", "0.0,7,70", "0.1,8,-80"][: rows + 1])
            _, out, _ = self.run_lines(f".limit {limit}", select, is_terminal=True)
            self.assertEqual("more; .limit off shows all" in out, rows < 2)

    def test_a_control_c_hides_what_was_answered(self):
        for is_terminal in (False, True):
            calm = Calm()

            def interrupted(line):
                calm.noted = int("count 7" in line)
                return served(line)

            lines = ("count 0 1", "count 7 8", "count 2 3")
            shell, out, errors = self.run_lines(*lines, answer=interrupted, is_terminal=is_terminal, calm=calm)
            self.assertEqual(errors, "shell: interrupted: the statement was answered; its reply isn't shown\n")
            self.assertEqual(out.count("count 5"), 1 + is_terminal)
            self.assertEqual((shell.answered, shell.faults), (2 + is_terminal, int(not is_terminal)))
            self.assertEqual(self.channel.sent, [*lines, "quit"] if is_terminal else [*lines[:2]])

    def test_refusals_as_json(self):
        for line, wanted in [
            ("refused 99", {"refused": 99, "reason": "", "numbers": []}),
            ("refused 6 12", {
                "refused": 6, "reason": "the history is full; a checkpoint makes room", "numbers": [12]
            }),
        ]:
            self.assertEqual(modes.value([line]), wanted)

    def test_times(self):
        for seconds, text in [
            (0, "(0.000 ms)"),
            (0.0000126, "(0.013 ms)"),
            (0.9994, "(999.400 ms)"),
            (1, "(1.00 s)"),
            (61.5, "(61.50 s)"),
        ]:
            self.assertEqual(texts.time_text(seconds), text)


class Progresses(unittest.TestCase):
    """A line that shows progress."""

    def shown(self, is_shown, *texts_and_times):
        out = io.StringIO()
        now = mock.Mock(return_value=0.0)
        with contextlib.redirect_stdout(out), mock.patch.object(console.time, "monotonic", now):
            progress = console.Progress(is_shown)
            for text, moment in texts_and_times:
                now.return_value = moment
                progress.show(text)
            progress.clear()
        return out.getvalue()

    def test_what_is_written(self):
        blank = " " * 7
        for is_shown, shows, wanted in [
            (False, [("10 rows", 1)], ""),
            (True, [], ""),
            (True, [("10 rows", 0.05)], ""),
            (True, [("10 rows", 0.1)], f"\r10 rows\r{blank}\r"),
            (True, [("10 rows", 1), ("11 rows", 1.05), ("12 rows", 1.1)], f"\r10 rows\r12 rows\r{blank}\r"),
            (True, [("10 rows", 1), ("9 rows", 2), ("8 rows", 3)], f"\r10 rows\r9 rows \r8 rows \r{blank}\r"),
            (True, [("9 rows", 1), ("10 rows", 2)], f"\r9 rows\r10 rows\r{blank}\r"),
        ]:
            self.assertEqual((shows, self.shown(is_shown, *shows)), (shows, wanted))


class Interrupted(unittest.TestCase):
    """What is told of a control-C."""

    def test_it_is_told_once_for_each_line(self):
        before, errors = signal.getsignal(signal.SIGINT), io.StringIO()
        try:
            with contextlib.redirect_stderr(errors):
                interrupts = child.Interrupts()
                for round_ in range(1, 3):
                    interrupts.tell_once()
                    interrupts.note()
                    for _ in range(3):
                        interrupts.tell_once()
                    self.assertEqual(errors.getvalue().count("the server hasn't answered yet"), round_)
                    self.assertRaises(texts.Interrupted, interrupts.check, "x")
                    self.assertRaises(KeyboardInterrupt, interrupts.note)
                    interrupts.forget()
                    interrupts.check("x")
                for _ in range(2):
                    with self.assertRaises(ValueError), interrupts.breaking_in():
                        self.assertIs(signal.getsignal(signal.SIGINT), signal.default_int_handler)
                        raise ValueError
                    self.assertEqual(signal.getsignal(signal.SIGINT), interrupts.note)
        finally:
            signal.signal(signal.SIGINT, before)


if __name__ == "__main__":
    unittest.main()
