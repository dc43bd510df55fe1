"""What the shell sends, and how it reads and shows the replies, over a stand-in for the connection."""

import contextlib
import io
import json
import pathlib
import signal
import sys
import tempfile
import unittest
from unittest import mock

import ways  # finds the package

from crackd import base
from crackd.errors import REASONS
from crackd.shell import child, console, modes, session, texts, typing
from crackd.shell.child import Interrupts
from crackd.shell.session import Loaded, Records, Session

GREATEST_KEY = "18446744073709551615"
KEYS = {"0": True, "7": True, GREATEST_KEY: True, "18446744073709551616": False, "0" * 19 + "1": True}
KEYS |= {"0" * 20 + "1": False, "": False, "-1": False, "+1": False, " 1": False, "1 ": False, "1.0": False}
KEYS |= {"\u0661": False, "\u00b2": False, "1_0": False, "x": False}
PAYLOADS = {"0": True, "-0": True, "-7": True, "9223372036854775807": True, "9223372036854775808": False}
PAYLOADS |= {"-9223372036854775808": True, "-9223372036854775809": False, "": False, "-": False, "--1": False}
PAYLOADS |= {"+1": False, "1-": False, "- 1": False, "\u0661": False, "-" + "0" * 20: True, "-" + "0" * 21: False}


class Answering:
    """Stands in for a connection: a function has the lines that answer a statement. They come at once, or `step` by
    step, so many at a time."""

    def __init__(self, answer, at_once=None):
        self.answer, self.at_once, self.sent, self.coming, self.given, self.unsent = answer, at_once, [], [], [], b""
        self.most = 0

    def send(self, text):
        for line in text.decode("ascii").splitlines():
            self.sent.append(line)
            (self.given if self.at_once is None else self.coming).extend(self.answer(line))
        self.most = max(self.most, len(self.coming))

    def step(self):
        self.given += self.coming[: self.at_once]
        del self.coming[: self.at_once]

    def line(self):
        return self.given.pop(0)

    def lines(self, count):
        return [self.given.pop(0) for _ in range(count)]

    def lines_given(self):
        found, self.given = self.given, []
        return found


class Calm:
    """Interrupts that don't come, until `noted` is set."""

    noted = 0

    def breaking_in(self):
        return contextlib.nullcontext()

    def forget(self):
        self.noted = 0

    def check(self, left_undone):
        if self.noted:
            raise texts.Interrupted(left_undone)


class Rows(unittest.TestCase):
    """Which records are rows."""

    def test_keys_and_payloads_at_their_limits(self):
        for key, is_key in KEYS.items():
            self.assertEqual((key, session.is_key(key)), (key, is_key))
        for payload, is_payload in PAYLOADS.items():
            self.assertEqual((payload, session.is_payload(payload)), (payload, is_payload))
        for key, is_key in KEYS.items():
            for payload, is_payload in PAYLOADS.items():
                record, wanted = [key, payload], is_key and is_payload
                self.assertEqual((record, session.is_row(record)), (record, wanted))
                for records in ([record], [["1", "1"], record], [record, ["1", "-1"]]):
                    self.assertEqual((record, session.are_rows(records)), (record, wanted))

    def test_records_of_another_length(self):
        for record in ([], ["1"], ["1", "2", "3"]):
            self.assertFalse(session.is_row(record))
            self.assertFalse(session.are_rows([record]) or session.are_rows([["1", "1"], record]))
        self.assertFalse(session.are_rows([]))

    def read(self, file, interrupts=None):
        """The blocks of rows of a file, and the fault that ends it."""
        records = Records(file)
        blocks = []
        while rows := records.next_rows(interrupts or Calm()):
            blocks.append(rows)
            if records.fault:
                break
        return blocks, records

    def test_blocks_headers_and_blank_lines(self):
        with mock.patch.object(session, "ROWS_AT_ONCE", 3):
            for text, wanted, has_header in [
                ("", [], False),
                ("key,payload\n", [], True),
                ("1,2\n\n\n3,4\n", [[["1", "2"], ["3", "4"]]], False),
                ("key,payload\n1,2\n3,4\n5,6\n7,8\n", [[["1", "2"], ["3", "4"]], [["5", "6"], ["7", "8"]]], True),
                ("\n1,2\n3,4\n5,6\n7,-8", [[["1", "2"], ["3", "4"], ["5", "6"]], [["7", "-8"]]], False),
            ]:
                blocks, records = self.read(io.StringIO(text, newline=""))
                self.assertEqual((text, blocks), (text, wanted))
                self.assertEqual((records.fault, records.has_header), ("", has_header))

    def test_the_first_record_that_is_no_row_is_named(self):
        long = "x" * 50
        with mock.patch.object(session, "ROWS_AT_ONCE", 3):
            for text, rows, number, shown in [
                ("1,2\n3\n", 1, 2, "'3'"),
                ("1,2\n3,4\n5,6\n7,8\nx,1\n", 4, 5, "'x,1'"),
                ("key,payload\n1,2\n3,4,5\n", 1, 3, "'3,4,5'"),
                ("1,2\nkey,payload\n", 1, 2, "'key,payload'"),
                ("key,payload\nkey,payload\n", 0, 2, "'key,payload'"),
                (f"{long},1\n", 0, 1, repr(long[:40])),
            ]:
                blocks, records = self.read(io.StringIO(text, newline=""))
                self.assertEqual((text, sum(map(len, blocks)), records.number), (text, rows, number - 1))
                said = f"record {number}: refused 19: a record isn't a key from 0 to {GREATEST_KEY} and a payload"
                self.assertTrue(records.fault.startswith(said), records.fault)
                self.assertTrue(records.fault.endswith(f": {shown}"), records.fault)

    def test_files_that_fail_amid(self):
        def failing(fault):
            yield "1,2\n"
            yield "3,4\n"
            raise fault

        for file, rows, said in [
            (failing(OSError(5, "Input/output error")), 2, "record 3: refused 17: .*: Input/output error"),
            (["1,2\n", f"{'9' * 131_073},1\n"], 1, "record 2: refused 19: .*: field larger than field limit"),
        ]:
            records = Records(iter(file))
            self.assertEqual(len(records.next_rows(Calm())), rows)
            self.assertRegex(records.fault, said)

    def test_a_control_c_while_a_file_is_read(self):
        def interrupted():
            yield "1,2\n"
            raise KeyboardInterrupt

        records, calm = Records(interrupted()), Calm()
        self.assertEqual((records.next_rows(calm), records.fault, calm.noted), ([["1", "2"]], "", 1))


class Loads(unittest.TestCase):
    """How a file of rows is sent."""

    def load(self, rows, answer, policy="auto", at_once=None, interrupts=None, header="", blocks=(2, 3)):
        """The channel, and what the load of so many rows returned or raised."""
        self.channel, calm = Answering(answer, at_once), interrupts or Calm()
        self.progress = mock.Mock()
        text = io.StringIO(header + "".join(f"{it},{-it}\n" for it in range(rows)))
        with mock.patch.multiple(session, ROWS_AT_ONCE=blocks[0], ROWS_UNANSWERED=blocks[1]):
            columns = Records(text).read(Calm(), mock.Mock())
            try:
                return Session(self.channel, calm, policy).load(columns, self.progress)
            finally:
                self.assertEqual(self.progress.clear.call_count, 1)

    def test_each_row_is_sent_once_and_counted(self):
        for rows in (0, 1, 2, 3, 4, 5, 9):
            for at_once in (None, 1, 3):
                for header in ("", "key,payload\n"):
                    loaded = self.load(rows, lambda _: ["row 0.0"], "auto", at_once, header=header)
                    self.assertEqual(self.channel.sent, [f"insert {it} {-it}" for it in range(rows)])
                    self.assertEqual(loaded, rows)
                    # it goes on while at most 3 rows are unanswered, and then sends 2 more
                    self.assertLessEqual(self.channel.most, 5)
                    if rows == 9 and at_once and not header:
                        told = [it.args[0] for it in self.progress.show.call_args_list]
                        self.assertEqual((len(told), told[-1]), (5, "6 rows"))

    def test_it_waits_until_all_is_sent(self):
        channel, loaded = Answering(lambda _: []), Loaded()
        loaded.sent = loaded.answered = 1
        for steps in (0, 1, 3):
            channel.unsent = steps * b"x"
            with mock.patch.object(channel, "step", lambda: setattr(channel, "unsent", channel.unsent[1:])):
                Session(channel, Calm(), "auto").settle(loaded, 5)
            self.assertEqual((channel.unsent, loaded.answered), (b"", 1))

    def test_the_policy_is_set_only_if_nobody_knows_it(self):
        answer = lambda line: ["policy auto"] if line.startswith("policy") else ["row 0.0"]
        for policy, sent in [(None, ["policy auto"]), ("ripple", []), ("auto", [])]:
            self.load(1, answer, policy)
            self.assertEqual(self.channel.sent, [*sent, "insert 0 0"])
        columns = Records(io.StringIO("1,1\n")).read(Calm(), mock.Mock())
        with self.assertRaisesRegex(texts.Fault, "policy auto: refused 1: this isn't a statement"):
            Session(Answering(lambda _: ["refused 1"]), Calm(), None).load(columns, mock.Mock())

    def table(self, refused, code="9", history=10**6):
        """The answers of a partition that refuses one insert, or all statements once its history is full."""
        rows, entries = {}, [0]

        def answer(line):
            words = line.split()
            if words[0] == "checkpoint":
                entries[0] = 0
                return ["folded 1"]
            if line == refused:
                return [f"refused {code}"]
            if entries[0] >= history:
                return [f"refused 6 {history}"]
            entries[0] += 1
            if words[0] == "insert":
                rows[f"0.{len(rows)}"] = words[1:]
                return [f"row 0.{len(rows) - 1}"]
            return ["gone " + " ".join(rows.pop(words[1]))]

        return rows, answer

    def test_a_refusal_takes_all_rows_back(self):
        for header in ("", "key,payload\n"):
            for place in range(6):
                rows, answer = self.table(f"insert {place} {-place}")
                number = place + 1 + bool(header)
                with self.assertRaisesRegex(texts.Fault, f"^record {number}: refused 9: .*; nothing is loaded$"):
                    self.load(6, answer, header=header)
                # it goes on while at most 3 rows are unanswered, so it sends two blocks of 2 before it reads any reply
                inserts = [it for it in self.channel.sent if it.startswith("insert")]
                self.assertEqual((len(inserts), rows), (4 if place < 4 else 6, {}))

    def test_rows_are_taken_back_out_of_a_full_history(self):
        rows, answer = self.table(None, history=3)
        with self.assertRaisesRegex(texts.Fault, "^record 4: refused 6 3: .*; nothing is loaded$"):
            self.load(6, answer)
        self.assertEqual((rows, self.channel.sent.count("checkpoint 0")), ({}, 1))

    def test_rows_that_cannot_be_taken_back_are_told(self):
        for row in ("0.1", "0.2"):
            rows, answer = self.table("insert 3 -3")
            stubborn = lambda line: ["refused 10"] if line == f"delete {row}" else answer(line)
            said = "^record 4: refused 9: .*; 1 row of it couldn't be deleted: refused 10: "
            with self.assertRaisesRegex(texts.Fault, said):
                self.load(4, stubborn)
            self.assertEqual(list(rows), [row])

    def test_only_the_first_refusal_is_told(self):
        loaded = Loaded()
        loaded.take(["row 0.0", "refused 8"])
        loaded.take(["row 0.1", "refused 9", "row 2.2"])
        self.assertEqual((loaded.refusal, loaded.before, loaded.placed, loaded.answered), ("refused 8", 1, 3, 5))
        self.assertEqual((list(loaded.parts), list(loaded.serials)), ([0, 0, 2], [0, 1, 2]))

    def test_a_control_c_takes_all_rows_back(self):
        calm = Calm()
        rows, answer = self.table(None)

        def interrupted(line):
            calm.noted = calm.noted or line == "insert 3 -3"
            return answer(line)

        with self.assertRaisesRegex(texts.Interrupted, "^nothing is loaded$"):
            self.load(9, interrupted, interrupts=calm)
        inserts = [it for it in self.channel.sent if it.startswith("insert")]
        self.assertEqual((len(inserts), rows), (4, {}))

    def test_a_server_that_leaves(self):
        def answer(line):
            if line == "insert 4 -4":
                raise ways.crackd.Disconnected("gone")
            return ["row 0.0"]

        with self.assertRaisesRegex(texts.Left, "4 rows had been answered"):
            self.load(9, answer)

    def test_nothing_of_a_file_with_a_fault_is_sent(self):
        with self.assertRaisesRegex(texts.Fault, "^record 2: refused 19: .*'x'; nothing is loaded$"):
            Records(io.StringIO("1,1\nx\n")).read(Calm(), mock.Mock())
        calm = Calm()
        calm.noted = 1
        with self.assertRaisesRegex(texts.Interrupted, "^nothing is loaded$"):
            Records(io.StringIO("1,1\n")).read(calm, mock.Mock())


class Splits(unittest.TestCase):
    """A load into an empty table of the shell's own server."""

    def test_one_partition_for_each_65536_rows(self):
        for rows, parts in [(0, 1), (1, 1), (65_536, 1), (65_537, 2), (131_072, 2), (131_073, 3), (2**22 + 1, 64)]:
            columns = session.Columns(mock.Mock())
            columns.keys.extend(range(rows))
            splits = columns.splits()
            self.assertEqual((rows, len(splits) + 1), (rows, parts))
            for low, high in zip([0, *splits], [*splits, rows]):
                self.assertLessEqual(abs(high - low - rows / parts), rows / 64)

    def sent_after(self, *statements, renewed=True, policy="auto", rows=11):
        """What the servers before and after the load were sent, and the splits of the second one."""
        answers = {"insert": "row 0.0", "policy": "policy gradual", "quit": "bye"}
        answers |= {"delete": "none", "count": "count 0"}
        answer = lambda line: [answers[line.split()[0]]]
        first, second, splits = Answering(answer), Answering(answer), []
        first.close = mock.Mock()

        def renew(cuts):
            splits.append(cuts)
            return second

        told = Session(first, Calm(), policy, renew if renewed else None)
        for it in statements:
            told.ask(it)
        columns = session.Columns(mock.Mock())
        columns.keys.extend(range(rows))
        columns.payloads.extend(bytes(rows))
        with mock.patch.object(base, "ROWS_A_LOADED_PART", 10):
            self.assertEqual(told.load(columns, mock.Mock()), rows)
        return first.sent, second.sent, splits

    def test_the_server_is_started_anew_if_nothing_was_written(self):
        for before in ([], ["count 0 5"], ["delete 0.0"], ["policy gradual"]):
            first, second, splits = self.sent_after(*before)
            self.assertEqual((first, len(splits), len(splits[0])), ([*before, "quit"], 1, 1))
            policy = "gradual" if "policy gradual" in before else "auto"
            self.assertEqual(second[:2], [f"policy {policy}", "insert 0 0"])
            self.assertEqual((len(second), splits[0]), (12, [5]))

    def test_it_isnt_if_something_was_written_or_it_is_anothers(self):
        for before, how in [
            (["insert 1 1"], {}),
            (["insert 1 1", "delete 0.0"], {}),
            ([], {"renewed": False}),
            ([], {"rows": 10}),
        ]:
            first, second, splits = self.sent_after(*before, **how)
            self.assertEqual((len(first), second, splits), (len(before) + how.get("rows", 11), [], []))


LAYOUTS = [
    ["layout 0 rows 2 column 2 out 0 in 0 cells 2 free 0 pieces 1", "piece 0 10 2"],
    ["layout 1 rows 1 column 0 out 0 in 1 cells 1 free 0 pieces 2", "piece 10 20 0", "piece 20 18446744073709551616 0"],
]
SELECTS = {"select 0 10": ["rows 2", "0.0 7 70", "0.1 8 -80"], "select 10 18446744073709551616": ["rows 1", "1.0 10 5"]}


def served(line):
    """The replies of a server with two partitions."""
    if line.startswith("layout "):
        part = int(line.split()[1])
        return LAYOUTS[part] if part < len(LAYOUTS) else ["refused 5"]
    return SELECTS.get(line, ["refused 1"])


class Replies(unittest.TestCase):
    """Statements and their replies."""

    def test_replies_of_one_line_and_of_many(self):
        for lines in [["row 0.0"], ["rows 0"], SELECTS["select 0 10"], *LAYOUTS, ["refused 2"], ["bye"]]:
            reply = Session(Answering(lambda _: [*lines]), Calm(), None).ask("some words")
            self.assertEqual((reply.lines, reply.is_refusal), (lines, lines == ["refused 2"]))

    def test_a_policy_that_is_set_is_known(self):
        asking = Session(Answering(lambda line: [line]), Calm(), None)
        known = [("count 5", None), ("policy ripple", "ripple"), ("sum 1", "ripple"), ("policy auto", "auto")]
        for said, policy in known:
            asking.ask(said)
            self.assertEqual((said, asking.policy), (said, policy))

    def test_layouts(self):
        asking = Session(Answering(served), Calm(), "auto")
        found = list(asking.layouts())
        told = [(it.partition, it.rows, it.column, it.pending_in) for it in found]
        self.assertEqual(told, [(0, 2, 2, 0), (1, 1, 0, 1)])
        self.assertEqual([it.ends for it in found], [(0, 10), (10, 2**64)])
        self.assertIsNone(asking.layout(2))
        with self.assertRaisesRegex(texts.Fault, "^layout 0: refused 8: memory ran out"):
            Session(Answering(lambda _: ["refused 8"]), Calm(), "auto").layout(0)

    def test_all_rows_as_csv(self):
        file = io.StringIO()
        self.assertEqual(Session(Answering(served), Calm(), "auto").save(file), 3)
        self.assertEqual(file.getvalue(), "key,payload\n7,70\n8,-80\n10,5\n")
        refusing = lambda line: ["refused 8"] if line.startswith("select 10 ") else served(line)
        with self.assertRaisesRegex(texts.Fault, f"^select 10 {2**64}: refused 8: memory ran out"):
            Session(Answering(refusing), Calm(), "auto").save(io.StringIO())
        calm = Calm()
        calm.noted = 1
        with self.assertRaisesRegex(texts.Interrupted, "nothing is saved"):
            Session(Answering(served), calm, "auto").save(io.StringIO())


class Shown(unittest.TestCase):
    """How replies are shown."""

    ROWS, LAYOUT = SELECTS["select 0 10"], LAYOUTS[1]
    TABLE = [
        (["row 0.0"], ["row,0.0"], {"row": "0.0"}),
        (["sum -10"], ["sum,-10"], {"sum": -10}),
        (["none"], ["none"], {"none": True}),
        (["gone 7 -70"], ["gone,7,-70"], {"gone": {"key": 7, "payload": -70}}),
        (["refused 2"], ["refused,2"], {"refused": 2, "numbers": [], "reason": REASONS[2]}),
        (["refused 6 3 4"], ["refused,6,3,4"], {"refused": 6, "numbers": [3, 4], "reason": REASONS[6]}),
        (["refused 99"], ["refused,99"], {"refused": 99, "numbers": [], "reason": ""}),
        (["rows 0"], ["row,key,payload"], []),
    ]

    def test_each_mode(self):
        for lines, wanted, value in self.TABLE:
            self.assertEqual(modes.shown(lines, "lines", None), lines)
            self.assertEqual(modes.shown(lines, "csv", None), wanted)
            (text,) = modes.shown(lines, "json", None)
            self.assertEqual(json.loads(text), value)

    def test_numbers_in_each_mode(self):
        lines = ["stats 2", "rows 5", f"cells {2**64 - 1}"]
        self.assertEqual(modes.shown(lines, "lines", 1), lines)
        self.assertEqual(modes.shown(lines, "csv", 1), ["name,number", "rows,5", f"cells,{2**64 - 1}"])
        told = {"stats": {"rows": 5, "cells": 2**64 - 1}}
        self.assertEqual(json.loads(modes.shown(lines, "json", 1)[0]), told)

    def test_layouts_in_each_mode(self):
        for most in (None, 0, 1):
            self.assertEqual(modes.shown(self.LAYOUT, "lines", most), self.LAYOUT)
            self.assertEqual(modes.shown(self.LAYOUT, "csv", most), ["low,high,rows", "10,20,0", f"20,{2**64},0"])
            pieces = [{"low": 10, "high": 20, "rows": 0}, {"low": 20, "high": 2**64, "rows": 0}]
            told = {"layout": 1, "rows": 1, "column": 0, "out": 0, "in": 1, "cells": 1, "free": 0, "pieces": pieces}
            self.assertEqual(json.loads(modes.shown(self.LAYOUT, "json", most)[0]), told)

    def test_limits(self):
        rows = [{"row": "0.0", "key": 7, "payload": 70}, {"row": "0.1", "key": 8, "payload": -80}]
        for most, kept in [(None, 2), (0, 0), (1, 1), (2, 2), (3, 2)]:
            self.assertEqual(modes.hidden(self.ROWS, most), 2 - kept)
            self.assertEqual(modes.shown(self.ROWS, "lines", most), self.ROWS[: 1 + kept])
            csv = ["row,key,payload", "0.0,7,70", "0.1,8,-80"]
            self.assertEqual(modes.shown(self.ROWS, "csv", most), csv[: 1 + kept])
            self.assertEqual(json.loads(modes.shown(self.ROWS, "json", most)[0]), rows[:kept])
            self.assertEqual(modes.hidden(self.LAYOUT, most), 0)

    def test_words(self):
        for seconds, text in {0.0005: "(0.500 ms)", 0.9994: "(999.400 ms)", 1: "(1.00 s)", 61.234: "(61.23 s)"}.items():
            self.assertEqual(texts.time_text(seconds), text)
        self.assertEqual(texts.in_words("refused 8"), "refused 8: memory ran out; no row has changed")
        self.assertEqual(texts.in_words("refused 6 1 2")[:30], "refused 6 1 2: the history is ")
        for line in ("row 0.0", "refused 99", "x refused 8"):
            self.assertEqual(texts.in_words(line), line)
        self.assertEqual(texts.fault_text("a", OSError(2, "No such file")), "a: No such file")
        self.assertEqual(texts.fault_text("a", OSError(2, "No such file", "b")), "b: No such file")
        self.assertEqual(texts.fault_text("a", ValueError("wrong")), "a: wrong")

    def test_completions(self):
        for line, wanted in {
            "se": ["select "],
            "s": ["sum ", "select ", "stats "],
            "  up": ["update "],
            ".l": [".load ", ".layout ", ".limit "],
            "policy g": ["gradual "],
            "policy ": ["complete ", "gradual ", "ripple ", "auto "],
            ".mode ": ["lines ", "csv ", "json "],
            ".bail o": ["on ", "off "],
            ".limit ": ["off "],
            "policy auto a": [],
            "count ": [],
            ".load a b": [],
            "x": [],
        }.items():
            self.assertEqual((line, typing.completions(line, line.split(" ")[-1])), (line, wanted))


class Editing(unittest.TestCase):
    """Lines at the prompt, with a stand-in for the module readline."""

    def edit(self, doc="", **environment):
        readline = mock.Mock(__doc__=doc)
        readline.get_line_buffer.return_value, readline.get_endidx.return_value = "policy rest", 7
        with mock.patch.dict("sys.modules", readline=readline), mock.patch.dict("os.environ", environment):
            with typing.edited():
                self.assertFalse(readline.write_history_file.called)
        return readline

    def test_words_are_completed_one_by_one(self):
        readline = self.edit()
        readline.set_completer_delims.assert_called_once_with(" ")
        (completed,) = readline.set_completer.call_args.args
        wanted = ["complete ", "gradual ", "ripple ", "auto ", None]
        self.assertEqual([completed("", at) for at in range(5)], wanted)
        self.assertEqual([completed("g", at) for at in range(2)], ["gradual ", None])

    def test_tab_is_bound(self):
        bindings = {None: "tab: complete", "GNU readline": "tab: complete", "libedit": "bind ^I rl_complete"}
        for doc, bound in bindings.items():
            self.edit(doc).parse_and_bind.assert_called_once_with(bound)

    def test_lines_are_kept_in_a_file(self):
        with mock.patch("os.path.expanduser", lambda path: path.replace("~", "/home")):
            for named, path in [({"CRACKD_HISTORY": "/there"}, "/there"), ({}, "/home/.crackd_history")]:
                readline = self.edit(**named)
                readline.read_history_file.assert_called_once_with(path)
                readline.write_history_file.assert_called_once_with(path)
                readline.set_history_length.assert_called_once_with(1000)
        readline = self.edit(CRACKD_HISTORY="")
        self.assertFalse(readline.read_history_file.called or readline.write_history_file.called)

    def test_without_the_module(self):
        with mock.patch.dict("sys.modules", readline=None), typing.edited():
            pass


class Lines(unittest.TestCase):
    """What is made of typed lines."""

    def shell(self, answer=lambda line: ["bye"] if line == "quit" else ["count 5"], is_terminal=False):
        calm = Calm()
        self.channel = Answering(answer)
        return console.Shell(Session(self.channel, calm, "auto"), calm, is_terminal)

    def run_lines(self, *lines, answer=None, is_terminal=False):
        """What a shell writes to standard output and to standard error."""
        shell = self.shell(answer, is_terminal) if answer else self.shell(is_terminal=is_terminal)
        out, errors = io.StringIO(), io.StringIO()
        with contextlib.redirect_stdout(out), contextlib.redirect_stderr(errors):
            shell.run([it.encode() for it in lines])
        return shell, out.getvalue(), errors.getvalue()

    def test_statements_are_sent_as_they_are(self):
        for line, sent in {
            "count 0 5": ["count 0 5"],
            " count 0 5 \r": [" count 0 5 "],
            "count 0 5;": ["count 0 5"],
            "count 0 5 ; ": ["count 0 5"],
            "count 0 end": [f"count 0 {2**64}"],
            "": [],
            "   ": [],
            "\r": [],
            " " * 200: [],
            " " * 201: [" " * 201],
            "exit": [],
            "exit;": [],
            "help": [],
            "GET / HTTP/1.1": [],
            "Host: here": [],
        }.items():
            shell, _, _ = self.run_lines(line)
            self.assertEqual((line, self.channel.sent), (line, [*sent, "quit"]))
            self.assertTrue(shell.has_ended)

    def test_refusals_are_counted(self):
        answer = lambda line: ["bye"] if line == "quit" else ["refused 1"] if "x" in line else ["count 5"]
        shell, out, errors = self.run_lines("count 0 1", "x", ".mode x", "y", "x", answer=answer)
        self.assertEqual((shell.answered, shell.refused, shell.faults), (4, 2, 3))
        self.assertEqual(out, "count 5\nrefused 1\ncount 5\nrefused 1\n")
        said = "refused 1: 'x' isn't a statement; help lists them\n"
        wanted = f"shell: line 2: {said}shell: .mode is one of lines, csv, json\nshell: line 5: {said}"
        self.assertEqual(errors, wanted)

    def test_a_filter_ends_at_a_fault_with_bail(self):
        answer = lambda line: ["bye"] if line == "quit" else ["refused 1"] if "x" in line else ["count 5"]
        for lines, is_terminal, sent in [
            (["x", ".bail on", "count 0 1", "x", "count 0 1"], False, ["x", "count 0 1", "x", "quit"]),
            (["x", ".bail on", "count 0 1", "x", "count 0 1"], True, ["x", "count 0 1", "x", "count 0 1", "quit"]),
            ([".bail on", ".bail off", "x", "count 0 1"], False, ["x", "count 0 1", "quit"]),
            ([".bail on", ".limit x", "count 0 1"], False, ["quit"]),
        ]:
            self.run_lines(*lines, answer=answer, is_terminal=is_terminal)
            self.assertEqual(self.channel.sent, sent)

    def test_nothing_is_read_after_the_end(self):
        for line in ("quit", "exit", ".quit"):
            self.run_lines(line, "count 0 1")
            self.assertEqual(self.channel.sent, ["quit"])

    def test_commands(self):
        for line, said in {
            ".nothing": "there is no .nothing; .help lists the commands",
            ".load": ".load needs a file",
            ".read  ": ".read needs a file",
            ".limit -1": ".limit needs a number of rows, or off",
            ".limit \u00b2": ".limit needs a number of rows, or off",
            ".limit": ".limit needs a number of rows, or off",
            ".bail yes": ".bail is on or off",
            ".layout 9": "layout 9: refused 5: there is no such partition",
        }.items():
            shell, _, errors = self.run_lines(line, answer=lambda line: ["bye"] if line == "quit" else ["refused 5"])
            self.assertEqual((errors, shell.faults), (f"shell: {said}\n", 1))
        for line in ("help", "help;", ".help"):
            self.assertEqual(self.run_lines(line)[1], texts.HELP + "\n")
        answer = lambda line: ["bye"] if line == "quit" else served(line)
        for line, count in [(".layout", 2), (".layout 1", 1)]:
            _, out, _ = self.run_lines(line, answer=answer)
            self.assertEqual((out.count("partition "), "partition 1: keys 10 to" in out), (count, True))
        _, out, _ = self.run_lines(".limit 1", ".mode csv", "select 0 10", ".limit off", "select 0 10", answer=answer)
        self.assertEqual(out, "row,key,payload\n0.0,7,70\nrow,key,payload\n0.0,7,70\n0.1,8,-80\n")

    def test_a_terminal_is_told_how_long_it_took(self):
        answer = lambda line: ["bye"] if line == "quit" else served(line)
        _, out, _ = self.run_lines(".limit 1", "select 0 10", "x", answer=answer, is_terminal=True)
        time = r"\([0-9.]+ m?s\)\n"
        rows = r"rows 2\n0\.0 7 70\n\(1 row more; \.limit off shows all\)  " + time
        self.assertRegex(out, f"^{rows}refused 1: 'x' isn't a statement; help lists them  {time}$")
        _, out, _ = self.run_lines("select 0 10", answer=answer, is_terminal=True)
        self.assertRegex(out, r"^rows 2\n0\.0 7 70\n0\.1 8 -80\n" + time)

    def test_files(self):
        answer = lambda line: ["bye"] if line == "quit" else ["row 0.0"] if line.startswith("insert") else served(line)
        with tempfile.TemporaryDirectory() as name:
            room = pathlib.Path(name)
            (room / "rows.csv").write_bytes(b"\xef\xbb\xbfkey,payload\r\n1,2\r\n")
            (room / "lines").write_text("select 0 10\nx\n.read lines2\nx\n")
            shell, out, errors = self.run_lines(f".load {room}/rows.csv", f".save {room}/all.csv", answer=answer)
            self.assertEqual((out, errors, shell.faults), (f"loaded 1 row\nsaved 3 rows to {room}/all.csv\n", "", 0))
            self.assertEqual((room / "all.csv").read_text(), "key,payload\n7,70\n8,-80\n10,5\n")
            shell, out, _ = self.run_lines(f".read {room}/lines", answer=answer, is_terminal=True)
            self.assertRegex(out, r"lines: statements 3, 2 refused, the first in line 2  \(")
            self.assertEqual((shell.answered, shell.refused, shell.faults), (3, 2, 3))
            (room / "again").write_text(f".read {room}/again\ncount 0 1\n")
            shell, _, errors = self.run_lines(f".read {room}/again", f".read {room}/again", answer=answer)
            said = f"shell: {room}/again: it is already being read\nshell: {room}/again: line 2: refused 1: "
            self.assertEqual(errors.replace(f"{texts.MEANINGS['1']}\n", "\n"), f"{said}\n" * 2)
            refusing = lambda line: ["refused 8"] if line.startswith("select") else answer(line)
            shell, _, errors = self.run_lines(f".save {room}/all.csv", answer=refusing)
            self.assertRegex(errors, "^shell: not saved: select 0 10: refused 8")
            self.assertEqual((room / "all.csv").read_text(), "key,payload\n7,70\n8,-80\n10,5\n")
            self.assertEqual(sorted(it.name for it in room.iterdir()), ["again", "all.csv", "lines", "rows.csv"])

    def test_bail_within_a_file(self):
        answer = lambda line: ["bye"] if line == "quit" else ["refused 1"] if line == "x" else ["count 5"]
        with tempfile.TemporaryDirectory() as name:
            path = pathlib.Path(name) / "lines"
            path.write_text("count 0 1\nx\ncount 0 2\n")
            _, _, errors = self.run_lines(".bail on", f".read {path}", answer=answer)
            self.assertEqual(
                errors,
                f"shell: {path}: line 2: refused 1: 'x' isn't a statement; help lists them\n"
                f"shell: {path} was read up to its line 2, since .bail is on\n",
            )
            self.assertEqual(self.channel.sent, ["count 0 1", "x", "quit"])
            path.write_text("count 0 1\nquit\ncount 0 2\n")
            self.run_lines(f".read {path}", "count 0 3", answer=answer)
            self.assertEqual(self.channel.sent, ["count 0 1", "quit"])


class Signals(unittest.TestCase):
    """What a control-C is."""

    def test_the_second_one_ends_the_shell(self):
        with mock.patch("signal.signal"):
            noting, errors = Interrupts(), io.StringIO()
            noting.check("nothing")
            with contextlib.redirect_stderr(errors):
                noting.tell_once()
                noting.note()
                self.assertEqual(errors.getvalue(), "")
                noting.tell_once()
                noting.tell_once()
            self.assertEqual(errors.getvalue().count("the server hasn't answered yet"), 1)
            self.assertRaisesRegex(texts.Interrupted, "^left$", noting.check, "left")
            self.assertRaises(KeyboardInterrupt, noting.note)
            noting.forget()
            noting.check("nothing")
            noting.note()


class Servers(unittest.TestCase):
    """The server that the shell starts, played by scripts of the system's shell."""

    def setUp(self):
        room = tempfile.TemporaryDirectory()
        self.addCleanup(room.cleanup)
        self.room = pathlib.Path(room.name)

    def script(self, text):
        """A program that notes its words, and then does this."""
        path = self.room / "program"
        path.write_text(f'#!/bin/sh\necho "$@" >> {self.room}/words\n{text}\n')
        path.chmod(0o755)
        return str(path)

    def words(self):
        return (self.room / "words").read_text().splitlines()

    def test_its_words(self):
        waits = f"until [ -e {self.room}/end ]; do sleep 0.01; done"
        program = self.script(f'echo "listening $3"; {waits}; echo accepted 5')
        server = child.Server(program, ["--limit", "5", "10", "20"])
        self.addCleanup(server.end)
        (self.room / "end").touch()
        common = f"serve --port {server.port} --workers 1 --sessions 1 --quiet"
        self.assertEqual(self.words(), [f"{common} --limit 5 10 20"])
        self.assertEqual(server.totals(), "accepted 5")

    def test_a_server_that_does_not_begin(self):
        for text, said in [
            ("echo 'crackd: refused 12' >&2; exit 1", "no server: refused 12: there are more than 63 splits"),
            ("echo 'some words' >&2; echo 'crackd: at last' >&2; exit 1", "no server: at last"),
            ("exit 3", "no server: {} ended with status 3"),
            ("kill -9 $$", "no server: {} was ended by signal 9"),
            ("echo listening 1", "no server: {} ended with status 0"),
        ]:
            program = self.script(text)
            with self.assertRaises(texts.Ended) as caught:
                child.Server(program, [])
            self.assertEqual(str(caught.exception), said.format(program))
        for program in ("missing", "a\0b"):
            with self.assertRaisesRegex(texts.Ended, f"^no server: {program}: "):
                child.Server(program, [])

    def test_a_port_that_is_taken_is_not_the_last_one(self):
        refusing = "echo 'crackd: refused 17' >&2; exit 1"
        program = self.script(f'[ $(wc -l < {self.room}/words) -gt 2 ] && echo "listening $3" || {{ {refusing}; }}')
        server = child.Server(program, [])
        self.addCleanup(server.end)
        self.assertEqual((len(self.words()), f"--port {server.port} " in self.words()[2]), (3, True))
        self.assertEqual(server.totals(), "")
        program = self.script(refusing)
        (self.room / "words").unlink()
        self.assertRaisesRegex(texts.Ended, "^no server: no port was free$", child.Server, program, [])
        self.assertEqual(len(self.words()), 5)

    def test_how_it_ends(self):
        for text, said in [("echo 'crackd: refused 8' >&2; exit 1", "refused 8: memory ran out; no row has changed")]:
            server = child.Server(self.script(f'echo "listening $3"; {text}'), [])
            self.assertEqual(server.why(), said)
            server.end()
            server = child.Server(self.script(f'echo "listening $3"; {text}'), [])
            self.assertRaisesRegex(texts.Ended, f"^{said}$", server.totals)
            server.end()
        server = child.Server(self.script('echo "listening $3"; exec sleep 600'), [])
        self.assertEqual(server.why(), "it cut the session off")
        with mock.patch.object(child, "SECONDS_OF_AN_END", 0.01):
            self.assertRaisesRegex(texts.Ended, "didn't end", server.totals)
        self.assertIsNone(server.process.poll())
        server.end()
        self.assertEqual(server.process.poll(), -9)
        server.end()

    def test_a_control_c_while_it_begins_ends_it(self):
        started = []

        def interrupted(process):
            started.append(process)
            raise KeyboardInterrupt

        program = self.script("exec sleep 600")
        with mock.patch.object(child, "output_of", interrupted):
            self.assertRaises(KeyboardInterrupt, child.Server, program, [])
        self.assertEqual(started[0].poll(), -9)

    def test_a_port_without_a_server(self):
        with self.assertRaisesRegex(texts.Ended, "^no server on port [0-9]+: Connection refused$"):
            child.channel_to(child.free_port(), mock.Mock())


class Programs(unittest.TestCase):
    """The shell as a program: its words, its status, and what it writes."""

    def run_shell(self, words, text=""):
        """The status of the shell, and what it writes to standard output and to standard error."""
        out, errors = io.TextIOWrapper(io.BytesIO()), io.StringIO()
        before = signal.getsignal(signal.SIGINT)
        try:
            with mock.patch("sys.stdin", io.TextIOWrapper(io.BytesIO(text.encode()))):
                with contextlib.redirect_stdout(out), contextlib.redirect_stderr(errors):
                    status = console.main(words)
        except SystemExit as end:
            status = end.code
        finally:
            signal.signal(signal.SIGINT, before)
        return status, out.buffer.getvalue().decode(), errors.getvalue()

    def test_wrong_words(self):
        for words, said in [
            (["--port", "0"], "a port must be 1 to 65535"),
            (["--port", "65536"], "a port must be 1 to 65535"),
            (["--port", "x"], "invalid int value"),
            (["--policy", "some"], "invalid choice"),
            *((["--port", "1", *more], "with --port there is a server already") for more in (
                ["5"], ["--limit", "5"], ["--cells", "5"], ["--life", "5"], ["--program", "x"]
            )),
        ]:
            status, out, errors = self.run_shell(words)
            self.assertEqual((words, status, out, said in errors), (words, 2, "", True))

    def test_no_server(self):
        for port in (1, 65535):
            with mock.patch.object(child, "Channel", side_effect=ConnectionRefusedError(111, "Connection refused")):
                said = f"shell: no server on port {port}: Connection refused\n"
                self.assertEqual(self.run_shell(["--port", str(port)]), (1, "", said))
        self.assertEqual(self.run_shell(["--program", "/no/such"])[::2], (1, (
            "shell: no server: /no/such: No such file or directory\n"
        )))

    def test_a_server_that_leaves(self):
        with ways.standing_in(lambda connection: None, [b"policy auto\n"]) as port:
            status, out, errors = self.run_shell(["--port", str(port), "--policy", "auto"], "count 0 1\n")
            self.assertEqual((status, out, errors), (1, "", "shell: the server left\n"))

    def test_its_server_is_in_a_session_of_its_own(self):
        """No control-C of the terminal reaches it: what was asked is still answered."""
        with tempfile.TemporaryDirectory() as room:
            program, wrote = pathlib.Path(room, "program"), pathlib.Path(room, "session")
            program.write_text(
                f"#!{sys.executable}\nimport os, sys\n"
                f'open({str(wrote)!r}, "w").write(f"{{os.getpid()}} {{os.getsid(0)}} {{os.getpgid(0)}}")\n'
                'print("listening", sys.argv[sys.argv.index("--port") + 1], flush=True)\n'
            )
            program.chmod(0o755)
            served = child.Server(str(program), [])
            self.addCleanup(served.end)
            self.assertEqual([int(it) for it in wrote.read_text().split()], [served.process.pid] * 3)

    @ways.wants_program
    def test_a_server_of_its_own(self):
        for words, text, wanted in [
            ([], "insert 7 70\ncount 0 9\n", (0, "row 0.0\ncount 1\n")),
            (["5"], "insert 7 70\ninsert 4 1", (0, "row 1.0\nrow 0.0\n")),
            (["--cells", "1"], "insert 7 70\ninsert 8 1\n", (1, "row 0.0\nrefused 9\n")),
            (["--limit", "2"], "count 0 1\ncount 0 1\ncount 0 1\n", (1, "count 0\ncount 0\nrefused 6 2\n")),
            (["--life", "1"], "count 0 1\ncount 0 1\n", (1, "count 0\nrefused 10\n")),
        ]:
            self.assertEqual((words, self.run_shell(words, text)), (words, (*wanted, "")))
        status, out, errors = self.run_shell(["5", "5"])
        self.assertEqual((status, out, errors[:27]), (1, "", "shell: no server: refused 11"[:27]))

    @ways.wants_program
    def test_its_policy(self):
        rows = "".join(f"insert {it} 1\n" for it in range(9))
        for policy, pending in [("complete", 0), ("ripple", 8)]:
            _, out, _ = self.run_shell(["--policy", policy], rows + "count 0 1\nlayout 0\n")
            self.assertIn(f" in {pending} ", out)
        with ways.crackd.serve(workers=1) as served:
            for policy, pending, text in [("ripple", 8, rows + "count 0 1\n"), ("complete", 0, "count 1 2\n")]:
                text += "layout 0\n"
                status, out, errors = self.run_shell(["--port", str(served.port), "--policy", policy], text)
                self.assertEqual((status, f" in {pending} " in out and out, errors), (0, out, ""))


if __name__ == "__main__":
    unittest.main()
