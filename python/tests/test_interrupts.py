"""Raises KeyboardInterrupt at each place of a call where the interpreter may check for signals: no row is lost, and
nothing stays locked."""

import contextlib
import dis
import functools
import gc
import inspect
import pathlib
import sys
import threading
import unittest
from unittest import mock

from test_calls import numbers, standing_in
from ways import InProcess, InShards, crackd, wants_library, wants_shards

from crackd import library, pool, progress

PACKAGE, SECONDS = str(pathlib.Path(crackd.__file__).parent), 120
SPLITS = [100, 200]
# the places of a call are over once this many calls in a row weren't interrupted: if shards answer in parallel, this
# thread has more places in some calls than in others
UNTOUCHED = 4


@functools.cache
def places_of(code):
    """Where the interpreter may look for signals while a function runs, beside its calls of other functions of Python
    and of C: at each jump back, and after a call if what handles an error is the same there as at the call."""
    steps = list(dis.get_instructions(code))
    found = {it.offset for it in steps if "JUMP" in it.opname and it.argval < it.offset}
    table = getattr(dis, "_parse_exception_table", lambda _: [])(code)
    handler = lambda at: next(((it.target, it.depth) for it in table if it.start <= at < it.end), None)
    for before, it in zip(steps, steps[1:]):
        if before.opname.startswith("CALL") and handler(before.offset) == handler(it.offset):
            found.add(it.offset)
    return found


def is_own(frame):
    return frame is not None and frame.f_code.co_filename.startswith(PACKAGE)


def is_generator(frame):
    return bool(frame.f_code.co_flags & inspect.CO_GENERATOR)


class Interrupting:
    """Raises a KeyboardInterrupt at a place of this package's own code, by its number in the order of a call."""

    def __init__(self, number):
        self.left, self.has_raised, self.is_unwinding = number, False, False

    def __call__(self, frame, event, _):
        # this is called where a function begins, and for a generator also when it is closed
        self.is_unwinding = False
        if is_own(frame):
            frame.f_trace_opcodes = True
        if is_own(frame) and not is_generator(frame):
            self.pass_place()
        return self.step if is_own(frame) or is_own(frame.f_back) else None

    def step(self, frame, event, _):
        # generators don't count here: one returns to a function of C, which is watched, or to one that yields from it
        if event == "return" and is_own(frame.f_back) and not (self.is_unwinding or is_generator(frame)):
            self.pass_place()
        self.is_unwinding = event == "exception" or event == "return" and self.is_unwinding
        if event == "opcode" and frame.f_lasti in places_of(frame.f_code):
            self.pass_place()
        return self.step

    def profile(self, frame, event, _):
        if event == "c_return" and is_own(frame):
            self.pass_place()

    def pass_place(self):
        self.left -= 1
        if not self.left:
            self.has_raised = True
            raise KeyboardInterrupt

    @contextlib.contextmanager
    def within(self):
        """Watches this thread, while stand-ins call the library."""
        sys.settrace(self), sys.setprofile(self.profile)
        try:
            yield
        finally:
            sys.settrace(None), sys.setprofile(None)

    @contextlib.contextmanager
    def here(self):
        """Watches this thread."""
        with stand_ins(), self.within():
            yield


def stand_ins():
    """Has Python functions call the library, since a call isn't noticed otherwise. Only one thread at a time may do so:
    two that replace the same functions would put them back in the wrong order."""
    return standing_in(**dict.fromkeys(library.FORMS, lambda real, *words: real(*words)))


def in_a_thread(work):
    """What a function returns in another thread."""
    found = []
    thread = threading.Thread(target=lambda: found.append(work()))
    thread.start()
    thread.join(SECONDS)
    return found


class Interrupts:
    """What is done with a table, and checked, after an interrupt at each place."""

    def setUp(self):
        # an earlier table that is collected during a call could be interrupted in its `__del__`, which Python ignores
        gc.collect(), gc.disable()
        self.addCleanup(gc.enable)

    def interrupt(self, call, check, watching=Interrupting.here):
        """Interrupts a call at each of its places. Each time what it returned or raised is checked."""
        number = untouched = 0
        while untouched < UNTOUCHED:
            number += 1
            interrupting = Interrupting(number)
            try:
                with watching(interrupting):
                    found = call()
            except (KeyboardInterrupt, crackd.Refused) as error:
                found = error
            untouched = 0 if interrupting.has_raised else untouched + 1
            with self.subTest(place=number):
                self.assertTrue(not interrupting.has_raised or isinstance(found, KeyboardInterrupt))
                check(found)
        # a large number shows that the places were found
        self.assertGreater(number, 10)

    def check_free(self, table):
        """Nothing is locked, and what is counted beside the library's rows is right."""
        shards = table._shards

        def work():
            return [it._lock.acquire(blocking=False) and not it._lock.release() for it in shards]

        self.assertEqual(in_a_thread(work), [[True] * len(shards)])
        self.assertEqual(pool._within, set())
        self.assertEqual([it.held for it in shards], [it.rows() for it in shards])

    def check_inserts(self, table, call, watching=Interrupting.here):
        """Each row that a call has placed is in its answer, or in the `answers` of its error."""
        placed = set()

        def check(found):
            answers = numbers(getattr(found, "answers", []) if isinstance(found, BaseException) else found)
            rows = numbers(table.select().rows)
            placed.add(len(answers))
            self.check_free(table)
            table.delete_many(rows)
            self.assertEqual(sorted(answers), sorted(rows))

        self.interrupt(call, check, watching)
        return placed


    def check_moves(self, table, key, wanted):
        """A row is moved to a key, or stays, or is put back: its number is the old one, or in `answers`."""
        row, found_keys = [table.insert(5, 50)], set()

        def check(found):
            answers = numbers(getattr(found, "answers", [])) if isinstance(found, BaseException) else [found]
            rows, keys, payloads = map(numbers, table.select(0, 150))
            self.assertEqual((rows, payloads), (answers or row, [50]))
            found_keys.update(keys)
            self.check_free(table)
            table.delete_many(rows)
            row[0] = table.insert(5, 50)

        self.interrupt(lambda: table.move(row[0], key), check)
        self.assertEqual(found_keys, wanted)
        table.delete(row[0])


@wants_library
class OneShard(Interrupts, InProcess, unittest.TestCase):
    """A table of one shard."""

    def test_inserts(self):
        with self.table() as table:
            placed = self.check_inserts(table, lambda: table.insert_many([5, 6, 7], [1, 2, 3]))
        self.assertEqual(placed, {0, 3})

    def test_inserts_that_are_refused(self):
        with self.table(cells=2) as table:
            self.assertEqual(self.check_inserts(table, lambda: table.insert_many([5, 6, 7], [1, 2, 3])), {0, 2})

    def test_inserts_that_are_reported(self):
        for cells, placed in ((100, {0, 2, 4, 5}), (3, {0, 2, 3})):
            with self.subTest(cells), self.table(cells=cells) as table, mock.patch.object(progress, "STEP", 2):
                told = []
                call = lambda: table.insert_rows(range(5), range(5), progress=lambda *it: told.append(it))
                self.assertEqual(self.check_inserts(table, call), placed)
                self.assertEqual(told[-1], (5, 5) if cells == 100 else (2, 5))

    def test_moves(self):
        with self.table(splits=[100, 200], cells=2, shards=1) as table:
            self.check_moves(table, 105, {5, 105})
            table.insert_many([201, 202], [1, 1])
            self.check_moves(table, 203, {5})

    def test_deletes_and_updates_leave_what_is_counted(self):
        with self.table() as table:
            for name in ("delete_many", "update_many", "delete", "update", "insert"):
                rows = numbers(table.insert_many(range(30), range(30)))
                words = {"delete_many": [rows[:20]], "update_many": [rows[:2], [5, 6], [7, 8]]}
                words |= {"delete": [rows[25]], "update": [rows[26], 1, 1], "insert": [1, 1]}
                def check(_):
                    self.check_free(table)
                    words["delete_many"][0][:] = table.insert_many(range(20), range(20))

                with self.subTest(name):
                    self.interrupt(lambda: getattr(table, name)(*words[name]), check)


@wants_shards
class SeveralShards(Interrupts, InShards, unittest.TestCase):
    """A table of several shards."""

    KEYS = [5, 105, 205, 6, 106, 206, 7]

    @contextlib.contextmanager
    def answering(self, how, **options):
        """A table whose shards answer side by side, in turn, or row by row."""
        with self.table(splits=SPLITS, **options) as table, contextlib.ExitStack() as stack:
            if how != "side by side":
                stack.enter_context(mock.patch.object(crackd.table, "LONG", dict.fromkeys(self.ALWAYS, 10**9)))
            if how == "row by row":
                stack.enter_context(mock.patch.object(crackd.table, "FEW_ITEMS", 32))
            yield table

    def test_inserts(self):
        for how in ("side by side", "in turn", "row by row"):
            with self.subTest(how), self.answering(how) as table:
                placed = self.check_inserts(table, lambda: table.insert_many(self.KEYS, self.KEYS))
                self.assertLessEqual({0, 7}, placed)
                if how == "in turn":
                    self.assertEqual(placed, {0, 3, 5, 7})
                elif how == "row by row":
                    self.assertEqual(placed, set(range(8)))

    def test_inserts_that_are_refused(self):
        for how in ("side by side", "in turn", "row by row"):
            with self.subTest(how), self.answering(how, cells=2) as table:
                placed = self.check_inserts(table, lambda: table.insert_many(self.KEYS, self.KEYS))
                self.assertLessEqual({0, 6}, placed)

    def test_inserts_that_are_reported(self):
        with self.answering("in turn") as table, mock.patch.object(progress, "STEP", 4):
            call = lambda: table.insert_rows(self.KEYS, self.KEYS, progress=lambda *_: None)
            self.assertLessEqual({0, 4, 7}, self.check_inserts(table, call))

    def test_inserts_in_a_thread_of_the_pool(self):
        real, main = crackd.table._answer, threading.main_thread()

        @contextlib.contextmanager
        def watching(interrupting):
            has_begun = threading.Event()

            def answer(*words):
                if threading.current_thread() is main:
                    has_begun.wait(SECONDS)
                    return real(*words)
                has_begun.set()
                with interrupting.within():
                    return real(*words)

            with stand_ins(), mock.patch.object(crackd.table, "_answer", answer):
                yield

        with self.answering("side by side") as table:
            self.check_inserts(table, lambda: table.insert_many(self.KEYS, self.KEYS), watching)

    def test_moves(self):
        with self.answering("side by side", cells=2) as table:
            self.check_moves(table, 105, {5, 105})
            table.insert_many([201, 202], [1, 1])
            self.check_moves(table, 203, {5})

    def test_other_calls_leave_nothing_locked(self):
        with self.answering("side by side") as table:
            rows = numbers(table.insert_many(self.KEYS, self.KEYS))
            for name, words in {
                "delete_many": [rows[:5]],
                "update_many": [rows[5:], self.KEYS[5:], [1, 2]],
                "count_many": [[0, 50], [300, 150]],
                "sum_many": [[0, 50], [300, 150]],
                "select": [],
                "settle": [],
                "checkpoint": [],
                "layout": [],
                "mean": [0, 300],
                "delete_range": [0, 300],
            }.items():
                with self.subTest(name):
                    self.interrupt(lambda: getattr(table, name)(*words), lambda _: self.check_free(table))


if __name__ == "__main__":
    unittest.main()
