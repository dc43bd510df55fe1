"""Tables of several shards in one process: what threads, refusals, signals and forks do to calls over them."""

import contextlib
import functools
import gc
import itertools
import os
import random
import signal
import threading
import time
import unittest
from unittest import mock

from test_calls import standing_in
from test_cluster import RandomSteps
from test_forks import in_child, outcome
from test_memory import resident
from test_signals import Signalling, handling
from test_table import numbers
from ways import InShards, crackd, np, wants_shards

from crackd import library, local, pool, routing

# seconds after which a test that hangs fails
SPLITS, EACH, WAIT = [100, 200], 40, 120
# keys of each of three shards in turn
KEYS = [shard * 100 + it for it in range(EACH) for shard in range(3)]


def setUpModule():
    """A control-C is a KeyboardInterrupt, also where the tests are a job in the background, which ignores it."""
    before = signal.signal(signal.SIGINT, signal.default_int_handler)
    unittest.addModuleCleanup(signal.signal, signal.SIGINT, before)


def stopping(table, shard, count, code=8):
    """Has a shard be refused after this many items of each insert_many, delete_many or update_many."""
    handle = table._shards[shard]._handle

    def call(real, *words):
        if words[0]._obj is not handle:
            return real(*words)
        lists = [count if at % 2 else it for at, it in enumerate(words[1:-1])]
        real(words[0], *lists, words[-1])
        return code

    return standing_in(insert_many=call, delete_many=call, update_many=call)


def stopping_one(table, shard):
    """Has a shard be refused each single insertion."""
    handle = table._shards[shard]._handle
    return standing_in(insert=lambda real, *words: 8 if words[0]._obj is handle else real(*words))


@wants_shards
class Openings(unittest.TestCase):
    """How many shards a table has."""

    def test_by_default(self):
        for processors, rows, shards in [
            (4, 0, 1),
            (4, 99_999, 1),
            (4, 100_000, 2),
            (4, 199_999, 3),
            (4, 10**7, 4),
            (1, 10**7, 1),
            (64, 10**7, 16),
        ]:
            with mock.patch.object(crackd.table, "processors", lambda count=processors: count):
                with self.subTest(processors=processors, rows=rows), crackd.Table(range(10**4), rows) as table:
                    self.assertEqual(table.shards, shards)
        with mock.patch.object(crackd.table, "processors", lambda: 4):
            for options, shards in [({"partitions": 1}, 1), ({"partitions": 2}, 2), ({"splits": [5, 6]}, 3)]:
                with self.subTest(options), crackd.Table(range(10**4), 10**6, **options) as table:
                    self.assertEqual(table.shards, shards)
            with crackd.Table(rows=10**7) as table:
                self.assertEqual((table.shards, table.partitions), (1, 1))

    def test_partitions_of_each(self):
        for rows, shards, parts in [(10**6, 4, 4 * 61), (10**7, 4, 4 * 64), (50_000, 4, 4 * 3), (100, 3, 3)]:
            with self.subTest(rows), crackd.Table(range(10**4), rows, shards=shards) as table:
                self.assertEqual((table.shards, table.partitions), (shards, parts))
                self.assertEqual([len(it.cuts) + 1 for it in table._shards], [parts // shards] * shards)
        with crackd.Table([7] * 100, shards=4) as table:
            self.assertEqual((table.shards, table.partitions), (2, 2))

    def test_more_partitions_than_there_can_be_shards(self):
        with crackd.Table(splits=range(1, 1500), shards=30) as table:
            self.assertEqual((table.shards, table.partitions), (30, 1500))
            rows = table.insert_many([1499, 0, 700], [3, 1, 2])
            self.assertEqual([table.get(it) for it in rows.tolist()], [(1499, 3), (0, 1), (700, 2)])
            self.assertEqual(table.count_many([0, 1], [1499, None]).tolist(), [2, 2])
        for splits in ([0, 5], [5, 5], [6, 5], range(1, 200)):
            self.assertRaises(crackd.BadSplits, crackd.Table, splits=splits, shards=2, key_type="uint64")

    def test_an_opening_that_fails_leaves_nothing_open(self):
        closed = []

        def close(real, *words):
            closed.append(words[0])
            return real(*words)

        calls = []

        def open_(real, *words):
            calls.append(words[0])
            return real(*words) if len(calls) < 3 else 8

        with standing_in(open=open_, close=close), self.assertRaises(crackd.OutOfMemory) as caught:
            crackd.Table(splits=SPLITS, shards=3)
        # the error's traceback still refers to the table, so it was closed and not only collected
        self.assertEqual((len(calls), len(closed), caught.exception.code), (3, 2, 8))


@wants_shards
class Rows(InShards, unittest.TestCase):
    """Row numbers, keys and ranges over several shards."""

    def test_random_steps_agree_with_a_list(self):
        for at_once in (True, False):
            with self.subTest(at_once), contextlib.ExitStack() as stack:
                if at_once:
                    table = stack.enter_context(self.table(range(1000), 40_000, history=100))
                else:
                    table = stack.enter_context(crackd.Table(range(1000), 40_000, history=100, shards=3))
                self.assertEqual(table.partitions, 3 * 3)
                steps = RandomSteps(self, table, random.Random(6))
                for _ in range(1500):
                    steps.step()

    def test_arrays_are_cut_and_put_together_again(self):
        rng = np.random.default_rng(4)
        for shards in (1, 2, 5, 40):
            keys, payloads = rng.integers(-(2**62), 2**62, 30_000), rng.integers(-1000, 1000, 30_000)
            with self.subTest(shards), crackd.Table.from_arrays(keys, payloads, shards=shards) as table:
                self.assertEqual((table.shards, len(np.unique(table.row_numbers))), (shards, 30_000))
                found = table.select()
                at = {row: it for row, it in zip(numbers(found.rows), zip(found.keys, found.payloads))}
                self.assertEqual([at[it] for it in numbers(table.row_numbers)], list(zip(keys, payloads)))
                # rows of the same shard and partition have their numbers in the order of the arrays
                whose = table.row_numbers >> np.uint64(routing.SHARD_SHIFT)
                parts = table.row_numbers >> np.uint64(48)
                for part in np.unique(parts):
                    self.assertTrue((np.diff(table.row_numbers[parts == part].astype(np.int64)) > 0).all())
                self.assertEqual(len(np.unique(whose)), shards)

    def test_a_shard_is_asked_only_for_its_keys(self):
        with self.table(splits=SPLITS) as table:
            table.insert_many(KEYS, KEYS)
            table.settle()
            table.count_many([50, 120, 0], [150, 250, 300]), table.count(50, 250), table.sum(20, 280)
            table.select(99, 201), table.sum_many([100, 101], [200, 199])
            for part in table.layout().parts:
                low, high = part.ends
                self.assertTrue(all(low <= it.low < it.high <= high for it in part.pieces))
            bounds = [[piece.low - 2**63 for piece in it.layouts()[0].pieces[1:]] for it in table._shards]
            wanted = [[0, 20, 50, 99], [100, 101, 120, 150, 199, 200], [201, 250, 280, 300]]
            self.assertEqual(bounds, wanted)

    def test_calls_of_several_steps_hold_each_shard(self):
        for shards in (1, 3, 4, 5, 9):
            with self.subTest(shards), crackd.Table(splits=range(1, shards), shards=shards) as table:

                def held():
                    return [it.is_asking for it in table._shards]

                def steps():
                    yield None
                    return held()

                self.assertEqual(table._drive(table._alone_steps(steps())), [True] * shards)
                self.assertEqual(held(), [False] * shards)

    def test_a_move_holds_both_shards_from_its_first_step_to_its_last(self):
        with self.table(splits=SPLITS) as table:
            held = []

            def noting(real):
                def call(shard, *words):
                    held.append([it.is_asking for it in table._shards])
                    return real(shard, *words)

                return call

            steps = {name: noting(getattr(local.LocalShard, name)) for name in ("take_into", "place")}
            row = table.insert(5, 7)
            for key, both in [(250, [0, 2]), (150, [1, 2]), (160, [1]), (20, [0, 1])]:
                with self.subTest(key), mock.patch.multiple(local.LocalShard, **steps):
                    row = table.move(row, key)
                self.assertEqual(held, [[it in both for it in range(3)]] * 2)
                held.clear()
            with mock.patch.multiple(local.LocalShard, **steps), stopping_one(table, 2):
                self.assertRaises(crackd.OutOfMemory, table.move, row, 250)
            # the row is deleted, refused with its new key, and inserted again
            self.assertEqual(held, [[True, False, True]] * 3)
            self.assertEqual((table.count(), table.sum(20, 21)), (1, 7))

    def test_rows_of_other_shards(self):
        with self.table(splits=SPLITS) as table:
            row, other = table.insert(5, 50), table.insert(150, 60)
            self.assertEqual((row >> 54, other >> 54), (0, 1))
            for call, kind in [
                (lambda: table.update(row, 150, 1), crackd.WrongPartition),
                (lambda: table.update_many([row], [150], [1]), crackd.WrongPartition),
                (lambda: table.update_many([row | 1 << 48], [150], [1]), crackd.NoSuchPartition),
                (lambda: table.update(row | 1 << 48, 150, 1), crackd.NoSuchPartition),
                (lambda: table.update(3 << 54, 5, 1), crackd.NoSuchPartition),
                (lambda: table.delete(3 << 54), crackd.NoSuchPartition),
                (lambda: table.delete(1 << 54 | 1 << 48), crackd.NoSuchPartition),
                (lambda: table.delete_many([row + 1, 3 << 54]), crackd.NoSuchPartition),
            ]:
                self.assertRaises(kind, call)
            self.assertEqual((table.sum(), table.update(other, 160, 7), table.sum(160, 161)), (110, True, 7))
            table.close()
            self.assertRaises(crackd.Closed, table.delete, 3 << 54)
            self.assertRaises(crackd.Closed, table.update, row, 150, 1)
            self.assertRaises(crackd.Closed, table.update, row, 5, 1)


@wants_shards
class Orders(InShards, unittest.TestCase):
    """The order in which shards are asked, and items within a shard."""

    def test_items_of_a_shard_keep_their_order(self):
        drawn = random.Random(5)
        for shards in (2, 16, 17, 40):
            with self.subTest(shards=shards), self.table(splits=range(10, 10 * shards, 10), shards=shards) as table:
                keys = [drawn.randrange(10 * shards) for _ in range(3000)]
                rows = numbers(table.insert_many(keys, range(3000)))
                # a row number has its partition above 48 bits, and below a serial, which rises with each insert
                serials = {}
                for row, key in zip(rows, keys):
                    self.assertEqual(row, (key // 10) << 54 | serials.setdefault(key // 10, 0))
                    serials[key // 10] += 1
                again = [drawn.randrange(3000) for _ in range(9000)]
                last = dict(zip(range(3000), range(3000))) | {at: -it for it, at in enumerate(again)}
                words = [rows[it] for it in again], [keys[it] for it in again], [-it for it in range(9000)]
                self.assertTrue(all(table.update_many(*words)))
                found = table.select()
                wanted = {rows[at]: it for at, it in last.items()}
                self.assertEqual(dict(zip(numbers(found.rows), numbers(found.payloads))), wanted)
                twice = [rows[it] for it in again[:200] * 2]
                gone = [row not in twice[:at] for at, row in enumerate(twice)]
                self.assertEqual(list(table.delete_many(twice)), gone)

    def test_a_move_locks_the_lower_shard_first(self):
        # otherwise two moves in opposite directions could deadlock
        with self.table(splits=SPLITS) as table:
            for origin, target in itertools.product((50, 150, 250), repeat=2):
                row, locked = table.insert(origin, 1), []
                with contextlib.ExitStack() as stack:
                    for at, it in enumerate(table._shards):
                        alone = functools.partial(lambda at, alone: (locked.append(at), alone())[1], at, it.alone)
                        stack.enter_context(mock.patch.object(it, "alone", alone))
                    self.assertTrue(table.delete(table.move(row, target)))
                self.assertEqual(locked, sorted((origin // 100, target // 100)))


@wants_shards
class Refusals(InShards, unittest.TestCase):
    """A shard that is refused amid others: the others have done their items, and the error says which."""

    def test_inserts(self):
        for shard, count in [(0, 0), (1, 5), (2, EACH - 1)]:
            with self.subTest(shard=shard, count=count), self.table(splits=SPLITS) as table:
                with stopping(table, shard, count), self.assertRaises(crackd.OutOfMemory) as caught:
                    table.insert_many(KEYS, KEYS)
                error, done = caught.exception, 3 * count + shard
                self.assertEqual((error.code, error.done, error.later), (8, done, 2 * EACH + count - done))
                found = table.select()
                self.assertEqual(set(numbers(error.answers)), set(numbers(found.rows)))
                # the row numbers are in the order of the given keys
                key = dict(zip(numbers(found.rows), numbers(found.keys)))
                placed = [it for it in KEYS if it // 100 != shard] + [it for it in KEYS if it // 100 == shard][:count]
                self.assertEqual([key[it] for it in numbers(error.answers)], sorted(placed, key=KEYS.index))

    def test_deletes_and_updates(self):
        for name in ("delete_many", "update_many"):
            for shard, count in [(0, 0), (1, 5), (2, EACH - 1)]:
                with self.subTest(name, shard=shard, count=count), self.table(splits=SPLITS) as table:
                    rows = table.insert_many(KEYS, [1] * len(KEYS))
                    words = (rows,) if name == "delete_many" else (rows, KEYS, [0] * len(KEYS))
                    with stopping(table, shard, count), self.assertRaises(crackd.OutOfMemory) as caught:
                        getattr(table, name)(*words)
                    error, done = caught.exception, 3 * count + shard
                    self.assertEqual((error.code, error.done, error.later), (8, done, 2 * EACH + count - done))
                    self.assertEqual(table.sum(), EACH - count)
                    self.assertEqual(table.sum(shard * 100, shard * 100 + 100), EACH - count)

    def test_the_first_row_that_is_refused_says_why(self):
        # an existing row, a row whose new key belongs to another shard, and two numbers that no row can have
        with self.table(splits=SPLITS) as table:
            row = int(table.insert_many([150], [1])[0])
            rows = {0: (row, 150), 4: (row, 250), 5: (9 << 54, 150), -5: (row | 1 << 48, 150)}
            for count in (1, 40):
                for order in itertools.permutations([0] * 2 + [4, 5, -5], 3):
                    codes = [*order] * count
                    words = [rows[it][0] for it in codes], [rows[it][1] for it in codes], [2] * len(codes)
                    first = next(it for it in range(len(codes)) if codes[it])
                    with self.assertRaises(crackd.Refused) as caught:
                        table.update_many(*words)
                    error = caught.exception
                    self.assertEqual((error.code, error.done, error.later), (abs(codes[first]), first, 0))

    def test_queries(self):
        with self.table(splits=SPLITS) as table:
            table.insert_many(KEYS, KEYS)
            handle = table._shards[1]._handle

            def call(real, *words):
                if words[0]._obj is not handle:
                    return real(*words)
                words[-1]._obj.value = 1
                return 8

            with standing_in(count_many=call, sum_many=call, select=call, count=call):
                for ask in (table.count_many, table.sum_many):
                    with self.assertRaises(crackd.OutOfMemory) as caught:
                        ask([0, 0, 0, 120, 200], [50, 300, 60, 150, 250])
                    self.assertEqual((caught.exception.done, caught.exception.later), (3, 0))
                self.assertRaises(crackd.OutOfMemory, table.select)
                self.assertEqual((table.count(0, 50), table.count(200), len(table)), (EACH, EACH, 3 * EACH))

    def test_few_inserts(self):
        with crackd.Table(splits=SPLITS, shards=3, cells=2) as table:
            with self.assertRaises(crackd.Full) as caught:
                table.insert_many([5, 105, 6, 106, 7, 205], [1] * 6)
            error = caught.exception
            self.assertEqual((error.done, error.later, len(error.answers), table.count(205)), (4, 0, 4, 0))
            self.assertEqual(set(numbers(error.answers)), set(numbers(table.select().rows)))
            table.close()
            self.assertRaises(crackd.Closed, table.insert_many, [], [])

    def test_inserts_that_are_reported(self):
        with self.table(splits=SPLITS, cells=2) as table, mock.patch("crackd.progress.STEP", 4):
            with self.assertRaises(crackd.Full) as caught:
                table.insert_rows([205, 206, 105, 5, 6, 7, 106], [1] * 7, progress=lambda *_: None)
            error = caught.exception
            self.assertEqual((error.done, error.later, len(error.answers), table.count()), (5, 1, 6, 6))

    def test_a_full_shard(self):
        with self.table(splits=SPLITS, cells=10) as table:
            with self.assertRaises(crackd.Full) as caught:
                table.insert_many([5, 150, *range(101, 111), 250, 6], [1] * 14)
            error = caught.exception
            self.assertEqual((error.code, error.done, error.later, len(error.answers)), (9, 11, 2, 13))
            self.assertEqual((table.count(), list(table.delete_many(error.answers))), (13, [True] * 13))

    def test_a_shard_that_is_closed_amid(self):
        with self.table(splits=SPLITS) as table:
            table._shards[1].close()
            with self.assertRaises(crackd.Closed) as caught:
                table.insert_many(KEYS, KEYS)
            self.assertEqual(len(caught.exception.answers), 2 * EACH)
            for call in (table.count, table.select, table.settle, lambda: table.count_many([0], [300])):
                self.assertRaises(crackd.Closed, call)


@wants_shards
class Lengths(unittest.TestCase):
    """Which calls are long enough for several threads."""

    def test_calls_that_run_side_by_side(self):
        rounds, keys, real = [], np.arange(30_000), pool.run_side_by_side

        def run(jobs, *words):
            rounds.append(sorted(jobs))
            real(jobs, *words)

        recorded = mock.patch.object(crackd.table, "run_side_by_side", run)
        with crackd.Table.from_arrays(keys, shards=3) as table, recorded:
            middle = int(table._shard_cuts[0] - np.uint64(2**63))
            for call, shards in [
                (lambda: table.insert_many(keys[:10], keys[:10]), None),
                (lambda: table.insert_many(keys[::16], keys[::16]), None),
                (lambda: table.insert_many(keys[::15], keys[::15]), [0, 1, 2]),
                (lambda: table.insert_many(keys[:2000], keys[:2000]), None),
                (lambda: table.count_many(keys[::151], keys[::151] + 1), None),
                (lambda: table.count_many(keys[::150], keys[::150] + 1), [0, 1, 2]),
                (lambda: table.sum_many([5], [30_000]), None),
                (lambda: table.count(), None),
                (lambda: table.select(), [0, 1, 2]),
                (lambda: table.select(middle - 5, middle + 5), None),
                (lambda: table.select(5, 10_005), None),
                (lambda: table.settle(), [0, 1, 2]),
                (lambda: table.layout(), [0, 1, 2]),
                (lambda: len(table), None),
                (lambda: table.delete_many(table.row_numbers[::10]), [0, 1, 2]),
            ]:
                rounds.clear()
                call()
                self.assertEqual(rounds, [] if shards is None else [shards])


@wants_shards
class Signals(InShards, unittest.TestCase):
    """Signals during a call over several shards."""

    def signalled(self, name, number):
        """Lets a signal interrupt a function of the library, in whatever thread it runs."""
        return mock.patch.object(library.library(), name, Signalling(getattr(library.library(), name), number))

    def test_an_interrupted_insert_gives_back_its_rows(self):
        for at_once in (True, False):
            with self.subTest(at_once), self.table(splits=SPLITS) as table, contextlib.ExitStack() as stack:
                if not at_once:
                    stack.enter_context(mock.patch.object(crackd.table, "LONG", dict.fromkeys(self.ALWAYS, 10**9)))
                with self.signalled("insert_many", signal.SIGINT), self.assertRaises(KeyboardInterrupt) as caught:
                    table.insert_many(KEYS, KEYS)
                answers = numbers(caught.exception.answers)
                self.assertEqual(set(answers), set(numbers(table.select().rows)))
                self.assertGreaterEqual(len(answers), EACH)
                self.assertEqual(list(table.delete_many(answers)), [True] * len(answers))

    def test_a_handler_asks_while_shards_answer(self):
        for name, call in {
            "insert_many": lambda table: table.insert_many(KEYS, KEYS),
            "count_many": lambda table: table.count_many([0, 150], [250, 300]),
            "count": lambda table: table.count(0, 300),
            "select": lambda table: table.select(),
        }.items():
            asked, told = [], []

            def ask(*_):
                # the calls of the handler are interrupted as well
                if not asked:
                    asked.append(None)
                    table.insert_many([7, 107, 207], [1, 1, 1])
                    told.append((sum(table.count_many([7, 107], [8, 208])), len(table.select(7, 8).rows)))

            with self.subTest(name), self.table(splits=SPLITS) as table, handling(signal.SIGUSR1, ask):
                with self.signalled(name, signal.SIGUSR1):
                    call(table)
                self.assertEqual(len(told), 1)
                self.assertGreaterEqual(table.count(7, 8), 1)

    def test_a_handler_asks_while_its_thread_waits(self):
        told, is_in = [], threading.Event()

        def ask(*_):
            told.append(table.sum_many([0, 100, 200], [100, 200, 300]))
            is_in.set()

        def call(real, *words):
            if threading.current_thread() is not threading.main_thread():
                os.kill(os.getpid(), signal.SIGUSR1)
                # the handler waits for this shard's lock, which this thread holds, so this wait must end
                is_in.wait(0.2)
            return real(*words)

        with self.table(splits=SPLITS) as table, handling(signal.SIGUSR1, ask):
            with standing_in(insert_many=call):
                table.insert_many(KEYS, [1] * len(KEYS))
            self.assertEqual(table.count(), len(KEYS))
            for sums in told:
                self.assertTrue(all(it in (0, EACH) for it in sums))


@wants_shards
class Processes(InShards, unittest.TestCase):
    """Forked children, and what a process keeps."""

    def test_a_child_has_threads_of_its_own(self):
        def work():
            barrier, answers = threading.Barrier(2, timeout=WAIT), {}
            pool.run_side_by_side({0: barrier.wait, 1: barrier.wait}, answers, {})
            with crackd.Table(splits=SPLITS, shards=3) as other:
                other.insert_many(KEYS, KEYS)
                told = [str(sorted(answers.values())), str(other.sum())]
                return [*told, *(outcome(it, *words) for it, *words in calls)]

        with self.table(splits=SPLITS) as table:
            table.insert_many(KEYS, KEYS)
            calls = [(table.insert_many, KEYS, KEYS), (table.select,), (table.settle,), (table.count_many, [0], [300])]
            self.assertEqual(in_child(work), ["[0, 1]", str(sum(KEYS)), *["Forked"] * len(calls)])
            self.assertEqual(table.sum(), sum(KEYS))

    def test_a_child_that_is_forked_amid(self):
        with self.table(splits=SPLITS) as table:
            is_over = threading.Event()

            def work():
                while not is_over.is_set():
                    table.insert_many(KEYS, KEYS), table.count_many([0, 50], [250, 300])

            threads = [threading.Thread(target=work) for _ in range(3)]
            for it in threads:
                it.start()
            try:
                for _ in range(10):
                    found = in_child(lambda: [outcome(table.count), outcome(table._shards[1].count, 1, 2)])
                    self.assertEqual(found, ["Forked"] * 2)
            finally:
                is_over.set()
                for it in threads:
                    it.join()

    def test_nothing_is_kept(self):
        keys = np.arange(20_000)
        for number in range(200):
            table = crackd.Table.from_arrays(keys, shards=4)
            for _ in range(5):
                table.count_many(keys[:300], keys[:300] + 50), table.select(0, 10_000)
            if number % 2:
                table.close()
            del table
            if number == 40:
                gc.collect()
                before, threads = resident(), threading.active_count()
        gc.collect()
        self.assertLess(resident() - before, 20_000_000)
        self.assertLessEqual(threading.active_count(), max(threads, pool.processors() + 1))

    def test_arrays_that_shrink_meanwhile(self):
        keys, payloads = np.array(KEYS), np.array(KEYS)

        def call(real, *words):
            keys.resize(0, refcheck=False), payloads.resize(0, refcheck=False)
            return real(*words)

        with self.table(splits=SPLITS) as table:
            with standing_in(insert_many=call):
                rows = table.insert_many(keys, payloads)
            self.assertEqual((len(rows), table.sum()), (len(KEYS), sum(KEYS)))
            shard = table._shards[0]
            for words in [(keys, payloads), (np.arange(6)[::2], np.arange(3)), (np.ones((1, 1), np.uint64), payloads)]:
                with contextlib.suppress(crackd.Error, ValueError):
                    shard.insert_many(*words)
            self.assertRaises(crackd.Refused, shard.insert_many, np.arange(3, dtype=np.uint64), np.arange(2))


@wants_shards
class Pool(unittest.TestCase):
    """Jobs side by side."""

    def run_jobs(self, jobs):
        answers, errors = {}, {}
        pool.run_side_by_side(jobs, answers, errors)
        return answers, errors

    def test_answers_and_errors(self):
        def fail(it):
            raise ValueError(it)

        jobs = {it: (lambda it=it: it * 10 if it % 3 else fail(it)) for it in range(50)}
        answers, errors = self.run_jobs(jobs)
        self.assertEqual(answers, {it: it * 10 for it in range(50) if it % 3})
        self.assertEqual({it: error.args for it, error in errors.items()}, {it: (it,) for it in range(0, 50, 3)})

    def test_two_run_at_once(self):
        barrier = threading.Barrier(2, timeout=WAIT)
        answers, errors = self.run_jobs({0: barrier.wait, 1: barrier.wait})
        self.assertEqual((sorted(answers.values()), errors), ([0, 1], {}))

    def test_a_call_amid_runs_in_turn(self):
        threads = []

        def inner():
            # long enough for another thread to take a job
            time.sleep(0.02)
            threads.append(threading.get_ident())

        def outer():
            pool.run_side_by_side({it: inner for it in range(5)}, {}, {})

        pool._within.add(threading.get_ident())
        try:
            outer()
        finally:
            pool._within.discard(threading.get_ident())
        self.assertEqual(threads, [threading.get_ident()] * 5)

    @contextlib.contextmanager
    def helpers(self, most):
        """Lets a pool have no more than this many threads."""
        start, started = pool._thread.start_new_thread, []

        def started_new(*words):
            if len(started) == most:
                raise RuntimeError("can't start new thread")
            started.append(start(*words))

        fresh = mock.patch.object(pool, "_helpers", pool.Helpers())
        with fresh, mock.patch.object(pool._thread, "start_new_thread", started_new):
            yield

    def test_without_threads(self):
        with self.helpers(0):
            answers, errors = self.run_jobs({it: threading.get_ident for it in range(4)})
            self.assertEqual((set(answers.values()), len(answers), errors), ({threading.get_ident()}, 4, {}))
            self.assertTrue(pool._helpers._works.empty())

    def test_there_are_no_more_threads_than_processors(self):
        for processors in (1, 3):
            with self.helpers(10), mock.patch.object(pool, "processors", lambda: processors):
                for jobs, count in [(2, 1), (10, processors), (2, processors), (10, processors)]:
                    self.run_jobs({it: threading.get_ident for it in range(jobs)})
                    self.assertEqual(pool._helpers.count, count)

    def test_what_ends_a_thread_of_the_pool_ends_the_call(self):
        def own(it):
            if threading.current_thread() is threading.main_thread():
                return has_raised.wait(WAIT)
            has_raised.set()
            raise SystemExit(it)

        for _ in range(3):
            has_raised = threading.Event()
            with self.assertRaises(SystemExit):
                self.run_jobs({it: (lambda it=it: own(it)) for it in range(2)})
        # the threads of the pool go on
        self.test_two_run_at_once()

    def test_an_interruption_waits_for_what_runs(self):
        steps, begun = [], threading.Event()

        def helped():
            begun.set()
            time.sleep(0.3)
            steps.append("ended")

        def own():
            if threading.current_thread() is not threading.main_thread():
                return helped()
            begun.wait(WAIT)
            raise KeyboardInterrupt

        answers, errors = {}, {}
        with self.helpers(1), self.assertRaises(KeyboardInterrupt):
            pool.run_side_by_side({0: own, 1: own, 2: own}, answers, errors)
        # the third job isn't begun
        self.assertEqual((steps, len(answers)), (["ended"], 1))
        self.assertEqual([type(it) for it in errors.values()], [KeyboardInterrupt])
        self.assertEqual(pool._within, set())

    def test_what_has_not_begun_stays_undone(self):
        done = []

        def stop():
            raise KeyboardInterrupt

        with self.helpers(0), self.assertRaises(KeyboardInterrupt):
            pool.run_side_by_side({0: lambda: done.append(0), 1: stop}, {}, {})
        with self.assertRaises(KeyboardInterrupt):
            pool.run_in_turn({0: stop, 1: lambda: done.append(1)}, {}, {})
        self.assertEqual(done, [])


if __name__ == "__main__":
    unittest.main()
