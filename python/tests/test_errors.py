"""The types and texts of errors, and what copies of them keep."""

import copy
import gc
import pickle
import unittest
import weakref

from clusters import cluster
from ways import InProcess, InShards, OverTcp, crackd, np, wants_library, wants_numpy, wants_program, wants_shards

import crackd.shell.texts
from crackd import errors

# the error of each refusal by its code, and the built-in error that it also is
KINDS = {
    4: (crackd.WrongPartition, ValueError),
    5: (crackd.NoSuchPartition, LookupError),
    6: (crackd.HistoryFull, Exception),
    8: (crackd.OutOfMemory, MemoryError),
    9: (crackd.Full, Exception),
    10: (crackd.LifeOver, Exception),
    11: (crackd.BadSplits, ValueError),
    12: (crackd.BadSplits, ValueError),
    14: (crackd.BadLimit, ValueError),
}
OTHERS = (1, 2, 7, 13, 17, 99, 102, 103, 104)


def all_below(kind):
    """All classes that derive from a class."""
    for it in kind.__subclasses__():
        yield it
        yield from all_below(it)


class Kinds(unittest.TestCase):
    """The errors of the package."""

    def test_what_each_is(self):
        for code in (*KINDS, *OTHERS):
            kind, also = KINDS.get(code, (crackd.Refused, Exception))
            for done, later in [(0, 0), (3, 0), (0, 4), (5, 6)]:
                error = errors.refused(code, done, later)
                self.assertIs(type(error), kind)
                self.assertIsInstance(error, also)
                self.assertIsInstance(error, crackd.Refused)
                self.assertEqual((error.code, error.done, error.later, error.answers), (code, done, later, None))
        for kind, also in [
            (crackd.Closed, ValueError),
            (crackd.Disconnected, ConnectionError),
            (crackd.TimedOut, crackd.Disconnected),
            (crackd.TimedOut, TimeoutError),
            (crackd.Busy, RuntimeError),
            (crackd.Forked, RuntimeError),
            (crackd.BadSave, crackd.Error),
            (crackd.CsvError, crackd.Error),
            (crackd.NoServer, crackd.Error),
        ]:
            self.assertTrue(issubclass(kind, also) and issubclass(kind, crackd.Error), (kind, also))

    def test_what_each_says(self):
        words = {4: "partition", 5: "no such partition", 6: "history", 8: "memory", 9: "cells", 10: "commands"}
        words |= {2: "low end", 11: "splits", 12: "63 splits", 14: "limit", 17: "port", 99: "unknown"}
        for code, word in words.items():
            self.assertRegex(str(errors.refused(code)), f"^refused {code}: .*{word}")
            self.assertNotIn("done", str(errors.refused(code)))
        for done, later, said in [
            (3, 0, " (after 3 that were done)"),
            (0, 4, " (after 0 that were done, and 4 later)"),
            (5, 6, " (after 5 that were done, and 6 later)"),
        ]:
            self.assertTrue(str(errors.refused(8, done, later)).endswith(f"ran out{said}"))

    def test_copies(self):
        """Of each error of the package, with all that a call has added to it."""
        made = [errors.refused(code, 3, 4) for code in (*KINDS, *OTHERS)]
        made.append(crackd.CsvError("rows.csv", 3, 2, "price", "'x' isn't an integer"))
        others = set(all_below(crackd.Error)) - {type(it) for it in made}
        made += [it("words") for it in others if it.__name__ not in ("Refused", "ShardLost", "LoadFailed")]
        if cluster is not None:
            made.append(crackd.shard.LoadFailed(3, "it is gone"))
        made.append(errors.ShardLost(3, 5, None, "keys from 5", "it is gone"))
        self.assertGreaterEqual(len(made), 28)
        self.assertEqual(set(all_below(crackd.Error)) - {type(it) for it in made}, set())
        for error in made:
            error.answers, error.row = [7, 8], crackd.Row(5, 7)
            copies = [copy.copy(error), copy.deepcopy(error)]
            copies += [pickle.loads(pickle.dumps(error, at)) for at in (0, 2, pickle.HIGHEST_PROTOCOL)]
            for found in copies:
                self.assertIs(type(found), type(error))
                self.assertEqual((str(found), vars(found), found.args), (str(error), vars(error), error.args))
                with self.assertRaises(type(error)):
                    raise found
        found = made[-1].copied([9])
        self.assertEqual((str(found), found.answers, made[-1].answers), (str(made[-1]), [9], [7, 8]))
        self.assertEqual((found.shard, found.low, found.high, found.copied().answers), (3, 5, None, None))


class Raised:
    """Errors that calls raise."""

    def test_an_error_in_a_with_is_raised_and_closes_the_table(self):
        for kind in (KeyError, crackd.Closed, KeyboardInterrupt, SystemExit, GeneratorExit):
            with self.assertRaises(kind), self.table() as made:
                with made as table:
                    self.assertIs(table, made)
                    raise kind
            self.assertRaises(crackd.Closed, made.count)

    def test_lengths_that_differ_are_named(self):
        with self.table(key_type="int64") as table:
            rows = table.insert_many([1, 2], [1, 2])
            for call, words, said in [
                (table.insert_many, ([1, 2, 3], [1]), "3 keys and 1 payloads"),
                (table.insert_rows, ([1], [1, 2, 3, 4]), "1 keys and 4 payloads"),
                (table.update_many, (rows, [1], [1, 2, 3]), "2 row numbers, 1 keys and 3 payloads"),
                (table.update_many, (rows, [1, 2], [1, 2, 3]), "2 row numbers, 2 keys and 3 payloads"),
                (table.update_many, ([1], [1, 2], [1]), "1 row numbers, 2 keys and 1 payloads"),
                (table.count_many, ([1, 2], [3]), "2 low ends and 1 high ends"),
                (table.sum_many, ([1], [3, 4, 5]), "1 low ends and 3 high ends"),
                (table.count_by, ([5],), "two edges, not 1"),
            ]:
                self.assertRaisesRegex(ValueError, said, call, *words)
            for call in (table.count_many, table.sum_many):
                self.assertRaisesRegex(TypeError, "low ends or high ends", call, None, None)
            self.assertEqual((table.sum(), table.count()), (3, 2))

    def test_what_is_wrong_is_named(self):
        with self.table(key_type="int64") as table:
            for call, words, kind, said in [
                (table.insert, ("5", 1), TypeError, "a key must be an integer, not of type str"),
                (table.insert, (5, "1"), TypeError, "a payload must be an integer, not of type str"),
                (table.delete, (0.5,), TypeError, "a row number must be an integer, not of type float"),
                (table.insert, (2**63, 1), OverflowError, f"the key {2**63} doesn't fit into a signed"),
                (table.insert, (1, -(2**63) - 1), OverflowError, f"the payload {-(2**63) - 1} doesn't fit"),
                (table.delete, (2**64,), OverflowError, f"the row number {2**64} doesn't fit into an unsigned"),
                (table.insert_many, ([2**63], [1]), OverflowError, "keys must fit into signed"),
                (table.insert_many, ([1], [2**63]), OverflowError, "payloads must fit into signed"),
                (table.delete_many, ([-1],), OverflowError, "row numbers must fit into unsigned"),
                (table.insert_many, ([1], "1"), TypeError, "payloads must be in a list or an array, not in str"),
                (table.insert_many, (b"1", [1]), TypeError, "keys must be in a list or an array, not in bytes"),
                (table.delete_many, (["1"],), TypeError, "row numbers must be integers"),
                (table.count, (5, 3), ValueError, "^the low end 5 is above the high end 3$"),
                (table.count, ("5", None), TypeError, "the end of a range of integers can't be of type str"),
            ]:
                self.assertRaisesRegex(kind, said, call, *words)
            self.assertEqual(table.count(), 0)
        with self.table(key_type="uint64") as table:
            self.assertRaisesRegex(OverflowError, "the key -1 doesn't fit into an unsigned", table.insert, -1, 1)
            self.assertRaisesRegex(OverflowError, "keys must fit into unsigned", table.insert_many, [-1], [1])


@wants_shards
class LetGo(unittest.TestCase):
    """An error is gone as soon as nothing refers to it, with the row numbers that it has."""

    def calls(self, table, row):
        yield lambda: table.insert_many([1], [1])
        yield lambda: table.insert_many([1] * 50, [1] * 50)
        yield lambda: table.insert_rows([1], [1], progress=lambda *_: None)
        yield lambda: table.insert(1, 1)
        yield lambda: table.move(row, 15)
        yield lambda: table.delete_many([99 << 54])
        yield lambda: table.update_many([99 << 54] * 50, [1] * 50, [1] * 50)
        yield lambda: table.get(99 << 54)

    def test_each(self):
        gc.collect(), gc.disable()
        self.addCleanup(gc.enable)
        for shards in (1, 3):
            with crackd.Table(splits=[10, 20], shards=shards, cells=2) as table:
                row = int(table.insert_many([1, 2, 11, 12, 21, 22], [1] * 6)[0])
                for at, call in enumerate(self.calls(table, row)):
                    with self.subTest(at, shards=shards):
                        found = None
                        try:
                            call()
                        except crackd.Refused as error:
                            found = weakref.ref(error)
                        self.assertIsNotNone(found)
                        self.assertIsNone(found())


@wants_numpy
class Arrays:
    """Arrays that are no keys, payloads, row numbers or ends."""

    def test_what_is_no_array_of_integers_or_floats(self):
        gaps = np.ma.masked_array([1, 2, 3, 4], [False, True, False, True])
        wrong = [(np.array([1, 2, 3, 4], kind), TypeError) for kind in ("g", "D", "?", "S1", "U1", "m8[s]")]
        wrong += [(gaps, ValueError), (np.ones((2, 2)), ValueError), (np.ones((4, 1), int), ValueError)]
        wrong += [(np.array(5), ValueError), (np.array([1, 2, 3, None], object), TypeError)]
        for key_type in ("int64", "uint64", "float64"):
            with self.table(key_type=key_type) as table:
                rows = table.insert_many([1, 2, 3, 4], [1, 2, 3, 4])
                for it, kind in wrong:
                    with self.subTest(key_type, dtype=it.dtype):
                        kinds = (kind, TypeError) if it.ndim != 1 else kind
                        for call, *words in [
                            (table.insert_many, it, [1] * 4),
                            (table.insert_many, [1] * 4, it),
                            (table.update_many, it, [1] * 4, [1] * 4),
                            (table.update_many, rows, it, [1] * 4),
                            (table.update_many, rows, [1] * 4, it),
                            (table.delete_many, it),
                        ]:
                            # some arrays have no length, or another one
                            self.assertRaises((ValueError, TypeError) if it.ndim != 1 else kind, call, *words)
                        if it.dtype.char not in "gO":
                            self.assertRaises(kinds, table.count_many, it, None)
                            self.assertRaises(kinds, table.sum_many, None, it)
                self.assertRaisesRegex(ValueError, "item 1 of the array is masked", table.insert_many, gaps, [1] * 4)
                self.assertEqual((table.count(), table.sum()), (4, 10))
        for kind in ("g", "D", "?", "S1", "U1", "m8[s]"):
            self.assertRaises(TypeError, crackd.Table, np.array([1, 2, 3], kind))
            self.assertRaises(TypeError, crackd.Table.from_arrays, np.array([1, 2, 3], kind), [1, 2, 3])
            self.assertRaises(TypeError, crackd.Table, key_type=np.dtype(kind))


@wants_library
class InProcessRaised(Raised, InProcess, unittest.TestCase):
    """In this process."""


@wants_shards
class InShardsRaised(Raised, InShards, unittest.TestCase):
    """In several shards."""


@wants_shards
class InProcessArrays(Arrays, InProcess, unittest.TestCase):
    """In this process."""


@wants_shards
class InShardsArrays(Arrays, InShards, unittest.TestCase):
    """In several shards."""


@wants_program
class OverTcpRaised(Raised, OverTcp, unittest.TestCase):
    """Over TCP."""


@wants_shards
@wants_program
class OverTcpArrays(Arrays, OverTcp, unittest.TestCase):
    """Over TCP."""


if __name__ == "__main__":
    unittest.main()
