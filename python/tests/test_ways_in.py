"""Keys in every form, by every way into a table: dates of each unit, categories, and generators."""

import collections
import importlib.util
import unittest

from clusters import cluster, local, wants_cluster, wants_pandas
from kinds import UNITS
from ways import InProcess, InShards, OverTcp, crackd, np, wants_library, wants_numpy, wants_program, wants_shards

pd = __import__("pandas") if np is not None and importlib.util.find_spec("pandas") is not None else None
KEYS = [5, 3, 4]
# each makes the keys anew, since an iterator has them once
FORMS = {
    "list": lambda: list(KEYS),
    "tuple": lambda: tuple(KEYS),
    "generator": lambda: (it for it in KEYS),
    "iterator": lambda: iter(KEYS),
    "map": lambda: map(int, KEYS),
    "keys": lambda: dict.fromkeys(KEYS).keys(),
    "deque": lambda: collections.deque(KEYS),
}
if pd is not None:
    FORMS |= {
        "categories": lambda: pd.Categorical(KEYS),
        "series of categories": lambda: pd.Series(pd.Categorical(KEYS, categories=[3, 4, 5, 6])),
        "index of categories": lambda: pd.CategoricalIndex(KEYS),
        "nullable": lambda: pd.array(KEYS, "Int32"),
    }


def by_payload(table, keys=None):
    """The keys of the rows by their payloads."""
    found = table.select()
    return dict(zip(map(int, found.payloads), map(int, found.keys if keys is None else keys)))


class Ways:
    """Cases of a table, however it is reached."""

    def test_each_form(self):
        wanted = dict(zip([70, 80, 90], KEYS))
        for name, keys in FORMS.items():
            with self.subTest(name), self.table() as table:
                table.insert_many(keys(), [70, 80, 90])
                self.assertEqual(by_payload(table), wanted)
                rows = table.insert_rows(keys(), (it for it in (7, 8, 9)), progress=lambda *_: None)
                self.assertEqual(by_payload(table), wanted | dict(zip([7, 8, 9], KEYS)))
                self.assertTrue(all(table.update_many((it for it in rows), keys(), iter([1, 2, 3]))))
                self.assertEqual(by_payload(table), wanted | dict(zip([1, 2, 3], KEYS)))
                self.assertEqual([int(it) for it in table.count_many(keys(), None)], [2, 6, 4])
                self.assertEqual([int(it) for it in table.count_many(None, keys())], [4, 0, 2])
                self.assertTrue(all(table.delete_many(iter(rows))))
                self.assertEqual(table.sum(), 240)
                payloads = table.insert_many(KEYS, keys())
                self.assertEqual((len(payloads), table.sum()), (3, 252))

    def test_lengths_that_differ(self):
        with self.table() as table:
            for keys, payloads in [((1, 2), iter([1])), (iter([1]), [1, 2])]:
                self.assertRaisesRegex(ValueError, "keys and . payloads", table.insert_many, keys, payloads)
            self.assertRaises(TypeError, table.insert_many, 5, [1])
            self.assertEqual(table.count(), 0)


@wants_library
class WaysInProcess(Ways, InProcess, unittest.TestCase):
    """In the process."""

    def test_openings(self):
        for name, keys in FORMS.items():
            with self.subTest(name):
                with crackd.Table(keys(), partitions=3) as table:
                    self.assertEqual((table.key_type, table.partitions), ("int64", 3))
                with crackd.Table(splits=(it for it in sorted(keys()))) as table:
                    self.assertEqual(table.partitions, 4)
                for payloads in ([70, 80, 90], iter([70, 80, 90]), range(70, 100, 10)):
                    with crackd.Table.from_arrays(keys(), payloads) as table:
                        self.assertEqual(by_payload(table), dict(zip([70, 80, 90], KEYS)))

    @wants_numpy
    @wants_pandas
    def test_frames(self):
        for name, keys in FORMS.items():
            column = keys()
            with self.subTest(name):
                frame = pd.DataFrame({"k": column if hasattr(column, "dtype") else list(column), "p": [70, 80, 90]})
                for made in (
                    crackd.Table.from_pandas(frame, "k", "p"),
                    crackd.Table.from_pandas(frame.set_index("k"), None, "p"),
                    crackd.Table.from_pandas(frame.set_index("k")["p"]),
                ):
                    with made as table:
                        self.assertEqual(by_payload(table), dict(zip([70, 80, 90], KEYS)))

    @wants_numpy
    def test_dates_of_each_unit(self):
        for unit in UNITS:
            keys = np.array(KEYS, "int64").view(f"datetime64[{unit}]")
            with self.subTest(unit):
                for made in (
                    crackd.Table.from_arrays(keys, [70, 80, 90]),
                    crackd.Table(keys, partitions=2),
                    crackd.Table(key_type=keys.dtype, splits=np.sort(keys)),
                ):
                    with made as table:
                        self.assertEqual(table.key_type, f"datetime64[{unit}]")
                        if not len(table):
                            table.insert_many(keys, [70, 80, 90])
                        found = table.select().keys.view("int64")
                        self.assertEqual(by_payload(table, found), dict(zip([70, 80, 90], KEYS)))
                        self.assertEqual(table.count(keys[1], keys[0]), 2)


@wants_shards
class WaysInShards(Ways, InShards, unittest.TestCase):
    """In several shards."""


@wants_program
class WaysOverTcp(Ways, OverTcp, unittest.TestCase):
    """Over TCP."""

    def test_openings(self):
        for options in ({"sample": iter(KEYS), "partitions": 3}, {"splits": (it for it in [4, 5])}):
            with crackd.serve(workers=1, **options) as server, server.connect() as table:
                self.assertEqual(table.partitions, 3)


@wants_library
@wants_cluster
@wants_pandas
class WaysOnACluster(unittest.TestCase):
    """On a cluster."""

    def test_each_form(self):
        import dask.dataframe

        with local(1) as client:
            for name, keys in FORMS.items():
                with self.subTest(name), cluster.Table(client, keys()) as table:
                    table.insert_many(keys(), [70, 80, 90])
                    self.assertEqual(by_payload(table), dict(zip([70, 80, 90], KEYS)))
            with cluster.Table(client, splits=iter([4, 5])) as table:
                self.assertEqual(table.shards, 3)
            frame = pd.DataFrame({"k": pd.Categorical(KEYS), "p": pd.Categorical([70, 80, 90])})
            with cluster.Table.from_dask(client, dask.dataframe.from_pandas(frame, npartitions=2), "k", "p") as table:
                self.assertEqual((table.key_type, by_payload(table)), ("int64", dict(zip([70, 80, 90], KEYS))))


if __name__ == "__main__":
    unittest.main()
