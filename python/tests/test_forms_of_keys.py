"""Keys of every unit of dates, categories and generators: every way into a table takes them and has the same keys."""

import ctypes
import importlib.util
import unittest

from clusters import cluster, local, wants_cluster, wants_pandas
from kinds import UNITS
from test_frames import Data
from ways import crackd, np, wants_library, wants_numpy, wants_program

from crackd import arrow

pd = __import__("pandas") if importlib.util.find_spec("pandas") else None


class Coded(Data):
    """Data whose column `k` has places in a dictionary, with the dictionary's items and their format."""

    def __init__(self, form, words, places, **options):
        super().__init__({"k": ("c", places), "p": ("l", [list(range(len(it))) for it in places])}, **options)
        self.form, self.words = form, words

    def schema(self, unused, pointer):
        super().schema(unused, pointer)
        words = arrow.Schema(format=self.form.encode())
        self.kept.append(words)
        pointer.contents.children[0].contents.dictionary = ctypes.pointer(words)
        return 0

    def batch(self, unused, pointer):
        code = super().batch(unused, pointer)
        if pointer.contents.release:
            words = self.column(self.form, self.words)
            words.length = len(self.words)
            words.offset = self.offset + self.skipped
            self.kept.append(words)
            pointer.contents.children[0].contents.dictionary = ctypes.pointer(words)
        return code


@wants_library
@wants_numpy
class WaysIn(unittest.TestCase):
    """The ways into tables of this process, of a server and of a cluster."""

    def check(self, table, keys):
        """A table has these keys, and is closed."""
        with table:
            self.assertEqual(sorted(table.select(raw=True).keys.tolist()), sorted(keys.tolist()))
            self.assertEqual(table.key_type, str(keys.dtype))

    def opened(self, keys):
        """The ways, for what `keys()` gives anew each time."""
        count = len(list(keys()))
        yield crackd.Table.from_arrays(keys(), range(count))
        yield crackd.Table.from_arrays(keys())
        for made in (crackd.Table(keys()), crackd.Table(keys(), shards=1), crackd.Table(keys(), partitions=2)):
            rows = made.insert_many(keys(), (it for it in range(count)))
            made.update_many((it for it in rows), keys(), (it for it in range(count)))
            yield made
        made = crackd.Table(keys())
        made.insert_rows(keys(), range(count), progress=lambda *_: None)
        yield made
        made = crackd.Table(keys())
        for key, payload in zip(keys(), range(count)):
            made.insert(key, payload)
        yield made

    def test_units_of_dates(self):
        for unit in UNITS:
            keys = np.array([0, 1, -2, 5], "i8").view(f"M8[{unit}]")
            forms = (lambda: keys, lambda: list(keys), lambda: (it for it in keys), lambda: keys[::-1])
            for given in forms:
                with self.subTest(unit):
                    for table in self.opened(given):
                        self.check(table, keys)

    def test_generators(self):
        for keys in (np.arange(5), np.arange(5.0) / 2, np.arange(5, dtype="u8") + np.uint64(2**63)):
            with self.subTest(keys.dtype):
                for table in self.opened(lambda: iter(keys.tolist())):
                    self.check(table, keys)
        with crackd.Table(splits=(it for it in (1, 2))) as table:
            table.insert_many((it for it in range(4)), (it for it in range(4)))
            self.assertEqual((table.partitions, [it.rows for it in table.layout().parts]), (3, [1, 1, 2]))
            rows = table.select().rows
            self.assertEqual(table.delete_many(it for it in rows).tolist(), [True] * 4)
            self.assertEqual(table.count_many((it for it in [1, 2]), None).tolist(), [0, 0])
            self.assertRaises(ValueError, table.insert_many, (it for it in [1, 2]), iter([1]))

    @wants_pandas
    def test_categories(self):
        dates = pd.to_datetime(["2020-01-02", "2020-01-01", "2020-01-02"])
        for items in ([5, -7, 5], [0.1, 2.5, 0.1], dates, dates.tz_localize("Europe/Berlin")):
            index = pd.Index(items)
            given = pd.Categorical(index)
            wanted = np.asarray(index if getattr(index, "tz", None) is None else index.tz_convert(None))
            with self.subTest(str(index.dtype)):
                for them in (given, pd.Series(given, [7, 7, 8]), pd.CategoricalIndex(given)):
                    for table in self.opened(lambda them=them: them):
                        self.check(table, wanted)
                frame = pd.DataFrame({"k": given, "p": [1, 2, 3]})
                # floats such as these would become decimals
                key_type = wanted.dtype if wanted.dtype.kind == "f" else None
                self.check(crackd.Table.from_pandas(frame, "k", "p", key_type=key_type), wanted)
                indexed = frame.set_index("k")
                self.check(crackd.Table.from_pandas(indexed, payload="p", key_type=wanted.dtype), wanted)
                with crackd.Table(index) as table:
                    table.insert_frame(frame, "k", "p")
                    self.assertEqual(table.count(index[0]), (index >= index[0]).sum())
        with crackd.Table.from_arrays([1, 2, 3], pd.Categorical([7, 9, 7])) as table:
            self.assertEqual(table.sum(), 23)
        self.assertRaises(ValueError, crackd.Table.from_arrays, pd.Categorical([7, None, 7]))
        self.assertRaises(TypeError, crackd.Table.from_arrays, pd.Categorical(["x", "y"]))

    def test_dictionaries_of_arrow(self):
        for offset in (0, 3):
            kinds = [("l", [50, -7], "int64"), ("g", [0.5, 1e300], "float64"), ("tss:UTC", [5, 7], "M8[s]")]
            for form, words, dtype in kinds:
                wanted = np.array(words)[[1, 0, 1, 1]].astype(dtype)
                with self.subTest(form, offset=offset):
                    data = Coded(form, words, [[1, 0], [], [1, 1]], offset=offset)
                    self.check(crackd.Table.from_arrow(data, "k", "p"), wanted)
                    self.assertEqual(data.alive, 0)
                    with crackd.Table(key_type=dtype) as table:
                        table.insert_frame(data, "k", "p")
                        self.assertEqual(sorted(table.select().keys.tolist()), sorted(wanted.tolist()))
        # items are missing in the column, and in the dictionary
        gaps = [([[0, None, 1]], [5, 6], 1), ([[0, 1], [0, 0]], [5, None], 1), ([[0], [0, 1]], [5, None], 2)]
        for places, words, row in gaps:
            data = Coded("l", words, places)
            self.assertRaisesRegex(ValueError, f"gap at row {row}", crackd.Table.from_arrow, data, "k")
            with crackd.Table.from_arrow(Coded("l", words, places), "k", "p", missing="skip") as table:
                kept = [words[it] for part in places for it in part if it is not None and words[it] is not None]
                self.assertEqual((sorted(table.select().keys.tolist()), table.skipped), (sorted(kept), 1))
        self.assertRaises(TypeError, crackd.Table.from_arrow, Coded("u", [1], [[0]]), "k")

    @wants_program
    def test_a_server(self):
        forms = [lambda: np.array([0, 1, 5], "M8[Y]"), lambda: iter([3, 4, 5])]
        for given in forms + ([] if pd is None else [lambda: pd.Categorical([3, 4])]):
            with crackd.serve(given(), workers=1) as server, server.connect() as table:
                table.insert_many(given(), iter(range(len(list(given())))))
                self.assertEqual(table.count(), len(list(given())))


@wants_library
@wants_cluster
@wants_pandas
@wants_numpy
class OnACluster(unittest.TestCase):
    """The ways into tables of a cluster."""

    def test_ways(self):
        import dask.dataframe

        with local(2) as client:
            frame = pd.DataFrame({"k": pd.Categorical([5, -7, 5]), "p": [1, 2, 3]})
            given = dask.dataframe.from_pandas(frame, npartitions=2)
            with cluster.Table.from_dask(client, given, "k", "p") as table:
                self.assertEqual((table.key_type, table.sum(5), table.sum()), ("int64", 4, 6))
            with cluster.Table(client, frame.k, splits=iter([0])) as table:
                table.insert_many(frame.k, iter([1, 2, 4]))
                self.assertEqual((table.sum(5), table.count(), table.shards), (5, 3, 2))
            for unit in ("Y", "M", "D", "as"):
                keys = np.array([0, 1, -2, 5], "i8").view(f"M8[{unit}]")
                with cluster.Table(client, iter(keys)) as table:
                    table.insert_many(iter(keys), iter([1, 2, 4, 8]))
                    self.assertEqual((table.key_type, table.sum(keys[1])), (str(keys.dtype), 10))


if __name__ == "__main__":
    unittest.main()
