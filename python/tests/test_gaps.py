"""Rows with gaps, in arrays, frames and Arrow data: a refusal names the argument that leaves them out, and it does."""

import array
import datetime
import decimal
import inspect
import itertools
import unittest

from clusters import wants_pandas
from test_frames import Data
from ways import InProcess, crackd, np, wants_library, wants_numpy

from crackd import gaps

try:
    import pandas as pd
except ImportError:
    pd = None
try:
    import pyarrow
except ImportError:
    pyarrow = None

HINT = "missing='skip' leaves out rows with a gap"
NAN = float("nan")


class WithTables(InProcess):
    """Cases with tables that are made of rows with gaps."""

    def expect(self, wanted, skipped, make, *words, **options):
        """The rows without a gap are these. Without `missing` and with `missing="error"` they are refused."""
        for how in ({}, {"missing": "error"}):
            with self.assertRaises((ValueError, TypeError)) as caught:
                make(*words, **how, **options).close()
            self.assertIn(HINT, str(caught.exception))
        self.expect_rows(wanted, skipped, make, *words, missing="skip", **options)

    def expect_rows(self, wanted, skipped, make, *words, **options):
        with make(*words, **options) as table:
            rows, keys, payloads = table.select()
            found = dict(zip(rows.tolist(), zip(keys.tolist(), payloads.tolist())))
            self.assertEqual([found[int(it)] for it in table.row_numbers], wanted)
            self.assertEqual(table.skipped, skipped)


@wants_library
@wants_numpy
class Arrays(WithTables, unittest.TestCase):
    """Arrays and lists."""

    def test_each_way_to_write_a_gap(self):
        day = np.datetime64("2020-01-01")
        for items, key in [
            ([1, None, 3], 1),
            ([1.5, NAN, 3], 1.5),
            ([1.5, None, 3], 1.5),
            (np.array([1.5, NAN, 3]), 1.5),
            (np.array([1, None, 3], object), 1),
            (np.array([1.5, NAN, 3], object), 1.5),
            (np.ma.masked_array([1, 2, 3], [0, 1, 0]), 1),
            (np.ma.masked_array([1.5, NAN, 3], [0, 0, 0]), 1.5),
            (np.ma.masked_array([1.5, 2, NAN], [0, 1, 1]), 1.5),
            (np.array(["2020-01-01", "NaT", "2020-01-03"], "M8[D]"), day.item()),
            ([day, np.datetime64("NaT"), day + 2], day.item()),
        ]:
            with self.subTest(items=items):
                wanted = [(key, 10)] + [(gaps.listed(items)[2], 30)] * (not gaps.is_missing(items[2]))
                if isinstance(key, datetime.date):
                    wanted[1:] = [(datetime.date(2020, 1, 3), 30)]
                self.expect(wanted, 3 - len(wanted), crackd.from_arrays, items, [10, 20, 30])

    def test_payloads(self):
        for items in ([1, None, 3], np.ma.masked_array([1, 2, 3], [0, 1, 0]), np.array([1, None, 3], object)):
            self.expect([(10, 1), (30, 3)], 1, crackd.from_arrays, [10, 20, 30], items)
        floats = [1.5, NAN, 3.25]
        for items in (floats, np.array(floats)):
            self.expect([(10, 1.5), (30, 3.25)], 1, crackd.from_arrays, [10, 20, 30], items, payload_decimals=2)

    def test_without_payloads_rows_keep_their_places(self):
        self.expect([(1, 0), (3, 2)], 1, crackd.from_arrays, np.ma.masked_array([1, 2, 3], [0, 1, 0]))
        self.expect([(1, 0), (3, 2)], 1, crackd.from_arrays, [1, None, 3])

    def test_gaps_in_keys_and_payloads(self):
        keys = np.ma.masked_array([1, 2, 3, 4], [0, 1, 0, 1])
        payloads = np.ma.masked_array([10, 20, 30, 40], [0, 0, 1, 1])
        self.expect([(1, 10)], 3, crackd.from_arrays, keys, payloads)
        self.expect([], 1, crackd.from_arrays, [1], np.ma.masked_array([10], [1]))

    def test_rows_without_gaps(self):
        for items in ([1, 2], (1, 2), range(1, 3), array.array("q", [1, 2]), np.array([1, 2]), iter([1, 2])):
            self.expect_rows([(1, 5), (2, 6)], 0, crackd.from_arrays, items, [5, 6], missing="skip")
        for items in ([1, 2], np.array([1.0, 2.0]), np.ma.masked_array([1, 2]), iter([1, 2])):
            self.expect_rows([(1, 5), (2, 6)], 0, crackd.from_arrays, items, iter([5, 6]))
        how = {"key_decimals": 2, "missing": "skip"}
        self.expect_rows([(1.25, 5)], 0, crackd.from_arrays, [decimal.Decimal("1.25")], [5], **how)

    def test_other_errors_say_nothing_of_gaps(self):
        for words, options in [(([1, "x"],), {}), (([1, 2], [3]), {}), (([1.5], [1.5]), {}), (([2**70],), {})]:
            for missing in ("error", "skip"):
                with self.assertRaises((ValueError, TypeError, OverflowError)) as caught:
                    crackd.from_arrays(*words, missing=missing, **options)
                self.assertNotIn("missing", str(caught.exception))
        with self.assertRaisesRegex(ValueError, "2 keys and 1 payloads"):
            crackd.from_arrays([1, None], [3], missing="skip")

    def test_wrong_words(self):
        for wrong in ("drop", "", None, True, 5, ["skip"]):
            for make, words in ((crackd.from_arrays, ([1],)), (crackd.from_arrow, (Data({"k": ("l", [[1]])}),))):
                with self.assertRaisesRegex(ValueError, "missing must be 'error' or 'skip'"):
                    make(*words, missing=wrong)

    def test_names(self):
        for name in ("from_arrays", "from_pandas", "from_arrow"):
            self.assertEqual(getattr(crackd, name), getattr(crackd.Table, name))
            self.assertIn(name, crackd.__all__)
            self.assertEqual(inspect.signature(getattr(crackd, name)).parameters["missing"].default, "error")


@wants_library
@wants_pandas
class Frames(WithTables, unittest.TestCase):
    """Frames and series of pandas."""

    def test_each_type(self):
        day = pd.Timestamp("2020-01-01")
        for column, key in [
            (pd.Series([1.5, None, 3]), 1.5),
            (pd.Series([1, None, 3], dtype="Int64"), 1),
            (pd.Series([1, None, 3], dtype=object), 1),
            (pd.Series([day, None, day]), None),
            (pd.Series([day, None, day]).dt.tz_localize("Europe/Berlin"), None),
        ]:
            with self.subTest(column.dtype):
                frame = pd.DataFrame({"k": column, "p": [10, 20, 30]})
                if key is None:
                    with crackd.from_pandas(frame, "k", "p", missing="skip") as table:
                        self.assertEqual((table.count(), table.sum(), table.skipped), (2, 40, 1))
                        self.assertEqual(table.zone, None if column.dtype == "M8[ns]" else "Europe/Berlin")
                else:
                    self.expect([(key, 10), (3, 30)], 1, crackd.from_pandas, frame, "k", "p")
                    turned = frame.rename(columns={"k": "p", "p": "k"})
                    self.expect([(10, key), (30, 3)], 1, crackd.from_pandas, turned, "k", "p")

    def test_places_and_series(self):
        frame = pd.DataFrame({"k": [1.5, None, 3.5, 4.5], "p": [1, 2, 3, None]}, index=list("wxyz"))
        self.expect([(1.5, 0), (3.5, 2), (4.5, 3)], 1, crackd.from_pandas, frame, "k")
        self.expect([(1.5, 1), (3.5, 3)], 2, crackd.from_pandas, frame, "k", "p")
        series = pd.Series([1.25, None, 3], index=[7, 8, 9])
        self.expect([(7, 1.25), (9, 3)], 1, crackd.from_pandas, series)
        series = pd.Series([1, 2, 3], index=[7, None, 9])
        self.expect([(7, 1), (9, 3)], 1, crackd.from_pandas, series)
        with self.assertRaisesRegex(ValueError, "column 'k' has a gap at row 1, index 'x'; missing='skip' leaves"):
            crackd.from_pandas(frame, "k", "p")

    def test_decimals_are_found_among_the_rest(self):
        frame = pd.DataFrame({"k": [1.5, None, 3.25], "p": [NAN, 2, 3.125]})
        with crackd.from_pandas(frame, "k", "p", missing="skip") as table:
            found = table.key_decimals, table.payload_decimals, table.sum()
            self.assertEqual(found, (2, 3, decimal.Decimal("3.125")))


@wants_library
@wants_numpy
class Arrow(WithTables, unittest.TestCase):
    """Data with the C interface of Arrow."""

    def test_gaps_in_batches(self):
        for gap, batches in itertools.product(range(4), ([[1, 2, 3, 4]], [[1], [2, 3], [], [4]], [[1, 2], [3, 4]])):
            keys = [[None if it == gap + 1 else it for it in batch] for batch in batches]
            payloads = [[it * 10 for it in batch] for batch in batches]
            wanted = [(it, it * 10) for it in range(1, 5) if it != gap + 1]
            with self.subTest(keys):
                data = {"k": ("l", keys), "p": ("l", payloads)}
                self.expect(wanted, 1, self.make, data, "k", "p")
                self.expect([(key, key - 1) for key, _ in wanted], 1, self.make, data, "k")
                turned = [(payload, key) for key, payload in wanted]
                self.expect(turned, 1, self.make, {"k": ("l", payloads), "p": ("l", keys)}, "k", "p")

    def make(self, columns, *words, **options):
        data = Data(columns)
        try:
            return crackd.from_arrow(data, *words, **options)
        finally:
            self.assertEqual(data.alive, 0)

    def test_rows_that_are_missing_as_a_whole(self):
        for gap in range(3):
            data = Data({"k": ("l", [[0, 1, 2, 3]]), "p": ("l", [[0, 10, 20, 30]])}, skipped=1, gap=1 + gap)
            with crackd.from_arrow(data, "k", "p", missing="skip") as table:
                self.assertEqual((table.count(), table.skipped, table.sum()), (3, 1, 60 - 10 * (gap + 1)))

    def test_floats_and_dates(self):
        data = {"k": ("g", [[1.5, None, NAN, 4.5]]), "p": ("l", [[1, 2, 3, 4]])}
        self.expect([(1.5, 1), (4.5, 4)], 2, self.make, data, "k", "p")
        data = {"k": ("tdD", [[0, None, 2]])}
        with self.make(data, missing="skip") as table:
            self.assertEqual((table.count("1970-01-01"), table.skipped, table.key_type), (2, 1, "datetime64[D]"))
        data = {"k": ("tsu:Europe/Berlin", [[0, None, 2]])}
        with self.make(data, missing="skip") as table:
            self.assertEqual((table.count(), table.skipped, table.zone), (2, 1, "Europe/Berlin"))

    @unittest.skipIf(pyarrow is None, "pyarrow isn't installed")
    def test_pyarrow(self):
        data = pyarrow.table({"k": [1, None, 3], "p": [1.5, 2, None]})
        self.expect([(1, 1.5)], 2, crackd.from_arrow, data, "k", "p")


if __name__ == "__main__":
    unittest.main()
