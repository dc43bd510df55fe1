"""Decimals: every way in, every question and every way to reach a table, with values that are computed by `decimal`."""

import contextlib
import copy
import decimal
import fractions
import importlib.util
import math
import pathlib
import pickle
import random
import tempfile
import unittest

from clusters import cluster, local, wants_cluster, wants_pandas
from kinds import GREATEST, LEAST
from test_frames import Data
from ways import (
    InProcess,
    InShards,
    OverAsyncio,
    OverTcp,
    crackd,
    np,
    wants_library,
    wants_numpy,
    wants_program,
    wants_shards,
)

from crackd import decimals
from crackd.keys import Keys, kind_of

D = decimal.Decimal
pd = __import__("pandas") if importlib.util.find_spec("pandas") else None
KEYS = ["-1.25", "0.00", "0.29", "1.10", "10.10", "1234567.89"]
PAYLOADS = ["0.1", "-0.2", "12.3", "1000000000000.7", "0.0", "-99.9"]


def numbers(it):
    return [int(each) for each in it]


def exact(texts):
    return [D(it) for it in texts]


def forms(texts):
    """These decimals in each form in which a table takes them."""
    yield exact(texts)
    yield [float(it) for it in texts]
    yield [fractions.Fraction(it) for it in texts]
    # the forms in turn
    yield [kind(it) for kind, it in zip([float, D, fractions.Fraction] * 2, texts)]
    if np is not None:
        yield np.array([float(it) for it in texts])
        yield np.array(exact(texts), object)
    if pd is not None:
        yield pd.Series([float(it) for it in texts], index=range(7, 7 + len(texts)))
        yield pd.array([float(it) for it in texts], dtype="Float64")


class Decimals:
    """The cases, however a table is reached."""

    TYPES = {"key_type": "int64", "key_decimals": 2, "payload_decimals": 1, "splits": ["0.29", "5"]}

    @contextlib.contextmanager
    def filled(self):
        """A table of all rows, and their numbers."""
        options = {**self.TYPES, "splits": exact(self.TYPES["splits"])}
        with self.table(**options) as table:
            yield table, table.insert_many(exact(KEYS), exact(PAYLOADS))

    def same(self, found, wanted):
        """Two decimals have the same value and type."""
        self.assertEqual((type(found), found), (type(wanted), wanted))

    def test_types(self):
        with self.filled() as (table, _):
            self.assertEqual((table.key_type, table.key_decimals, table.payload_decimals), ("int64", 2, 1))
            self.assertIn("int64 keys, key decimals 2, payload decimals 1", repr(table))

    def test_single_results_are_exact(self):
        keys, payloads = exact(KEYS), exact(PAYLOADS)
        with self.filled() as (table, rows):
            for low in [None, *keys]:
                inside = [it for key, it in zip(keys, payloads) if low is None or key >= low]
                total = sum(inside, D("0.0"))
                self.same(table.sum(low), total)
                self.assertEqual(table.sum(low, raw=True), int(total * 10))
                self.assertIs(type(table.sum(low, raw=True)), int)
                self.same(table.sum_many([low], None)[0], total)
                self.assertEqual(table.sum_many([low], None, raw=True), [int(total * 10)])
                raw = table.mean(low, raw=True)
                self.same(raw, fractions.Fraction(int(total * 10), len(inside)))
            self.same(table.sum(1, 1), D("0.0"))
            self.assertEqual(str(table.sum(1, 1)), "0.0")
            self.assertIsNone(table.mean(1, 1))
            for row, key, payload in zip(numbers(rows), keys, payloads):
                found = table.get(row)
                self.assertEqual((str(found.key), str(found.payload)), (str(key), str(payload)))
                self.assertEqual(table.get(row, raw=True), (int(key * 100), int(payload * 10)))

    def test_means(self):
        with self.table(key_type="int64", payload_decimals=2) as table:
            table.insert_many([1, 2, 3, 4], exact(["0.01", "0.02", "0.02", "0.02"]))
            self.assertEqual([str(table.mean(*it)) for it in [(1, 2), (1, 3), (2, 4)]], ["0.01", "0.015", "0.02"])
            self.assertEqual((str(table.mean()), table.mean(raw=True)), ("0.0175", fractions.Fraction(7, 4)))
            # 5/300 is no finite decimal; it is rounded to 40 digits
            self.assertEqual(table.mean(1, 4), D("0.0" + "1" + "6" * 38 + "7"))
            self.assertEqual(table.mean(1, 4, raw=True), fractions.Fraction(5, 3))

    def test_sums_of_more_than_64_bits(self):
        most = D(GREATEST).scaleb(-2)
        with self.table(key_type="int64", payload_decimals=2, partitions=1) as table:
            table.insert_many([1, 2, 3], [most, most, D("0.01")])
            self.assertEqual(table.sum(), D(2**64 - 1).scaleb(-2))
            self.assertEqual(table.mean(), D(2**64 - 1) / 3 / 100)
            if np is not None:
                self.assertEqual(table.sum_by([1, 4]).tolist(), [(2**64 - 1) / 100])
                self.assertEqual(table.sum_by([1, 4], raw=True).tolist(), [2**64 - 1])

    def test_lists_of_rows(self):
        with self.filled() as (table, rows):
            found = table.select()
            wanted = {row: (float(key), float(it)) for row, key, it in zip(numbers(rows), KEYS, PAYLOADS)}
            self.assertEqual({int(row): (key, it) for row, key, it in zip(*found)}, wanted)
            found = table.select(raw=True)
            wanted = {row: (key * 100, it * 10) for row, key, it in zip(numbers(rows), exact(KEYS), exact(PAYLOADS))}
            self.assertEqual({int(row): (key, it) for row, key, it in zip(*found)}, wanted)
            self.assertEqual([float(it) for it in table.sum_by([None, 0.29, None])], [-0.1, 999999999913.1])

    @wants_numpy
    def test_arrays_have_the_nearest_floats(self):
        with self.filled() as (table, rows):
            for found in (table.select(), table.select(1, 1)):
                self.assertEqual((found.keys.dtype, found.payloads.dtype), (np.dtype("f8"), np.dtype("f8")))
            for chunks, raw in ((table.select_chunks(None, None, 2), False), (table.select_chunks(raw=True), True)):
                chunks = list(chunks)
                found = {int(row): (key, it) for each in chunks for row, key, it in zip(*each)}
                scales = (100, 10) if raw else (1, 1)
                for row, key, payload in zip(numbers(rows), KEYS, PAYLOADS):
                    wanted = float(D(key) * scales[0]), float(D(payload) * scales[1])
                    self.assertEqual(found[row], wanted)
                self.assertEqual(chunks[0].keys.dtype, np.dtype("i8" if raw else "f8"))
            raw = table.select(raw=True)
            self.assertEqual((raw.keys.dtype, raw.payloads.dtype), (np.dtype("i8"), np.dtype("i8")))
            edges = [None, *exact(KEYS), None]
            self.assertEqual(table.sum_by(edges).tolist(), [0.0, *map(float, PAYLOADS)])
            self.assertEqual(table.sum_by(edges, raw=True).tolist(), [0, *(int(D(it) * 10) for it in PAYLOADS)])
            self.assertEqual(table.sum_by(edges, raw=True).dtype, np.dtype("i8"))
            self.assertEqual(table.count_by(edges).tolist(), [0] + [1] * 6)

    def test_each_form_is_the_same(self):
        for keys, payloads in zip(forms(KEYS), forms(PAYLOADS)):
            with self.subTest(type(keys)), self.table(**{**self.TYPES, "splits": [0.29, 5]}) as table:
                rows = table.insert_many(keys, payloads)
                self.assertEqual([table.get(it) for it in rows], list(zip(exact(KEYS), exact(PAYLOADS))))
                more = [table.insert(*it) for it in zip(list(keys), list(payloads))]
                self.assertEqual([table.get(it) for it in more], list(zip(exact(KEYS), exact(PAYLOADS))))
                self.assertEqual(numbers(table.count_many(keys, None)), [12, 10, 8, 6, 4, 2])
                self.assertEqual([table.count(None, it) for it in list(keys)], [0, 2, 4, 6, 8, 10])
                turned = exact(PAYLOADS[::-1])
                self.assertTrue(all(table.update_many(rows, keys, turned)))
                self.assertTrue(all(table.update(row, key, it) for row, key, it in zip(more, list(keys), turned)))
                self.assertEqual(table.sum(exact(KEYS)[1], exact(KEYS)[2]), 2 * turned[1])
                moved = table.move(rows[0], list(keys)[5])
                self.assertEqual(table.get(moved), (exact(KEYS)[5], turned[0]))
                self.assertEqual(table.delete_range(list(keys)[1], list(keys)[2]), 2)

    def test_floats_near_decimals(self):
        # one part in 10**9 of 1.25 is 1.25e-9
        near, far = 1.25 + 1.2e-9, 1.25 + 1.3e-9
        with self.filled() as (table, rows):
            for key in (near, 2.5 - near, 0.1 + 0.2, 1e6 + 0.29):
                row = table.insert(key, 1)
                self.assertEqual(table.get(row).key, round(D(key), 2))
                self.assertEqual(table.count(key, key), 0)
                self.assertEqual(table.delete_range(key, round(D(key), 2) + D("0.01")), 1)
            wrong = [far, 2.5 - far, 0.125, 1e-300, D("0.001"), fractions.Fraction(1, 3), math.nan, D("NaN")]
            for key in wrong:
                self.assertRaises(ValueError, table.insert, key, 1)
                self.assertRaises(ValueError, table.update, rows[0], key, 1)
                self.assertRaises(ValueError, table.move, rows[0], key)
                for many in ([1.0, key], [D(1), key]):
                    self.assertRaisesRegex(ValueError, "NaN|item 1 of the keys", table.insert_many, many, [1, 2])
            for key in (1e17, math.inf, -math.inf, D("1E+999999999"), 10**18, GREATEST):
                self.assertRaises(OverflowError, table.insert, key, 1)
                self.assertRaises(OverflowError, table.insert_many, [1.0, key], [1, 2])
            for key in ("1.10", None, True, 1j, b"1"):
                self.assertRaises(TypeError, table.insert, key, 1)
                self.assertRaises(TypeError, table.insert_many, [1.0, key], [1, 2])
            self.assertEqual(len(table), len(KEYS))

    def test_payloads_that_are_refused(self):
        with self.filled() as (table, rows):
            for wrong in (0.25, D("0.11"), fractions.Fraction(1, 3), math.nan, D("sNaN"), 0.1 + 1.1e-10):
                self.assertRaises(ValueError, table.insert, 1, wrong)
                self.assertRaises(ValueError, table.update, rows[0], -1, wrong)
                self.assertRaisesRegex(
                    ValueError, "NaN|item 2 of the payloads", table.insert_many, [1, 2, 3], [1, 0.5, wrong]
                )
            for wrong in (2**63, D(GREATEST), 1e300, -math.inf, D("-1E+999999999")):
                self.assertRaises(OverflowError, table.insert, 1, wrong)
                self.assertRaises(OverflowError, table.insert_many, [1, 2], [1, wrong])
            for wrong in ("1", None, False, 1j):
                self.assertRaises(TypeError, table.insert, 1, wrong)
                self.assertRaises(TypeError, table.insert_many, [1, 2], [1, wrong])
            self.assertEqual((len(table), table.sum()), (len(KEYS), sum(exact(PAYLOADS))))

    def test_ends_between_decimals(self):
        with self.filled() as (table, _):
            for low, high, wanted in [
                (0.285, 0.295, 1),
                (D("0.2900000001"), None, 3),
                (D("0.2899999999"), 0.29, 0),
                (1.1, 10.1, 1),
                (1.1, 10.100000001, 1),
                (1.1, D("10.100000001"), 2),
                (fractions.Fraction(11, 10), fractions.Fraction(101, 10), 1),
                (-math.inf, math.inf, 6),
                (D("-1E+999999999"), D("1E+999999999"), 6),
                (D("1E-999999999"), D("Infinity"), 4),
                (D("-1E-999999999"), None, 5),
                (-5, 1, 3),
            ]:
                self.assertEqual(table.count(low, high), wanted, (low, high))
                self.assertEqual(numbers(table.count_many([low], [high])), [wanted])
            self.assertRaisesRegex(ValueError, "low end 0.3 is above the high end 0.29", table.count, 0.3, 0.29)
            self.assertEqual(table.count(0.29, D("0.29")), 0)
            for wrong in (math.nan, D("NaN")):
                self.assertRaises(ValueError, table.count, wrong)
            for wrong in ("0.29", True, 1j):
                self.assertRaises(TypeError, table.count, wrong)

    def test_a_save_keeps_them(self):
        with tempfile.TemporaryDirectory() as room, self.filled() as (table, _):
            self.save_and_load(table, pathlib.Path(room) / "rows.npy")

    def save_and_load(self, table, path):
        if np is None:
            return
        table.save(path)
        self.assertEqual(np.load(path).dtype["key"], np.dtype("i8"))
        with crackd.Table.load(path) as loaded:
            self.expect_all(loaded)
        with self.table(**{**self.TYPES, "splits": [0.29, 5], "key_decimals": 4, "payload_decimals": 3}) as other:
            crackd.Table.load(path, into=other)
            self.assertEqual((other.sum(), str(other.sum())[-4:]), (sum(exact(PAYLOADS)), ".000"))
        with self.table(**{**self.TYPES, "splits": [1, 5], "key_decimals": 1}) as other:
            self.assertRaisesRegex(ValueError, "item 0 of the keys, -1.25,", crackd.Table.load, path, into=other)
            self.assertEqual(len(other), 0)

    def expect_all(self, table):
        self.assertEqual((table.key_type, table.key_decimals, table.payload_decimals), ("int64", 2, 1))
        found = sorted(tuple(table.get(it)) for it in table.select().rows)
        self.assertEqual(found, list(zip(exact(KEYS), exact(PAYLOADS))))

    def test_rebalanced(self):
        with self.filled() as (table, _):
            found = table.rebalanced()
            with found.table as other:
                self.expect_all(other)
            with crackd.Table(key_decimals=3, payload_decimals=1) as other:
                table.rebalanced(into=other)
                self.assertEqual((other.sum(), other.count(1.1, 1.101)), (sum(exact(PAYLOADS)), 1))
            with crackd.Table() as other:
                self.assertRaises(ValueError, table.rebalanced, into=other)

    def test_a_move_that_is_refused_says_the_row(self):
        with self.table(**{**self.TYPES, "splits": [100]}, cells=1) as table:
            rows = numbers(table.insert_many([1.5, 150.5], [0.1, 0.2]))
            with self.assertRaises(crackd.Full) as caught:
                table.move(rows[0], 151)
            self.assertEqual(caught.exception.row, (D("1.50"), D("0.1")))

    def test_unsigned_keys(self):
        most = D(2**64 - 1).scaleb(-3)
        with self.table(key_type="uint64", key_decimals=3, splits=[1, 2]) as table:
            rows = table.insert_many([most, 0, 0.125], [1, 2, 4])
            self.assertEqual([table.get(it).key for it in rows], [most, D("0.000"), D("0.125")])
            for wrong in (-1, -0.001, most + D("0.001"), D(-1)):
                self.assertRaises(OverflowError, table.insert, wrong, 1)
                self.assertRaises(OverflowError, table.insert_many, [wrong], [1])
            self.assertEqual((table.sum(most), table.sum(-1, 0.125), table.sum(0.125, most)), (1, 2, 4))
            if np is not None:
                self.assertEqual(sorted(table.select().keys), [0.0, 0.125, (2**64 - 1) / 1000])
                self.assertRaises(OverflowError, table.insert_many, np.array([1.0, -0.5]), [1, 1])
                table.insert_many(np.array([2**54 + 1], "u8"), [8])
                self.assertEqual(table.sum(2**54 + 1, 2**54 + 2), 8)

    @wants_pandas
    def test_frames_are_inserted(self):
        frame = pd.DataFrame({"k": [float(it) for it in KEYS], "p": exact(PAYLOADS)})
        with self.table(**{**self.TYPES, "splits": [0.29, 5]}) as table:
            rows = table.insert_frame(frame, "k", "p")
            self.assertEqual([table.get(it) for it in rows], list(zip(exact(KEYS), exact(PAYLOADS))))
            table.insert_rows(frame.k, frame.p, progress=lambda *_: None)
            self.assertEqual(table.sum(), 2 * sum(exact(PAYLOADS)))
            shown = table.select(None, 0.29).to_pandas()
            self.assertEqual(shown.dtypes.tolist(), [np.dtype("f8")] * 2)
            self.assertEqual(set(shown.key), {-1.25, 0.0})
            frame.loc[3, "k"] = 0.123
            self.assertRaisesRegex(ValueError, "item 3 of the keys, 0.123,", table.insert_frame, frame, "k", "p")


class Arrays(unittest.TestCase):
    """What floats stand for, by exact arithmetic with fractions."""

    def test_decimals_are_0_to_9(self):
        for name in ("key_decimals", "payload_decimals"):
            for wrong, error in ((-1, ValueError), (10, ValueError), (1.0, TypeError), (True, TypeError)):
                self.assertRaisesRegex(error, name, crackd.Table, **{name: wrong})
                self.assertRaisesRegex(error, name, crackd.connect, port=1, **{name: wrong})
        for key_type in ("float64", *(["datetime64[s]"] if np is not None else [])):
            self.assertRaises(ValueError, crackd.Table, key_type=key_type, key_decimals=1)

    def test_numbers_that_do_not_depend_on_the_context(self):
        with decimal.localcontext(decimal.Context(prec=2, traps=[decimal.Inexact])):
            kind = Keys("i", decimals=2)
            self.assertEqual(str(kind.back_one(kind.one(D("123456.78")))), "123456.78")
            self.assertEqual(str(decimals.PayloadType(2).mean(12345678, 1)), "123456.78")
            self.assertEqual(kind.bound(D("123456.781")) - 2**63, 12345679)

    def test_types_are_compared_and_copied(self):
        kinds = [Keys("i"), Keys("i", decimals=2), Keys("u", decimals=2), Keys("i", decimals=3)]
        self.assertEqual(len(set(kinds)), 4)
        for it in [*kinds, decimals.PayloadType(3), decimals.PayloadType()]:
            for same in (copy.copy(it), pickle.loads(pickle.dumps(it))):
                self.assertEqual((same, hash(same), repr(same)), (it, hash(it), repr(it)))
        self.assertNotEqual(decimals.PayloadType(3), decimals.PayloadType(2))
        self.assertEqual(kind_of(decimals.Scaled([1, 2], 2)), kinds[1])

    @wants_numpy
    def test_floats_are_rounded_exactly(self):
        draws = random.Random(5)
        for places in range(10):
            floats = [draws.randrange(-(10**18), 10**18) / 10 ** draws.randrange(places, 19) for _ in range(200)]
            floats += [round(it, places) for it in floats]
            floats += [it * (1 + sign * part) for it in floats[200:] for part in (0.99e-9, 1.01e-9) for sign in (-1, 1)]
            floats += [(draws.randrange(10**9, 10**15) + 0.5) / 10**places for _ in range(100)]
            floats += [0.0, -0.0, 2.0**62 / 10**places, 2.0**52 / 10**places, 2.0**53 / 10**places + 1]
            for it in floats:
                n = round(fractions.Fraction(it) * 10**places)
                is_near = abs(fractions.Fraction(it) * 10**places - n) * 10**9 <= abs(n)
                fits = -(2**63) <= n < 2**63
                try:
                    found = decimals.scaled_many("q", np.array([it]), places, "items").tolist()
                except (ValueError, OverflowError) as error:
                    found = type(error)
                self.assertEqual(found, ValueError if not is_near else [n] if fits else OverflowError, (it, places))
                if is_near and fits:
                    self.assertEqual(decimals.scaled_one("q", it, places, "it"), n)

    @wants_numpy
    def test_the_place_of_what_is_refused(self):
        many = np.round(np.arange(100_000) / 100, 2)
        many[77_777] = 0.125
        with crackd.Table(key_decimals=2) as table:
            self.assertRaisesRegex(ValueError, "item 77777 of the keys, 0.125,", table.insert_many, many, many[::-1])
            many[77_777] = 1e18
            self.assertRaisesRegex(OverflowError, "item 77777 of the keys", table.insert_many, many, range(100_000))
            whole = np.arange(100_000) << 40
            self.assertRaisesRegex(OverflowError, "item 83887 of the keys", table.insert_many, whole, whole)

    @wants_numpy
    def test_nearest_floats(self):
        draws = random.Random(6)
        for code, least, most in (("i8", LEAST, GREATEST), ("u8", 0, 2**64 - 1)):
            found = [least, least + 1, most, most - 1, *(draws.randrange(least, most) for _ in range(1000)), 2**53 + 1]
            found += [draws.randrange(10**6) for _ in range(1000)]
            for places in (1, 2, 9):
                wanted = [it / 10**places for it in found]
                self.assertEqual(decimals.unscaled_many(np.array(found, code), places).tolist(), wanted)

    @wants_numpy
    def test_places_that_are_found(self):
        draws = random.Random(7)
        for size in (1, 10, 1000, 1e5, 1e7):
            floats = [draws.random() * size for _ in range(50)]
            self.assertIsNone(decimals.found_decimals(np.array(floats)))
            for places in range(7 if size > 1e5 else 9):
                them = [round(it, places) for it in floats] + [round(0.1 + 10.0**-places * 2, places)]
                wanted = max(len(repr(it).partition(".")[2].rstrip("0")) if it % 1 else 0 for it in them)
                self.assertEqual(decimals.found_decimals(np.array(them)), wanted, (size, places))
                self.assertEqual(decimals.found_decimals([*them, D(1)]), wanted)
        for them, wanted in [
            ([0.1 + 0.2], 1),
            ([1.0, 2.0], 0),
            ([], 0),
            ([math.inf], None),
            ([D("1.500")], 3),
            ([D("1.50"), 0.125], 3),
            ([D("0.0000000001")], None),
            ([D("1.0000000000000")], 9),
            ([D("1E+3")], 0),
            ([D("NaN")], None),
            ([fractions.Fraction(1, 8)], 3),
            ([fractions.Fraction(1, 3)], None),
            ([123456789.12345678], None),
        ]:
            self.assertEqual(decimals.found_decimals(them), wanted, them)
        # the place of more digits may be anywhere in a long array
        many = np.round(np.arange(100_000) / 10, 1)
        many[70_000] = 0.125
        self.assertEqual(decimals.found_decimals(many), 3)
        # large floats without places don't hide those of others
        self.assertEqual(decimals.found_decimals(np.array([0.25] * 20_000 + [5e14] * 20_000)), 2)
        self.assertEqual(decimals.found_decimals(np.array([5e14] * 20_000 + [0.25] * 20_000)), 2)
        # digits of which 15 are surely meant are never left out
        for it, wanted in [(10_000_000_000.0005, 4), (999999.999999999, 9), (100000.000000001, 9), (1.00000001, 8)]:
            self.assertEqual(decimals.found_decimals(np.array([it])), wanted)
            self.assertEqual(decimals.found_decimals([it, D(1)]), wanted)


@wants_library
class Made(unittest.TestCase):
    """Tables that are made of columns, with decimals that are given or found."""

    @wants_pandas
    def test_frames(self):
        frame = pd.DataFrame({"k": [float(it) for it in KEYS], "p": exact(PAYLOADS)})
        for options in ({}, {"key_decimals": 2, "payload_decimals": 1}):
            with crackd.Table.from_pandas(frame, "k", "p", **options) as table:
                self.assertEqual((table.key_type, table.key_decimals, table.payload_decimals), ("int64", 2, 1))
                found = [table.get(it) for it in table.row_numbers]
                self.assertEqual(found, list(zip(exact(KEYS), exact(PAYLOADS))))
        with crackd.Table.from_pandas(frame, "k", "p", key_decimals=4, payload_decimals=3) as table:
            self.assertEqual((table.key_decimals, table.payload_decimals), (4, 3))
            self.assertEqual(table.sum(raw=True), int(sum(exact(PAYLOADS)) * 1000))
        with crackd.Table.from_pandas(pd.Series([0.5, 1.25], index=[0.1, 0.2])) as table:
            self.assertEqual((table.key_decimals, table.payload_decimals, table.sum()), (1, 2, D("1.75")))

    @wants_pandas
    def test_floats_that_are_no_decimals(self):
        frame = pd.DataFrame({"k": [1.5, 1 / 3, 2.0], "p": [0.5, 2.0, 2 / 3]})
        with self.assertRaisesRegex(ValueError, "item 2 of the payloads, 0.6666666666666666, .* payload_decimals"):
            crackd.Table.from_pandas(frame, "k", "p")
        frame["p"] = [1.0, 2.0, 3.0]
        with crackd.Table.from_pandas(frame, "k", "p") as table:
            # keys stay floats, and whole payloads are integers
            self.assertEqual((table.key_type, table.key_decimals, table.payload_decimals), ("float64", 0, 0))
            self.assertEqual((table.sum(), type(table.sum())), (6, int))
            self.assertRaises(TypeError, table.insert, 1.5, 2.0)
        self.assertRaisesRegex(ValueError, "item 1 of the keys", crackd.Table.from_pandas, frame, "k", key_decimals=3)
        frame["k"] = [1.0, 2.0, 3.0]
        with crackd.Table.from_pandas(frame, "k", "p") as table:
            self.assertEqual(table.key_type, "float64")
        with crackd.Table.from_pandas(frame, "k", "p", key_decimals=0) as table:
            self.assertEqual((table.key_type, table.get(table.row_numbers[2])), ("int64", (3, 3)))
        frame["k"] = [0.5, 0.25, 2.0]
        with crackd.Table.from_pandas(frame, "k", "p", key_type="float64") as table:
            self.assertEqual((table.key_type, table.key_decimals), ("float64", 0))
        self.assertRaises(TypeError, crackd.Table.from_pandas, frame, "k", key_type="int64")

    @wants_numpy
    def test_arrays(self):
        for keys, payloads in zip(forms(KEYS), forms(PAYLOADS)):
            with crackd.Table.from_arrays(keys, payloads, key_decimals=2, payload_decimals=1) as table:
                found = [table.get(it) for it in table.row_numbers]
                self.assertEqual(found, list(zip(exact(KEYS), exact(PAYLOADS))))
            # arrays say their types themselves
            self.assertRaises((TypeError, ValueError), crackd.Table.from_arrays, range(len(KEYS)), payloads)
        with crackd.Table.from_arrays([1, 2], [3, 4], key_decimals=2, payload_decimals=1, partitions=2) as table:
            self.assertEqual(table.get(table.row_numbers[1]), (D("2.00"), D("4.0")))
        with crackd.Table.from_arrays(np.array([1.0, 2.0]), [3.0, 4.0], key_decimals=0, payload_decimals=0) as table:
            self.assertEqual((table.key_type, table.sum(), type(table.sum())), ("int64", 7, int))
        many = np.round(np.random.default_rng(1).random(120_000) * 1000, 2)
        with crackd.Table.from_arrays(many, many, key_decimals=2, payload_decimals=2, shards=2) as table:
            self.assertEqual(table.sum(), sum(map(D, map(str, many.tolist()))))
            self.assertEqual(table.sum(500), sum(D(str(it)) for it in many.tolist() if it >= 500))

    @wants_numpy
    def test_arrow(self):
        data = Data({"k": ("g", [[0.25, 1.5], [10.125]]), "p": ("f", [[0.5, 0.25], [2.0]])})
        for options in ({}, {"key_decimals": 3, "payload_decimals": 2}):
            with crackd.Table.from_arrow(data, "k", "p", **options) as table:
                self.assertEqual((table.key_decimals, table.payload_decimals), (3, 2))
                found = [table.get(it) for it in table.row_numbers]
                self.assertEqual(found, list(zip(exact(["0.25", "1.5", "10.125"]), exact(["0.5", "0.25", "2"]))))
        data = Data({"k": ("g", [[0.1, 0.2]]), "p": ("g", [[0.5, 1 / 7]])})
        self.assertRaisesRegex(ValueError, "item 1 of the payloads", crackd.Table.from_arrow, data, "k", "p")


@wants_library
class InProcessDecimals(Decimals, InProcess, unittest.TestCase):
    """In the process."""


@wants_shards
class InShardsDecimals(Decimals, InShards, unittest.TestCase):
    """In several shards."""


@wants_shards
class InShardsOneByOne(InShardsDecimals):
    """In several shards, item by item."""

    AT_ONCE = False


@wants_program
@wants_library
class OverTcpDecimals(Decimals, OverTcp, unittest.TestCase):
    """Over TCP."""

    def test_a_server_has_integers(self):
        with crackd.serve(workers=1) as server, server.connect() as table:
            self.assertEqual((table.key_decimals, table.payload_decimals, table.zone), (0, 0, None))
            self.assertRaises(TypeError, table.insert, 1, D("1.5"))
        with crackd.serve(workers=1, key_type="int64", payload_decimals=2) as server, server.connect() as table:
            table.insert(1, 1.25)
            with server.connect(payload_decimals=0) as other:
                self.assertEqual((other.sum(), table.sum()), (125, D("1.25")))


@wants_program
@wants_library
class OverAsyncioDecimals(Decimals, OverAsyncio, unittest.TestCase):
    """Over asyncio."""


@wants_library
@wants_cluster
@wants_numpy
class OnACluster(Decimals, unittest.TestCase):
    """On a cluster."""

    @classmethod
    def setUpClass(cls):
        cls.stack = contextlib.ExitStack()
        cls.client = cls.stack.enter_context(local(2))

    @classmethod
    def tearDownClass(cls):
        cls.stack.close()

    @contextlib.contextmanager
    def table(self, sample=(), rows=None, partitions=None, **options):
        with cluster.Table(self.client, sample, rows, shards=partitions, **options) as table:
            yield table

    def save_and_load(self, table, path):
        manifest = table.save(path.parent)
        self.assertEqual((manifest["key_decimals"], manifest["payload_decimals"]), (2, 1))
        with cluster.Table.restore(self.client, path.parent) as loaded:
            self.expect_all(loaded)

    @wants_pandas
    def test_dask_frames(self):
        import dask.dataframe

        frame = pd.DataFrame({"k": [float(it) for it in KEYS], "p": [float(it) for it in PAYLOADS]})
        given = dask.dataframe.from_pandas(frame, npartitions=2)
        with cluster.Table.from_dask(self.client, given, "k", "p", key_decimals=2, payload_decimals=1) as table:
            self.expect_all(table)


if __name__ == "__main__":
    unittest.main()
