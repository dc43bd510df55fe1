"""Times with a zone: which moments local times stand for, compared with `datetime` and `zoneinfo`."""

import contextlib
import copy
import datetime
import importlib.util
import pathlib
import pickle
import random
import tempfile
import unittest
import zoneinfo

from clusters import cluster, local, wants_cluster, wants_pandas
from test_frames import Data
from ways import (
    InProcess,
    InShards,
    OverAsyncio,
    OverTcp,
    crackd,
    np,
    wants_library,
    wants_numpy,
    wants_program,
    wants_shards,
)

from crackd import zones
from crackd.keys import Keys, kind_of

pd = __import__("pandas") if importlib.util.find_spec("pandas") else None
UTC, HOUR = datetime.timezone.utc, datetime.timedelta(hours=1)
EPOCH = datetime.datetime(1970, 1, 1, tzinfo=UTC)
# a zone, a day on which its clocks change, and how many hours that day has
DAYS = [
    ("Europe/Berlin", "2020-03-29", 23),
    ("Europe/Berlin", "2020-10-25", 25),
    ("America/New_York", "2021-03-14", 23),
    ("Australia/Lord_Howe", "2021-04-04", 24.5),
    # at midnight: the first hour is never shown, or shown twice
    ("America/Sao_Paulo", "2018-11-04", 23),
    ("America/Havana", "2019-11-03", 25),
    # a day that was left out
    ("Pacific/Apia", "2011-12-30", 0),
    ("Asia/Kolkata", "2021-04-04", 24),
    ("+05:30", "2021-04-04", 24),
    ("UTC", "2021-04-04", 24),
]
# local times that are shown twice or never, with the offsets that say when
TWICE = [("2020-10-25T02:00", "+02:00", "+01:00"), ("2020-10-25T02:59:59", "+02:00", "+01:00")]
NEVER = [("2020-03-29T02:00", "+01:00", "+02:00"), ("2020-03-29T02:59:59", "+01:00", "+02:00")]


def micros(date):
    """An aware time in microseconds since 1970."""
    return (date - EPOCH) // datetime.timedelta(microseconds=1)


def tzinfo(name):
    return datetime.timezone(5.5 * HOUR) if name == "+05:30" else zoneinfo.ZoneInfo(name)


def local_forms(text):
    """A local time in each form in which a table takes it."""
    time = datetime.datetime.fromisoformat(text)
    yield from (text, text.replace("T", " "), time, np.datetime64(text, "s"), np.datetime64(text, "ns"))
    if pd is not None:
        yield pd.Timestamp(text)


@wants_numpy
class Zones:
    """The cases, however a table is reached."""

    TYPES = {"key_type": "datetime64[us]", "zone": "Europe/Berlin", "splits": ["2020-03-01", "2020-08-01"]}

    def filled(self, zone, day, dtype="datetime64[us]"):
        """A table of a row for each half hour of three days before and after a day, and the moments of the rows."""
        begin = datetime.datetime.fromisoformat(day).replace(tzinfo=UTC) - 72 * HOUR
        moments = [begin + it * HOUR / 2 for it in range(2 * 24 * 7)]
        splits = np.array([it.replace(tzinfo=None) for it in moments[50:200:50]], dtype)
        return moments, {"key_type": dtype, "zone": zone, "splits": zones.Zoned(splits, "UTC")}

    def test_days(self):
        for zone, day, hours in DAYS:
            moments, options = self.filled(zone, day)
            with self.subTest(zone, day=day), self.table(**options) as table:
                table.insert_many(moments, range(len(moments)))
                self.assertEqual(table.zone, tzinfo(zone).key if hasattr(tzinfo(zone), "key") else zone)
                date = datetime.date.fromisoformat(day)
                days = [date + datetime.timedelta(days=it) for it in range(-2, 4)]
                wanted = [sum(it.astimezone(tzinfo(zone)).date() == each for it in moments) for each in days[:-1]]
                self.assertEqual(wanted[2], 2 * hours)
                texts = [it.isoformat() for it in days]
                for edges in (texts, days, np.array(texts, "datetime64[D]"), np.array(texts)):
                    self.assertEqual(table.count_by(edges).tolist(), wanted)
                    self.assertEqual(table.count_many(edges[:-1], edges[1:]).tolist(), wanted)
                    self.assertEqual([table.count(*it) for it in zip(edges[:-1], edges[1:])], wanted)
                # what is given by an offset doesn't depend on the zone
                for offset in ("Z", "+05:30", "-12", "+0000"):
                    begin = datetime.datetime.fromisoformat(f"{day}T12:00:00+00:00")
                    begin -= datetime.timedelta(seconds=zones.seconds_of_offset(offset))
                    inside = [at for at, it in enumerate(moments) if it >= begin]
                    self.assertEqual(table.sum(f"{day}T12:00{offset}"), sum(inside))
                    self.assertEqual(table.sum_many([f"{day}T12{offset}"], None), [sum(inside)])

    def test_results_are_in_the_zone(self):
        for zone, day, _ in DAYS:
            for dtype in ("datetime64[s]", "datetime64[us]", "datetime64[ns]", "datetime64[m]", "datetime64[15m]"):
                moments, options = self.filled(zone, day, dtype)
                with self.subTest(zone, day=day, dtype=dtype), self.table(**options) as table:
                    rows = table.insert_many(moments, range(len(moments)))
                    shown = [it.astimezone(tzinfo(zone)) for it in moments]
                    for at in range(0, len(rows), 37):
                        key = table.get(rows[at]).key
                        self.assertIsInstance(key, datetime.datetime)
                        self.assertEqual((key, key.utcoffset()), (moments[at], shown[at].utcoffset()))
                        self.assertEqual(str(key), str(shown[at]))
                    naive = {int(row): it.replace(tzinfo=None) for row, it in zip(rows, shown)}
                    for got in (table.select(), *table.select_chunks(size=100)):
                        wanted = [naive[it] for it in got.rows]
                        self.assertEqual([it.item() for it in got.keys.astype("M8[us]")], wanted)
                    got = table.select(raw=True)
                    whole = {int(row): it.replace(tzinfo=None) for row, it in zip(rows, moments)}
                    self.assertEqual(got.keys.dtype, np.dtype(dtype))
                    self.assertEqual([it.item() for it in got.keys.astype("M8[us]")], [whole[it] for it in got.rows])

    @wants_pandas
    def test_frames(self):
        for zone, day, _ in DAYS:
            moments, options = self.filled(zone, day, "datetime64[ns]")
            index = pd.DatetimeIndex(moments).tz_convert(zone if zone != "+05:30" else tzinfo(zone))
            frame = pd.DataFrame({"t": index, "p": range(len(index))})
            with self.subTest(zone, day=day), self.table(**options) as table:
                rows = table.insert_frame(frame, "t", "p")
                for found in (table.select(), *table.select_chunks(size=77)):
                    shown = found.to_pandas().set_index("payload")["key"]
                    self.assertEqual(shown.dtype, frame.t.dtype)
                    self.assertTrue((shown == frame.t[shown.index]).all())
                self.assertEqual(table.count_many(frame.t, None).tolist(), [len(rows) - it for it in range(len(rows))])
                self.assertEqual(table.count_by(index[[0, 5, 9]]).tolist(), [5, 4])
                self.assertEqual(table.count(index[7]), len(rows) - 7)

    def test_local_times_shown_twice_or_never(self):
        with self.table(**self.TYPES) as table:
            row = table.insert("2020-05-01", 7)
            for text, *offsets in TWICE + NEVER:
                how = "shown twice" if (text, *offsets) in TWICE else "never shown"
                said = f"{how} by the clocks of Europe/Berlin: add an offset"
                for it in local_forms(text):
                    for call in (table.count, table.sum, table.select, table.mean, table.delete_range):
                        self.assertRaisesRegex(ValueError, how, call, it)
                        self.assertRaisesRegex(ValueError, how, call, None, it)
                    calls = [lambda it=it: table.count_many([it], None), lambda it=it: table.sum_many(None, [None, it])]
                    calls += [lambda it=it: table.count_by([None, it, None]), lambda it=it: table.insert(it, 1)]
                    calls += [lambda it=it: table.insert_many([it], [1]), lambda it=it: table.move(row, it)]
                    calls += [lambda it=it: table.update(row, it, 1), lambda it=it: table.update_many([row], [it], [1])]
                    calls += [lambda it=it: table.insert_many([np.datetime64("2020-05-02", "s"), it], [1, 2])]
                    for call in calls:
                        with self.assertRaisesRegex(ValueError, said) as caught:
                            call()
                        for offset in offsets:
                            self.assertIn(text[:16], str(caught.exception))
                            self.assertIn(offset, str(caught.exception))
                for unit in ("s", "us", "ns"):
                    array = np.array(["2020-05-02T00:00", text], f"M8[{unit}]")
                    self.assertRaisesRegex(ValueError, f"item 1 of the keys.* {how}", table.insert_many, array, [1, 2])
                    self.assertRaisesRegex(ValueError, how, table.count_many, array, None)
                # the cure
                for offset in offsets:
                    cured = table.insert(text + offset, 1)
                    time = datetime.datetime.fromisoformat(text + offset)
                    # a time that is shown twice equals no time of another zone in Python
                    found = micros(table.get(cured).key), table.count(text + offset, time + HOUR)
                    self.assertEqual(found, (micros(time), 1))
                    table.delete(cured)
            self.assertEqual((len(table), table.sum()), (1, 7))

    def test_times_just_before_and_after(self):
        with self.table(**self.TYPES) as table:
            for text, utc in [
                ("2020-03-29T01:59:59.999999", "2020-03-29T00:59:59.999999"),
                ("2020-03-29T03:00", "2020-03-29T01:00"),
                ("2020-10-25T01:59:59.999999", "2020-10-24T23:59:59.999999"),
                ("2020-10-25T03:00", "2020-10-25T02:00"),
            ]:
                wanted = np.datetime64(utc, "us")
                array = np.array([text], "M8[us]")
                rows = [table.insert(it, 1) for it in (text, array[0], datetime.datetime.fromisoformat(text))]
                rows += [*table.insert_many(array, [1]), *table.insert_many([text], [1])]
                self.assertEqual({table.get(it, raw=True).key for it in rows}, {wanted})
                self.assertEqual(table.select(text, None, raw=True).keys.min(), wanted)
                table.delete_many(rows)

    def test_a_time_of_another_zone_is_its_moment(self):
        tokyo = zoneinfo.ZoneInfo("Asia/Tokyo")
        with self.table(**self.TYPES) as table:
            noon = datetime.datetime(2020, 5, 1, 12, tzinfo=tokyo)
            rows = [table.insert(noon, 1), *table.insert_many([noon, "2020-05-01T05:00"], [2, 4])]
            rows += [*table.insert_many(["2020-05-01T12:00+09:00", noon], [8, 16])]
            self.assertEqual({str(table.get(it).key) for it in rows}, {"2020-05-01 05:00:00+02:00"})
            self.assertEqual((table.sum(noon), table.sum(None, noon), table.sum("2020-05-01T03:00:00Z")), (31, 0, 31))
            (row,) = table.insert_many(zones.Zoned(np.array(["2020-06"], "M8[M]"), "UTC"), [32])
            self.assertEqual(str(table.get(row).key), "2020-06-01 02:00:00+02:00")
            fold = datetime.datetime(2020, 10, 25, 2, 30, tzinfo=zoneinfo.ZoneInfo("Europe/Berlin"), fold=1)
            row = table.insert(fold, 1)
            self.assertEqual(table.get(row, raw=True).key, np.datetime64("2020-10-25T01:30"))
            self.assertEqual(str(table.get(row).key), "2020-10-25 02:30:00+01:00")

    def test_keys_beyond_the_years_of_a_zone(self):
        with self.table(**self.TYPES) as table:
            for key in (datetime.datetime.min, datetime.datetime.max, "+10000-01-01", np.datetime64("0000-06-01")):
                self.assertRaisesRegex(OverflowError, "Europe/Berlin", table.insert, key, 1)
                self.assertRaisesRegex(OverflowError, "Europe/Berlin", table.insert_many, [key], [1])
            rows = [table.insert(it, 1) for it in ("0001-02-01", "9999-12-01")]
            self.assertEqual([table.get(it).key.year for it in rows], [1, 9999])
            self.assertEqual(sorted(table.select().keys.astype("M8[D]").astype(str)), ["0001-02-01", "9999-12-01"])
            for low, high in [("-9999", "+99999"), (datetime.date.min, datetime.date.max), ("0000-01-01", None)]:
                self.assertEqual((table.count(low, high), table.count_many([low], [high]).tolist()), (2, [2]))
        with self.table(**{**self.TYPES, "key_type": "datetime64[ns]"}) as table:
            self.assertRaises(OverflowError, table.insert, "2262-04-11T23:00", 1)
            self.assertRaises(OverflowError, table.insert_many, np.array(["2262-04-11T23:00"], "M8[ns]"), [1])
            table.insert_many(np.array(["2262-04-09T23:00", "1677-09-24"], "M8[ns]"), [1, 2])
            self.assertEqual(sorted(table.select().keys.astype("M8[D]").astype(str)), ["1677-09-24", "2262-04-09"])

    def test_a_save_keeps_the_zone(self):
        with tempfile.TemporaryDirectory() as room, self.table(**self.TYPES) as table:
            rows = table.insert_many(["2020-10-25T02:30+02:00", "2020-10-25T02:30+01:00", "2020-07-01"], [1, 2, 4])
            wanted = [(table.get(it).key, table.get(it).payload) for it in rows]
            with self.saved(table, pathlib.Path(room) / "rows.npy") as other:
                self.assertEqual((other.zone, other.key_type), ("Europe/Berlin", "datetime64[us]"))
                self.assertEqual(sorted(tuple(other.get(it)) for it in other.select().rows), sorted(wanted))
                self.assertEqual(other.sum("2020-10-25", "2020-10-26"), 3)

    @contextlib.contextmanager
    def saved(self, table, path):
        table.save(path)
        with crackd.Table.load(path) as other:
            yield other
        times = {"UTC": "2020-10-25T00:30", "Asia/Tokyo": "2020-10-25T09:30", None: "2020-10-25T00:30"}
        for zone, local_time in times.items():
            with crackd.Table(key_type="datetime64[us]", zone=zone) as other:
                crackd.Table.load(path, into=other)
                self.assertEqual(other.sum(local_time), 3)

    def test_rebalanced(self):
        with self.table(**self.TYPES) as table:
            table.insert_many(["2020-10-25T02:30+02:00", "2020-10-25T02:30+01:00", "2020-07-01"], [1, 2, 4])
            found = table.rebalanced()
            with found.table as other:
                self.assertEqual(other.zone, table.zone)
                shown = (it.select("2020-10-25").keys.tolist() for it in (other, table))
                self.assertEqual(*shown)
            for zone, text in (("UTC", "2020-10-25T00:30"), (None, "2020-10-25T00:30")):
                with crackd.Table(key_type="datetime64[us]", zone=zone) as other:
                    table.rebalanced(into=other)
                    self.assertEqual((other.sum(text), other.sum(None, text)), (3, 4))


@wants_numpy
class Clocks(unittest.TestCase):
    """Local times and moments of many zones, one by one and in arrays."""

    ZONES = ("Europe/Berlin", "America/New_York", "Australia/Lord_Howe", "Africa/Casablanca", "Pacific/Apia", "+05:30")
    ZONES += ("America/Havana", "Asia/Kathmandu", "Europe/Dublin", "America/Caracas", "UTC", "Antarctica/Troll")

    def test_each_beside_the_standard_library(self):
        draws = random.Random(3)
        for name in self.ZONES:
            clock, zone = zones.clock_of(name), tzinfo(name)
            near = []
            for year in (1949, 1999, 2011, 2020, 2037, 2038, 2100):
                begins, _ = clock._changes_of(year)
                beside = (-86_400, -3601, -1, 0, 1, 1800, 3599, 3600, 7200, 86_399)
                near += [it + more for it in begins for more in beside]
            near += [draws.randrange(-(10**9), 4 * 10**9) for _ in range(300)]
            offsets = clock.offsets(np.array(near)).tolist()
            shown = [(EPOCH + datetime.timedelta(seconds=it)).astimezone(zone) for it in near]
            self.assertEqual(offsets, [it.utcoffset().total_seconds() for it in shown], name)
            for it in shown:
                for more in (0 * HOUR, HOUR):
                    self.one(clock, zone, it.replace(tzinfo=None) + more)

    def one(self, clock, zone, shown):
        """A local time, whose moments are those that the zone shows as this time again."""
        seconds = int((shown.replace(tzinfo=UTC) - EPOCH).total_seconds())
        moments = sorted(
            {
                moment
                for fold in (0, 1)
                for moment in [shown.replace(tzinfo=zone, fold=fold).astimezone(UTC)]
                if moment.astimezone(zone).replace(tzinfo=None) == shown
            }
        )
        calls = [lambda: clock.moment(seconds, False, "it")]
        calls += [lambda: clock.moments(np.array([0, seconds]), False, "them")[1]]
        for call in calls:
            if len(moments) == 1:
                self.assertEqual(EPOCH + datetime.timedelta(seconds=int(call())), moments[0], (zone, shown))
            else:
                self.assertRaisesRegex(ValueError, "twice" if moments else "never", call)
        # as a day this is the first moment from which no earlier time is shown any more
        first = EPOCH + datetime.timedelta(seconds=clock.moment(seconds, True, "it"))
        self.assertEqual(int(clock.moments(np.array([seconds]), True, "it")[0]), micros(first) // 10**6)
        if moments:
            self.assertEqual(first, moments[0])
        else:
            beside = (first - datetime.timedelta(seconds=1), first)
            before, after = (it.astimezone(zone).replace(tzinfo=None) for it in beside)
            self.assertTrue(before < shown < after)

    def test_names(self):
        berlin = zoneinfo.ZoneInfo("Europe/Berlin")
        pairs = [(None, None), ("Europe/Berlin", "Europe/Berlin"), (berlin, "Europe/Berlin"), (UTC, "UTC")]
        pairs += [("Z", "UTC")]
        pairs += [(zoneinfo.ZoneInfo("UTC"), "UTC"), ("+0530", "+05:30"), ("-03", "-03:00"), ("+00:00", "UTC")]
        pairs += [(datetime.timezone(-HOUR / 2), "-00:30"), (datetime.timezone(HOUR * 3661 / 3600), "+01:01:01")]
        if importlib.util.find_spec("pytz"):
            import pytz

            pairs += [(pytz.timezone("Europe/Berlin"), "Europe/Berlin"), (pytz.utc, "UTC")]
            pairs += [(pytz.FixedOffset(90), "+01:30")]
        if importlib.util.find_spec("dateutil"):
            import dateutil.tz

            pairs += [(dateutil.tz.tzutc(), "UTC"), (dateutil.tz.tzoffset(None, 3600), "+01:00")]
            pairs += [(dateutil.tz.gettz("Europe/Berlin"), "Europe/Berlin")]
        for given, wanted in pairs:
            self.assertEqual(zones.zone_name(given), wanted)
        for wrong in ("Mars/Base", "", "+24:00", "+1", "../etc/passwd", "Europe"):
            self.assertRaises(ValueError, zones.zone_name, wrong)
            self.assertRaises(ValueError, crackd.Table, key_type="datetime64[s]", zone=wrong)
        for key_type in ("int64", "uint64", "float64"):
            self.assertRaisesRegex(ValueError, "a zone is for dates", crackd.Table, key_type=key_type, zone="UTC")

    def test_types(self):
        plain, berlin = Keys.named("datetime64[s]"), Keys.named("datetime64[s, Europe/Berlin]")
        self.assertEqual((berlin.name, berlin.zone, berlin.raw), ("datetime64[s]", "Europe/Berlin", plain))
        self.assertEqual(len({plain, berlin, plain.with_zone("UTC")}), 3)
        for it in (plain, berlin):
            for same in (copy.copy(it), pickle.loads(pickle.dumps(it))):
                self.assertEqual((same, hash(same), repr(same)), (it, hash(it), repr(it)))
        zone = zoneinfo.ZoneInfo("Asia/Tokyo")
        times = [datetime.datetime(2020, 1, 1, tzinfo=it) for it in (zone, UTC)]
        self.assertEqual(kind_of(times[:1] * 2).zone, "Asia/Tokyo")
        self.assertEqual(kind_of(times).zone, "UTC")
        self.assertIsNone(kind_of([datetime.datetime(2020, 1, 1)]).zone)
        for mixed in ([times[0], datetime.datetime(2020, 1, 1)], [np.datetime64("2020-01-01"), times[1]]):
            self.assertRaisesRegex(ValueError, "dates with a time zone and dates without one", kind_of, mixed)


@wants_library
@wants_numpy
class Made(unittest.TestCase):
    """Tables that are made of zoned times."""

    def test_lists(self):
        zone = zoneinfo.ZoneInfo("Europe/Berlin")
        times = [datetime.datetime(2020, 10, 25, 2, 30, tzinfo=zone, fold=it) for it in (0, 1)]
        for options in ({}, {"key_type": "datetime64[s]"}, {"zone": "Europe/Berlin"}, {"key_type": "datetime64[ns]"}):
            with crackd.Table.from_arrays(times, [1, 2], **options) as table:
                self.assertEqual((table.zone, table.sum("2020-10-25T02:30+01:00")), ("Europe/Berlin", 2))
                self.assertEqual([micros(table.get(it).key) for it in table.row_numbers], list(map(micros, times)))
        with crackd.Table.from_arrays(times, zone="America/New_York") as table:
            self.assertEqual((table.zone, table.count("2020-10-24T20:30")), ("America/New_York", 2))
        with crackd.Table(times) as table:
            self.assertEqual((table.zone, len(table)), ("Europe/Berlin", 0))

    @wants_pandas
    def test_frames(self):
        index = pd.date_range("2020-10-24", "2020-10-27", freq="h", tz="Europe/Berlin", inclusive="left")
        frame = pd.DataFrame({"t": index, "p": range(len(index))})
        for table in (crackd.Table.from_pandas(frame, "t", "p"), crackd.Table.from_pandas(frame.p.set_axis(index))):
            with table:
                self.assertEqual(table.zone, "Europe/Berlin")
                self.assertIn("datetime64[ns] keys, zone Europe/Berlin", repr(table))
                days = ["2020-10-24", "2020-10-25", "2020-10-26", "2020-10-27"]
                self.assertEqual(table.count_by(days).tolist(), [24, 25, 24])
                self.assertEqual([table.get(it).key for it in table.row_numbers], list(index))
                self.assertEqual(sorted(table.select().to_pandas().key), list(index))
        self.assertRaises(TypeError, crackd.Table.from_pandas, frame, "p", "t")
        many = frame.loc[np.arange(50_000) % len(frame)]
        with crackd.Table.from_pandas(many, "t", "p", shards=2) as table:
            found = table.zone, table.count("2020-10-25", "2020-10-26")
            self.assertEqual(found, ("Europe/Berlin", (many.t.dt.day == 25).sum()))

    def test_arrow(self):
        seconds = [1603585800, 1603589400]
        for form, scale in (("tss", 1), ("tsm", 10**3), ("tsu", 10**6), ("tsn", 10**9)):
            for name in ("Europe/Berlin", "+01:00", "UTC", ""):
                times = [[it * scale] for it in seconds]
                data = Data({"k": (f"{form}:{name}", times), "p": ("l", [[1], [2]])})
                with crackd.Table.from_arrow(data, "k", "p") as table:
                    self.assertEqual(table.zone, name or None)
                    self.assertEqual(table.sum("2020-10-25T01:30Z"), 2)
                    keys = table.select(raw=True).keys
                    self.assertEqual(keys.astype("M8[s]").astype(int).tolist(), seconds)
                with crackd.Table(key_type="datetime64[ns]") as table:
                    table.insert_frame(data, "k", "p")
                    self.assertEqual(table.sum("2020-10-25T01:30"), 2)
        data = Data({"k": ("tss:Mars/Base", [[1]])})
        self.assertRaisesRegex(ValueError, "Mars/Base", crackd.Table.from_arrow, data)


@wants_library
class InProcessZones(Zones, InProcess, unittest.TestCase):
    """In the process."""


@wants_shards
class InShardsZones(Zones, InShards, unittest.TestCase):
    """In several shards."""


@wants_shards
class InShardsOneByOne(InShardsZones):
    """In several shards, item by item."""

    AT_ONCE = False


@wants_program
@wants_library
class OverTcpZones(Zones, OverTcp, unittest.TestCase):
    """Over TCP."""


@wants_program
@wants_library
class OverAsyncioZones(Zones, OverAsyncio, unittest.TestCase):
    """Over asyncio."""


@wants_library
@wants_cluster
@wants_numpy
class OnACluster(Zones, unittest.TestCase):
    """On a cluster."""

    # each call takes milliseconds
    test_local_times_shown_twice_or_never = None

    @classmethod
    def setUpClass(cls):
        cls.stack = contextlib.ExitStack()
        cls.client = cls.stack.enter_context(local(2))

    @classmethod
    def tearDownClass(cls):
        cls.stack.close()

    @contextlib.contextmanager
    def table(self, sample=(), rows=None, partitions=None, **options):
        with cluster.Table(self.client, sample, rows, shards=partitions, **options) as table:
            yield table

    @contextlib.contextmanager
    def saved(self, table, path):
        self.assertEqual(table.save(path.parent)["zone"], "Europe/Berlin")
        with cluster.Table.restore(self.client, path.parent) as other:
            yield other

    @wants_pandas
    def test_dask_frames(self):
        import dask.dataframe

        index = pd.date_range("2020-10-24", "2020-10-27", freq="h", tz="Europe/Berlin", inclusive="left")
        given = dask.dataframe.from_pandas(pd.DataFrame({"t": index, "p": range(len(index))}), npartitions=2)
        with cluster.Table.from_dask(self.client, given, "t", "p") as table:
            self.assertEqual((table.zone, table.count("2020-10-25", "2020-10-26")), ("Europe/Berlin", 25))


if __name__ == "__main__":
    unittest.main()
