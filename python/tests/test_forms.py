"""Files as others write them load at the first try, or after the one refusal that names what they need, and agree with
pandas: those of Debian's python3-vega-datasets, and made ones in the forms of banks, sensors, logs, ticks and taxis."""

import pathlib
import random
import tempfile
import unittest

from clusters import wants_pandas
from ways import crackd, np, wants_library

DATA = pathlib.Path("/usr/lib/python3/dist-packages/vega_datasets/_data")
ROWS = 2000


class Agreeing:
    """Cases in which a table of a file has what pandas reads."""

    def loaded(self, path, needs, **options):
        """A table of a file, which needs these arguments."""
        if needs:
            with self.assertRaises(crackd.CsvError) as caught:
                crackd.load_csv(path, **options).close()
            self.assertEqual(caught.exception.needs, needs, str(caught.exception))
            options |= {name: values[0] for name, values in needs.items()}
        table = crackd.load_csv(path, **options)
        self.addCleanup(table.close)
        return table

    def agree(self, table, keys, payloads):
        """The counts and sums of 100 ranges are those of pandas' columns."""
        import pandas

        frame = pandas.DataFrame({"k": keys, "p": payloads}).dropna()
        self.assertEqual((table.count(), table.skipped), (len(frame), len(keys) - len(frame)))
        scaled = (frame["p"].astype(float) * 10**table.payload_decimals).round().astype("int64").to_numpy()
        them, drawn = frame["k"].to_numpy(), random.Random(3)
        for _ in range(100):
            low, high = sorted(drawn.choices(them, k=2))
            is_in = (them >= low) & (them < high)
            # numpy has no zones
            ends = [f"{it}Z" if table.zone else it for it in (low, high)]
            found = table.count(*ends), table.sum(*ends, raw=True)
            self.assertEqual(found, (int(is_in.sum()), int(scaled[is_in].sum())), (low, high))


@wants_library
@wants_pandas
@unittest.skipUnless(DATA.is_dir(), "python3-vega-datasets isn't installed")
class Datasets(Agreeing, unittest.TestCase):
    """The files of Debian's python3-vega-datasets."""

    def check(self, name, needs, key, payload, form="%Y-%m-%d", is_given=False):
        import pandas

        table = self.loaded(DATA / name, needs, **({"payload": payload} if is_given else {}))
        frame = pandas.read_csv(DATA / name)
        keys = frame[key] if form is None else pandas.to_datetime(frame[key], format=form)
        self.agree(table, keys, frame[payload])
        self.assertEqual((table.found["key"], table.found["payload"]), (key, payload))

    def test_at_the_first_try(self):
        self.check("seattle-temps.csv", {}, "date", "temp", "%Y/%m/%d %H:%M")
        self.check("sf-temps.csv", {}, "date", "temp", "%Y/%m/%d %H:%M:%S")
        self.check("seattle-weather.csv", {}, "date", "precipitation", "%Y/%m/%d")
        self.check("us-employment.csv", {}, "month", "nonfarm")

    def test_with_what_the_refusal_names(self):
        self.check("iowa-electricity.csv", {"key": ("year",), "payload": ("net_generation",)}, "year", "net_generation")
        needs = {"key": ("date",), "payload": ("price",), "key_format": ("%b %d %Y",)}
        self.check("stocks.csv", needs, "date", "price", "%b %d %Y")
        self.check("airports.csv", {"key": ("latitude",), "payload": ("longitude",)}, "latitude", "longitude", None)

    def test_other_columns(self):
        self.check("iowa-electricity.csv", {}, "year", "net_generation", is_given=True)
        self.check("seattle-weather.csv", {}, "date", "wind", "%Y/%m/%d", is_given=True)
        self.check("us-employment.csv", {}, "month", "wholesale_trade", is_given=True)


@wants_library
@wants_pandas
class Forms(Agreeing, unittest.TestCase):
    """Made files."""

    def setUp(self):
        room = tempfile.TemporaryDirectory()
        self.addCleanup(room.cleanup)
        self.path, self.drawn = pathlib.Path(room.name) / "rows.csv", random.Random(9)
        import pandas

        self.pandas = pandas

    def write(self, lines, encoding="utf-8"):
        self.path.write_bytes("".join(f"{it}\r\n" for it in lines).encode(encoding))

    def test_a_bank(self):
        """Semicolons, decimal commas, points between groups of digits, days before months, and umlauts."""
        lines = ["Buchungstag;Verwendungszweck;Betrag;Währung"]
        for _ in range(ROWS):
            cents = self.drawn.randrange(-(10**7), 10**7)
            whole = f"{abs(cents) // 100:,}".replace(",", ".")
            day = f"{self.drawn.randrange(1, 29):02}.{self.drawn.randrange(1, 13):02}.2026"
            amount = f"{'-' * (cents < 0)}{whole},{abs(cents) % 100:02}"
            lines.append(f'{day};"Miete; {self.drawn.randrange(99)}";{amount};EUR')
        self.write(lines, "latin-1")
        needs = {"key": ("Buchungstag",), "payload": ("Betrag",), "key_format": ("%d.%m.%Y",), "decimal": (",",)}
        table = self.loaded(self.path, {**needs, "encoding": ("latin-1",)})
        frame = self.pandas.read_csv(self.path, sep=";", dtype=str, encoding="latin-1")
        amounts = frame["Betrag"].str.replace(".", "", regex=False).str.replace(",", ".", regex=False)
        self.agree(table, self.pandas.to_datetime(frame["Buchungstag"], format="%d.%m.%Y"), amounts.astype(float))

    def test_sensors(self):
        """Times in UTC, a name, and values with gaps."""
        lines = ["sensor,time,celsius"]
        for at in range(ROWS):
            value = self.drawn.choice(["", "NaN", *[f"{self.drawn.randrange(-4000, 4000) / 100}"] * 20])
            time = self.pandas.Timestamp("2026-01-01") + self.pandas.Timedelta(at * 997, "ms")
            lines.append(f"s{at % 3},{time.isoformat()}Z,{value}")
        self.write(lines)
        needs = {"key": ("time",), "payload": ("celsius",), "missing": ("skip",)}
        table = self.loaded(self.path, needs)
        frame = self.pandas.read_csv(self.path, parse_dates=["time"])
        self.agree(table, frame["time"].dt.tz_localize(None), frame["celsius"])

    def test_logs(self):
        """Tabs, no header, the times of a web server, and the sizes of replies."""
        lines = []
        for at in range(ROWS):
            time = self.pandas.Timestamp("2026-11-30 23:00") + self.pandas.Timedelta(at * 7, "s")
            code, size = self.drawn.choice([200, 304, 404]), self.drawn.randrange(10**6)
            lines.append(f"{time:[%d/%b/%Y:%H:%M:%S +0000]}\tGET /{at % 7}\t{code}\t{size}")
        self.write(lines)
        table = self.loaded(self.path, {"key_format": ("[%d/%b/%Y:%H:%M:%S %z]",)}, key=0, payload=3)
        frame = self.pandas.read_csv(self.path, sep="\t", header=None)
        times = self.pandas.to_datetime(frame[0], format="[%d/%b/%Y:%H:%M:%S +0000]")
        self.agree(table, times, frame[3])
        needs = {"key": (0,), "payload": (2,), "key_format": ("[%d/%b/%Y:%H:%M:%S %z]",)}
        self.assertEqual(self.loaded(self.path, needs).found["payload"], 2)

    def test_ticks(self):
        """Nanoseconds, and prices of up to four decimal places."""
        lines, moment, price = ["timestamp|price|volume"], 1_767_225_600_000_000_000, 1_000_000
        for _ in range(ROWS):
            moment, price = moment + self.drawn.randrange(10**9), price + self.drawn.randrange(-99, 100)
            time = str(np.datetime64(moment, "ns")).replace("T", " ")
            lines.append(f"{time}|{price / 10_000}|{self.drawn.randrange(1, 99)}")
        self.write(lines)
        frame = self.pandas.read_csv(self.path, sep="|", parse_dates=["timestamp"])
        table = self.loaded(self.path, {})
        self.assertEqual((table.key_type, table.payload_decimals), ("datetime64[ns]", 4))
        self.agree(table, frame["timestamp"], frame["price"])
        self.agree(self.loaded(self.path, {}, payload="volume"), frame["timestamp"], frame["volume"])

    def test_taxis(self):
        """Many columns, of which two have times, and fares with gaps."""
        lines = ["VendorID,pickup,dropoff,passengers,distance,flag,fare"]
        for _ in range(ROWS):
            begin = self.pandas.Timestamp("2026-03-01") + self.pandas.Timedelta(self.drawn.randrange(10**6), "s")
            end = begin + self.pandas.Timedelta(self.drawn.randrange(3600), "s")
            fare = self.drawn.choice(["", f"{self.drawn.randrange(250, 9000) / 100}", f"{self.drawn.randrange(3, 90)}"])
            lines.append(f"{self.drawn.randrange(1, 3)},{begin},{end},{self.drawn.choice(['', 1, 2])},1.5,N,{fare}")
        self.write(lines)
        table = self.loaded(self.path, {"missing": ("skip",)}, payload="fare")
        frame = self.pandas.read_csv(self.path, parse_dates=["pickup", "dropoff"])
        self.agree(table, frame["pickup"], frame["fare"])
        self.agree(self.loaded(self.path, {}), frame["pickup"], frame["VendorID"])


if __name__ == "__main__":
    unittest.main()
