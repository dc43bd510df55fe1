"""Tables in the process that are refused memory, and memory that doesn't grow."""

import contextlib
import os
import pathlib
import random
import subprocess
import sys
import tempfile
import threading
import unittest
from unittest import mock

from amounts import amount
from ways import crackd, refusing, wants_gcc, wants_library, wants_numpy, wants_shards

from crackd import library

HERE = pathlib.Path(__file__).resolve().parent
# fills memory with a table and then with blocks, and prints how many rows were inserted, what `len` returns while a
# count is refused, and how many rows a count finds once there is memory again
FILL = """
import resource
from ways import crackd
table, keys, blocks = crackd.Table(), range(20_000), []
# (the first count takes over the memory of these rows; a later one needs more for the others)
placed = len(table.insert_many(keys, keys))
table.count()
with open("/proc/self/statm", encoding="ascii") as file:
    room = int(file.read().split()[0]) * resource.getpagesize() + 60 * 2**20
resource.setrlimit(resource.RLIMIT_AS, (room, resource.RLIM_INFINITY))
try:
    while True:
        placed += len(table.insert_many(keys, keys))
except MemoryError as error:
    # (one of numpy's own comes before anything is placed)
    placed += getattr(error, "done", 0)
try:
    while True:
        blocks.append(bytearray(2**18))
except MemoryError:
    # (Python itself needs some)
    del blocks[-4:]
try:
    table.count()
except crackd.OutOfMemory:
    length = len(table)
resource.setrlimit(resource.RLIMIT_AS, (resource.RLIM_INFINITY, resource.RLIM_INFINITY))
print(placed, length, table.count())
"""


def resident():
    """How many bytes of memory this process has."""
    with open("/proc/self/statm", encoding="ascii") as file:
        return int(file.read().split()[1]) * os.sysconf("SC_PAGE_SIZE")


STEPS, ONE_IN, STEPS_IN_TURN, SECONDS = 100_000, 25, 40, 600
# so that a child neither searches for the program nor reports that it isn't proved
ENVIRONMENT = {**os.environ, "CRACKD": os.devnull}


@wants_library
@wants_gcc
class Refusals(unittest.TestCase):
    """Refusals for lack of memory lose nothing, compared with a plain list."""

    def run_refused(self, *words, **environment):
        """Runs refusals.py with an allocator that refuses. Returns the number that it prints."""
        with tempfile.TemporaryDirectory() as room:
            also = refusing(room, **environment)
            command = [sys.executable, str(HERE / "refusals.py"), *words]
            how = {"env": {**ENVIRONMENT, **also}, "capture_output": True, "text": True, "timeout": SECONDS}
            ran = subprocess.run(command, check=False, **how)
        self.assertEqual((ran.returncode, ran.stderr), (0, ""))
        return int(ran.stdout)

    def test_random_calls_without_refusals(self):
        self.assertEqual(self.run_refused(str(STEPS), "chance"), 0)

    def test_random_calls_of_which_some_are_refused(self):
        refused = self.run_refused(str(STEPS), "chance", REFUSE_ONE_IN=str(ONE_IN), REFUSE_SEED="7")
        self.assertGreater(refused, 1000)

    @wants_numpy
    def test_random_calls_in_several_shards_of_which_some_are_refused(self):
        refused = self.run_refused(str(STEPS // 5), "chance", "3", REFUSE_ONE_IN=str(ONE_IN), REFUSE_SEED="8")
        self.assertGreater(refused, 300)

    def test_each_allocation_refused_in_turn(self):
        self.assertGreater(self.run_refused(str(STEPS_IN_TURN), "turn"), 50)


@wants_shards
class Limits(unittest.TestCase):
    """Calls for many rows in several shards, with limits on the address space."""

    RUNS = 400

    def test_what_the_errors_say_was_done(self):
        seed = int(os.environ.get("CRACKD_SEED") or random.SystemRandom().randrange(2**32))
        print(f"{self.id()}: CRACKD_SEED={seed}", file=sys.stderr)
        command = [sys.executable, str(HERE / "limited.py"), str(seed), str(amount(self.RUNS))]
        how = {"env": ENVIRONMENT, "capture_output": True, "text": True, "timeout": SECONDS}
        ran = subprocess.run(command, check=False, **how)
        self.assertEqual((ran.returncode, ran.stderr), (0, ""))
        refused, partly = map(int, ran.stdout.split())
        # some had enough memory, some had none, and some were refused amid the rows
        self.assertGreater(refused, amount(self.RUNS) // 20)
        self.assertGreater(partly, amount(self.RUNS) // 80)

    def test_spare_memory_is_given_back_before_an_error_is_made(self):
        steps, made = [], crackd.routing.error_of

        class Spare:
            def __init__(self):
                steps.append("taken")

            def give(self):
                steps.append("given")

        def error_of(*words):
            steps.append("error")
            return made(*words)

        with crackd.Table(splits=[100, 200], shards=3) as table:
            rows = table.insert_many(range(300), range(300))
            refusing = {"placed.Spare": Spare, "routing.Spare": Spare}
            refusing |= {"placed.error_of": error_of, "routing.error_of": error_of}
            with contextlib.ExitStack() as stack:
                for name, it in refusing.items():
                    stack.enter_context(mock.patch(f"crackd.{name}", it))
                for name in ("insert_many", "update_many", "delete_many"):
                    stack.enter_context(mock.patch.object(library.library(), name, lambda *_: 8))
                for call, *words in [
                    (table.insert_many, range(300), range(300)),
                    (table.update_many, rows, range(300), range(300)),
                    (table.delete_many, rows),
                ]:
                    steps.clear()
                    self.assertRaises(crackd.OutOfMemory, call, *words)
                    self.assertEqual(steps[0], "taken")
                    self.assertLess(steps.index("given"), steps.index("error"))

    def test_errors_of_python(self):
        """A MemoryError that isn't the library's is an `OutOfMemory` as well."""
        for shards in (1, 3):
            with crackd.Table(splits=[100, 200], shards=shards) as table:
                rows = table.insert_many(range(300), range(300))
                keys = [int(it) for it in range(300)]
                for name, words in [("update_many", (rows, keys, keys)), ("delete_many", (rows,))]:
                    for where in ("base.ints", "local.empty"):
                        with mock.patch(f"crackd.{where}", side_effect=MemoryError), self.subTest(name, where=where):
                            with self.assertRaises(crackd.OutOfMemory) as caught:
                                getattr(table, name)(*words)
                            self.assertEqual((caught.exception.done, caught.exception.later), (0, 0))
                for where in ("decimals.ints", "placed.empty"):
                    with mock.patch(f"crackd.{where}", side_effect=MemoryError), self.subTest(where=where):
                        with self.assertRaises(crackd.OutOfMemory) as caught:
                            table.insert_many(keys, keys)
                        error = caught.exception
                        self.assertEqual((error.done, error.later, list(error.answers)), (0, 0, []))
                self.assertEqual((table.count(), table.sum()), (300, 299 * 150))


@wants_library
class Lengths(unittest.TestCase):
    """What `len` returns where a query finds no memory."""

    def test_the_length_of_several_partitions(self):
        with crackd.Table(splits=[10, 20], shards=1) as table:
            rows = table.insert_many([1, 2, 3, 11, 12, 25], range(6))
            table.settle()
            table.delete(rows[1])
            with mock.patch.object(library.library(), "count", lambda *_: 8):
                self.assertRaises(crackd.OutOfMemory, table.count)
                self.assertEqual(len(table), 5)

    def test_the_length_after_memory_ran_out(self):
        for trim in ("131072", "65536"):
            # Dask sets the second threshold; with it the row numbers must be computed without further memory
            environment = {**ENVIRONMENT, "MALLOC_TRIM_THRESHOLD_": trim}
            how = {"cwd": HERE, "env": environment, "capture_output": True, "text": True, "timeout": SECONDS}
            with self.subTest(trim):
                ran = subprocess.run([sys.executable, "-c", FILL], check=False, **how)
                self.assertEqual((ran.returncode, ran.stderr), (0, ""))
                placed, length, rows = map(int, ran.stdout.split())
                self.assertGreater(placed, 100_000)
                self.assertEqual((length, rows), (placed, placed))


@wants_library
class Kept(unittest.TestCase):
    """What is kept of calls that have ended: nothing."""

    def test_a_million_calls(self):
        with crackd.Table(history=1000) as table:

            def call(rounds):
                """Five calls in each round, and some others now and then."""
                gone = 0
                for it in range(rounds):
                    row = table.insert(it % 1000, 5)
                    gone += table.update(row, it % 500, 7)
                    table.count(it % 1000, it % 1000 + 5), table.sum(it % 1000)
                    gone += table.delete(row)
                    if it % 100 == 0:
                        rows = table.insert_many([it % 1000] * 9, range(9))
                        table.count_many([5], [6]), table.sum_many([5], [6])
                        table.select(it % 1000), table.get(rows[0])
                        self.assertTrue(all(table.delete_many(rows)))
                self.assertEqual((gone, table.count()), (2 * rounds, 0))

            call(10_000)
            before = resident()
            call(200_000)
            self.assertLess(resident() - before, 5_000_000)

    @wants_numpy
    def test_a_million_calls_of_four_threads(self):
        with crackd.Table(splits=[1000, 2000, 3000], shards=4, history=1000) as table:

            def call(at, rounds):
                """Five calls in each round, of which some meet two shards."""
                for it in range(rounds):
                    key = at * 1000 + it % 1000
                    row = table.insert(key, 5)
                    table.update(row, key, 7), table.count(key, key + 5), table.sum(key - 5, key)
                    if it % 100 == 0:
                        table.delete_many(table.insert_many([key, 5, 1500, 2500] * 12, range(48)))
                    gone[at] += table.delete(row)

            def call_together(rounds):
                threads = [threading.Thread(target=call, args=(at, rounds)) for at in range(4)]
                for it in threads:
                    it.start()
                for it in threads:
                    it.join()

            gone = [0] * 4
            call_together(2500)
            before = resident()
            call_together(50_000)
            self.assertLess(resident() - before, 5_000_000)
            self.assertEqual((gone, table.count()), ([52_500] * 4, 0))


if __name__ == "__main__":
    unittest.main()
