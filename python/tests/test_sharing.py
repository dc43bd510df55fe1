"""Threads that query and change one table at random, each with its own keys, compared with a list for each. Meanwhile
calls are refused and interrupted, and the table is closed."""

import random
import signal
import threading
import time
import unittest

from test_cluster import RandomSteps
from test_signals import SECONDS, handling
from test_table import numbers
from ways import InProcess, InShards, OverTcp, crackd, np, wants_program, wants_shards


class OwnKeys(RandomSteps):
    """Random calls for the keys of one thread, which are of several shards."""

    def __init__(self, test, table, rng, at, threads):
        super().__init__(test, table, rng)
        self.at, self.threads = at, threads
        self.calls = [it for it in self.calls if it not in (self.far_update, self.others, self.select)]
        self.calls += [self.selected, self.loaded, self.refused]

    def key(self):
        return self.rng.randrange(300) * self.threads + self.at

    def range(self):
        # a range of one key, since other threads have its neighbours
        low = self.key()
        return low, low + 1

    def many(self):
        pairs = [self.range() for _ in range(20)]
        self.test.assertEqual(numbers(self.table.count_many(*zip(*pairs))), [self.model.count(*it) for it in pairs])
        self.test.assertEqual(self.table.sum_many(*zip(*pairs)), [self.model.sum(*it) for it in pairs])

    def selected(self):
        """All rows, of which these keys are looked at."""
        got = self.table.select()
        own = (it % self.threads == self.at for it in numbers(got.keys))
        found = {row: (key, pay) for row, key, pay, is_own in zip(*map(numbers, got), own) if is_own}
        self.test.assertEqual(found, self.model.rows)

    def loaded(self):
        keys = [self.key() for _ in range(300)]
        payloads = [self.payload() for _ in keys]
        rows = numbers(self.table.insert_many(keys, payloads))
        self.model.rows.update(zip(rows, zip(keys, payloads)))
        gone = self.rng.sample(sorted(self.model.rows), min(len(self.model.rows), 280))
        self.test.assertTrue(all(self.table.delete_many(gone)))
        for row in gone:
            del self.model.rows[row]

    def refused(self):
        """An update of many of which one is refused for its number."""
        rows = self.rows(5)
        changed = {row: self.near(row) for row in rows}
        with self.test.assertRaises(crackd.NoSuchPartition) as caught:
            self.table.update_many([*rows, 9 << 54], *zip(*changed.values(), (1, 1)))
        self.test.assertEqual((caught.exception.done, caught.exception.later), (len(rows), 0))
        self.model.rows.update(changed)


class Threads:
    """Threads that use one table at once, however it is reached."""

    THREADS, STEPS = 5, 120

    def run_threads(self, works):
        """Runs these in a thread each. Returns what they raised."""
        faults = []

        def run(work):
            try:
                work()
            except BaseException as error:
                faults.append(error)

        threads = [threading.Thread(target=run, args=(it,)) for it in works]
        for it in threads:
            it.start()
        for it in threads:
            it.join(SECONDS * 10)
        self.assertFalse(any(it.is_alive() for it in threads))
        return faults

    def test_random_calls_agree_with_a_list_of_each_thread(self):
        most = 300 * self.THREADS
        with self.table(range(most), partitions=6, history=500) as table:
            steps = [OwnKeys(self, table, random.Random(it), it, self.THREADS) for it in range(self.THREADS)]
            works = [lambda it=it: [it.step() for _ in range(self.STEPS)] for it in steps]
            self.assertEqual(self.run_threads([*works, lambda: [table.layout() for _ in range(50)]]), [])
            rows = {row: it for each in steps for row, it in each.model.rows.items()}
            self.assertEqual((table.count(), table.layout().rows), (len(rows), len(rows)))
            self.assertEqual(table.sum(), sum(it[1] for it in rows.values()))

    def test_a_table_is_closed_amid(self):
        for _ in range(5):
            with self.table(range(1500), partitions=6) as table:
                steps = [OwnKeys(self, table, random.Random(it), it, self.THREADS) for it in range(self.THREADS)]

                def work(it):
                    while True:
                        it.step()

                def close():
                    time.sleep(0.1)
                    table.close()
                    table.close()

                faults = self.run_threads([close, *(lambda it=it: work(it) for it in steps)])
                self.assertEqual({type(it) for it in faults}, {crackd.Closed}, faults)
                self.assertEqual(len(faults), self.THREADS)


class Interrupted(Threads):
    """Threads that use one table of this process, amid which a call is interrupted."""

    def test_a_call_is_interrupted_amid(self):
        class Stop(Exception):
            pass

        is_armed = False

        def stop(*_):
            # the interpreter may call this some time after the signal, when the interrupted call is over
            nonlocal is_armed
            if is_armed:
                is_armed = False
                raise Stop

        with self.table(range(1500), partitions=6) as table, handling(signal.SIGVTALRM, stop):
            is_over, steps = threading.Event(), OwnKeys(self, table, random.Random(1), 1, 2)

            def work():
                while not is_over.is_set():
                    steps.step()

            thread = threading.Thread(target=lambda: faults.extend(self.run_threads([work])))
            faults = []
            thread.start()
            # the kernel may look at the timer only each 4 ms, so a call has many rows
            keys, stopped = np.tile(np.arange(0, 1400, 2), 20), 0
            try:
                # the alarm ends a test that hangs
                for number in range(40):
                    signal.alarm(SECONDS)
                    answers = None
                    try:
                        is_armed = True
                        signal.setitimer(signal.ITIMER_VIRTUAL, 0.0002 + 0.0001 * (number % 20))
                        answers = table.insert_many(keys, keys)
                        is_armed = False
                        signal.setitimer(signal.ITIMER_VIRTUAL, 0)
                    except Stop as error:
                        stopped, answers = stopped + 1, getattr(error, "answers", answers)
                    got = table.select()
                    own = set(got.rows[got.keys % 2 == 0].tolist())
                    # the signal may come before the call, or after it
                    if answers is not None:
                        self.assertLessEqual(set(numbers(answers)), own)
                    self.assertTrue(all(table.delete_many(sorted(own))))
            finally:
                is_over.set()
                thread.join()
            self.assertEqual(faults, [])
            self.assertGreater(stopped, 0)
            self.assertEqual(table.count(), len(steps.model.rows))


@wants_shards
class InShardsThreads(Interrupted, InShards, unittest.TestCase):
    """In several shards."""


@wants_shards
class InProcessThreads(Interrupted, InProcess, unittest.TestCase):
    """In one shard."""


@wants_shards
@wants_program
class OverTcpThreads(Threads, OverTcp, unittest.TestCase):
    """Over one connection."""


if __name__ == "__main__":
    unittest.main()
