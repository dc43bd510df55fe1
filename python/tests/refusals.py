"""Run by test_memory.py with an allocator that refuses memory to the library: refusals.py STEPS HOW [SHARDS]

Prints how many calls were refused. Fails if the table and a plain list differ.
"""

import ctypes
import random
import sys

from ways import crackd

from crackd import library

ALLOCATOR = ctypes.CDLL(None)
ALLOCATOR.refuse_calls.argtypes = [ctypes.c_uint64, ctypes.c_uint64]
ALLOCATOR.refuse_told.restype = ctypes.c_uint64
KEYS, MOST_ROWS = 1000, 300


def expect(what, wanted, got):
    if wanted != got:
        sys.exit(f"{what}: wanted {wanted}, got {got}")


def switched(call):
    """A function of the library during which memory may be refused."""

    def switching(*words):
        ALLOCATOR.refuse_switch(1)
        try:
            return call(*words)
        finally:
            ALLOCATOR.refuse_switch(0)

    return switching


def numbers(it):
    return [int(each) for each in it]


class Pair:
    """A table, and a list of the same rows."""

    def __init__(self, rng, shards):
        self.rng, self.rows, self.refused, self.shards = rng, {}, 0, shards
        self.table = self.opened()

    def opened(self):
        """A table that is opened as soon as there is memory."""
        while True:
            try:
                return crackd.Table([0, KEYS // 2, KEYS], partitions=3, history=40, shards=self.shards)
            except crackd.OutOfMemory:
                self.refused += 1

    def keys(self, count):
        return [self.rng.randrange(KEYS) for _ in range(count)]

    def some_rows(self):
        return self.rng.sample(sorted(self.rows), min(len(self.rows), self.rng.randrange(1, 5)))

    def range(self):
        low = self.rng.randrange(-10, KEYS)
        return low, low + self.rng.randrange(KEYS // 3)

    def inside(self, low, high):
        return {row: it for row, it in self.rows.items() if low <= it[0] < high}

    def insert(self):
        keys = self.keys(self.rng.randrange(1, 6))
        payloads = [self.rng.randrange(-(2**63), 2**63) for _ in keys]
        try:
            rows = numbers(self.table.insert_many(keys, payloads))
        except crackd.OutOfMemory as error:
            self.refused += 1
            rows = numbers(error.answers)
            expect("placed", error.done + error.later, len(rows))
            if error.later:
                return self.look(rows, keys, payloads)
        self.rows.update(zip(rows, zip(keys, payloads)))

    def look(self, rows, keys, payloads):
        """Takes up what a call that was refused in one shard has changed, which other shards have done further."""
        found = self.listed()
        expect("placed", sorted(rows), sorted(set(found) - set(self.rows)))
        for row in rows:
            at = next(it for it, key in enumerate(keys) if (key, payloads[it]) == found[row])
            keys, payloads = keys[:at] + keys[at + 1 :], payloads[:at] + payloads[at + 1 :]
        expect("others", self.rows, {row: it for row, it in found.items() if row not in rows})
        self.rows = found

    def listed(self):
        """All rows of the table, listed as soon as there is memory."""
        while True:
            try:
                got = self.table.select()
                return dict(zip(numbers(got.rows), zip(numbers(got.keys), numbers(got.payloads))))
            except crackd.OutOfMemory:
                self.refused += 1

    def insert_one(self):
        key = self.rng.randrange(KEYS)
        self.rows[self.table.insert(key, 7)] = (key, 7)

    def delete(self):
        rows = self.some_rows()
        try:
            done = len(rows)
            expect("gone", [True] * done, list(self.table.delete_many(rows)))
        except crackd.OutOfMemory as error:
            self.refused += 1
            done = error.done
            if error.later:
                return self.look_again(rows, dict.fromkeys(rows), error)
        for row in rows[:done]:
            del self.rows[row]

    def look_again(self, rows, changed, error):
        """Takes up what a change of rows that was refused in one shard has done: the first ones as far as the error
        says, and of those after them so many."""
        wanted, found = {row: changed[row] for row in rows}, self.listed()
        is_done = [found.get(row) == wanted[row] for row in rows]
        is_same = [self.rows[row] == wanted[row] for row in rows]
        expect("done", [True] * error.done, is_done[: error.done])
        expect("not done", is_same[error.done], is_done[error.done])
        later = sum(is_done[error.done + 1 :])
        expect("later", True, later - sum(is_same[error.done + 1 :]) <= error.later <= later)
        expect("others", {row: it for row, it in self.rows.items() if row not in rows}, {
            row: it for row, it in found.items() if row not in rows
        })
        self.rows = found

    def update(self):
        rows = self.some_rows()
        keys, payloads = [self.rows[row][0] for row in rows], [self.rng.randrange(-100, 100) for _ in rows]
        try:
            done = len(rows)
            expect("found", [True] * done, list(self.table.update_many(rows, keys, payloads)))
        except crackd.OutOfMemory as error:
            self.refused += 1
            done = error.done
            if error.later:
                return self.look_again(rows, dict(zip(rows, zip(keys, payloads))), error)
        self.rows.update(list(zip(rows, zip(keys, payloads)))[:done])

    def delete_one(self):
        for row in self.some_rows()[:1]:
            expect("gone", True, self.table.delete(row))
            del self.rows[row]

    def update_one(self):
        for row in self.some_rows()[:1]:
            changed = self.rows[row][0], self.rng.randrange(-100, 100)
            expect("found", True, self.table.update(row, *changed))
            self.rows[row] = changed

    def count(self):
        low, high = self.range()
        expect("count", len(self.inside(low, high)), self.table.count(low, high))

    def sum(self):
        low, high = self.range()
        expect("sum", sum(it[1] for it in self.inside(low, high).values()), self.table.sum(low, high))

    def many(self):
        ranges = [self.range() for _ in range(3)]
        inside = [self.inside(*it) for it in ranges]
        expect("counts", [len(it) for it in inside], numbers(self.table.count_many(*zip(*ranges))))
        expect("sums", [sum(row[1] for row in it.values()) for it in inside], self.table.sum_many(*zip(*ranges)))

    def select(self):
        low, high = self.range()
        got = self.table.select(low, high)
        expect(
            "select",
            self.inside(low, high),
            dict(zip(numbers(got.rows), zip(numbers(got.keys), numbers(got.payloads)))),
        )

    def others(self):
        self.table.settle()
        self.table.checkpoint()
        expect("rows", len(self.rows), self.table.layout().rows)

    def step(self):
        """A random call. A refused one has changed nothing but what it reports."""
        calls = [self.insert, self.insert_one] if len(self.rows) < MOST_ROWS else []
        calls += [self.delete, self.update, self.delete_one, self.update_one] if self.rows else []
        calls += [self.count, self.sum, self.many, self.select] + [self.others] * (self.rng.random() < 0.1)
        try:
            self.rng.choice(calls)()
        except crackd.OutOfMemory as error:
            expect("code", 8, error.code)
            self.refused += 1


def by_chance(steps, shards):
    """Random calls, each allocation of which may be refused. Returns how many calls were refused."""
    pair = Pair(random.Random(steps), shards)
    for _ in range(steps):
        pair.step()
    pair.table.close()
    return pair.refused


def each_in_turn(steps, shards):
    """The same few calls again and again, with each allocation refused in turn, until none is left to refuse. Returns
    how many calls were refused."""
    number = 0
    while True:
        number += 1
        ALLOCATOR.refuse_calls(number, number)
        by_chance(steps, shards)
        if ALLOCATOR.refuse_told() == 0:
            return number - 1


def main(steps, how, shards=1):
    loaded = library.library()
    for name in library.FORMS:
        if name != "close":
            setattr(loaded, name, switched(getattr(loaded, name)))
    print(each_in_turn(steps, shards) if how == "turn" else by_chance(steps, shards))


if __name__ == "__main__":
    main(int(sys.argv[1]), sys.argv[2], *map(int, sys.argv[3:]))
