"""Run by test_memory.py: limited.py SEED RUNS

Inserts, updates and deletes many rows of a table in several shards, each time with another limit on the address space,
and compares the table with what the errors say.
Prints how many calls were refused, and how many of these had done some rows.
"""

import ctypes
import resource
import sys

from ways import crackd, np

SHARDS, KEYS, ROWS, ROOM = 4, 1 << 20, 30_000, 6 << 20
NONE = resource.RLIM_INFINITY
# arrays of more bytes than this get memory of their own, and give it back
M_MMAP_THRESHOLD, LEAST = -3, 1 << 16
ALLOCATOR = ctypes.CDLL(None)


def expect(what, wanted, got):
    if wanted != got:
        sys.exit(f"{what}: wanted {wanted}, got {got}")


def size():
    """The bytes of this process's address space."""
    with open("/proc/self/statm", encoding="ascii") as file:
        return int(file.read().split()[0]) * resource.getpagesize()


class Runs:
    """Calls with limits, and the table's rows before each: payloads by number, whose keys are `keys`."""

    def __init__(self, seed):
        self.rng, self.table = np.random.default_rng(seed), crackd.Table(range(0, KEYS, 64), 200_000, shards=SHARDS)
        self.refused = self.partly = 0
        expect("shards", SHARDS, self.table.shards)

    def limited(self, call, *words):
        """What a call returns, and the error that it raises, one of the two being None."""
        # the memory that was freed would be used first
        ALLOCATOR.malloc_trim(0)
        limit = size() + int(self.rng.integers(ROOM))
        resource.setrlimit(resource.RLIMIT_AS, (limit, NONE))
        found = fault = None
        try:
            found = call(*words)
        except MemoryError as error:
            fault = error
        finally:
            resource.setrlimit(resource.RLIMIT_AS, (NONE, NONE))
        self.refused += fault is not None
        self.partly += fault is not None and bool(fault.done + fault.later)
        return found, fault

    def state(self):
        """The rows by number, in order, with their keys and payloads."""
        rows, keys, payloads = self.table.select()
        order = np.argsort(rows)
        return rows[order], keys[order], payloads[order]

    def insert(self):
        """Payloads are the places of the rows, so it shows which were inserted."""
        keys = self.rng.integers(0, KEYS, ROWS)
        rows, fault = self.limited(self.table.insert_many, keys, np.arange(ROWS))
        if fault is not None:
            rows = fault.answers
            expect("an OutOfMemory", crackd.OutOfMemory, type(fault))
            expect("answers", fault.done + fault.later, len(rows))
        numbers, found, payloads = self.state()
        expect("rows", np.sort(rows).tolist(), numbers.tolist())
        # the rows of the answers, in the order of the items
        at = np.searchsorted(numbers, rows)
        places = payloads[at]
        expect("order", True, bool((np.diff(places) > 0).all() and (keys[places] == found[at]).all()))
        if fault is not None:
            expect("done", list(range(fault.done)), places[: fault.done].tolist())
            expect("first refused", False, fault.done in places)
        return numbers

    def change(self, name, rows, payload):
        """Deletes rows or gives them another payload. Returns which are changed, in the given order."""
        before = self.state()
        at = np.searchsorted(before[0], rows)
        words = (rows,) if name == "delete_many" else (rows, before[1][at], np.full(len(rows), payload))
        found, fault = self.limited(getattr(self.table, name), *words)
        after = self.state()
        if name == "delete_many":
            is_done = ~np.isin(rows, after[0])
        else:
            expect("numbers", before[0].tolist(), after[0].tolist())
            is_done = after[2][at] == payload
        if fault is None:
            expect(name, (True, True), (bool(found.all()), bool(is_done.all())))
            return
        expect("an OutOfMemory", crackd.OutOfMemory, type(fault))
        expect(f"done of {name}", True, bool(is_done[: fault.done].all()))
        expect(f"first refused of {name}", False, bool(is_done[fault.done]))
        expect(f"later of {name}", fault.later, int(is_done[fault.done :].sum()))

    def run(self, number):
        numbers = self.insert()
        rows = self.rng.permutation(numbers)
        if len(rows):
            self.change(("update_many", "delete_many")[number % 2], rows, -1 - number)
        expect("gone", True, bool(self.table.delete_many(self.table.select().rows).all()))
        self.table.settle()


def main(seed, runs):
    ALLOCATOR.mallopt(M_MMAP_THRESHOLD, LEAST)
    made = Runs(seed)
    for number in range(runs):
        made.run(number)
    print(made.refused, made.partly)


if __name__ == "__main__":
    main(*map(int, sys.argv[1:]))
