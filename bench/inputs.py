"""The files that programs are given, always the same. Their keys and payloads are below 2**32, like those of the
peers."""

import random

import sizes
from programs import OUT


def script(name, lines):
    """A file of these lines."""
    path = OUT / name
    path.write_text("".join(f"{line}\n" for line in lines))
    return path


def inserts(lines):
    """A file of this many inserts."""
    return script(f"inserts-{lines}", (f"insert {i * 48271 % 4294967296} {i}" for i in range(lines)))


def random_inserts(lines):
    """A file of this many inserts of random keys and payloads."""
    numbers = random.Random(7)
    return script(
        f"random-inserts-{lines}",
        (f"insert {numbers.randrange(2**32)} {numbers.randrange(2**32)}" for _ in range(lines)),
    )


def random_insert_lines(lines):
    return random_inserts(lines).read_text().splitlines()


def random_counts(count):
    """This many counts of a hundredth of the keys, each at a random place."""
    width, numbers = 2**32 // 100, random.Random(13)
    lows = (numbers.randrange(2**32 - width) for _ in range(count))
    return [f"count {low} {low + width}" for low in lows]


def deletes(count, behind):
    """A file of inserts, these lines, and this many deletes of the rows in random order, followed by these lines
    again."""
    order = list(range(sizes.PART_ROWS))
    random.Random(5).shuffle(order)
    rows = random_insert_lines(sizes.PART_ROWS)
    return script(
        f"deletes-{count}",
        [*rows, *behind, *(f"delete 0.{serial}" for serial in order[:count]), *(behind if count else [])],
    )


def inserts_and_counts(lines):
    """A file of this many lines: half are random inserts, then come counts that crack the column, and counts between
    its bounds."""
    cracks, counts = part_counts(lines // 2)
    return script(f"inserts-and-counts-{lines}", [*random_insert_lines(lines // 2), *cracks, *counts][:lines])


def records(rows):
    """A file of the records of this many random rows, and one of the same rows as inserts, followed by a select of
    everything."""
    lines = random_insert_lines(rows)
    pairs = (line.split()[1:] for line in lines)
    return script(f"records-{rows}", (",".join(pair) for pair in pairs)), script(
        f"listed-{rows}", [*lines, f"select {sizes.EVERYTHING}"]
    )


def part_counts(count):
    """Counts that crack the parts between the splits into this many pieces of one width, and as many counts of random
    neighbouring pieces of one part."""
    parts, width, numbers = range(len(sizes.SPLITS) + 1), sizes.PART_WIDTH // sizes.PART_PIECES, random.Random(9)
    pieces = [(part * sizes.PART_WIDTH, piece * width) for part in parts for piece in range(sizes.PART_PIECES)]
    cracks = [f"count {part + piece} {part + piece + width}" for part, piece in pieces]
    ends = (
        (part, *sorted(numbers.sample(range(sizes.PART_PIECES + 1), 2))) for part, _ in numbers.choices(pieces, k=count)
    )
    return cracks, [f"count {part + low * width} {part + high * width}" for part, low, high in ends]


def reads(word):
    """Counts or sums between bounds, by their word: a file of them with what precedes them, and a file of that
    alone."""
    cracks, counts = part_counts(sizes.LINES // 2)
    before, lines = [*random_insert_lines(sizes.LINES // 2), *cracks], [line.replace("count", word) for line in counts]
    return script(f"{word}s-between-bounds-whole", [*before, *lines]), script(f"{word}s-between-bounds-front", before)


def repeated_sums():
    """Sums between bounds of a hundredth of the keys each, once and twice: a file of what precedes them, and one for
    each."""
    width = 2**32 // 100
    ends = [f"{low} {low + width}" for low in range(0, 100 * width, width)]
    before = [*random_insert_lines(sizes.PART_ROWS), *(f"count {it}" for it in ends)]
    return [script(f"sums-{times}-times", [*before, *(f"sum {it}" for it in ends * times)]) for times in range(3)]


def split_files():
    """What is measured with many splits and with none: its name, a file of it with what precedes it, and a file of that
    alone."""
    lines = sizes.LINES // 2
    yield f"{lines} inserts", script("inserts-whole", random_insert_lines(lines)), script("inserts-front", [])
    yield f"{lines} counts between bounds", *reads("count")


def scattered(number):
    """Another number for each number of 32 bits, which looks random, as in the programs."""
    mixed = (number ^ number >> 16) * 2246822507 % 2**32
    mixed = (mixed ^ mixed >> 13) * 3266489909 % 2**32
    return mixed ^ mixed >> 16


class Mix:
    """What a worker of crack_bench asks its own partitions, as statements."""

    def __init__(self, worker):
        self.first, self.number = worker * sizes.PARTS_EACH, worker * sizes.APART
        self.rows, self.placed = [], [0] * sizes.PARTS_EACH

    def next(self, bound):
        self.number += 1
        return scattered(self.number) % bound

    def insert(self, at):
        """The insert of the row at this place among the rows."""
        place = self.next(sizes.PARTS_EACH)
        self.rows[at : at + 1] = [f"{self.first + place}.{self.placed[place]}"]
        self.placed[place] += 1
        key = (self.first + place) * sizes.PART_WIDTH + self.next(sizes.PART_WIDTH)
        return f"insert {key} {key}"

    def sum(self):
        low = (self.first + self.next(sizes.PARTS_EACH)) * sizes.PART_WIDTH + self.next(
            sizes.PART_WIDTH - sizes.SUM_WIDTH
        )
        return f"sum {low} {low + sizes.SUM_WIDTH}"

    def statements(self, rows, steps):
        """This many inserts, a count of each partition, and this many steps: a sum, a delete, a sum and an insert."""
        for at in range(rows):
            yield self.insert(at)
        for part in range(self.first, self.first + sizes.PARTS_EACH):
            yield f"count {part * sizes.PART_WIDTH} {(part + 1) * sizes.PART_WIDTH}"
        for _ in range(steps):
            yield self.sum()
            at = self.next(len(self.rows))
            yield f"delete {self.rows[at]}"
            yield self.sum()
            yield self.insert(at)


class Batch:
    """What the greatest number of workers of a batch asks: `rounds`, a line of each, the file of them with its
    `splits`, and how many statements they are."""

    def __init__(self):
        most = sizes.WORKER_COUNTS[-1]
        parts = most * sizes.PARTS_EACH
        self.splits = sizes.SPLITS[: parts - 1]
        mixes = (
            Mix(worker).statements(sizes.PARTS_EACH * sizes.WORKER_ROWS, sizes.WORKER_STEPS) for worker in range(most)
        )
        self.rounds = list(zip(*mixes))
        # worker numbers are taken modulo the number of workers, so with the same file one worker has all lines, and
        # each of two workers has half of them
        self.source = script(
            "batch", (f"{worker} {line}" for lines in self.rounds for worker, line in enumerate(lines))
        )
        held, came = parts * sizes.WORKER_ROWS, most * sizes.WORKER_STEPS
        self.accepted = held + parts + 4 * came
        self.totals = f"accepted {self.accepted} inserted {held + came} deleted {came} held {held}\n".encode()

    def words(self, program, workers):
        return [program, "batch", "--workers", str(workers), *self.splits]
