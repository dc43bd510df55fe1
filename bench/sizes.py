"""The sizes of what is measured."""

STEPS, CELLS = 10_000_000, 100_000
ROWS = 1_000_000
LINES = 200_000
DELETES = 100_000
PART_ROWS, RANGES = 500_000, 1000
# how often the same ranges are counted again, by a script and over TCP
REPEATS, SET_REPEATS = 100, 10
POLICIES = ["complete", "gradual", "ripple"]
# how many sums, and how many deletes and inserts before each
BATCHES = [(1000, 10), (100, 1000)]
# how many rounds of updates with a sum, a tenth of which is compared with another tenth, and how many deletes and
# inserts each has
AGEING = (20_000, 10)
# the same for the comparison of policies, whose table is old after these rounds
OLD = (4_000, 10)
# how many deletes and inserts there are between two checkpoints; and, as crack_bench counts them, commands of one kind
# before one and after it
CHANGES, NEXT = 100_000, 1000
PIECES, PENDING = 1000, 1000
# the number of pieces over which rows go step by step, and of these rows
STEP_PIECES, STEP_ROWS = 2000, 1000
# 63 splits that divide the files' keys, which are below 2**32, into parts of equal width, and the pieces of each part
PART_WIDTH, PART_PIECES = 2**26, 8
SPLITS = [str(part * PART_WIDTH) for part in range(1, 64)]
# the numbers of workers; and, as crack_bench counts them, rows of each partition, and steps of four statements
WORKER_COUNTS = [1, 2, 4]
WORKER_ROWS, WORKER_STEPS = 100_000, 4000
SHARINGS = [("own", "each worker on two partitions of its own"), ("shared", "all workers on the same partitions")]
# a worker has two partitions, and each insert is an entry
GATHER_WORKERS, GATHER_ROWS = 4, 125_000
UNAUDITED_ROWS = (125, 12_500, GATHER_ROWS)
# a history has at most a million entries
MOST_PART_ROWS = 998_000
# statements that each wait for the previous reply, and counts of one key each
TURNS, LOOKUPS = 20_000, 10_000
# rounds of four requests that each wait for the previous reply, while other clients load the server
LATENCY_ROUNDS = 30_000
# how many clients have one request each in flight, and how many rounds of requests they send in all; how many clients
# are idle; rows that are listed while requests are measured, or inserted one by one, and how many rounds of requests
CROWDS, CROWD_ROUNDS, IDLE, STALL_ROWS, STALL_ROUNDS = (4, 1000, 10_000), 100_000, 10_000, 1_000_000, 20_000
# how many rounds a crowd sends in a turn, and how many turns each has
TURN_ROUNDS, CROWD_TURNS = 20_000, 9
# rows of a table of several shards, and how many calls each of its threads makes
SHARDED_ROWS, CALLS = (500_000, 8_000_000), 20_000
EVERYTHING = f"0 {2**64}"
# for a server whose clients count at full speed: how long its histories are, and after how many commands its memory is
# read
SERVED_LIMIT, SERVED = 65_536, (3_000_000, 30_000_000)
# as crack_bench has them: partitions of each worker, how far apart the numbers lie at which the workers begin,
# and how wide a sum's range is
PARTS_EACH, APART, SUM_WIDTH = 2, 50_000_000, PART_WIDTH // 100


def shrink():
    """Makes all of them so small that a run takes a minute: it shows that everything runs and gives the same answers,
    and its figures mean nothing."""
    small = {
        "STEPS": 10_000,
        "SERVED_LIMIT": 2_184,
        "SERVED": (100_000, 1_000_000),
        "CELLS": 1000,
        "ROWS": 10_000,
        "LINES": 2000,
        "DELETES": 1000,
        "PART_ROWS": 4000,
        "RANGES": 100,
        "BATCHES": [(50, 10), (10, 100)],
        "AGEING": (100, 10),
        "OLD": (100, 10),
        "CHANGES": 800,
        "PIECES": 40,
        "PENDING": 100,
        "STEP_PIECES": 50,
        "STEP_ROWS": 100,
        "WORKER_ROWS": 500,
        "WORKER_STEPS": 50,
        "GATHER_ROWS": 500,
        "UNAUDITED_ROWS": (5, 50, 500),
        "MOST_PART_ROWS": 8000,
        "TURNS": 200,
        "LATENCY_ROUNDS": 100,
        "CROWDS": (4, 100),
        "CROWD_ROUNDS": 400,
        "TURN_ROUNDS": 400,
        "CROWD_TURNS": 2,
        "IDLE": 100,
        "STALL_ROWS": 4000,
        "STALL_ROUNDS": 100,
        "LOOKUPS": 100,
        "SHARDED_ROWS": (4000,),
        "CALLS": 200,
    }
    globals().update(small)
