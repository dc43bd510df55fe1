"""Builds programs, runs them in turn, and reads what they report."""

import contextlib
import dataclasses
import os
import pathlib
import re
import resource
import shutil
import statistics
import subprocess
import sys
import time

TOP = pathlib.Path(__file__).resolve().parent.parent
sys.path.append(str(TOP / "acceptance"))
import fixtures  # starts servers, and compares their totals with the right ones

OUT = TOP / "bench" / "out"
PEERS = OUT / "peers"


@dataclasses.dataclass(frozen=True)
class Programs:
    """Where the programs of a checkout are, after they are built."""

    folder: pathlib.Path

    def path(self, name):
        return self.folder / "crates" / name / "out" / name

    @property
    def crackd(self):
        return self.path("crackd")

    @property
    def bench(self):
        return self.path("crack_bench")


OURS = Programs(TOP)
CRACKD, BENCH = OURS.crackd, OURS.bench
# the command that measures workers
WORKERS = [BENCH, "workers"]


def build(names):
    """Builds the programs and the peers: crackd is proved, and the benchmark compiled, which only uses crates of it."""
    subprocess.run([sys.executable, TOP / "tools" / "prove.py", CRACKD.name], check=True)
    if BENCH.name in names:
        subprocess.run([sys.executable, TOP / "tools" / "build.py", "bench"], check=True)
    OUT.mkdir(exist_ok=True)
    subprocess.run(["rustc", "--edition", "2024", "-O", TOP / "bench" / "peers" / "main.rs", "-o", PEERS], check=True)


def processor_seconds():
    used = resource.getrusage(resource.RUSAGE_CHILDREN)
    return used.ru_utime + used.ru_stime


def session_seconds(words, source, clock=processor_seconds):
    """The processor time, or the time by another clock, that a program takes to answer the file."""
    before = clock()
    with open(source, "rb") as given:
        subprocess.run(words, stdin=given, stdout=subprocess.DEVNULL, check=True)
    return clock() - before


def rounds(pairs, runs, clock=time.perf_counter):
    """Runs programs on files, given as pairs of arguments and a file, in turn, so many times. Returns the times of each
    round."""
    return [[session_seconds(*pair, clock) for pair in pairs] for _ in range(runs)]


def middles(pairs, runs, clock=time.perf_counter):
    """The same, but returns the median time of each program."""
    return [statistics.median(times) for times in zip(*rounds(pairs, runs, clock))]


def answers(words, source):
    """A program's answers to the file."""
    with open(source, "rb") as given:
        return subprocess.run(words, stdin=given, stdout=subprocess.PIPE, check=True).stdout


def timed(words):
    """What a program writes, and the numbers that it reports by name: nanoseconds, and counts."""
    ran = subprocess.run(words, capture_output=True, text=True, check=True)
    reported = (line.split() for line in ran.stderr.splitlines())
    return ran.stdout, {name: int(number) for name, number in reported}


def in_turn(programs, runs):
    """Runs the programs in turn. For each it returns what it wrote, a set, and the numbers that it reported, a list."""
    ran = [(set(), []) for _ in programs]
    for _ in range(runs):
        for words, (wrote, times) in zip(programs, ran):
            output, time = timed(words)
            wrote.add(output)
            times.append(time)
    return ran


def compare(programs, runs):
    """Runs the programs in turn. For each it returns a list of the numbers that it reported; all of them must write the
    same."""
    ran = in_turn(programs, runs)
    if len(set().union(*(wrote for wrote, _ in ran))) > 1:
        sys.exit(f"{programs[0][1:]}: the program and its peers don't write the same")
    return [times for _, times in ran]


def compare_each(command, all_words, runs):
    """Runs a command and plain Rust with each of these arguments, all in turn. For each it returns what both reported;
    both must write the same."""
    ran = in_turn([[*which, *words] for words in all_words for which in (command, [PEERS])], runs)
    for words, (ours, _), (theirs, _) in zip(all_words, ran[::2], ran[1::2]):
        if len(ours | theirs) > 1:
            sys.exit(f"{words}: the program and its peer don't write the same")
    return [(ours, theirs) for (_, ours), (_, theirs) in zip(ran[::2], ran[1::2])]


def middle_of(times, *names):
    """The median of a time, or of the sum of several, in seconds."""
    return statistics.median(sum(it[name] for name in names) for it in times) / 1e9


def has_valgrind():
    found = shutil.which("valgrind") is not None
    if not found:
        print("valgrind isn't installed: instructions aren't counted")
    return found


def instructions(words, source=os.devnull):
    """How many instructions a program takes to answer the file, if any."""
    counting = ["valgrind", "--tool=callgrind", f"--callgrind-out-file={OUT / 'callgrind'}", *words]
    with open(source, "rb") as given:
        ran = subprocess.run(
            counting, stdin=given, stdout=subprocess.DEVNULL, stderr=subprocess.PIPE, text=True, check=True
        )
    return int(re.search(r"Collected : (\d+)", ran.stderr)[1])


def status_of(process, name):
    """A number of /proc's status of a process, by its name."""
    text = pathlib.Path(f"/proc/{process}/status").read_text(encoding="utf-8")
    return int(re.search(rf"^{name}:\s+(\d+)", text, re.MULTILINE)[1])


def resident(crackd, source, name="VmHWM"):
    """The greatest resident memory of the program over a file, in bytes, or, with VmRSS, what it has at the end. It is
    read while the program waits for more, since what the system reports for a child at its end includes its parent's
    memory."""
    started = subprocess.Popen([crackd, "script"], stdin=subprocess.PIPE, stdout=subprocess.DEVNULL)
    started.stdin.write(source.read_bytes())
    started.stdin.flush()
    switches = None
    while switches != (switches := status_of(started.pid, "voluntary_ctxt_switches")):
        time.sleep(0.5)
    memory = status_of(started.pid, name) * 1024
    started.stdin.close()
    started.wait()
    return memory


def sent(word, source, port):
    """A server's replies, on this port, to a file that is sent to it, and how long they take in seconds."""
    wrote, times = timed([PEERS, word, str(port), source])
    return wrote, times[word] / 1e9


def over_tcp(crackd, word, source, totals):
    """The same by a new server, whose replies must be those of a script."""
    try:
        with fixtures.serving(crackd, totals, 1, 1) as port:
            wrote, seconds = sent(word, source, port)
    except fixtures.Wrong as wrong:
        sys.exit(f"{source}: {wrong}")
    if wrote.encode() != answers([crackd, "script"], source):
        sys.exit(f"{source}: the server and a script don't answer the same")
    return seconds


def echoed(source):
    """How long plain Rust takes to return each line before the next one is sent, in seconds."""
    echo = subprocess.Popen([PEERS, "echo", "0"], stdout=subprocess.PIPE, text=True)
    with contextlib.closing(echo.stdout):
        try:
            wrote, seconds = sent("turns", source, echo.stdout.readline().split()[1])
        finally:
            echo.kill()
            echo.wait()
    if wrote != source.read_text():
        sys.exit("the echo isn't what was sent")
    return seconds
