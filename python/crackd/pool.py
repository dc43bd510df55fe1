"""Runs jobs in parallel, in a pool of threads that all tables of the process share."""

from __future__ import annotations

import _thread
import contextlib
import os
import queue
import threading
from typing import Any, Callable, Mapping, Optional

Jobs = Mapping[int, Callable[[], Any]]

SECONDS_OF_A_LOOK = 1

# the threads that are inside `run_side_by_side`
_within: set[int] = set()


def processors() -> int:
    """The number of processors that this process may use."""
    return len(os.sched_getaffinity(0)) if hasattr(os, "sched_getaffinity") else os.cpu_count() or 1


def run_in_turn(jobs: Jobs, answers: dict[int, Any], errors: dict[int, Any]) -> None:
    """Runs each job in this thread, and adds its answer or its error.

    An error that isn't an `Exception`, such as KeyboardInterrupt, is also raised, and later jobs aren't run.
    """
    for number, job in jobs.items():
        _run(number, job, answers, errors)


def _run(number: int, job: Callable[[], Any], answers: dict[int, Any], errors: dict[int, Any]) -> None:
    try:
        answers[number] = job()
    except BaseException as error:
        errors[number] = error
        if not isinstance(error, Exception):
            raise


def run_side_by_side(jobs: Jobs, answers: dict[int, Any], errors: dict[int, Any]) -> None:
    """Runs jobs in this thread and in the pool's. Adds their answers and errors, and returns once all have ended.

    If a signal handler raises an error meanwhile, no further job begins, and the error is raised once the jobs that
    have begun have ended. If the handler itself calls this function, its jobs run one after another.
    """
    me = threading.get_ident()
    if me in _within:
        run_in_turn(jobs, answers, errors)
        return
    try:
        _within.add(me)
        work = Work(jobs, answers, errors)
        try:
            _helpers.ask(work, len(jobs) - 1)
            work.run()
            work.wait()
        except BaseException:
            work.end()
            raise
        if work.fault is not None:
            raise work.fault
    finally:
        _within.discard(me)


class Helpers:
    """The threads of the pool, which live as long as the process.

    `concurrent.futures` isn't used: it hands out work under locks that are written in Python. If a signal handler
    raised an error there, such a lock would stay taken, and no thread would ever get work again.
    """

    def __init__(self) -> None:
        self.count = 0
        self._works: queue.SimpleQueue[Work] = queue.SimpleQueue()

    def ask(self, work: Work, most: int) -> None:
        """Has up to `most` threads help with `work`.

        There are fewer if no more can be started, as while the interpreter ends, or if there is no memory.
        """
        with contextlib.suppress(RuntimeError, MemoryError):
            while self.count < min(most, processors()):
                _thread.start_new_thread(self._serve, ())
                self.count += 1
        with contextlib.suppress(MemoryError):
            for _ in range(min(most, self.count)):
                self._works.put(work)

    def _serve(self) -> None:
        while True:
            self._works.get().help()


_helpers = Helpers()


class Work:
    """The jobs of a call. Each thread takes the next job that no thread has begun.

    A signal may end the calling thread's part at any point, so that thread counts nothing. It waits for the threads
    that have registered themselves as helpers.
    """

    def __init__(self, jobs: Jobs, answers: dict[int, Any], errors: dict[int, Any]):
        # threads may share a list, since `pop` and `clear` are atomic
        self._left = list(jobs.items())
        self._answers, self._errors = answers, errors
        self._helpers: set[int] = set()
        self._ended: queue.SimpleQueue[None] = queue.SimpleQueue()
        # the error that ended a helper's part, or None
        self.fault: Optional[BaseException] = None

    def run(self) -> None:
        """Runs jobs until none is left."""
        while self._left:
            try:
                number, job = self._left.pop()
            except IndexError:
                return
            _run(number, job, self._answers, self._errors)

    def help(self) -> None:
        """Runs jobs in a thread of the pool. An error that would end the thread is kept, and the call raises it."""
        me = threading.get_ident()
        self._helpers.add(me)
        try:
            self.run()
        except BaseException as error:
            self.fault = error
        finally:
            self._helpers.discard(me)
            self._ended.put(None)

    def wait(self) -> None:
        """Waits until no thread helps. A thread that begins later finds no job."""
        while self._helpers:
            # a thread that found no memory for it has put nothing
            with contextlib.suppress(queue.Empty):
                self._ended.get(timeout=SECONDS_OF_A_LOOK)

    def end(self) -> None:
        """Lets no more jobs begin, and waits for those that have begun, whatever signal handlers raise."""
        while True:
            try:
                self._left.clear()
                self.wait()
                return
            except BaseException:
                continue


def _forget() -> None:
    """Forgets the parent's threads in a forked child, where they don't exist."""
    global _helpers
    _helpers = Helpers()
    _within.clear()


os.register_at_fork(after_in_child=_forget)
