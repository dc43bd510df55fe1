"""Dask clusters on this machine, for the tests of `cluster.Table`. Workers import this module as well."""

import contextlib
import importlib.util
import os
import pathlib
import resource
import signal
import time
import unittest

from ways import crackd

try:
    import dask
    from distributed import Client, LocalCluster

    from crackd import cluster
except ImportError:
    cluster = None

HERE = pathlib.Path(__file__).resolve().parent
wants_cluster = unittest.skipIf(cluster is None, "numpy or dask.distributed isn't installed")
wants_pandas = unittest.skipIf(importlib.util.find_spec("pandas") is None, "pandas isn't installed")
SECONDS = 300
CONFIG = {
    # a local cluster gives up a place whose worker was killed twice within this time
    "distributed.deploy.lost-worker-timeout": "1 hour",
    "distributed.comm.timeouts.connect": "60s",
    "distributed.comm.retry.count": 0,
    "distributed.logging": {"distributed": "critical"},
}


@contextlib.contextmanager
def with_environment(**variables):
    """These variables of the environment, until the block ends."""
    before = {name: os.environ.get(name) for name in variables}
    os.environ.update(variables)
    try:
        yield
    finally:
        for name, value in before.items():
            os.environ.pop(name) if value is None else os.environ.update({name: value})


@contextlib.contextmanager
def local(workers, **environment):
    """A client of a cluster with this many worker processes, which have these variables in their environment."""
    path = os.pathsep.join([str(HERE.parent), str(HERE), os.environ.get("PYTHONPATH", "")])
    how = {"threads_per_worker": 1, "processes": True, "dashboard_address": None, "silence_logs": 50}
    with dask.config.set(CONFIG), with_environment(PYTHONPATH=path, **environment):
        with LocalCluster(n_workers=workers, **how) as started, Client(started) as client:
            yield client


def on(client, worker, call, *words):
    """What a function returns on a worker."""
    return client.submit(call, *words, workers=[worker], pure=False).result(timeout=SECONDS)


def worker_of(table, shard):
    """The address of a shard's worker."""
    return table._actors[shard]._address


def pid_of(client, worker):
    return on(client, worker, os.getpid)


def kill(client, worker):
    os.kill(pid_of(client, worker), signal.SIGKILL)


def wait_for_workers(client, count):
    """Waits until this many workers are there and answer."""
    while True:
        client.wait_for_workers(count, timeout=SECONDS)
        try:
            if len(client.run(os.getpid)) == count:
                return
        except OSError:
            # the scheduler doesn't know yet that a worker was killed
            time.sleep(0.1)


def limit_files(size):
    """Limits the size of this worker's files, in bytes; -1 stands for no limit."""
    resource.setrlimit(resource.RLIMIT_FSIZE, (size, resource.RLIM_INFINITY))


def refuse_memory():
    """Makes the library of this worker be refused memory by chance, as `REFUSE_ONE_IN` says."""
    import refusals

    loaded = crackd.library.library()
    for name in crackd.library.FORMS:
        if name != "close":
            setattr(loaded, name, refusals.switched(getattr(loaded, name)))
