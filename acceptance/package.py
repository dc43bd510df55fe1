"""Runs the tests of the Python package, over a server of the program and in the process: package.py PROGRAM

They run with an interpreter that has numpy and Dask, or else numpy, if there is one: this one, or that of the system.
Prints what is skipped with the reason, all that unittest prints if anything failed, and last 'N passed, M failed', with
', K skipped' after it if anything was.
"""

import functools
import os
import pathlib
import re
import subprocess
import sys

PACKAGE = pathlib.Path(__file__).resolve().parent.parent / "python"
INTERPRETERS = [sys.executable, "/usr/bin/python3"]
MODULES = ["numpy, pandas, dask.dataframe, distributed", "numpy"]
COUNTED = re.compile(r"^(\d+) passed, (\d+) failed, (\d+) skipped$", re.MULTILINE)
SKIPPED = re.compile(r"^(\w+) .*\.\.\. skipped (.*)$", re.MULTILINE)
SECONDS = 5400


@functools.cache
def interpreter() -> str:
    """The first interpreter that has numpy and Dask, or else numpy, or else this one."""
    for modules in MODULES:
        wanted = f"import sys, {modules}; sys.exit(sys.version_info < (3, 10))"
        for it in filter(os.path.exists, INTERPRETERS):
            if subprocess.run([it, "-c", wanted], capture_output=True, check=False).returncode == 0:
                return it
    return sys.executable


def start(program: str | pathlib.Path) -> subprocess.Popen:
    """Starts all tests, in a process of their own."""
    how = {"env": {**os.environ, "CRACKD": str(pathlib.Path(program).resolve())}, "stdout": subprocess.PIPE}
    command = ["timeout", str(SECONDS), interpreter(), str(PACKAGE / "tests")]
    return subprocess.Popen(command, stderr=subprocess.STDOUT, text=True, errors="replace", **how)


def sums(started: subprocess.Popen) -> tuple[int, int, int]:
    """How many passed, failed and were skipped, once they have ended. A run that fails without a count is one
    failure."""
    output, _ = started.communicate()
    counted = COUNTED.findall(output)
    passed, failed, skipped = map(int, counted[-1]) if counted else (0, 0, 0)
    failed = failed if failed or (counted and started.returncode == 0) else 1
    for name, why in SKIPPED.findall(output):
        print(f"package: {name} skipped, since {why}")
    if failed:
        print(output)
    print(f"package: {passed} passed, {failed} failed" + (f", {skipped} skipped" if skipped else ""), flush=True)
    return passed, failed, skipped


if __name__ == "__main__":
    if len(sys.argv) != 2:
        sys.exit(__doc__)
    sys.exit(1 if sums(start(sys.argv[1]))[1] else 0)
