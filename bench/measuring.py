"""What the benchmarks share: the processor time of a command, and tables."""
import os
import subprocess
import sys
from pathlib import Path

TOP = Path(__file__).resolve().parent.parent
sys.path.insert(0, str(TOP / "tests"))
from program import PROGRAM  # noqa: E402

PAN = str(PROGRAM)
RUNS = 3


def measured(command, statuses=(0,)):
    """The processor seconds, user and system, and the peak memory in bytes of a command that ends with one of the statuses."""
    process = subprocess.Popen(command, stdout=subprocess.DEVNULL)
    _, status, usage = os.wait4(process.pid, 0)
    if os.waitstatus_to_exitcode(status) not in statuses:
        sys.exit(f"{' '.join(map(str, command))} ended with {status}")
    return usage.ru_utime + usage.ru_stime, usage.ru_maxrss * 1024


def least(run):
    """The pair of least time of a few runs."""
    return min((run() for _ in range(RUNS)), key=lambda pair: pair[0])


def print_rows(rows, width=24):
    """Prints each row's name and its cells, one row a line."""
    for name, cells in rows:
        print(f"{name:{width}}" + "".join(f"{cell:>14}" for cell in cells))
