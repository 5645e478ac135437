"""How long a command of seatlaw takes, and how much memory."""
import os
import pathlib
import subprocess
import sys
import time

sys.path.append(str(pathlib.Path(__file__).resolve().parents[1] / "tools"))
from repository import PROGRAM  # noqa: E402

MAX_BOOK = 65536
MAX_RETURNS = 4194304


def write(folder, name, text):
    path = os.path.join(folder, name)
    with open(path, "w") as f:
        f.write(text)
    return path


def best_of(words, runs, wanted=0):
    """The best time of some runs, in seconds, and the greatest memory, in KiB."""
    best, peak = None, 0
    for _ in range(runs):
        start = time.perf_counter()
        child = subprocess.Popen([PROGRAM, *words], stdout=subprocess.DEVNULL)
        _, status, usage = os.wait4(child.pid, 0)
        took = time.perf_counter() - start
        assert os.waitstatus_to_exitcode(status) == wanted, status
        best = took if best is None else min(best, took)
        peak = max(peak, usage.ru_maxrss)
    return best, peak


def measure(what, words, runs, wanted=0):
    """Prints what best_of tells."""
    best, peak = best_of(words, runs, wanted)
    print("%-60s %6.3f s, %5.1f MiB" % (what, best, peak / 1024))
