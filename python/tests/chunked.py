"""Elections counted in chunks by python/examples/cluster.py: with two and four workers, by a scheduler of its own, stopped and gone on with, and with
a worker killed."""
import contextlib
import os
import pathlib
import re
import signal
import socket
import subprocess
import sys
import tempfile
import time

sys.path.append(str(pathlib.Path(__file__).resolve().parents[2] / "tools"))
from repository import TOP  # noqa: E402

SCRIPT = TOP / "python" / "examples" / "cluster.py"
DRAWS, CHUNK = 60_000, 1000


# Stands in for fastparquet, which Debian 12 has not: what is to be a Parquet file becomes CSV.
STAND_IN = '''__version__ = "2022.12.0"


def write(path, data, **options):
    assert not options["write_index"] and set(data.dtypes.astype(str)) == {"int16"}, options
    data.to_csv(path, index=False)
'''


def started(folder, workers, *more, modules=None):
    words = [sys.executable, str(SCRIPT), *(["--workers", str(workers)] if workers else []), "--draws", str(DRAWS), "--chunk", str(CHUNK), *more]
    words += ["@2023-order", str(TOP / "examples" / "elections" / "2025.csv"), str(folder)]
    path = os.pathsep.join([os.environ["PYTHONPATH"], *([str(modules)] if modules else [])])
    quiet = {"stderr": subprocess.DEVNULL, "text": True, "start_new_session": True, "env": {**os.environ, "PYTHONPATH": path}}
    return subprocess.Popen(words, stdout=subprocess.PIPE, **quiet)


def ended(process):
    """The checksum of the chunks, and how many counts the run made."""
    said = process.communicate()[0]
    made = re.search(r"^(\d+) counts in", said, re.M)
    return re.search(r"sha256 of the chunks: (\w+)", said)[1], int(made[1]) if made else 0


def chunks(folder):
    return len(list(folder.glob("chunk-*"))) if folder.exists() else 0


def until(folder, count):
    """Waits until there are so many chunks."""
    while chunks(folder) < count:
        time.sleep(0.02)


def workers_of(process):
    """The processes that make chunks for a run: those that multiprocessing has started in it."""
    found = []
    for place in pathlib.Path("/proc").glob("[0-9]*"):
        try:
            line, leader = (place / "cmdline").read_bytes(), os.getsid(int(place.name))
        except OSError:
            continue
        if leader == process.pid and int(place.name) != process.pid and b"spawn_main" in line:
            found.append(int(place.name))
    return found


def killed(folder):
    """A run with a worker that is killed in between."""
    process = started(folder, 2)
    until(folder, 5)
    os.kill(workers_of(process)[-1], signal.SIGKILL)
    return ended(process)


def stopped(folder):
    """A run that is stopped, and gone on with: the checksum, and how many counts the second part made."""
    process = started(folder, 2)
    until(folder, 5)
    os.killpg(process.pid, signal.SIGKILL)
    process.communicate()
    return ended(started(folder, 4))


def by_scheduler(folder):
    """A run by a scheduler and two workers that were started by themselves."""
    with socket.socket() as free:
        free.bind(("127.0.0.1", 0))
        address = "tcp://127.0.0.1:%d" % free.getsockname()[1]
    quiet = {"stdout": subprocess.DEVNULL, "stderr": subprocess.DEVNULL}
    with contextlib.ExitStack() as started_here:
        def start(*words):
            process = subprocess.Popen([sys.executable, "-m", *words, "--no-dashboard"], **quiet)
            started_here.callback(process.wait)
            started_here.callback(process.terminate)

        start("distributed.cli.dask_scheduler", "--host", "127.0.0.1", "--port", address.rsplit(":", 1)[1])
        for _ in range(2):
            start("distributed.cli.dask_worker", address, "--nthreads", "1")
        return ended(started(folder, 0, "--scheduler", address))


def as_parquet(folder, modules):
    """A run that writes Parquet by a stand-in."""
    modules.mkdir()
    (modules / "fastparquet.py").write_text(STAND_IN)
    return ended(started(folder, 2, "--form", "parquet", modules=modules))


def tested():
    with tempfile.TemporaryDirectory() as name:
        top = pathlib.Path(name)
        wanted, made = ended(started(top / "two", 2))
        found = {"four workers": ended(started(top / "four", 4)), "a scheduler": by_scheduler(top / "scheduler"), "a worker killed": killed(top / "killed"), "stopped": stopped(top / "stopped")}
        again = ended(started(top / "two", 1))
        (top / "two" / "chunk-000003.npy").unlink()
        less = ended(started(top / "two", 1))
        csv, parquet = ended(started(top / "csv", 2, "--form", "csv")), as_parquet(top / "parquet", top / "modules")
    good = made == DRAWS == csv[1] and again == (wanted, 0) and less == (wanted, CHUNK) and all(sum == wanted for sum, _ in found.values())
    good = good and parquet == csv and 0 < found["stopped"][1] < DRAWS
    print("cluster: %d counts by two workers; the same checksum with %s (%d counts were left); %s" % (
        made, ", ".join(found), found["stopped"][1], "all is well" if good else "wrong: %r" % ((wanted, made, again, less, csv, parquet, found),)))
    return good
