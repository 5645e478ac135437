#!/usr/bin/env python3
"""The first hour of somebody new: a fresh clone of what is committed, the count of README in it, and then the whole program.

    python3 check/clone.py

It compares the output with README, and reports after how many seconds it came and the whole program was there. What this machine has kept is not
proved again: from nothing it takes half an hour. `python3 bench/crate_costs.py python3 check/clone.py` adds what each crate costs.
"""
import subprocess
import sys
import tempfile
import time

from page_commands import shown
from repository import TOP

BEGINS = "./seatlaw count "


def first_count():
    """The first count of README, and the lines that it writes."""
    for _, command, lines in shown((TOP / "README.md").read_text()):
        if command.startswith(BEGINS) and lines:
            return command, lines
    sys.exit("README.md has no count with its output")


def run(clone, command):
    """The lines that a command writes in the clone."""
    ran = subprocess.run(["bash", "-c", command], cwd=clone, stdin=subprocess.DEVNULL, stdout=subprocess.PIPE, text=True)
    if ran.returncode:
        sys.exit(f"`{command}` ended with status {ran.returncode}")
    return ran.stdout.splitlines()


def main():
    command, wanted = first_count()
    with tempfile.TemporaryDirectory() as work:
        clone = f"{work}/seatlaw"
        subprocess.run(["git", "clone", "--quiet", str(TOP), clone], check=True)
        begin = time.monotonic()
        if run(clone, command) != wanted:
            sys.exit(f"`{command}` writes something else than README says")
        print(f"the first result: {time.monotonic() - begin:.0f} s")
        run(clone, "./seatlaw help")
        print(f"the whole program: {time.monotonic() - begin:.0f} s")


if __name__ == "__main__":
    main()
