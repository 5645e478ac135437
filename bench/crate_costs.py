#!/usr/bin/env python3
"""What the proof of each crate costs, as a table for docs/speed.md.

    python3 bench/crate_costs.py COMMAND ..

It runs a command that proves crates, such as `rt ci` or `./seatlaw help`, and meanwhile adds up the processor seconds of each process of the prover,
by its crate. An edit that must fail proves its crate once more; it has a column of its own, in which the whole proof of the static library is too.
The chain of a crate is what its own proof takes and the longest chain of a crate below it: so long it takes with as many processors as crates. Above
it stand the crates that are proved again when its contracts change. Crates that are kept from earlier runs cost nothing: for the costs of all, run it
where nothing is kept. It needs Linux. Nothing else should run.
"""
import collections
import os
import pathlib
import re
import subprocess
import sys
import time

sys.path.append(str(pathlib.Path(__file__).resolve().parents[1] / "tools"))
from repository import CRATES, TOP  # noqa: E402

TICKS = os.sysconf("SC_CLK_TCK")
PAUSE = 0.25  # seconds between two looks at the processes
PROOF, EDITS = "build", "check"


def processes():
    """Each process by its number: its start, its parent, and its processor seconds so far."""
    found = {}
    for name in filter(str.isdigit, os.listdir("/proc")):
        try:
            text = pathlib.Path("/proc", name, "stat").read_text()
        except OSError:
            continue  # it has ended
        words = text[text.rindex(")") + 2:].split()
        found[int(name)] = words[19], int(words[1]), (int(words[11]) + int(words[12])) / TICKS
    return found


def work_of(number):
    """The crate that a process of the prover is about, and whether it builds or checks it; or None."""
    try:
        words = pathlib.Path("/proc", str(number), "cmdline").read_bytes().decode(errors="replace").split("\0")
    except OSError:
        return None
    if "--crate-name" not in words or PROOF not in words and EDITS not in words:
        return None
    crate = words[words.index("--crate-name") + 1]
    return crate, PROOF if PROOF in words or not (CRATES / crate / "must-fail").is_dir() else EDITS


class Sampled:
    """The processor seconds of crates, as they are seen while a command runs."""

    def __init__(self):
        self.works, self.seconds = {}, {}

    def work(self, number, start):
        key = number, start
        if key not in self.works:
            self.works[key] = work_of(number)
        return self.works[key]

    def look(self):
        found = processes()
        for number, (start, parent, seconds) in found.items():
            work = self.work(number, start) or (parent in found and self.work(parent, found[parent][0]))
            if work:
                self.seconds[number, start] = work, seconds

    def sums(self):
        total = collections.Counter()
        for work, seconds in self.seconds.values():
            total[work] += seconds
        return total


def needs():
    """Each crate of crates.txt with those that it stands on, the lowest first."""
    for line in (TOP / "crates.txt").read_text().splitlines():
        if line and not line.startswith("#"):
            name, _, below = line.partition(":")
            yield name.split()[0], below.split()


def functions(crate):
    """How many functions a crate has, and how many of them have a clause."""
    every = clauses = 0
    for file in (CRATES / crate / "src").rglob("*.rt"):
        for head in re.findall(r"\bfn \w+.*?(?:\{\}|\{|;)$", file.read_text(), re.S | re.M):
            every += 1
            clauses += "ensures" in head
    return every, clauses


def lines(crate, ending):
    return sum(len(file.read_text().splitlines()) for file in (CRATES / crate).rglob("*" + ending) if "out" not in file.parts)


def above(crate, below):
    """The crates that stand on a crate, also by others."""
    found = set()
    for it in below:
        if crate in below[it] or found.intersection(below[it]):
            found.add(it)
    return found


def main(command):
    sampled, begin = Sampled(), time.monotonic()
    run = subprocess.Popen(command, cwd=TOP, stdin=subprocess.DEVNULL, stdout=sys.stderr)
    while run.poll() is None:
        sampled.look()
        time.sleep(PAUSE)
    took, sums, chains, below = time.monotonic() - begin, sampled.sums(), {}, dict(needs())
    print("| crate | lines of code | of definitions and proofs | functions, with a clause | seconds | of edits | chain | above it |")
    print("|---|---|---|---|---|---|---|---|")
    for crate in below:
        own = sums[crate, PROOF]
        chains[crate] = own + max((chains.get(it, 0) for it in below[crate]), default=0)
        changed = sum(sums[it, PROOF] for it in above(crate, below))
        every, clauses = functions(crate)
        edits = "%.0f" % sums[crate, EDITS] if sums[crate, EDITS] else ""
        print(f"| `{crate}` | {lines(crate, '.rt')} | {lines(crate, '.antt')} | {every}, {clauses} | {own:.0f} | {edits} | {chains[crate]:.0f} | {changed:.0f} |")
    proofs = sum(seconds for (_, kind), seconds in sums.items() if kind == PROOF)
    print(f"\n{took:.0f} s of wall time; {proofs:.0f} s of proofs and {sum(sums.values()) - proofs:.0f} s of edits that must fail", file=sys.stderr)
    return run.returncode


if __name__ == "__main__":
    if len(sys.argv) < 2:
        sys.exit(__doc__)
    sys.exit(main(sys.argv[1:]))
