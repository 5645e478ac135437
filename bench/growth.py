#!/usr/bin/env python3
"""How the work of `seatlaw count` grows: one size at a time is doubled, the others stay. Not part of the gate.

    python3 bench/growth.py [PROGRAM]

Needs valgrind, whose tool callgrind counts the instructions of the processor: the same number at every run. Writes a table for each size,
in millions of instructions. PROGRAM is crates/seatlaw/out/seatlaw where none is named.
"""
import pathlib
import re
import subprocess
import sys
import tempfile

from measure import write

sys.path.append(str(pathlib.Path(__file__).resolve().parents[1] / "tools"))
from repository import PROGRAM  # noqa: E402

HEAD = "kind,land,party,a,b,c"
BOOK = 'rulebook 1; law "growth"; house %d; eligible all;\nstage s = split(%s);\nseats s keep;\n'
SEATS = 1000


def names(word, count):
    return ["%s%03d" % (word, i) for i in range(count)]


def returns(lands, parties, votes, lots=0):
    """Returns in which each party has a list in each Land, with the votes that `votes` gives by number, and lots for the first so many lists."""
    pairs = [(land, party) for land in names("land", lands) for party in names("party", parties)]
    lines = [HEAD] + ["land,%s,,1,," % land for land in names("land", lands)] + ["party,,%s,0,," % party for party in names("party", parties)]
    lines += ["list,%s,%s,%d,%d," % (*pair, votes(i), votes(i)) for i, pair in enumerate(pairs)]
    # far from the order in which the lists stand
    drawn = [pairs[i * 7919 % len(pairs)] for i in range(lots)]
    return "\n".join(lines + ["lot,%s,%s,s,," % pair for pair in drawn]) + "\n"


def spread(number):
    """Votes that differ from list to list."""
    return 100_000 + number * 7919 % 99_991


def equal(number):
    return 100_000


def instructions(program, folder, book, text):
    """How many instructions of the processor one count takes, in millions."""
    words = ["count", write(folder, "book", book), write(folder, "returns", text)]
    tool = ["valgrind", "--tool=callgrind", "--callgrind-out-file=/dev/null"]
    ran = subprocess.run([*tool, program, *words], stdout=subprocess.DEVNULL, stderr=subprocess.PIPE, text=True)
    assert ran.returncode == 0, ran.stderr
    return int(re.search(r"Collected : (\d+)", ran.stderr)[1]) / 1e6


def one_scope(house):
    return BOOK % (house, "house, counted, webster")


def by_land(house):
    """The seats go to the Länder, and in each Land to the parties."""
    return ('rulebook 1; law "growth"; house %d; eligible all;\nstage lands = split(house, sum(counted, land), webster);\n'
            "stage s = split(lands, counted, webster);\nseats s keep;\n" % house)


def conditions(size):
    """A book of that many bytes, most of which are conditions."""
    front, back = 'rulebook 1; law "growth"; house 100;\neligible all', ";\nstage s = split(house, counted, webster);\nseats s keep;\n"
    room = size - len(front) - len(back)
    return front + " or winners at least 3" * (room // 22) + " " * (room % 22) + back


# what is doubled; its sizes; the book and the returns of a size
SIZES = [
    ("entries of one scope, {:,} seats".format(SEATS), [512, 1024, 2048, 4096, 8192], lambda n: (one_scope(SEATS), returns(n // 128, 128, spread))),
    ("seats, 1,024 entries", [250, 500, 1000, 2000, 4000], lambda n: (one_scope(n), returns(8, 128, spread))),
    ("peers, all with a seat each", [256, 512, 1024, 2048], lambda n: (one_scope(n), returns(n // 128, 128, equal))),
    ("lots and peers, half of whom get a seat", [256, 512, 1024, 2048], lambda n: (one_scope(n // 2), returns(n // 128, 128, equal, n))),
    ("Länder times parties, a scope for each Land", [1024, 2048, 4096, 8192], lambda n: (by_land(SEATS), returns(n // 128, 128, spread))),
    ("bytes of the book", [8192, 16384, 32768, 65536], lambda n: (conditions(n), returns(4, 16, spread))),
]


def main():
    program = sys.argv[1] if len(sys.argv) > 1 else PROGRAM
    with tempfile.TemporaryDirectory() as folder:
        for what, sizes, made in SIZES:
            took = [instructions(program, folder, *made(n)) for n in sizes]
            print("| %s | %s |" % (what, " | ".join("{:,}".format(n) for n in sizes)))
            print("|---" * (len(sizes) + 1) + "|")
            print("| millions of instructions | %s |" % " | ".join("%.1f" % n for n in took))
            print("| times the one before | | %s |\n" % " | ".join("%.2f" % (b / a) for a, b in zip(took, took[1:])))


if __name__ == "__main__":
    main()
