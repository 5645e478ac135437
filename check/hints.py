#!/usr/bin/env python3
"""Explanations on damaged rulebooks and returns. Not part of the gate.

    python3 check/hints.py [--cases N] [--seed S] [PROGRAM]

Takes the rulebooks and the returns of the examples and the library, damages copies of them, and counts by them. Wherever the program refuses
an input or ends with a legal fault, it has to explain that on standard error: a sentence, in every second case in German, and a place that is
within the file. With --quiet it must write the same on standard output and end with the same status. What differs is printed, with the seed of
the case. The exit status is 0 if nothing does. There are 100,000 cases if N is not given.
"""
import argparse
import concurrent.futures
import os
import pathlib
import random
import re
import subprocess
import sys
import tempfile

sys.path.append(str(pathlib.Path(__file__).resolve().parents[1] / "tools"))
from repository import EXAMPLES, PROGRAM, statutes  # noqa: E402

PLACE = re.compile(rb"^ *--> (.*):(\d+):(\d+)$", re.M)
FIRST = {"en": b"error[", "de": b"Fehler["}
WARNING = {"en": b"warning[", "de": b"Warnung["}
BYTES = b"\x00\t\n\r \"#';,=()-_.%0159AZaz\x7f\x80\xc3\xbc\xff\xef\xbb\xbf"


def damaged(rng, data):
    """A copy of some bytes with one to three changes."""
    data = bytearray(data)
    for _ in range(rng.randint(1, 3)):
        at = rng.randrange(len(data) + 1)
        lines = bytes(data).split(b"\n")
        change = rng.randrange(8)
        if change == 0:
            del data[at : at + rng.choice((1, 1, 2, 5, 40))]
        elif change == 1:
            data[at:at] = bytes(rng.choices(BYTES, k=rng.choice((1, 1, 2, 4))))
        elif change == 2 and at < len(data):
            data[at] = rng.choice(BYTES)
        elif change == 3:
            del data[at:]
        elif change == 4:
            first, second = rng.randrange(len(lines)), rng.randrange(len(lines))
            lines[first], lines[second] = lines[second], lines[first]
            data = bytearray(b"\n".join(lines))
        elif change == 5:
            row = rng.randrange(len(lines))
            data = bytearray(b"\n".join(lines[: row + 1] + lines[row:]))
        elif change == 6:
            words = re.findall(rb"\w+", bytes(data)) or [b"x"]
            data[at:at] = rng.choice(words)
        else:
            data = bytearray(bytes(data).replace(*rng.choice(((b",", b";"), (b"\n", b"\r\n"), (b"\n", b"\r"), (b",", b", "), (b"0", b"0.5"))), rng.choice((1, 1, -1))))
    return bytes(data)


def columns_of(line):
    """How many columns a line has: its characters, or its bytes where they are no UTF-8, since each is shown for itself then."""
    try:
        return len(line.decode())
    except UnicodeDecodeError:
        return len(line)


def is_within(text, line, column):
    """Whether a line and a column are within a text, or just after it."""
    lines = re.split(rb"\r\n|\n|\r", text)
    if not 1 <= line <= len(lines):
        return False
    return 1 <= column <= columns_of(lines[line - 1]) + 1


def wrong_in(program, folder, seed, books, returns):
    """What is wrong with the explanation of a case, or None."""
    rng = random.Random(seed)
    book, election = rng.choice(books), rng.choice(returns)
    if rng.random() < 0.5:
        book = damaged(rng, book)
    else:
        election = damaged(rng, election)
    paths = {}
    for name, data in (("book", book), ("returns", election)):
        paths[name] = os.path.join(folder, "%d.%s" % (seed, name))
        with open(paths[name], "wb") as f:
            f.write(data)
    language = rng.choice(("en", "de"))
    command = [program, "count", paths["book"], paths["returns"]]
    told = subprocess.run(command + ["--lang", language], capture_output=True, timeout=60)
    quiet = subprocess.run(command + ["--quiet"], capture_output=True, timeout=60)
    for path in paths.values():
        os.unlink(path)
    if (told.stdout, told.returncode) != (quiet.stdout, quiet.returncode):
        return "another output or status with --quiet"
    if quiet.stderr or told.returncode not in (0, 2, 3):
        return "status %d, and with --quiet on standard error %r" % (told.returncode, quiet.stderr)
    if told.returncode == 0:
        return None if all(line.startswith(WARNING[language]) for line in told.stderr.splitlines()) else "an explanation of nothing: %r" % told.stderr
    if not told.stderr.startswith(FIRST[language]):
        return "no explanation of %r: %r" % (told.stdout, told.stderr)
    for path, line, column in PLACE.findall(told.stderr):
        name = path.decode().rsplit(".", 1)[-1]
        if not is_within({"book": book, "returns": election}[name], int(line), int(column)):
            return "no such place: %r" % told.stderr
    return None


def main():
    parser = argparse.ArgumentParser(description="Explanations on damaged rulebooks and returns.")
    parser.add_argument("--cases", type=int, default=100_000)
    parser.add_argument("--seed", type=int, default=1)
    parser.add_argument("program", nargs="?", default=str(PROGRAM))
    given = parser.parse_args()
    texts = [subprocess.run([given.program, "law", name], capture_output=True, check=True).stdout for name in statutes()]
    books = [path.read_bytes() for path in sorted(EXAMPLES.rglob("*.law"))] + texts
    returns = [path.read_bytes() for path in sorted(EXAMPLES.rglob("*.csv"))]
    wrong = 0
    with tempfile.TemporaryDirectory() as folder, concurrent.futures.ThreadPoolExecutor(os.cpu_count()) as pool:
        seeds = range(given.seed, given.seed + given.cases)
        for seed, said in zip(seeds, pool.map(lambda seed: wrong_in(given.program, folder, seed, books, returns), seeds)):
            if said:
                wrong += 1
                print("seed %d: %s" % (seed, said))
    print("%d cases, %d wrong" % (given.cases, wrong))
    return 1 if wrong else 0


if __name__ == "__main__":
    sys.exit(main())
