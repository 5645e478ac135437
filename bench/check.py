#!/usr/bin/env python3
"""`seatlaw check` on large books. Not part of the gate.

    python3 bench/check.py [RUNS]

One book has nearly nothing but conditions, one has 32 stages of 64 expressions, one has both, in 65,536 bytes.
"""
import sys
import tempfile

from books import book, stages
from measure import MAX_BOOK, measure, write


def main():
    runs = int(sys.argv[1]) if len(sys.argv) > 1 else 5
    with tempfile.TemporaryDirectory() as folder:
        for what, size, text in (("conditions", MAX_BOOK, ""), ("conditions", MAX_BOOK // 2, ""), ("stages", 36000, stages()), ("both", MAX_BOOK, stages())):
            measure("check: %s, %d bytes" % (what, size), ["check", write(folder, "book", book(size, text))], runs)


if __name__ == "__main__":
    main()
