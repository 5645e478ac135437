#!/usr/bin/env python3
"""`seatlaw count` on the largest inputs and on parts of them. Not part of the gate.

    python3 bench/count.py [RUNS]

The book has 65,536 bytes, 32 stages of 64 expressions and thousands of conditions; the returns have 4 MiB, 256 parties, 64 Länder,
16,384 lists, 2,000 winners, 4,000 lots, quoted fields and empty lines.
"""
import sys
import tempfile

from books import book, stages
from elections import returns
from measure import MAX_BOOK, MAX_RETURNS, measure, write


def main():
    runs = int(sys.argv[1]) if len(sys.argv) > 1 else 5
    sizes = [(max(MAX_BOOK // d, 36000), MAX_RETURNS // d) for d in (4, 2, 1)] + [(MAX_BOOK, 4096), (36000, MAX_RETURNS)]
    with tempfile.TemporaryDirectory() as folder:
        for book_size, returns_size in sizes:
            words = ["count", write(folder, "book", book(book_size, stages())), write(folder, "returns", returns(returns_size))]
            measure("count: book %d bytes, returns %d bytes" % (book_size, returns_size), words, runs)


if __name__ == "__main__":
    main()
