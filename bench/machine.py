#!/usr/bin/env python3
"""How many instructions the counting machine runs in a second. Not part of the gate.

    python3 bench/machine.py [RUNS]

The code is a loop without an end: `at 0 0 0`, `set 0 1`, `add 1 0`, `jmp 0`. `seatlaw run` stops it when the steps are used up that a code without
stages may take (docs/machine.md, section 4).
"""
import pathlib
import sys
import tempfile

from growth import equal, returns
from measure import best_of, write

LOOP = bytes.fromhex("534c4301" "00" "00" "04000000" "2a00000000" "01000100000000000000" "030100" "0900000000")
SIDES = 7  # Länder, and as many parties
STEPS = 2 * 400 * (SIDES + 1) ** 2 * (4000 + 2)
OUT_OF_BUDGET = 4


def main():
    runs = int(sys.argv[1]) if len(sys.argv) > 1 else 5
    with tempfile.TemporaryDirectory() as folder:
        code = pathlib.Path(folder, "loop.slc")
        code.write_bytes(LOOP)
        words = ["run", "--quiet", str(code), write(folder, "returns.csv", returns(SIDES, SIDES, equal))]
        best, _ = best_of(words, runs, OUT_OF_BUDGET)
    print("machine: %d instructions %6.3f s, %d million a second" % (STEPS, best, STEPS / best / 1e6))


if __name__ == "__main__":
    main()
