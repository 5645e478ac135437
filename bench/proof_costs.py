#!/usr/bin/env python3
"""How long the proof of each function of a crate takes.

    python3 bench/proof_costs.py CRATE                   the whole crate
    python3 bench/proof_costs.py CRATE --test            the crate with its tests
    python3 bench/proof_costs.py CRATE MODULE::FUNCTION  these functions alone, and those of the crate that they stand on

It checks from nothing with one job, over libraries that are built, and tells the seconds between the modules that the prover writes
one after the other: of each function all of them, and those of its proof alone, where goals are searched for. Where that second figure is
large, an answer in the function's Answers.antt may take a tenth of it. The first function has the start of the crate in its figure. Compare only figures of one machine that does little
else: beside four other checks they are two to three times as large. Where another checkout on the machine keeps a check of the same
crate, `rt check` begins with that, and the figures mean nothing: remove its out/incremental first.
"""
import collections
import pathlib
import re
import shutil
import subprocess
import sys
import time

sys.path.append(str(pathlib.Path(__file__).resolve().parents[1] / "tools"))
from repository import CRATES  # noqa: E402

# The modules that the prover makes of a function.
PARTS = (
    "Answers|Carried[-\\d]*|Code|Given|Goals|Invariants|Kinds[-\\d]*|Layout|Lts|Met|Mir|Named|Proof|Reads|Statement|Symbol|Tie|"
    "TheLinks?|View"
)


def name_of(module, crate):
    """The function, or else the module, of a file of the prover."""
    module = module.replace(f"Rattle-{crate}", "").replace(f"Rattle.{crate}", "").lstrip("-.")
    found = re.match(rf"proofs\.(.*?)\.(?:{PARTS})(?:\..*)?$", module)
    return found[1] if found else module or "the crate"


def main(crate, words):
    folder = CRATES / crate
    kept = folder / "out" / "incremental"
    shutil.rmtree(kept, ignore_errors=True)
    flags = [flag for word in words for flag in ([word] if word.startswith("--") else ["--only", word])]
    begin = time.time()
    run = subprocess.run(["rt", "check", "--jobs", "1", *flags], cwd=folder, stdout=subprocess.PIPE, text=True)
    print(f"{time.time() - begin:7.1f} s in all: {(run.stdout.splitlines() or ['no answer'])[-1][:70]}")
    files = [it for it in kept.glob("**/*.oantt") if it.parent.name != "records"]
    costs, proofs, before = collections.Counter(), collections.Counter(), begin
    for written, file in sorted((it.stat().st_mtime_ns / 1e9, it.stem) for it in files):
        name = name_of(file, crate)
        costs[name] += written - before
        if file.endswith(".Proof"):
            proofs[name] += written - before
        before = written
    for name, seconds in costs.most_common(40):
        print(f"{seconds:7.1f} {proofs[name]:7.1f} {name}")
    return run.returncode


if __name__ == "__main__":
    if len(sys.argv) < 2:
        sys.exit(__doc__)
    sys.exit(main(sys.argv[1], sys.argv[2:]))
