#!/usr/bin/env python3
"""`seatlaw` on files that cannot be opened or read, on inputs without an end, on full devices and on closed pipes. Not part of the gate.

    python3 check/hostile.py [PROGRAM]

Each case is a command with what it has to write on standard output and, before an explanation, on standard error, and its exit status; one that
differs is printed.
The exit status is 0 if none does. Linux alone, for /dev/full, /dev/zero and /proc.
"""
import os
import pathlib
import re
import subprocess
import sys
import tempfile

sys.path.append(str(pathlib.Path(__file__).resolve().parents[1] / "tools"))
from repository import PROGRAM  # noqa: E402

LIMIT = 60
BOOK = 'rulebook 1; law "t"; house 8; eligible all; stage s = split(house, counted, webster); seats s keep;'
RETURNS = "kind,land,party,a,b,c\nland,X,,1000,,\nparty,,A,0,,\nlist,X,A,10,10,\n"
TABLE = "total 8\nparty A 8 0\nlist X A 8 0\n"
TIED = RETURNS + "party,,B,0,,\nlist,X,B,10,10,\n"
CODE = b"SLC\x01\x00\x01\x03\x01\x00\x00\x00\x29\x00"
ENDLESS = b"SLC\x01\x00\x00\x02\x00\x00\x00\x2a\x00\x00\x00\x00\x09\x00\x00\x00\x00"
RUN_TABLE = "total 0\nparty A 0 0\nlist X A 0 0\n"
CHECKED = "book 1 house 8 stages 1 law t\n"

# Paths that no file can be opened at, and one that opens and cannot be read.
UNOPENED = ("missing", "missing/file", "book/file", "", "loop", "n" * 5000)
UNREAD = (".",)
# Paths at which no file can be made.
UNMADE = ("missing/file", "book/file", "", "loop", ".", "n" * 5000)

READ = {name: "read fault %s\n" % name for name in ("book", "returns", "code")}
WRITE = "write fault\n"
EXPLANATION = re.compile(r"error(\[\w+\])?: ")


def write_files(folder):
    for name, data in (("book", BOOK.encode()), ("odd", BOOK.replace("8", "7").encode()), ("bad", b"book"), ("returns", RETURNS.encode()), ("tied", TIED.encode()), ("code", CODE), ("endless", ENDLESS)):
        with open(os.path.join(folder, name), "wb") as f:
            f.write(data)
    os.symlink("loop", os.path.join(folder, "loop"))


def faults_of_files():
    """Cases of files that cannot be opened or read: words, standard output, standard error, status."""
    for path in UNOPENED + UNREAD:
        for command in (["count"], ["steps"]):
            yield command + [path, "returns"], "", READ["book"], 5
            yield command + ["book", path], "", READ["returns"], 5
            yield command + ["@2023", path], "", READ["returns"], 5
        for command in (["report", "--markdown"], ["stages", "--csv"]):
            yield command + [path, "returns"], "", READ["book"], 5
            yield command + ["book", path], "", READ["returns"], 5
        for command in (["totals", "--html"], ["compare"]):
            yield command + [path, "book"], "", READ["returns"], 5
            yield command + ["returns", path], "", READ["book"], 5
            yield command + ["returns", "book", "--names", path], "", "read fault names\n", 5
        yield ["stage", path, "returns", "s"], "", READ["book"], 5
        yield ["stage", "book", path, "s"], "", READ["returns"], 5
        yield ["check", path], "", READ["book"], 5
        yield ["code", path, "out"], "", READ["book"], 5
        yield ["run", path, "returns"], "", READ["code"], 5
        yield ["run", "code", path], "", READ["returns"], 5
        # the first that cannot be opened, in the order of the arguments
        yield ["count", path, path], "", READ["book"], 5
        yield ["run", path, path], "", READ["code"], 5
    for path in UNOPENED:
        # before anything is judged
        yield ["count", "bad", path], "", READ["returns"], 5
        yield ["count", "@1999", path], "", READ["returns"], 5
        yield ["stage", "book", path, "q"], "", READ["returns"], 5
        yield ["run", "bad", path], "", READ["returns"], 5
        if path != "missing/file":
            yield ["code", path, "missing/file"], "", READ["book"], 5
    for path in UNMADE:
        yield ["code", "book", path], "", WRITE, 5
        yield ["code", "bad", path], "", WRITE, 5
        yield ["code", "@1999", path], "", WRITE, 5
    # a refused book is not made good, nor the rest read, by a reader that fails after it
    yield ["count", "bad", "."], "refused book parse 1 0\n", "", 2
    yield ["stage", "book", ".", "q"], "refused stage q\n", "", 2
    yield ["run", "bad", "."], "refused code file 1 0\n", "", 2
    yield ["count", "/proc/self/mem", "returns"], "", READ["book"], 5


def endless_inputs():
    """Cases of inputs without an end, and of empty ones."""
    for command in ("count", "steps"):
        yield [command, "/dev/zero", "returns"], "refused book toolong\n", "", 2
        yield [command, "book", "/dev/zero"], "refused returns toolong\n", "", 2
        yield [command, "/dev/null", "returns"], "refused book parse 1 0\n", "", 2
        yield [command, "book", "/dev/null"], "refused returns 1 1\n", "", 2
    yield ["check", "/dev/zero"], "refused book toolong\n", "", 2
    yield ["code", "/dev/zero", "out"], "refused book toolong\n", "", 2
    yield ["run", "/dev/zero", "returns"], "refused code toolong\n", "", 2
    yield ["run", "code", "/dev/zero"], "refused returns toolong\n", "", 2
    yield ["run", "/dev/null", "returns"], "refused code file 4 0\n", "", 2


def good_calls():
    """Each command with what it writes, to be run where that cannot be written."""
    yield ["count", "book", "returns"], TABLE, 0
    yield ["stage", "book", "returns", "s"], "X/A 8\n", 0
    yield ["check", "book"], CHECKED, 0
    yield ["run", "code", "returns"], RUN_TABLE, 0
    yield ["count", "bad", "returns"], "refused book parse 1 0\n", 2
    yield ["count", "book", "bad"], "refused returns 1 1\n", 2
    yield ["law", "1999"], "refused law 1999\n", 2
    yield ["count", "odd", "tied"], "fault s all tie 1 X/A X/B\n", 3
    yield ["run", "endless", "returns"], "out of budget\n", 4


def start(program, words, folder, out, err):
    return subprocess.Popen([program, *words], cwd=folder, stdin=subprocess.DEVNULL, stdout=out, stderr=err, env={"PATH": os.environ["PATH"]})


def without_explanation(said):
    """What stands on standard error before an explanation."""
    return EXPLANATION.split(said)[0]


def run(program, words, folder, out=subprocess.PIPE, err=subprocess.PIPE):
    """What a command writes on the two, as far as they are pipes of its own, and its status. Without the explanation."""
    child = start(program, words, folder, out, err)
    try:
        wrote, said = child.communicate(timeout=LIMIT)
    except subprocess.TimeoutExpired:
        child.kill()
        wrote, said = child.communicate()
    return (wrote or b"").decode("latin-1"), without_explanation((said or b"").decode("latin-1")), child.returncode


def run_closed(program, words, folder):
    """The same with a standard output that nobody reads."""
    reading, writing = os.pipe()
    os.close(reading)
    try:
        return run(program, words, folder, out=writing)
    finally:
        os.close(writing)


def run_shut(program, words, folder):
    """The same without a standard output."""
    return run("/bin/sh", ["-c", 'exec "$0" "$@" >&-', program, *words], folder)


class Judge:
    def __init__(self):
        self.cases, self.wrong = 0, 0

    def compare(self, what, words, found, wanted):
        self.cases += 1
        if found != wanted:
            self.wrong += 1
            print("%s: seatlaw %s\n    found  %r\n    wanted %r" % (what, " ".join(word[:40] or "''" for word in words), found, wanted))


def judge_outputs(judge, program, folder):
    """What cannot be written is a write fault, on a full device, on a closed pipe and without an output; where nothing can be said of it
    either, the status alone says so."""
    writers = [["law", "2023"], ["steps", "book", "returns"], ["code", "book", "out"], ["report", "book", "returns"], ["stages", "book", "returns"], ["totals", "returns"], ["compare", "returns"]]
    for words in [words for words, _, _ in good_calls()] + writers:
        with open("/dev/full", "wb", buffering=0) as full:
            judge.compare("full", words, run(program, words, folder, out=full), ("", WRITE, 5))
            judge.compare("all full", words, run(program, words, folder, out=full, err=full), ("", "", 5))
        judge.compare("closed pipe", words, run_closed(program, words, folder), ("", WRITE, 5))
        judge.compare("no output", words, run_shut(program, words, folder), ("", WRITE, 5))
    # nothing is listed where the file is not written
    judge.compare("full file", ["code", "book", "/dev/full"], run(program, ["code", "book", "/dev/full"], folder), ("", WRITE, 5))


def judge_words(judge, program, folder):
    """Words that are no text, and refused lines: nothing on standard output, and no signal."""
    for words in ([b"count", b"\xff", b"returns"], [b"law", b"\xff"], [b"\xff"], [b"count"], [], [b"count", b"missing"], [b"counts", b"book", b"returns"]):
        wrote, _, status = run(program, words, folder)
        judge.compare("words", [repr(word) for word in words], (wrote, status in (1, 2, 5)), ("", True))


def main():
    program = os.path.abspath(sys.argv[1]) if len(sys.argv) > 1 else PROGRAM
    judge = Judge()
    with tempfile.TemporaryDirectory() as folder:
        write_files(folder)
        for words, out, status in good_calls():
            judge.compare("good", words, run(program, words, folder), (out, "", status))
        for words, out, err, status in [*faults_of_files(), *endless_inputs()]:
            judge.compare("files", words, run(program, words, folder), (out, err, status))
        judge_outputs(judge, program, folder)
        judge_words(judge, program, folder)
    print("%d cases, %d differ" % (judge.cases, judge.wrong))
    return 1 if judge.wrong else 0


if __name__ == "__main__":
    sys.exit(main())
