#!/usr/bin/env python3
"""Refuses memory to the tests of refused memory, and to `seatlaw`: the Nth allocation, for N = 1, 2, .. until none is left. Not part of
the gate.

    python3 check/refused.py [--seatlaw PROGRAM] [TESTS ..]

TESTS are programs of tests; without any, those of the crate sl_test_calls are proved and built first. To a test memory is
refused between its marks (src/marks.rt there), to `seatlaw` from its start, and in each run to one allocation. A line says of a test that has
marks, or of a command, in how many runs an allocation was refused, and how many runs did not pass; of these the first follows. A command
passes if it ends as with ample memory, with its explanation or without, or writes nothing and says on standard error that it is out of
memory, with status 5, in a line or with `--json` as JSON, or with status 1 where its words are still being read. The exit status is 0 if all
passed. A C compiler, `cc`, is needed.
"""
import argparse
import json
import os
import pathlib
import re
import subprocess
import sys
import tempfile

sys.path.append(str(pathlib.Path(__file__).resolve().parents[1] / "tools"))
from repository import CRATES, PROGRAM  # noqa: E402

CRATE = "sl_test_calls"
LIMIT = 60

BOOK = 'rulebook 1; law "t"; house 8; eligible all; stage s = split(house, counted, webster); seats s keep;'
RETURNS = "kind,land,party,a,b,c\nland,X,,1000,,\nparty,,A,0,,\nlist,X,A,10,10,\n"
NAMES = "short,full\nA,Alpha\nX,Xanten\n".encode()
CODE = b"SLC\x01\x00\x01\x03\x01\x00\x00\x00\x29\x00"
COMMANDS = (
    "count book returns",
    "count @2013 returns",
    "count book book",
    "steps book returns",
    "stage book returns s",
    "stage book returns q",
    "check book",
    "code book out",
    "run code returns",
    "law 2023",
    "help count",
    "report book returns",
    "report book returns --json",
    "report book returns --markdown",
    "report book returns --html",
    "report book book",
    "stages book returns --csv",
    "totals returns book",
    "compare returns book @2013",
    "compare returns --names names",
)

# Stands before the C library's malloc and realloc. It counts the allocations, from the start or between the marks, and refuses the one
# whose number is in the environment; on standard error it says that it did so.
SHIM = """
#define _GNU_SOURCE
#include <dlfcn.h>
#include <errno.h>
#include <stdlib.h>
#include <string.h>
#include <unistd.h>
static int is_open, is_read;
static long count, refused;
static void say(const char *line) {
    if (write(2, line, strlen(line)) < 0) abort();
}
static int refuses(size_t size) {
    if (!is_read) {
        is_read = 1;
        is_open = getenv("REFUSED_FROM_THE_START") != NULL;
        refused = atol(getenv("REFUSED_ALLOCATION"));
    }
    if (size == %(begin)d) { is_open = 1; say("marked\\n"); }
    else if (size == %(end)d) is_open = 0;
    else if (is_open && ++count == refused) { say("refused\\n"); errno = ENOMEM; return 1; }
    return 0;
}
void *malloc(size_t size) {
    static void *(*real)(size_t);
    if (!real) real = (void *(*)(size_t))dlsym(RTLD_NEXT, "malloc");
    return refuses(size) ? NULL : real(size);
}
void *realloc(void *old, size_t size) {
    static void *(*real)(void *, size_t);
    if (!real) real = (void *(*)(void *, size_t))dlsym(RTLD_NEXT, "realloc");
    return refuses(size) ? NULL : real(old, size);
}
"""


def marks():
    """The sizes by which the marks are known."""
    with open(CRATES / CRATE / "src" / "marks.rt") as f:
        text = f.read()
    return {name.lower(): int(size.replace("_", "")) for name, size in re.findall(r"pub const (\w+): usize = ([0-9_]+);", text)}


def build_shim(folder):
    source, shim = os.path.join(folder, "shim.c"), os.path.join(folder, "shim.so")
    with open(source, "w") as f:
        f.write(SHIM % marks())
    subprocess.run(["cc", "-shared", "-fPIC", "-O1", "-o", shim, source], check=True)
    return shim


def build_tests(crate):
    """Proves a crate's tests, and answers the program that runs them, which `rt test` leaves behind."""
    folder = CRATES / crate
    subprocess.run(["rt", "test"], cwd=folder, check=True, stdout=subprocess.DEVNULL)
    return folder / "out" / (crate + "_tests")


def names_of(program):
    listed = subprocess.run([program, "--list"], capture_output=True, text=True)
    return re.findall(r"^(\S+): test$", listed.stdout + listed.stderr, re.M)


class Ran:
    """A run with an allocation refused: its status, and what it wrote. What the shim said is kept apart."""

    def __init__(self, words, folder, shim, number, more={}):
        env = {"PATH": os.environ["PATH"], "LD_PRELOAD": shim, "REFUSED_ALLOCATION": str(number), **more}
        ran = subprocess.run(words, cwd=folder, env=env, stdin=subprocess.DEVNULL, capture_output=True, text=True, errors="replace", timeout=LIMIT)
        lines = ran.stderr.splitlines(True)
        self.status, self.out = ran.returncode, ran.stdout
        self.err = "".join(line for line in lines if line not in ("marked\n", "refused\n"))
        self.is_marked, self.is_refused = "marked\n" in lines, "refused\n" in lines
        self.kept = b""

    def told(self):
        return "status %d: %s" % (self.status, (self.out + self.err).strip()[-600:])


def refuse_each(run, passes):
    """Runs with each allocation refused in turn, until a run meets none. Answers how many were, and the runs that did not pass."""
    number, failed = 1, []
    while True:
        ran = run(number)
        if not passes(ran):
            failed.append((number, ran.told()))
        if not ran.is_refused:
            return number - 1, failed
        number += 1


class Count:
    def __init__(self):
        self.what, self.runs, self.failed = 0, 0, 0

    def add(self, what, runs, failed):
        self.what, self.runs, self.failed = self.what + 1, self.runs + runs, self.failed + len(failed)
        print("%-40s %5d runs with a refusal, %d runs not passed" % (what, runs, len(failed)), flush=True)
        for number, told in failed[:1]:
            print("    the first at allocation %d, %s" % (number, told))


def judge_tests(count, program, shim, folder):
    """Refuses memory between the marks of each test."""
    def passes(ran):
        return ran.status == 0 and "test result: ok" in ran.out
    for test in names_of(program):
        def run(number):
            return Ran([program, test], folder, shim, number)
        ample = run(0)
        if ample.is_marked or not passes(ample):
            count.add(test, *refuse_each(run, passes))


def lacks_memory(ran, has_json):
    """Whether a run says on standard error that it is out of memory: while the words are read in a line, and then with --json as JSON."""
    if ran.status == 1:
        return ran.err.lower() == "error: out of memory\n"
    if not has_json:
        return (ran.status, ran.err.lower()) == (5, "out of memory\n")
    try:
        told = json.loads(ran.err)
    except ValueError:
        return False
    return (ran.status, told["status"], told["fault"]) == (5, 5, "out of memory")


def judge_command(count, program, words, shim, folder):
    """Refuses memory to a command from its start."""
    def run(number):
        ran = Ran([program, *words], folder, shim, number, {"REFUSED_FROM_THE_START": "1"})
        if words[0] == "code":
            with open(os.path.join(folder, "out"), "rb") as f:
                ran.kept = f.read()
        return ran
    with open(os.path.join(folder, "out"), "wb"):
        pass
    ample = run(0)

    def passes(ran):
        said = (ample.err, re.split(r"(?:error(?:\[\w+\])?|warning\[\w+\]): ", ample.err)[0])
        if (ran.status, ran.out, ran.kept) == (ample.status, ample.out, ample.kept) and ran.err in said:
            return True
        wanting = lacks_memory(ran, "--json" in words)
        # (the file of `code` is as it was, which is full from the run with ample memory, or was made and is empty)
        return wanting and ran.out == "" and (ran.kept in (b"", ample.kept) or ran.status == 1)
    count.add("seatlaw " + " ".join(words), *refuse_each(run, passes))


def judge_commands(count, program, shim, folder):
    for name, data in (("book", BOOK.encode()), ("returns", RETURNS.encode()), ("code", CODE), ("names", NAMES)):
        with open(os.path.join(folder, name), "wb") as f:
            f.write(data)
    for line in COMMANDS:
        judge_command(count, program, line.split(), shim, folder)


def main():
    parser = argparse.ArgumentParser()
    parser.add_argument("--seatlaw", default=PROGRAM)
    parser.add_argument("tests", nargs="*")
    given = parser.parse_args()
    tests = given.tests or [build_tests(CRATE)]
    count = Count()
    with tempfile.TemporaryDirectory() as folder:
        shim = build_shim(folder)
        for program in tests:
            judge_tests(count, os.path.abspath(program), shim, folder)
        judge_commands(count, os.path.abspath(given.seatlaw), shim, folder)
    print("%d tests and commands, %d runs with a refused allocation, %d runs not passed" % (count.what, count.runs, count.failed))
    return 1 if count.failed else 0


if __name__ == "__main__":
    sys.exit(main())
