#!/usr/bin/env python3
"""Asks each door of the calls what check/doors.txt asks, and compares with the program: the status, and each text byte for byte. Not part of the gate.

    check/doors.py [--program PROGRAM] [--only DOOR]

The doors are C, Python and R, over what capi/build made in capi/out; one of them is left out, with a line that says so, where what it needs is not
there. The exit status is 0 if no reply differs.
"""
import argparse
import concurrent.futures
import functools
import os
import pathlib
import re
import shlex
import shutil
import subprocess
import sys
import tempfile
import typing

sys.path.append(str(pathlib.Path(__file__).resolve().parents[1] / "tools"))
from repository import EXAMPLES, PROGRAM, TOP  # noqa: E402

TABLE = TOP / "check" / "doors.txt"
OUT = TOP / "capi" / "out"
ANSWERS = TOP / "capi" / "tests" / "answers.c"
LIMIT = 120


class Case(typing.NamedTuple):
    """A request: the words behind the program's name, and the files that they may name."""

    words: typing.List[str]
    files: typing.Dict[str, bytes]


class Reply(typing.NamedTuple):
    """What the program answers: its exit status, what it writes to standard output and to standard error, and the file that it makes."""

    status: int
    out: bytes
    err: bytes
    made: bytes


class Missing(Exception):
    """What a door needs is not there."""


def file_of(word):
    """The name and the bytes of a file of the table."""
    name, kind, rest = re.split("([=:])", word, maxsplit=1)
    return name, (EXAMPLES / rest).read_bytes() if kind == "=" else rest.encode().decode("unicode_escape").encode("latin-1")


def cases():
    """The requests of the table."""
    for line in TABLE.read_text().splitlines():
        if line and not line.startswith("#"):
            words = shlex.split(line)
            at = words.index("<") if "<" in words else len(words)
            yield Case(words[:at], dict(map(file_of, words[at + 1:])))


def asked(program, case):
    """The reply of the program, in a folder of its own with the files."""
    with tempfile.TemporaryDirectory() as name:
        folder = pathlib.Path(name)
        for file, data in case.files.items():
            (folder / file).write_bytes(data)
        words = {"args": ["seatlaw", *case.words], "executable": program, "cwd": name, "env": {"LC_ALL": "C"}}
        done = subprocess.run(**words, stdin=subprocess.DEVNULL, capture_output=True, timeout=LIMIT)
        made = b"".join(path.read_bytes() for path in folder.iterdir() if path.name not in case.files)
    return Reply(done.returncode, done.stdout, done.stderr, made)


def by_program(program, all_cases):
    """The replies of the program, by as many at once as there are processors."""
    with concurrent.futures.ThreadPoolExecutor(os.cpu_count()) as pool:
        return list(pool.map(lambda case: asked(program, case), all_cases))


def encoded(all_cases):
    """The bytes of a file of requests, as capi/tests/cases.h reads it."""
    whole = []
    for words, files in all_cases:
        texts = [word.encode() for word in words] + [text for name, data in files.items() for text in (name.encode(), data)]
        whole += [b"%d %d %s\n" % (len(words), len(files), b" ".join(b"%d" % len(text) for text in texts)), *texts]
    return b"".join(whole)


def decoded(data):
    """The replies that a file of them has: lines of a status and three lengths, each before the bytes of its texts."""
    found, at = [], 0
    while at < len(data):
        end = data.index(b"\n", at)
        status, *lengths = map(int, data[at:end].split())
        texts, at = [], end + 1
        for length in lengths:
            texts.append(data[at:at + length])
            at += length
        found.append(Reply(status, *texts))
    return found


def needed(name):
    """The path of a command, or of what capi/build makes."""
    found = str(OUT / name) if (OUT / name).exists() else shutil.which(name)
    if not found:
        raise Missing("there is no " + name)
    return found


def by_c(all_cases):
    """By the static library."""
    compiler, archive = needed(os.environ.get("CC", "cc")), needed("libseatlaw.a")
    with tempfile.TemporaryDirectory() as folder:
        made = os.path.join(folder, "answers")
        subprocess.run([compiler, "-std=c11", "-I", str(OUT), str(ANSWERS), archive, "-o", made], check=True)
        return decoded(subprocess.run([made], input=encoded(all_cases), stdout=subprocess.PIPE, check=True).stdout)


def by_python(all_cases):
    """By the package, with the shared library."""
    os.environ.setdefault("SEATLAW_LIBRARY", needed("libseatlaw.so"))
    sys.path.append(str(TOP / "python"))
    import seatlaw

    replies = [seatlaw.ask(*case) for case in all_cases]
    return [Reply(it.status, it.out.encode(), it.err.encode(), it.made) for it in replies]


def installed(folder):
    """The folder in which the R package is installed: that of r/test, or this one."""
    if (pathlib.Path(os.environ.get("R_LIBS", "")) / "seatlaw").is_dir():
        return os.environ["R_LIBS"]
    shutil.copytree(TOP / "r" / "seatlaw", folder / "source" / "seatlaw")
    words = ["R", "CMD", "INSTALL", "--library=" + str(folder), str(folder / "source" / "seatlaw")]
    done = subprocess.run(words, env={**os.environ, "SEATLAW": str(OUT)}, stdout=subprocess.PIPE, stderr=subprocess.STDOUT, text=True)
    if done.returncode:
        sys.exit(done.stdout)
    return str(folder)


def by_r(all_cases):
    """By the R package."""
    script = needed("Rscript")
    needed("libseatlaw.a")
    with tempfile.TemporaryDirectory() as name:
        folder = pathlib.Path(name)
        (folder / "cases").write_bytes(encoded(all_cases))
        environment = {**os.environ, "R_LIBS": installed(folder)}
        subprocess.run([script, str(TOP / "check" / "doors.R"), name], env=environment, check=True)
        return decoded((folder / "replies").read_bytes())


# Each door gives the replies to requests, one by one as `ask(*case)` or all at once, or raises Missing.
DOORS = {"C": by_c, "Python": by_python, "R": by_r}


def compared(door, what, all_cases, found, wanted):
    """How many replies of a door differ from those of the program: a line says it, and the first of them are shown."""
    wrong = [i for i in range(len(all_cases)) if found[i] != wanted[i]]
    for i in wrong[:3]:
        print("differs: %r\n  %s %s\n  the program %s" % (all_cases[i].words, door, repr(found[i])[:600], repr(wanted[i])[:600]))
    numbers = [reply.status for reply in found]
    statuses = ", ".join("%d with status %d" % (numbers.count(status), status) for status in sorted(set(numbers)))
    print("%s, %s: %d requests (%s), %d replies differ from the program" % (door, what, len(found), statuses, len(wrong)), flush=True)
    return len(wrong)


@functools.lru_cache(None)
def table(program):
    """The requests of the table, and the replies of the program."""
    all_cases = list(cases())
    return all_cases, by_program(program, all_cases)


def tried(door, program):
    """How many replies of a door to the requests of the table differ from those of the program."""
    all_cases, wanted = table(program)
    try:
        return compared(door, TABLE.name, all_cases, DOORS[door](all_cases), wanted)
    except Missing as missing:
        print("%s: not tried, %s" % (door, missing))
        return 0


def main():
    parser = argparse.ArgumentParser(usage=__doc__.split("\n\n")[1].strip())
    parser.add_argument("--program", default=str(PROGRAM))
    parser.add_argument("--only", choices=DOORS)
    args = parser.parse_args()
    if not os.access(args.program, os.X_OK):
        parser.error("there is no program at " + args.program)
    wrong = [tried(door, os.path.abspath(args.program)) for door in ([args.only] if args.only else DOORS)]
    return 1 if any(wrong) else 0


if __name__ == "__main__":
    sys.exit(main())
