#!/usr/bin/env python3
"""The rows of the tests (docs/testing.md), with the built program and files on disk; or a changed output, put in place of what was wanted.

  rows.py                  runs every row with the programs that the gate has built, and writes each that differs
  rows.py accept FILE      FILE is what the program sl_test_rows wrote: its rows replace those of the same title
"""
import os
import pathlib
import re
import subprocess
import sys
import tempfile
import typing

sys.path.append(str(pathlib.Path(__file__).resolve().parents[1] / "tools"))
from repository import CRATES  # noqa: E402

ROWS = CRATES / "sl_test_rows" / "data" / "rows"
ESCAPE = re.compile(rb"\\(x[0-9a-fA-F]{2}|.)", re.DOTALL)
LETTERS = {b"n": b"\n", b"r": b"\r", b"t": b"\t"}


class Call(typing.NamedTuple):
    """A command as it is typed, and what is wanted of it."""

    line: str
    words: list
    wanted: dict

    def is_wanted(self, out, err, status):
        wanted = bytes(self.wanted[">"])
        is_out = out.startswith(wanted) if self.wanted["..."] else out == wanted
        return is_out and err == bytes(self.wanted["!"]) and status == self.wanted["?"]


class Row(typing.NamedTuple):
    """A row: its title, the files that it may read, the variables of the environment, and its commands."""

    title: str
    files: dict
    variables: dict
    calls: list


def unescaped(text):
    """The bytes of a text with escapes, and whether it ends in a single backslash."""
    raw = text.encode()
    ends = re.search(rb"(\\*)$", raw).group(1)
    is_open = len(ends) % 2 == 1
    plain = ESCAPE.sub(lambda m: bytes.fromhex(m[1][1:].decode()) if m[1][:1] == b"x" and len(m[1]) == 3 else LETTERS.get(m[1], m[1]),
                       raw[:-1] if is_open else raw)
    return plain, is_open


def line_of(text):
    plain, is_open = unescaped(text)
    return plain if is_open else plain + b"\n"


def add(to, kind, rest):
    """Adds what a line says to a text, by what follows its marker."""
    if kind == "*":
        first, last, text = rest.split(" ", 2)
        for number in range(int(first), int(last) + 1):
            to.extend(line_of(text.replace("{}", str(number))))
    elif kind == "=":
        length, filling = rest.split(" ", 1)
        byte = unescaped(filling)[0][:1] or b" "
        to.extend(byte * max(0, int(length) - len(to)))
    else:
        to.extend(line_of(rest))


def words_of(line):
    return [os.fsdecode(unescaped(word)[0]) if word != "''" else "" for word in line.split(" ") if word]


def take(row, marker, rest):
    """Takes a line of a row."""
    if marker == "file":
        row.files.pop(rest, None)  # one of the page's files, which the row has in its own way: its lines go to the last
        row.files[rest] = bytearray()
    elif marker[:1] == "|":
        add(list(row.files.values())[-1], marker[1:], rest)
    elif marker == "&":
        name, _, value = rest.partition("=")
        row.variables[name] = value
    elif marker == "$":
        row.calls.append(Call(rest, words_of(rest), {">": bytearray(), "...": False, "!": bytearray(), "?": 0}))
    elif marker == ">...":
        row.calls[-1].wanted["..."] = True
    elif marker[:1] in (">", "!"):
        add(row.calls[-1].wanted[marker[0]], marker[1:], rest)
    elif marker == "?":
        row.calls[-1].wanted["?"] = int(rest)


def rows_of(path):
    """The rows of a page, each with the page's files."""
    page = Row("", {}, {}, [])
    row = page
    for line in path.read_text().split("\n"):
        marker, _, rest = line.partition(" ")
        if marker == "==":
            if row is not page:
                yield row
            row = Row(rest, dict(page.files), {}, [])
        else:
            take(row, marker, rest)
    if row is not page:
        yield row


def pages():
    return sorted(ROWS.glob("*.txt"))


def run(row, call, folder):
    environment = {key: value for key, value in os.environ.items() if key not in ("LANG", "LC_ALL", "LC_MESSAGES")}
    environment.update(row.variables)
    name = call.words[0]
    program = CRATES / name / "out" / name
    ended = subprocess.run([program] + call.words[1:], cwd=folder, env=environment, capture_output=True)
    return ended.stdout, ended.stderr, ended.returncode


def differs(row):
    """Whether a row comes otherwise, over files in a folder of its own."""
    with tempfile.TemporaryDirectory() as name:
        folder = pathlib.Path(name)
        for shared in ROWS.iterdir():
            if shared.suffix != ".txt":
                (folder / shared.name).write_bytes(shared.read_bytes())
        for file, content in row.files.items():
            (folder / file).write_bytes(bytes(content))
        return not all([call.is_wanted(*run(row, call, folder)) for call in row.calls])


def run_all():
    tried = wrong = 0
    for page in pages():
        for row in rows_of(page):
            tried += 1
            if differs(row):
                wrong += 1
                print(f"{page.name}: {row.title}")
    print(f"{tried} rows, {wrong} differ")
    return wrong


def blocks(lines):
    """The lines of each row by its title, without the blank lines at its end."""
    title, found = None, {}
    for line in lines:
        if line.startswith("== "):
            title = line[3:]
            found[title] = []
        elif re.match(r"\S+\.txt: \d+ rows, \d+ differ$", line):
            title = None
        elif title is not None:
            found[title].append(line)
    return {title: "\n".join(body).rstrip("\n").split("\n") for title, body in found.items()}


def commands(lines):
    """What came of each command, beginning with its line."""
    found = []
    for line in lines:
        if line.startswith("$"):
            found.append([line])
        elif found and not line.startswith("#"):
            found[-1].append(line)
    return found


def accepted(text, came):
    """The text of a page, in which the commands of rows that came otherwise stand as they came."""
    out, left, is_left = [], [], False
    for line in text.rstrip("\n").split("\n"):
        if line.startswith("== "):
            left = commands(came.get(line[3:], []))
            is_left = bool(left)
        if left and line.startswith("$"):
            out.extend(left.pop(0))
        elif not (is_left and line[:1] in (">", "!", "?")):
            out.append(line)
    return "\n".join(out) + "\n"


def accept(path):
    came, page = [], None
    for line in pathlib.Path(path).read_text().split("\n"):
        came.append(line)
        ending = re.match(r"rows/(\S+\.txt): \d+ rows, \d+ differ$", line)
        if ending:
            page = ROWS / ending[1]
            page.write_text(accepted(page.read_text(), blocks(came)))
            came = []


if __name__ == "__main__":
    if sys.argv[1:2] == ["accept"]:
        accept(sys.argv[2])
    else:
        sys.exit(1 if run_all() else 0)
