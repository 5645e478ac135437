"""The commands that pages show, and what is written where they are run.

In an indented block a line `$ COMMAND` is a command, lines `> ..` after it continue it, and the lines up to the next command are what it
writes on standard output, or there and then on standard error; a block without such lines says nothing of it. A fenced block is a file, if
the line above it ends with the file's name and a colon.
"""
import os
import pathlib
import re
import shutil
import subprocess
import sys
import tempfile
from contextlib import contextmanager

sys.path.append(str(pathlib.Path(__file__).resolve().parents[1] / "tools"))
from repository import TOP  # noqa: E402

LIMIT = 120
FOLDERS = ("docs", "examples", "tools")


def shown(text):
    """The commands of a page: (number of the line, command, lines)."""
    number, command, lines = 0, None, []
    for at, line in enumerate(text.splitlines() + [""], 1):
        if line.startswith("    > ") and command is not None and not lines:
            command += "\n" + line[6:]
        elif line.startswith("    ") and not line.startswith("    $ "):
            lines.append(line[4:])
        else:
            if command is not None:
                yield number, command, lines
            number, command, lines = at, line[6:] if line.startswith("    $ ") else None, []


def files(text):
    """The files that a page shows: (name, text)."""
    return re.findall(r"`([\w.-]+)`:\n\n```\w*\n(.*?)^```", text, re.M | re.S)


@contextmanager
def as_top(program):
    """A folder in which commands can be run as at the top of the repository, with that program."""
    with tempfile.TemporaryDirectory() as work:
        folder = pathlib.Path(work)
        for name in FOLDERS:
            (folder / name).symlink_to(TOP / name)
        shutil.copytree(TOP / "archive", folder / "archive")  # so that scripts take this folder for the repository
        place = folder / "crates" / "seatlaw" / "out"
        place.mkdir(parents=True)
        (place / "seatlaw").symlink_to(os.path.abspath(program))
        (folder / "seatlaw").symlink_to(os.path.abspath(program))
        yield folder


def is_there(command):
    """Whether the program that a command begins with is on this machine."""
    word = command.split()[0]
    return "/" in word or "=" in word or "$" in word or word == "for" or shutil.which(word) is not None


def not_run(text):
    """The commands of a page that need what is not on this machine."""
    return [(number, "not run, as there is no " + command.split()[0]) for number, command, _ in shown(text) if not is_there(command)]


def wrong_commands(folder, text):
    """Runs the commands of a page in a folder: what they write otherwise than the page shows."""
    for name, lines in files(text):
        (folder / name).write_text(lines)
    settings = "PROGRAM=crates/seatlaw/out/seatlaw\n"
    for number, command, lines in shown(text):
        if not is_there(command):
            continue
        run = subprocess.run(["bash", "-c", settings + command], cwd=folder, stdin=subprocess.DEVNULL, stdout=subprocess.PIPE, stderr=subprocess.PIPE, timeout=LIMIT)
        written, said = (text.decode(errors="replace").splitlines() for text in (run.stdout, run.stderr))
        if lines and lines in (written, written + said):
            continue
        if run.returncode in (5, 126, 127) or run.returncode == 1 and not command.startswith("diff"):
            yield number, "status %d of %s" % (run.returncode, command)
        elif lines:
            yield number, "not what is written: %s\n%s" % (command, "\n".join("    " + line for line in written))
