"""What a folder that is kept says of itself: its checksums, and where it comes from."""
import datetime
import hashlib
import os
import pathlib
import platform
import subprocess
import sys

sys.path.append(str(pathlib.Path(__file__).resolve().parents[1] / "tools"))
from repository import TOP  # noqa: E402

SUMS = "SHA256SUMS"


def run(words, folder=None):
    return subprocess.run(words, cwd=folder, stdin=subprocess.DEVNULL, stdout=subprocess.PIPE, stderr=subprocess.PIPE)


def write(folder, name, data):
    with open(os.path.join(folder, name), "wb") as f:
        f.write(data)


def read(folder, name):
    with open(os.path.join(folder, name), "rb") as f:
        return f.read()


def said(words):
    """What a command says in its first line, or that it is not known."""
    try:
        ended = run(words, TOP)
    except OSError:
        return "not known"
    lines = ended.stdout.decode(errors="replace").splitlines()
    return lines[0] if ended.returncode == 0 and lines else "not known"


def is_committed():
    """Whether the sources are as they are committed."""
    changes = run(["git", "status", "--porcelain"], TOP)
    return changes.returncode == 0 and not changes.stdout


def origin():
    """The time, the commit, the kit and the system, a line each."""
    return [
        "date: " + datetime.datetime.now(datetime.timezone.utc).strftime("%Y-%m-%d %H:%M:%S UTC"),
        "commit: %s%s" % (said(["git", "rev-parse", "HEAD"]), "" if is_committed() else ", with changes that are not committed"),
        "kit: " + said(["rt", "version"]),
        "system: " + " ".join((platform.system(), platform.release(), platform.machine())),
    ]


def names(folder):
    """The files of a folder and of the folders in it, by their paths there."""
    found = []
    for place, _, files in os.walk(folder):
        found += [os.path.relpath(os.path.join(place, name), folder) for name in files]
    return sorted(found)


def sums(folder):
    """The checksums of all files of a folder, as `sha256sum` writes them."""
    return "".join("%s  %s\n" % (hashlib.sha256(read(folder, name)).hexdigest(), name) for name in names(folder)).encode()


def changed(folder):
    """The files of a folder that are not as their checksums say, with those that are missing."""
    for line in read(folder, SUMS).decode().splitlines():
        kept, name = line.split("  ", 1)
        try:
            now = hashlib.sha256(read(folder, name)).hexdigest()
        except OSError:
            now = None
        if now != kept:
            yield name
