#!/usr/bin/env python3
"""Lays out the libraries below a crate as the gate proved them, so that a build of that crate proves nothing else again.

    tools/libraries.py CRATE

What `rt ci` passes it keeps in the folder rattle-kept beside the kit. This takes from there the library of each crate below CRATE, as it was proved of
the files that stand here, to crates/NAME/out/rlib. Where one of them, or CRATE itself, is not kept, it runs `rt ci CRATE` first. It then writes the
words that `rattle build` needs for these libraries, a line each. The kit's folder bin has to be on PATH.
"""
import importlib.machinery
import importlib.util
import os
import shutil
import subprocess
import sys

from repository import TOP



def command():
    """The kit's command rt as a module: it says by which sum of what files a library is kept, and gives it out if its bytes are still the same."""
    path = shutil.which("rt") or sys.exit("tools/libraries.py: there is no command rt: put the kit's folder bin on PATH")
    loader = importlib.machinery.SourceFileLoader("rt", os.path.realpath(path))
    module = importlib.util.module_from_spec(importlib.util.spec_from_loader("rt", loader))
    loader.exec_module(module)
    return module


def crates(rt, name):
    """The crate and those below it, the lowest first."""
    rt.Crate.cuts_libraries = True
    rt.Crate.allowed = rt.handles_of(str(TOP))
    every = rt.crates_of(str(TOP))
    top = [crate for crate in every if crate.name == name] or sys.exit("tools/libraries.py: crates.txt has no crate " + name)
    wanted = {top[0], *top[0].below()}
    return [crate for crate in every if crate in wanted]


def lacking(rt, wanted):
    """Lays the libraries out as they are kept, and gives the name of the first crate that is not, or None."""
    kept = rt.Kept(wanted)
    for crate in wanted:
        shutil.rmtree(os.path.join(crate.folder, "out", "rlib"), ignore_errors=True)
        os.makedirs(os.path.join(crate.folder, "out"), exist_ok=True)
        if not kept.give(crate, False, kept.key(crate)):
            return crate.name
        kept.is_built(crate)
    return None


def words(rt, wanted):
    """What `rattle build` is told of the libraries of the kit and of this repository."""
    last = wanted[-1]
    yield from ("--extern", "std=%s/rlibs/std.rlib" % rt.KIT, "-L", "dependency=%s/rlibs" % rt.KIT)
    for crate in last.deps:
        yield from ("--extern", "%s=%s" % (crate.name, crate.rlib))
    for crate in wanted[:-1]:
        yield from ("-L", "dependency=" + os.path.dirname(crate.rlib))


def main():
    if len(sys.argv) != 2:
        sys.exit(__doc__.strip())
    rt = command()
    wanted = crates(rt, sys.argv[1])
    held = rt.rtlib.lock(wanted)  # until this script ends no other command of rt works in these folders
    if lacking(rt, wanted):
        if subprocess.run(["rt", "ci", sys.argv[1]], cwd=TOP, stdout=sys.stderr, stdin=subprocess.DEVNULL).returncode:
            sys.exit("tools/libraries.py: %s is not proved" % sys.argv[1])
        if name := lacking(rt, wanted):
            sys.exit("tools/libraries.py: %s was proved and is not kept" % name)
    print("\n".join(words(rt, wanted)))
    for one in held:
        os.close(one)


if __name__ == "__main__":
    main()
