#!/usr/bin/env python3
"""Writes docs/trusted.md: for each call of the desk the definitions that a reader has to believe.

    python3 check/trusted.py           writes the page
    python3 check/trusted.py --check   says whether the page is as it would be written

A contract names definitions, and the files of these name others. The script follows the imports from the contract of each call to
the files in specs/ that it rests on, and counts their definition lines: those that are no import, no comment and not blank. It
also names each file in specs/ outside inner/ that no call of the desk and no law reaches, and each file in inner/ that one does.
"""
import functools
import pathlib
import re
import sys

sys.path.append(str(pathlib.Path(__file__).resolve().parents[1] / "tools"))
from repository import CRATES, TOP  # noqa: E402

PAGE = TOP / "docs" / "trusted.md"
CALLS = ["count", "steps", "stage", "show", "check_book", "code", "run_code", "law_text"]
# The crate and the call of each command that reports, of what its inputs come to, and of each program, with the word that the page has for it. `stages`
# rests on the files of `report`.
OTHERS = {
    ("sl_report_commands", "show_judged"): "report",
    ("sl_report_commands", "total_judged"): "totals",
    ("sl_report_commands", "compare_judged"): "compare",
    ("sl_terminal_count", "run"): "seatlaw_count",
    ("sl_terminal_commands", "run"): "seatlaw",
}
NAMES = re.compile(r"\s*(?:ghost |pub )*use Rattle\.(\w+)\.specs\.([\w.]+)\.\{(.*)\};?$")
MODULE = re.compile(r"\s*(?:ghost |pub )*use Rattle\.(\w+)\.specs\.([\w.]+)(?: as (\w+))?;?$")
# Crates whose public functions promise something to whoever uses the program or the page, besides the laws.
PROMISING = {
    CRATES / name
    for name in (
        "sl_count_inputs", "sl_count_code_files", "sl_count_calls", "sl_desk", "sl_explain_texts", "sl_explain_calls", "sl_law_library",
        "sl_law_margins", "sl_report_commands", "sl_page_calls", "sl_terminal_count", "sl_terminal_outside", "sl_terminal_words", "sl_terminal_commands",
    )
}
WORD = re.compile(r"[^\W\d]\w*")


@functools.lru_cache(maxsize=None)
def text_of(path):
    return path.read_text(encoding="utf-8")


@functools.lru_cache(maxsize=None)
def imports(path):
    """The names that a file imports from specs/ of the repository: each with its crate and its module."""
    found = {}
    for line in text_of(path).splitlines():
        if match := NAMES.match(line):
            for name in match[3].split(","):
                found[name.split(" as ")[-1].strip()] = (match[1], match[2])
        elif match := MODULE.match(line):
            found[match[3] or match[2].split(".")[-1]] = (match[1], match[2])
    return {name: place for name, place in found.items() if (CRATES / place[0]).is_dir()}


def declared(crate, module):
    """The source file in which `specs.declared.MODULE` is declared, and the type's name."""
    parts = module.split(".")[1:]
    for end in range(len(parts), 0, -1):
        path = CRATES.joinpath(crate, "src", *parts[:end]).with_suffix(".rt")
        if path.is_file():
            return path, (parts[end] if end < len(parts) else None)
    return CRATES / crate / "src" / "lib.rt", parts[0]


def blocks(path, name):
    """What a source file declares of a type or a trait that contracts see: its declaration and its model."""
    found, inside = [], False
    for line in text_of(path).splitlines():
        if re.match(rf"(pub )?(struct|enum|trait) {name}\b|impl(<.*>)? Model for {name}\b", line):
            inside = not line.rstrip().endswith((";", "}"))
            found.append(line)
        elif inside:
            found.append(line)
            inside = not line.startswith("}")
    return "\n".join(line.split("//")[0] for line in found)


def target(crate, module):
    """The file of a module of specs/."""
    return CRATES.joinpath(crate, "specs", *module.split(".")).with_suffix(".antt")


def reach(path, text, seen, types):
    """Adds the files of specs/ that the imported names in the text stand for, and those that these reach."""
    names = imports(path)
    for word in set(WORD.findall(text)):
        if word in names:
            follow(*names[word], word, seen, types)


def follow(crate, module, word, seen, types):
    if module.split(".")[0] == "declared":
        path, name = declared(crate, module)
        name = name if name and not name.startswith("The") else word
        if (path, name) not in types:
            types.add((path, name))
            reach(path, blocks(path, name), seen, types)
        return
    path = target(crate, module)
    if not path.is_file() or path in seen:
        return
    seen.add(path)
    body = "\n".join(line for line in text_of(path).splitlines() if not line.startswith("use ") and not line.lstrip().startswith("--"))
    reach(path, body, seen, types)


def contracts(path, which=None):
    """The public functions of a source file: the name, and the text from the name to the body."""
    head, name = [], None
    for line in text_of(path).splitlines():
        start = re.match(r"\s*pub (?:extern \"C\" )?fn (\w+)", line)
        if start and (which is None or start[1] in which):
            name, head = start[1], []
        if name:
            head.append(line.split("//")[0])
            if line.strip() in ("{", "{}"):
                yield name, "\n".join(head).replace("\n    {}", "\n{}")
                name = None


# The traits with clauses that contracts rest on, and where they stand.
TRAITS = {
    "Source": "sl_count_inputs/src/source.rt",
    "Sink": "sl_count_inputs/src/sink.rt",
    "Outside": "sl_terminal_outside/src/outside.rt",
    "Writable": "sl_terminal_outside/src/outside.rt",
    "Forms": "sl_report_commands/src/forms.rt",
    "Speech": "sl_terminal_commands/src/speech.rt",
}


def reached_by(path, text):
    seen, types = set(), set()
    reach(path, text, seen, types)
    for trait, file in TRAITS.items():
        if re.search(rf"\b{trait}\b", text):
            place = CRATES / file
            reach(place, blocks(place, trait), seen, types)
    return seen


def call_of(paths, name):
    """The files that the contract of a function rests on, which stands once, and in no type."""
    found = [(path, text) for path in paths for _, text in contracts(path, [name]) if text.startswith("pub ")]
    if len(found) != 1:
        sys.exit("check/trusted.py: %d functions are called %s" % (len(found), name))
    return reached_by(*found[0])


def definition_lines(path):
    return sum(1 for line in text_of(path).splitlines() if line.strip() and not line.startswith("use ") and not line.lstrip().startswith("--"))


def first_line(path):
    line = text_of(path).splitlines()[0]
    return line.lstrip("- ").strip() if line.startswith("--") else ""


def short(path):
    return str(path.relative_to(CRATES))


def order():
    lines = (TOP / "crates.txt").read_text().splitlines()
    return [line.split(":")[0].split()[0] for line in lines if line.strip() and not line.startswith("#")]


def page():
    desk = sorted(CRATES.glob("sl_count_calls/src/*.rt")) + sorted(CRATES.glob("sl_desk/src/calls/*.rt"))
    calls = {name: call_of(desk, name) for name in CALLS}
    calls |= {program: call_of(sorted(CRATES.glob(f"{crate}/src/*.rt")), call) for (crate, call), program in OTHERS.items()}
    columns = [*CALLS, *OTHERS.values()]
    laws = set()
    for path in sorted(CRATES.glob("*/src/**/*.rt")):
        for _, text in contracts(path):
            if text.endswith("\n{}") or PROMISING & set(path.parents):
                laws |= reached_by(path, text)
    rank = {crate: n for n, crate in enumerate(order())}
    every = set().union(*calls.values())
    by_place = lambda path: (rank[short(path).split("/")[0]], short(path))
    out = [
        "# What a reader has to believe",
        "",
        "The contract of each call of the desk, of each command that reports, and of each program rests on definitions. A proof shows that the code meets them; that they say what they should",
        "is for a reader to judge. This page lists the files with these definitions, call by call. It is written by `python3 check/trusted.py`,",
        "which follows the imports. Definition lines are those that are no import, no comment and not blank. The library of the toolchain, on",
        "which the files rest too, is not listed; nor are the types and constants in `src/` that the definitions name, such as `LegalFault`,",
        "`Divisor` and the limits, and the traits `Source`, `Sink`, `Outside`, `Writable`, `Forms` and `Speech` with their clauses, which have to be read as well.",
        "",
        "| call | files | definition lines |",
        "|---|---|---|",
    ]
    out += [f"| `{name}` | {len(calls[name])} | {sum(map(definition_lines, calls[name]))} |" for name in columns]
    out += [f"| all | {len(every)} | {sum(map(definition_lines, every))} |", "", "## The files", "", "A cross stands where the call rests on the file.", ""]
    out += ["| file | lines | " + " | ".join(f"`{name}`" for name in columns) + " | what it is for |", "|---|---|" + "---|" * len(columns) + "---|"]
    for path in sorted(every, key=by_place):
        marks = " | ".join("x" if path in calls[name] else "" for name in columns)
        out.append(f"| {short(path)} | {definition_lines(path)} | {marks} | {first_line(path)} |")
    idle = []
    for crate in order():
        for path in sorted((CRATES / crate / "specs").rglob("*.antt")):
            if "inner" in path.parts or definition_lines(path) == 0 or all(
                line.startswith(("pub mod", "mod", "use", "pub use", "--")) or not line.strip() for line in text_of(path).splitlines()):
                continue
            if path not in every and path not in laws:
                idle.append(path)
    inner = [path for path in sorted(every | laws, key=by_place) if "inner" in path.parts]
    out += ["", "## Exceptions", ""]
    if inner:
        out += ["A call of the desk or a law rests on these files in specs/inner/:", ""]
        out += [f"- {short(path)} ({definition_lines(path)} lines): {first_line(path)}" for path in inner] + [""]
    if idle:
        out += ["No call of the desk and no law reaches these files in specs/ outside inner/:", ""]
        out += [f"- {short(path)} ({definition_lines(path)} lines): {first_line(path)}" for path in idle]
    else:
        out.append("Each file in specs/ outside inner/ is reached by a call of the desk or by a law.")
    return "\n".join(out) + "\n"


def main():
    text = page()
    if "--check" in sys.argv[1:]:
        if not PAGE.is_file() or PAGE.read_text(encoding="utf-8") != text:
            sys.exit("docs/trusted.md is not as check/trusted.py writes it")
        print("docs/trusted.md is as it should be")
    else:
        PAGE.write_text(text, encoding="utf-8")


main()
