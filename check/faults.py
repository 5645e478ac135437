#!/usr/bin/env python3
"""Compares the tables of docs/faults.md with what `seatlaw explain CODE` says: what happened and what to do stand in the texts of sl_explain_codes, and
nowhere else. Not part of the gate; it needs no program.

    python3 check/faults.py            each row that differs is a line; the exit status is 0 if there is none
    python3 check/faults.py --write    writes these columns of the page anew
"""
import pathlib
import re
import sys

sys.path.append(str(pathlib.Path(__file__).resolve().parents[1] / "tools"))
from repository import CRATES, TOP  # noqa: E402

TEXTS, PAGE = CRATES / "sl_explain_codes" / "src" / "texts.rt", TOP / "docs" / "faults.md"
TEXT = r'"((?:[^"\\]|\\.)*)"'
PAIR = r"\(%s,\s*%s\)" % (TEXT, TEXT)
CONSTANT = re.compile(r"const (\w+): Message = %s" % PAIR)
ENTRY = re.compile(r"code: FaultCode::(\w+),\s*title: %s,\s*meaning: %s,\s*example: %s,\s*remedy: (?:%s|(\w+))" % (PAIR, PAIR, TEXT, PAIR))
# A row of a table: its first cell, its code, and what stands behind it.
ROW = re.compile(r"^(\| [^|]* \| )(\w\d\d)( \| .*)$")


def plain(text):
    """A text of the sources as it is written."""
    return re.sub(r"\\(.)", r"\1", re.sub(r"\\\n\s*", "", text))


def cell(text):
    """A text as it stands in a cell of a table, with a link for each page that it names."""
    return re.sub(r"\bdocs/(\w+\.md)", r"[\1](\1)", plain(text).replace("|", "\\|"))


def entries():
    """What happened and what to do, of each code."""
    source = TEXTS.read_text()
    constants = {name: english for name, english, _ in CONSTANT.findall(source)}
    return {found[0]: ("**%s**. %s" % (cell(found[1]), cell(found[3])), cell(found[6] or constants[found[8]])) for found in ENTRY.findall(source)}


def main():
    told = entries()
    lines = PAGE.read_text().split("\n")
    wanted, seen, heads = [], set(), ""
    for line in lines:
        if "| what happened |" in line:
            heads = line
        found = ROW.match(line)
        if found and found[2] in told:
            seen.add(found[2])
            happened, remedy = told[found[2]]
            line = found[1] + " | ".join([found[2], happened] + [remedy] * ("what to do" in heads)) + " |"
        wanted.append(line)
    wrong = ["docs/faults.md has no row of %s" % code for code in sorted(set(told) - seen)]
    if sys.argv[1:] == ["--write"]:
        PAGE.write_text("\n".join(wanted), encoding="utf-8")
    else:
        wrong += ["docs/faults.md:%d: not as `seatlaw explain` says it" % number for number, pair in enumerate(zip(lines, wanted), 1) if pair[0] != pair[1]]
    for line in wrong:
        print(line)
    print("%d codes, %d things wrong" % (len(told), len(wrong)))
    sys.exit(bool(wrong))


if __name__ == "__main__":
    main()
