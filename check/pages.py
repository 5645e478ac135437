#!/usr/bin/env python3
"""Reads the pages of the repository and says what is wrong with them. Not part of the gate.

    python3 check/pages.py [--program PROGRAM]

The pages are README.md, those of docs/ and those of the examples. What is looked at:

    sentences   none has more than 40 words, except definitions: those with a comment `definition` in their paragraph or row
    links       the file of each link is there, and so is each section that is spoken of; docs/README.md has a link to each page
    names       each file that is named is there, and each identifier and law stands in a source
    words       docs/words.md has the German words that officials search for
    faults      docs/faults.md has a row for each number of a fault, and for each legal fault
    commands    what a page shows after a line `$ COMMAND` is what the command writes (page_commands.py)
    tables      the same of the examples of refusals in language.md and returns.md (page_tables.py)
    crates      docs/crates.svg and docs/map.md are as crates.txt has it (crates.py)
    statutes    the page for a browser has its texts of each statute of the library

The commands are run where there is a PROGRAM, crates/seatlaw/out/seatlaw if none is named, in a folder of their own, except for what they
write in /tmp. A line is written for each thing that is wrong, and for each command that needs what is not on this machine, as R. The exit
status is 0 if nothing is wrong.
"""
import argparse
import functools
import pathlib
import re
import subprocess
import sys

import crates
from page_commands import as_top, not_run, wrong_commands
from page_tables import wrong_rows
sys.path.append(str(pathlib.Path(__file__).resolve().parents[1] / "tools"))
from repository import CRATES, EXAMPLES, PROGRAM, TOP, statutes  # noqa: E402

MOST_WORDS = 40
DEFINITION = "<!-- definition -->"
WORDS = (
    "Zweitstimme", "Erststimme", "Wahlkreis", "Überhangmandat", "Ausgleichsmandat", "Sperrklausel", "Grundmandatsklausel",
    "Zweitstimmendeckung", "Oberverteilung", "Unterverteilung", "Hare/Niemeyer", "Sainte-Laguë/Schepers", "d'Hondt",
)
# Where the desk's faults have their numbers: files of definitions, each with functions and the word of their lines.
DESK_FAULTS = (
    ("sl_count_inputs/specs/Books.antt", (("lex_fault", "lex"), ("parse_fault", "parse"), ("checked_fault", "check"))),
    ("sl_count_code_files/specs/CodeFiles.antt", (("code_fault", "file"), ("kinds_fault", "verify"))),
)
# What the page for a browser says of a statute, each under such a word and its name.
STATUTE_TEXTS = ("law", "method", "elections")
CODE = re.compile(r"`([^`]+)`")
LINK = re.compile(r"\[([^\]]*)\]\(([^)\s]+)\)")
SOURCES = (".rt", ".antt", ".py", ".edit", ".js", ".html", ".sh", ".c", ".h", ".R")
# What a page may name that is no file of the repository: files that a reader makes, or that others have.
FOREIGN = re.compile(r"^(/|~|\.\./|(.*/)?out(/|$)|.*[A-Z]{2,})|^(book\.law|own\.law|code\.slc|returns\.csv|table\.py|sweep\.py|kerg2?\.csv|names\.csv|.*\.txt|\d+\.(csv|slc))$")


def pages():
    yield TOP / "README.md"
    yield from sorted((TOP / "docs").glob("*.md"))
    yield from sorted(EXAMPLES.glob("**/*.md"))


def prose(text):
    """The lines of a page that are no code: (number, line)."""
    fenced = False
    for number, line in enumerate(text.splitlines(), 1):
        if line.startswith("```"):
            fenced = not fenced
        elif not fenced and (not line.startswith("    ") or re.match(r" +- ", line)):
            yield number, line


def pieces(line):
    """The parts of a line in which sentences stand: the cells of a row, or the line without its mark."""
    if line.startswith("|"):
        return re.split(r"(?<!\\)\|", line.strip("|"))
    return [re.sub(r"^\s*([-*]|\d+\.|#+|>)\s+", "", line)]


def sentences(piece):
    plain = LINK.sub(r"Link \1", re.sub(r"<!--.*?-->", "", CODE.sub(lambda code: "`" + code.group(1).replace(" ", "_").replace(".", "_") + "`", piece)))
    return re.split(r"(?<=[.?!])[*)_]*\s+(?=[*(_`\[]*[^a-z\s])", plain)


def long_sentences(page, text):
    for number, line in prose(text):
        if DEFINITION in line:
            continue
        for piece in pieces(line):
            for sentence in sentences(piece):
                words = [word for word in sentence.split() if re.search(r"\w", word)]
                if len(words) > MOST_WORDS:
                    yield number, "a sentence of %d words: %s .." % (len(words), " ".join(words[:8]))


def sections(page):
    return set(re.findall(r"^## (\d+)\.", page.read_text(), re.M))


def page_of(page, name):
    """The page of docs/ that a page speaks of by name."""
    found = TOP / "docs" / (name if name.endswith(".md") else name + ".md")
    return found if found.exists() else None


def wrong_links(page, text):
    for number, line in prose(text):
        for _, target in LINK.findall(line):
            if "://" not in target and not (page.parent / target.split("#")[0]).exists():
                yield number, "no file " + target
        for match in re.finditer(r"(?:\[([\w-]+)(?:\.md)?\]\([^)]*\)|\b([\w-]+)\.md),?(?: sections?)? ((?:\d+)(?:(?:, | and | to )\d+)*)(?![\w.])", line):
            target = page_of(page, match.group(1) or match.group(2))
            if target is not None and target.name != "README.md":
                missing = set(re.findall(r"\d+", match.group(3))) - sections(target)
                if missing:
                    yield number, "%s has no section %s" % (target.name, ", ".join(sorted(missing)))
        if not re.search(r"\.md|\]\(|statute|Bundeswahlgesetz", line):
            for own in re.findall(r"\bsection (\d+)", line):
                if own not in sections(page):
                    yield number, "there is no section %s here" % own


@functools.lru_cache(None)
def files():
    listed = subprocess.run(["git", "ls-files", "--cached", "--others", "--exclude-standard"], cwd=TOP, stdout=subprocess.PIPE, check=True)
    return listed.stdout.decode().splitlines()


@functools.lru_cache(None)
def source_words(folder=""):
    """All words of the sources and of the examples, or of those in a folder."""
    words = set()
    for name in files():
        path = TOP / name
        if not name.startswith(folder):
            continue
        words.update((path.stem, path.name))
        if name.endswith(SOURCES + (".law", ".csv")) or name in ("crates.txt", "seatlaw") or name.startswith(("archive/", "bench/", "check/")):
            words.update(re.findall(r"\w+", path.read_text(errors="replace")) if path.is_file() else ())
    return words


def is_file(name):
    path = name.rstrip("/")
    if path.startswith("examples/") and (TOP / path).exists():
        return True
    return any(("/" + known + "/").find("/" + path + "/") >= 0 for known in files())


def wrong_names(page, text):
    for number, line in prose(text):
        line = re.sub(r"<!--.*?-->", "", line)
        for crate, path in re.findall(r"`(sl_\w+|seatlaw)`,? ((?:specs|src|proofs|must-fail)/[\w./+-]*[\w/])", line):
            if not is_file("crates/%s/%s" % (crate, path)):
                yield number, "no file %s in %s" % (path, crate)
        for name in re.findall(r"(?<![\w/.@-])((?:specs|src|proofs|archive|bench|check|tools|docs|examples|crates|must-fail)/[\w./+-]*[\w/]|[\w-]+\.(?:antt|rt|py|law))(?![\w*])", CODE.sub("", line)):
            if not FOREIGN.search(name) and not is_file(name):
                yield number, "no file " + name
        for code in CODE.findall(line):
            yield from ((number, what) for what in wrong_code(code))


def wrong_code(code):
    """What is wrong with the names in a piece of code."""
    if re.fullmatch(r"[\w./@+-]+", code) and ("/" in code or re.search(r"\.(antt|rt|py|law|csv|md|edit|txt)$", code)):
        path = code.split("..")[0]
        is_name = re.search(r"[a-z]", path) and not re.search(r"^\d+/|/\d|^[A-Z]\w*/|^seatlaw/", path) and not FOREIGN.search(path)
        if is_name and not is_file(path) and not (TOP / path).exists():
            yield "no file " + code
    elif re.fullmatch(r"\w+(::\w+)+", code):
        first, *rest = code.split("::")
        if first.startswith("sl_") and not (CRATES / first).exists():
            yield "no crate " + first
        elif first.startswith("sl_"):
            yield from ("%s has no %s" % (first, word) for word in rest if word not in source_words("crates/%s/src/" % first))
        else:
            yield from ("no source has " + word for word in [first] + rest if word not in source_words())
    elif re.fullmatch(r"[a-z]\w*_\w+|[A-Z][a-z]+[A-Z]\w*|MAX_\w+|Is[A-Z]\w+|sl_\w+", code) and code not in source_words():
        yield "no source has " + code


def missing_words():
    text = (TOP / "docs" / "words.md").read_text()
    return [word for word in WORDS if not re.search(r"^\|[^|]*%s[^|]*\|" % re.escape(word), text, re.M)]


def fault_rows():
    """For each number of a fault how its row in docs/faults.md begins."""
    for file, kinds in DESK_FAULTS:
        text = (CRATES / file).read_text()
        for name, word in kinds:
            yield from ("`%s %s`" % (word, number) for number in re.findall(r"^%s .*= numbered (\d+)" % name, text, re.M))
    returns = (CRATES / "sl_returns" / "specs" / "Faults.antt").read_text()
    yield from re.findall(r"^fault_number \w+ = (\d+)", returns, re.M)
    legal = (CRATES / "sl_count_texts" / "specs" / "Faults.antt").read_text()
    yield from ("`" + kind for kind in re.findall(r'^ *kind_words .*codes "(\w+)"', legal, re.M))


def missing_faults():
    rows = re.findall(r"^\| ([^|]*) \|", (TOP / "docs" / "faults.md").read_text(), re.M)
    cells = [cell for row in rows for cell in [row] + row.split(", ")]
    return [begin for begin in fault_rows() if not any(cell == begin or cell.startswith(begin + " ") or cell == begin + "`" for cell in cells)]


def unlinked_pages():
    linked = {target for _, target in LINK.findall((TOP / "docs" / "README.md").read_text())}
    return [page.name for page in sorted((TOP / "docs").glob("*.md")) if page.name not in linked | {"README.md"}]


def wrong_statutes():
    said = set(re.findall(r'^ +"?([\w-]+)"?: \[', (TOP / "web" / "page" / "texts.js").read_text(), re.M))
    return ["web/page/texts.js: no " + word + name for name in statutes() for word in STATUTE_TEXTS if word + name not in said]


def wrong_picture():
    drawn = subprocess.run([sys.executable, str(TOP / "check" / "crates_picture.py"), "--check"], stderr=subprocess.PIPE)
    return drawn.stderr.decode().splitlines()


def main():
    parser = argparse.ArgumentParser(usage="check/pages.py [--program PROGRAM]")
    parser.add_argument("--program", type=pathlib.Path, default=PROGRAM)
    given = parser.parse_args()
    wrong = 0
    for page in pages():
        text = page.read_text()
        found = [what for look in (long_sentences, wrong_links, wrong_names) for what in look(page, text)]
        if given.program.exists():
            with as_top(given.program) as folder:
                found += wrong_commands(folder, text)
        for number, what in found + not_run(text):
            print("%s:%d: %s" % (page.relative_to(TOP), number, what))
        wrong += len(found)
    others = ["docs/README.md: no link to " + name for name in unlinked_pages()]
    others += ["docs/words.md: no row for " + word for word in missing_words()]
    others += ["docs/faults.md: no row for " + row for row in missing_faults()]
    others += [*wrong_statutes(), *wrong_picture(), *crates.wrong()]
    others += wrong_rows(given.program) if given.program.exists() else []
    print("".join(what + "\n" for what in others), end="")
    if not given.program.exists():
        print("no program at %s: the commands were not run" % given.program)
    print("%d pages, %d things wrong" % (len(list(pages())), wrong + len(others)))
    sys.exit(1 if wrong + len(others) else 0)


if __name__ == "__main__":
    main()
