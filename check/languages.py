#!/usr/bin/env python3
"""English words in German texts. Not part of the gate.

    python3 check/languages.py [PROGRAM]

Runs each command of the rows (docs/testing.md) in English and in German, over files on disk, and compares what both write for people: standard error,
helps, what `explain` says, and reports in the form of text. A word of the German text that its English twin has too is English, unless it is a name,
a keyword, a command, an option, a file or a column, or stands below in SAME with the reason. Each such word is printed with the row that has it and
its line. The exit status is 1 if there is one. It needs Python 3.8 or later and the built program, that of the repository if PROGRAM is not given.
"""
import concurrent.futures
import json
import os
import pathlib
import re
import subprocess
import sys
import tempfile

from rows import ROWS, pages, rows_of
from repository import PROGRAM

# Words that German and English texts share, by the reason.
SAME = {
    "the same word in both languages": "an in In so was Name Code Version Text Divisor Exit Format",
    "German words that the English texts take over": "Land Länder Bundestag Bundeswahlgesetz Mehrheitsklausel",
    "names of the words of a command, and values of an option": "BOOK CODE NAME OUT RETURNS de en webster jefferson adams dean hill hamilton",
    "names of laws and stages of the library": "of order pool",
    "names of formats and encodings": "ASCII BOM CSV HTML JSON Latin Markdown RTF SLC UTF Unicode gzip zip",
    "names of programs, people and files": "Droop Excel Hare Hondt Lagu LibreOffice Niemeyer Sainte TextEdit Windows kerg",
}
ALLOWED = {word for words in SAME.values() for word in words.split()}

REPORTS = ("report", "stages", "totals", "compare")
WORD = re.compile(r"[A-Za-zÄÖÜäöüß]{2,}")
# What is no sentence. Whole lines: a place, a line of a file and the mark below it, the example of a code, and those that no language changes. Within a line:
# the tags of HTML, code in backticks or quotes, options, placeholders, codes of warnings, records of returns, paths, endings of files, and bytes.
LINE = re.compile(r"^ *--> .*$|^ *\d* \|.*$|^(?:Example|Beispiel):\n(?:  .*\n)+|^(?: {4}|<p><code>)?(?:refused|fault|read fault|write fault)(?: .*)?$|^out of .*$", re.M)
CODE = re.compile(
    r"<style>[\s\S]*?</style>|</?[a-z!][^>\n]*>|&[a-z]+;|`[^`\n]*`|'[^'\n]*'|(?<!\w)--?[a-z]+|<[A-Z]+>|\[[A-Z]+\]|\[[a-z_]+\]|\b(?:house|land|party|list|win|lot),\S*|\b[\w.-]+/[\w./-]+|\.[a-z]+\b|\b0x[0-9a-f]{2}\b"
)


def in_language(words, language):
    """The words of a command without the language that they ask for, and the environment that asks for this one."""
    plain, before = [], None
    for word in words:
        if before == "--lang" and word in ("de", "en"):
            plain.pop()
        elif word not in ("--lang=de", "--lang=en"):
            plain.append(word)
        before = word
    return plain, {**os.environ, "LC_ALL": language}


def sentences(error):
    """What an error says for people, where it is JSON: the sentence of its explanation, and what to do."""
    told = json.loads(error)["explanation"]
    return "\n".join([told["sentence"], *told["help"]]).encode() if told else b""


def said(words, ended):
    """What a command writes for people."""
    error = sentences(ended.stderr) if ended.stderr.startswith(b"{") else ended.stderr
    is_text = not {"--json", "--csv"} & set(words)
    is_help = {"help", "--help", "-h"} & set(words) or not words[1:]
    shown = ended.stdout if is_help or words[1] == "explain" or (words[1] in REPORTS and is_text) else b""
    return (shown + error).decode(errors="replace")


def runs(program, row, folder, language):
    """What each command of a row writes for people in a language."""
    for call in row.calls:
        if call.words[0] == "seatlaw":
            words, environment = in_language(call.words, language)
            ended = subprocess.run([program] + words[1:], cwd=folder, env=environment, stdin=subprocess.DEVNULL, capture_output=True)
            yield call, said(words, ended)


def texts(program, row, language):
    """The same, over files in a folder of its own."""
    with tempfile.TemporaryDirectory() as name:
        folder = pathlib.Path(name)
        for shared in ROWS.iterdir():
            if shared.suffix != ".txt":
                (folder / shared.name).write_bytes(shared.read_bytes())
        for file, content in row.files.items():
            (folder / file).write_bytes(bytes(content))
        return list(runs(program, row, folder, language))


def words_in(text):
    return set(WORD.findall(CODE.sub(" ", LINE.sub("", text))))


def names_of(row, call):
    """The words of the command, and of the files that the row has."""
    found = set(WORD.findall(call.line)) | set(WORD.findall(" ".join(row.files)))
    for content in row.files.values():
        found |= set(WORD.findall(bytes(content).decode(errors="replace")))
    for word in call.words:
        if (ROWS / word).is_file():
            found |= set(WORD.findall((ROWS / word).read_text(errors="replace")))
    return found


def commands(program):
    """The names of the commands, as the help has them."""
    shown = subprocess.run([program, "help"], env={"LC_ALL": "C"}, capture_output=True, text=True).stdout
    return set(re.findall(r"^  ([a-z]+)  +[A-Z]", shown, re.M))


def left(row, call, english, german, known):
    """The English words that a German text has."""
    return words_in(german) & words_in(english) - known - names_of(row, call) - ALLOWED


def line_with(word, text):
    return next((line for line in text.split("\n") if word in WORD.findall(line)), "")


def lines_of(row, program, known):
    """Each English word that is left in the German texts of a row, with its line."""
    both = zip(texts(program, row, "C"), texts(program, row, "de_DE.UTF-8"))
    return [f"{word}: {line_with(word, german)}" for (call, english), (_, german) in both for word in sorted(left(row, call, english, german, known))]


def main():
    program = pathlib.Path(sys.argv[1] if sys.argv[1:] else PROGRAM).resolve()
    known = commands(program)
    rows = [(page, row) for page in pages() for row in rows_of(page)]
    found = 0
    with concurrent.futures.ThreadPoolExecutor() as pool:
        for (page, row), lines in zip(rows, pool.map(lambda each: lines_of(each[1], program, known), rows)):
            found += len(lines)
            for line in lines:
                print(f"{page.name}: {row.title}: {line}", flush=True)
    print(f"{len(rows)} rows, {found} English words")
    return 1 if found else 0


if __name__ == "__main__":
    sys.exit(main())
