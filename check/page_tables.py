"""The tables of examples: the refused books of docs/language.md, section 6, and the refused records of docs/returns.md, section 5."""
import os
import pathlib
import re
import subprocess
import sys
import tempfile

sys.path.append(str(pathlib.Path(__file__).resolve().parents[1] / "tools"))
from repository import TOP  # noqa: E402

DOCS = TOP / "docs"
BOOK = 'rulebook 1; law "t"; house 8; eligible all; stage s = %s; seats s keep;'
# What a row of the books may say to change, by the word with which the change begins.
PLACES = {"rulebook": "rulebook 1", "house": "house 8", "eligible": "eligible all;"}
RETURNS = "%s,land,party,a,b,c\nland,X,,1,,\nparty,,A,0,,\nlist,X,A,9,9,\nwin,X,A,w1,5,9\n"


def section(page, begin, end):
    """The lines of a page from a text to another one, by their numbers."""
    text = (DOCS / page).read_text()
    first = text.index(begin)
    return enumerate(text[first:text.index(end, first)].splitlines(), text.count("\n", 0, first) + 1)


def book_of(cell):
    """The book that a row describes."""
    if cell == "the empty text":
        return ""
    if cell.startswith("BOOK of sixteen"):
        return BOOK % ("sum(" * 16 + "house" + ", all)" * 16)
    if "33 stages" in cell:
        return re.match("`(.*?)`", cell).group(1) + "".join("stage a%02d = house; " % i for i in range(1, 34))
    written = re.match(r"BOOK\(`(.*?)`\)", cell)
    if not written:
        return cell.strip("`")
    book = BOOK % written.group(1) + (";" if "a second `;`" in cell else "")
    change = re.search(r"with `((\w+).*)`$", cell)
    return book.replace(PLACES[change.group(2)], change.group(1), 1) if change else book


def books():
    """Refused books: the number of the line, the words of a command, the files, what it writes."""
    for number, line in section("language.md", "## 6.", "## 7."):
        row = re.match(r"\| (.*) \| `(refused book .*)` \|", line)
        if row:
            yield number, ["check", "book"], {"book": book_of(row.group(1))}, row.group(2)


def records(cell, why):
    """The files that a row describes: each with its last record refused."""
    if cell.startswith("the 65th"):
        yield "kind,land,party,a,b,c\n" + "".join("land,L%d,,1,,\n" % i for i in range(65))
        return
    begin = RETURNS % ("kind" if "in the first version" in cell else "kind2")
    begin += "house,,,5,,\n" if "after another house" in cell else ""
    begin += "lot,X,,s,,\n" if "after the same lot" in cell else ""
    yield begin + re.match("`(.*?)`", cell).group(1) + "\n"
    if "so too" in why and "`lot," in why:
        yield begin + re.search("`(lot,.*?)`", why).group(1) + "\n"


def refused_records():
    """Refused returns, as `books` has books."""
    numbers = {name: number for number, name in re.findall(r"^\| (\d+) \| `(\w+)` \|", (DOCS / "returns.md").read_text(), re.M)}
    for number, line in section("returns.md", "Examples, each as the record", "**The tests of a record"):
        row = re.match(r"\| (.*?) \| (\w+) \| (.*) \|", line)
        if row and row.group(2) in numbers:
            for text in records(row.group(1), row.group(3)):
                yield number, ["count", "@2023", "returns"], {"returns": text}, "refused returns %s %d" % (numbers[row.group(2)], text.count("\n"))


def wrong_rows(program):
    """The rows of both tables that say something else than the program writes."""
    for page, rows in (("language.md", list(books())), ("returns.md", list(refused_records()))):
        if not rows:
            yield "docs/%s: no examples of refusals are found" % page
        for number, words, files, wanted in rows:
            with tempfile.TemporaryDirectory() as folder:
                for name, text in files.items():
                    pathlib.Path(folder, name).write_text(text)
                run = subprocess.run([os.path.abspath(program), *words], cwd=folder, stdin=subprocess.DEVNULL, stdout=subprocess.PIPE, stderr=subprocess.PIPE)
            written = run.stdout.decode(errors="replace").strip()
            if written != wanted:
                yield "docs/%s:%d: `%s` is written: %s" % (page, number, written, wanted)
