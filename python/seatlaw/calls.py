"""The calls: from a rulebook and returns to results, or to an exception."""
import dataclasses
import json
import re
from typing import Dict, Iterable, List, Mapping, Optional, Sequence, Tuple, Union

from . import reports, tables
from ._library import DONE, FAILED, LEGAL_FAULT, OUT_OF_BUDGET, REFUSED, STATUTES, WRONG_WORDS, Reply, ask
from .errors import Explain, Explanation, LegalFault, OutOfBudget, OutOfMemory, Refused, SeatlawError, Unexplained
from .inputs import Book, Code, Returns, rulebook

Names = Union[str, bytes, None]  # a file of full names: records of a short name, a comma and the full one

LIBRARY = tuple(map("@".__add__, STATUTES))
# What is no name of a stage in the text of a rulebook: comments and texts.
UNNAMED = re.compile(r'#[^\n]*|"[^"\n]*"')
STAGE = re.compile(r"\bstage\s+(\w+)")


@dataclasses.dataclass(frozen=True)
class Request:
    """A command with its options, the words of its inputs, and the files that the words name."""

    words: Sequence[str]
    inputs: Sequence[str]
    files: Mapping[str, bytes]

    def asked(self, *options: str) -> Reply:
        reply = ask([*self.words, *options, "--", *self.inputs], self.files)
        if reply.status == WRONG_WORDS:
            raise ValueError(reply.err.rstrip())
        if reply.status == FAILED:
            raise OutOfMemory("out of memory")
        return reply

    def done(self, language: str = "en") -> Reply:
        """The reply to a request that is done."""
        reply = self.asked("--quiet", "--lang", language)
        if reply.status != DONE:
            raise self._unanswered(reply)
        return reply

    def explanation(self, language: str) -> str:
        """What the program says on standard error, in a language."""
        return self.asked("--lang", language).err

    def parts(self) -> Optional[Explanation]:
        """Why there is no result, in parts, from the JSON of a report. A rulebook is judged before the returns, so these may be no bytes."""
        if "book" not in self.files:
            return None
        files = {"returns": b"", **self.files}
        return reports.heading(Request(["report", "--json"], ["book", "returns"], files).asked("--quiet").out).explanation

    def _unanswered(self, reply: Reply) -> Unexplained:
        """What is raised for a reply that is a line in place of a result, or the JSON that has it."""
        line, parts = reply.out.rstrip("\n"), self.parts
        if line.startswith("{"):
            told = reports.heading(line)
            line, parts = told.fault or "", lambda: told.explanation
        explain = Explain(self.explanation, parts)
        if reply.status == LEGAL_FAULT:
            return LegalFault(line, explain, reports.report(reply.out) if self.words[0] == "report" else None)
        return {REFUSED: Refused, OUT_OF_BUDGET: OutOfBudget}[reply.status](line, explain)


def _count(words: Sequence[str], book: Book, returns: Returns, *more: str) -> Request:
    """A command that counts returns by a rulebook."""
    return Request(words, ["book", "returns", *more], {"book": rulebook(book).data, "returns": returns.data})


def _bytes(text: Union[str, bytes]) -> bytes:
    return text.encode() if isinstance(text, str) else bytes(text)


def _options(**texts: Names) -> Tuple[List[str], Dict[str, bytes]]:
    """The options that name files, and the files; what is None is left out."""
    files = {option: _bytes(text) for option, text in texts.items() if text is not None}
    return [word for option in files for word in ("--" + option, option)], files


def count(book: Book, returns: Returns) -> tables.Table:
    """The seat table.

    >>> returns = Returns.from_file("examples/covered/returns.csv")
    >>> table = count("@2023-order", returns)
    >>> table.seats, [row.constituency for row in table.open]
    ({'Reds': 4, 'Blues': 6}, ['Lakes'])
    """
    return tables.Table(_count(["count"], book, returns).done().out)


def steps(book: Book, returns: Returns) -> tables.Steps:
    """Each seat with the step that won it, the bounds of the divisors, and the seat table.

    >>> won = steps("@2023-order", Returns.from_file("examples/covered/returns.csv"))
    >>> won.bounds[0]
    Bound(stage='upper', scope='all', last='1120000/11', next='880000/9', lot=False)
    """
    return tables.Steps(_count(["steps"], book, returns).done().out)


def stage(book: Book, returns: Returns, name: str) -> tables.Column:
    """The column of a stage.

    >>> stage("@2013", Returns.from_file("examples/six-laws/returns.csv"), "lower").values
    {'X/A': 6, 'X/B': 3, 'Y/A': 3, 'Y/B': 1}
    """
    return tables.Column(name, _count(["stage"], book, returns, name).done().out)


def stage_names(book: Book) -> Tuple[str, ...]:
    """The names of the stages of a good rulebook, in their order."""
    line, names = check(book), tuple(STAGE.findall(UNNAMED.sub(" ", rulebook(book).text)))
    if len(names) != line.stages:
        raise SeatlawError("the rulebook has %d stages, and %d were found" % (line.stages, len(names)))
    return names


def stages(book: Book, returns: Returns) -> Tuple[tables.Column, ...]:
    """The columns of all stages."""
    found = json.loads(_count(["stages", "--json"], book, returns).done().out)["tables"]
    lines: Dict[str, str] = {row["stage"]: "" for row in found["stages"]}
    for cell in found.get("cells", []):
        lines[cell["stage"]] += "%s %d\n" % (cell["entry"], cell["value"])
    return tuple(tables.Column(stage, lines[stage]) for stage in lines)


@dataclasses.dataclass(frozen=True)
class Shown:
    """All that comes of a rulebook and returns."""

    table: tables.Table
    steps: tables.Steps
    report: reports.Report
    stages: Tuple[tables.Column, ...]
    totals: reports.Totals


def show(book: Book, returns: Returns, names: Names = None, language: str = "en") -> Shown:
    """The seat table, the steps, the report, the stages and the totals.

    >>> shown = show("@2023-order", Returns.from_file("examples/covered/returns.csv"))
    >>> shown.table.seats, shown.totals.votes[0].percent
    ({'Reds': 4, 'Blues': 6}, Decimal('44.000'))
    """
    try:
        told = report(book, returns, names, language=language)
    except LegalFault as fault:
        fault.totals = totals(returns, book, names, language)
        raise
    won = steps(book, returns)
    return Shown(won.table, won, told, stages(book, returns), totals(returns, book, names, language))


def check(book: Book) -> tables.BookLine:
    """What a good rulebook says of itself."""
    return tables.book_line(Request(["check"], ["book"], {"book": rulebook(book).data}).done().out)


def law(name: str) -> str:
    """The text of a statute of the library."""
    return Request(["law"], [name], {}).done().out


def code(book: Book) -> Code:
    """The code file of a rulebook, and its listing.

    >>> made = code("@2023-order")
    >>> made
    <Code of 3368 bytes>
    >>> made.instructions[0]
    Instruction(number=0, name='at', operands=(0, 0, 0))
    """
    reply = Request(["code"], ["book", "out"], {"book": rulebook(book).data}).done()
    return Code(reply.made, reply.out)


def run(code: Code, returns: Returns) -> tables.Table:
    """The seat table with which the run of a code file ends. `count` has that of a rulebook's code by the rulebook itself.

    >>> run(code("@2023-order"), Returns.from_file("examples/covered/returns.csv")).seats
    {'Reds': 4, 'Blues': 6}
    """
    return tables.Table(Request(["run"], ["code", "returns"], {"code": code.data, "returns": returns.data}).done().out)


def explain(code: str, language: str = "en") -> str:
    """What the code of a fault means, with an example and what to do, in English or, for `de`, in German. A word that is no code is a ValueError.

    >>> print(explain("L04").splitlines()[0])
    L04: tie
    """
    return Request(["explain"], [code], {}).done(language).out


def report(
    book: Book, returns: Returns, names: Names = None, *, short: bool = False, before: Union[tables.Table, str, bytes, None] = None, language: str = "en"
) -> reports.Report:
    """One count in full: who takes part, seats, divisors and quotients, votes missing. A legal fault has the report up to it as its `report`.

    short   the page for the press alone: `law`, `press`, `left_out` and `scopes`
    before  of that page, an earlier seat table, as `count` writes it, for the changes

    >>> made = report("@2023-order", Returns.from_file("examples/covered/returns.csv"))
    >>> made.scopes[0].last, made.scopes[0].next, made.entries[2].land
    (('Blues',), ('Reds',), 'North')
    >>> votes = Returns.from_file("examples/elections/2025.csv")
    >>> report("@2023-order", votes, short=True, before=open("examples/elections/2021-seats.txt").read()).press[0][:5]
    ('CDU', 'CDU', 164, 152, 12)
    """
    words, files = _options(names=names, before=before.text if isinstance(before, tables.Table) else before)
    request = _count(["report", "--json", *(["--short"] if short else []), *words], book, returns)
    return reports.report(dataclasses.replace(request, files={**files, **request.files}).done(language).out)


def totals(returns: Returns, book: Optional[Book] = None, names: Names = None, language: str = "en") -> reports.Totals:
    """The sums of returns, with a rulebook who takes part, and warnings of what is likely a mistake.

    >>> sums = totals(Returns.from_file("examples/covered/returns.csv"), "@2023-order")
    >>> [row.warning for row in sums.warnings]
    ['house', 'few_parties']
    """
    words, files = _options(names=names)
    books = {} if book is None else {"book": rulebook(book).data}
    return reports.totals(Request(["totals", "--json", *words], ["returns", *books], {"returns": returns.data, **books, **files}).done(language).out)


def compare(
    returns: Returns, books: Iterable[Book] = LIBRARY, names: Names = None, methods: Iterable[str] = (), language: str = "en"
) -> reports.Comparison:
    """The seats by several rulebooks side by side: statutes of the library, and rulebooks of other texts by their names, or as `book`.

    methods  each rulebook is also counted with this method in all its splits: `webster`, `jefferson`, `adams`, `dean`, `hill` or `hamilton`

    >>> import seatlaw
    >>> mine = seatlaw.Rulebook.from_text(law("2023").replace("5 per 100", "3 per 100"), name="mine")
    >>> made = compare(Returns.from_file("examples/six-laws/returns.csv"), ["@2023", mine], methods=["adams"])
    >>> [row.book for row in made.books]
    ['@2023', 'mine', '@2023+adams', 'mine+adams']
    """
    words, files = _options(names=names)
    words += ["--method=" + method for method in methods]
    files["returns"], inputs = returns.data, ["returns"]
    for book in map(rulebook, books):
        inputs.append(book.name or "book")
        if not inputs[-1].startswith("@") and files.setdefault(inputs[-1], book.data) != book.data:
            raise ValueError("two inputs are called %r: a rulebook may have a name of its own" % inputs[-1])
    return reports.comparison(Request(["compare", "--json", *words], inputs, files).done(language).out)
