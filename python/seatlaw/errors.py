"""What a call raises where it has no result: refusals, legal faults, and out of memory."""
import dataclasses
import functools
import re
from typing import Any, Callable, Dict, NamedTuple, Optional, Tuple

# What is read off an explanation that has no parts.
CODE = re.compile(r"\[([A-Z]\d\d)\]")
PLACE = re.compile(r"^ *--> (\w+):(\d+):(\d+)$", re.M)
LOT = re.compile(r"^ *= \w+: (lot,[^,\n]*,[^,\n]*,[^,\n]*,[^,\n]*,)$", re.M)


class Place(NamedTuple):
    """A place in an input: a line as an editor counts it, and a column in characters, both from 1."""

    line: int
    column: int


class Span(NamedTuple):
    """A place in an input, and the offsets of its first byte and of the one after its last."""

    line: int
    column: int
    start: int
    end: int


class Lot(NamedTuple):
    """A lot record of returns: the entry that is drawn at a stage, or at the stage `seats` a winner by the constituency."""

    land: str
    party: str
    stage: str
    constituency: str = ""


def lot_of(record: str) -> Lot:
    """The lot of a record.

    >>> lot_of("lot,Town,Reds,council,,")
    Lot(land='Town', party='Reds', stage='council', constituency='')
    """
    return Lot(*record.split(",")[1:5])


@dataclasses.dataclass(frozen=True)
class Explanation:
    """Why there is no result, in parts. The sentences are in the language of the call.

    code      the code of the fault, such as `B15` (docs/faults.md), or None where it has none
    input     the input of which it speaks: `book` or `returns`
    sentence  what is wrong
    place     where that stands in the input, or None
    help      sentences on what to do
    records   the lot records that may be added to the returns
    more      further lines on the input, as one for each further record that is refused

    >>> import seatlaw
    >>> try:
    ...     seatlaw.check(seatlaw.Rulebook.from_text("rulebook 3;"))
    ... except seatlaw.Refused as error:
    ...     told = error.explained
    >>> told.code, told.sentence, told.place
    ('B07', 'the rulebook ends here and is not complete; expected `law`', Span(line=1, column=12, start=11, end=11))
    """

    code: Optional[str]
    input: str
    sentence: str
    place: Optional[Span]
    help: Tuple[str, ...]
    records: Tuple[str, ...]
    more: Tuple[str, ...]


def explanation_of(members: Optional[Dict[str, Any]]) -> Optional[Explanation]:
    """The explanation that JSON has, if there is one (docs/report.schema.json)."""
    if members is None:
        return None
    place = members["place"]
    texts = {key: tuple(members[key]) for key in ("help", "records", "more")}
    return Explanation(members["code"], members["input"], members["sentence"], None if place is None else Span(**place), **texts)


@dataclasses.dataclass(frozen=True)
class Explain:
    """What explains a fault when it is asked for: as a text in a language, and in parts."""

    text: Callable[[str], str]
    parts: Callable[[], Optional[Explanation]]


class SeatlawError(Exception):
    """A call that has no result."""


class OutOfMemory(SeatlawError, MemoryError):
    """There was no memory for the call."""


class Unexplained(SeatlawError):
    """A call that was answered with one line in place of a result.

    line         the line, as the program writes it
    explained    the explanation in parts (`Explanation`), or None of `run`, of the name of a statute or a stage, and where there is none, as of names
    code         the code of the fault, such as `B15` (docs/faults.md), or None where it has none
    place        the line and the column in the input of which the explanation speaks, or None
    """

    def __init__(self, line: str, explain: Explain):
        super().__init__(line)
        self.line = line
        self._explain = explain
        self._told: Dict[str, str] = {}

    def explanation(self, language: str = "en") -> str:
        """What the program writes to standard error, in English or, for `de`, in German. Files are called `book`, `code` and `returns`."""
        if language not in self._told:
            self._told[language] = self._explain.text(language)
        return self._told[language]

    @functools.cached_property
    def explained(self) -> Optional[Explanation]:
        return self._explain.parts()

    @property
    def code(self) -> Optional[str]:
        if self.explained is not None:
            return self.explained.code
        found = CODE.search(self.explanation())
        return found[1] if found else None

    @property
    def place(self) -> Optional[Place]:
        if self.explained is not None:
            return None if self.explained.place is None else Place(*self.explained.place[:2])
        found = PLACE.search(self.explanation())
        return Place(int(found[2]), int(found[3])) if found else None

    def __str__(self) -> str:
        return "\n".join([self.line, *self.explanation().splitlines()])


class Refused(Unexplained):
    """An input is not in order.

    input        which one: `book`, `code`, `returns`, `law` (the name of a statute), `stage` (the name of a stage) or `names`
    part         where the fault was found: of a rulebook `lex`, `parse` or `check`, of a code file `file` or `verify`
    number, at   the number of the fault, and the offset in a rulebook, the record of returns, the offset in a code file or its instruction; or None
    """

    def __init__(self, line: str, explain: Explain):
        super().__init__(line, explain)
        words = line.split()
        self.input = words[1] if len(words) > 1 else ""
        numbers = [int(word) for word in words[2:] if word.isascii() and word.isdigit()]
        self.number, self.at = numbers if self.input in ("book", "code", "returns", "names") and len(numbers) == 2 else (None, None)
        self.part = words[2] if self.input in ("book", "code") and self.number is not None else None


class OutOfBudget(Unexplained):
    """The run of a code file needs more steps than it may take. That of no rulebook's code does."""


class LegalFault(Unexplained):
    """The rulebook gives no table for these returns.

    stage, scope what the line names: the stage, and `all`, `land X`, `party P` or `list X P`
    kind         `tie`, `majority`, `nolist`, `short`, `cap` or `limit`
    seats, names of a tie: how many seats fall to the entries of these names, which are more
    report       the report up to the fault, where a report was asked for, by `report` or `show`
    totals       the sums of the returns, of `show`
    """

    def __init__(self, line: str, explain: Explain, report: Any = None, totals: Any = None):
        super().__init__(line, explain)
        words = line.split()[1:]
        self.stage = words[0]
        end = 1 + {"all": 1, "land": 2, "party": 2, "list": 3}[words[1]]
        self.scope, self.kind = " ".join(words[1:end]), words[end]
        self.seats = int(words[end + 1]) if self.kind == "tie" else None
        self.names: Tuple[str, ...] = tuple(words[end + 2:])
        self.report, self.totals = report, totals

    @property
    def lots(self) -> Tuple[Lot, ...]:
        """Of a tie the lot records that the returns lack, in no order: put those first that were drawn (`Returns.with_lots`)."""
        if self.kind != "tie":
            return ()
        records = LOT.findall(self.explanation()) if self.explained is None else self.explained.records
        return tuple(map(lot_of, records))
