"""What `report`, `totals` and `compare` tell (docs/report.md): rows of their tables, with exact numbers in place of texts of digits, and their heading."""
import dataclasses
import functools
import json
from decimal import Decimal
from fractions import Fraction
from typing import Any, Dict, List, NamedTuple, Optional, Tuple, Union

from .errors import Explanation, explanation_of
from .frames import Frame, frame_of


class Law(NamedTuple):
    law: str
    house: int
    seats: Optional[int]
    direct: Optional[int]
    vacant: Optional[int]


class Text(NamedTuple):
    text: str


class PartyReport(NamedTuple):
    """`condition` is the first one of `eligible` that the party meets, or None."""

    party: str
    party_name: str
    valid: int
    percent: Optional[Decimal]
    percent_exact: Optional[Fraction]
    counted: int
    condition: Optional[str]
    seats: Optional[int]
    direct: Optional[int]
    vacant: Optional[int]


class PressRow(NamedTuple):
    """A row of the page for the press; that of all has no party, nor has that of the winners without one. `won` are constituencies, `direct` those whose
    winner sits, and both are None where the returns have no winner; `before` are the seats of the earlier table. A party that the returns do not have has
    no constituencies and votes, and that is None."""

    party: Optional[str]
    party_name: str
    seats: int
    before: Optional[int]
    change: Optional[int]
    won: Optional[int]
    direct: Optional[int]
    valid: Optional[int]
    percent: Optional[Decimal]


class LeftOut(NamedTuple):
    """The party with the most votes that does not take part, and what it lacks."""

    party: str
    party_name: str
    valid: int
    percent: Optional[Decimal]
    votes_short: Optional[int]
    winners_short: Optional[int]


class ListReport(NamedTuple):
    land: str
    land_name: str
    party: str
    party_name: str
    valid: int
    counted: int
    seats: int
    direct: int
    vacant: int


class Scope(NamedTuple):
    """A scope of a distribution: `divisor` has the fewest digits that one can have, and where claims are equal it is their quotient; `last` won the
    last seat, `next` has the next claim. Both are short names, more than one where claims are equal. `lot`: whether a lot decided between them."""

    stage: str
    scope: str
    scope_name: str
    method: str
    grows: bool
    minima: bool
    votes: int
    seats: int
    divisor: Union[Decimal, Fraction, None]
    quota: Optional[Decimal]
    quota_exact: Optional[Fraction]
    last: Optional[Tuple[str, ...]]
    next: Optional[Tuple[str, ...]]
    lot: Optional[bool]


class Entry(NamedTuple):
    """An entry of a scope, a party, a Land, or a list as `LAND/PARTY`; `missing` are the votes missing for one more seat, `lot` says whether a lot
    gave it the last seat, where one did or did not, and `place` is its place in the lot of the returns, from 1."""

    stage: str
    scope: str
    entry: str
    entry_name: str
    land: Optional[str]
    party: Optional[str]
    votes: int
    quotient: Optional[Decimal]
    quotient_exact: Optional[Fraction]
    seats: int
    minimum: Optional[int]
    missing: Optional[int]
    lot: Optional[bool]
    place: Optional[int]


class Covering(NamedTuple):
    """A winner of a list with fewer seats than winners, by the rank of the share."""

    land: str
    land_name: str
    party: str
    party_name: str
    constituency: str
    constituency_name: str
    first: int
    valid: int
    percent: Optional[Decimal]
    percent_exact: Optional[Fraction]
    rank: int
    seated: bool


class WinnerReport(NamedTuple):
    constituency: str
    constituency_name: str
    land: str
    land_name: str
    party: Optional[str]
    party_name: str


class TotalVotes(NamedTuple):
    valid: int
    counted: int
    people: int
    lands: int
    parties: int
    lists: int
    winners: int
    independents: int


class PartyTotals(NamedTuple):
    """`votes_short` and `winners_short` are what the party lacks to take part."""

    party: str
    party_name: str
    valid: int
    percent: Optional[Decimal]
    percent_exact: Optional[Fraction]
    counted: int
    lists: int
    winners: int
    condition: Optional[str]
    votes_short: Optional[int]
    winners_short: Optional[int]


class LandTotals(NamedTuple):
    land: str
    land_name: str
    people: int
    valid: int
    counted: int
    winners: int
    independents: int


class WinnersOf(NamedTuple):
    land: str
    land_name: str
    party: str
    party_name: str
    winners: int


class WarningText(NamedTuple):
    code: str
    warning: str
    text: str


class Compared(NamedTuple):
    """A rulebook: `beyond` are seats beyond the house, `open` winners who are not seated, `differs` the first stage that differs from the first
    rulebook's."""

    book: str
    law: str
    seats: Optional[int]
    beyond: Optional[int]
    open: Optional[int]
    differs: Optional[str]
    fault: Optional[str]


# The rows of each table, by its key in the JSON.
ROWS = {
    "law": Law, "explanation": Text, "parties": PartyReport, "press": PressRow, "left_out": LeftOut, "lists": ListReport, "scopes": Scope,
    "entries": Entry, "covering": Covering, "singles": WinnerReport, "open": WinnerReport, "totals": TotalVotes, "votes": PartyTotals,
    "lands": LandTotals, "winners": WinnersOf, "warnings": WarningText, "books": Compared,
}
# The columns that are texts of digits in the JSON.
DECIMALS = ("percent", "quotient", "quota", "divisor")
FRACTIONS = ("percent_exact", "quotient_exact", "quota_exact")


def _exact(key: str, value: Any) -> Any:
    if value is None:
        return None
    if key in FRACTIONS or (key in DECIMALS and "/" in value):
        over, under = map(int, value.split("/"))
        return Fraction(over, under) if under else None
    if key in DECIMALS:
        return Decimal(value)
    return tuple(value) if isinstance(value, list) else value


def _rows(tables: Dict[str, List[Dict[str, Any]]], key: str) -> tuple:
    """The rows of a table; a column that they do not know is passed over."""
    kind: Any = ROWS[key]
    return tuple(kind(*(_exact(name, row[name]) for name in kind._fields)) for row in tables.get(key, []))


class Input(NamedTuple):
    """An input that was read, `book` or `returns`, with the SHA-256 of its bytes; of a comparison `word` names the rulebook."""

    input: str
    sha256: str
    word: Optional[str] = None


@dataclasses.dataclass(frozen=True)
class Heading:
    """What JSON says in addition to its tables: `schema` is the version of its form, `program` that of the library, and `fault` the line of a fault.

    >>> import seatlaw
    >>> made = seatlaw.totals(seatlaw.Returns.from_file("examples/covered/returns.csv")).heading
    >>> made.schema, made.command, [row.input for row in made.inputs]
    (2, 'totals', ['returns'])
    """

    schema: int
    program: str
    command: str
    status: int
    fault: Optional[str]
    inputs: Tuple[Input, ...]
    explanation: Optional[Explanation]


def heading(text: str) -> Heading:
    """The heading of the JSON of a report, of totals or of a comparison, which a refusal has too."""
    told = json.loads(text)
    inputs = tuple(Input(**members) for members in told["inputs"])
    plain = {key: told[key] for key in ("schema", "program", "command", "status", "fault")}
    return Heading(**plain, inputs=inputs, explanation=explanation_of(told["explanation"]))


class _Tables:
    """Tables whose rows are fields."""

    text: str

    @functools.cached_property
    def heading(self) -> Heading:
        """The versions, and the inputs with their SHA-256."""
        return heading(self.text)

    def to_frame(self, kind: str) -> Frame:
        """The rows of a field."""
        return frame_of(getattr(self, kind), ROWS[kind])


@dataclasses.dataclass(frozen=True, repr=False)
class Report(_Tables):
    """One count in full, or the page for the press; `text` is the JSON of `report`. A table that it does not have has no rows."""

    text: str
    law: Tuple[Law, ...]
    parties: Tuple[PartyReport, ...]
    lists: Tuple[ListReport, ...]
    scopes: Tuple[Scope, ...]
    entries: Tuple[Entry, ...]
    covering: Tuple[Covering, ...]
    singles: Tuple[WinnerReport, ...]
    open: Tuple[WinnerReport, ...]
    explanation: Tuple[Text, ...]
    press: Tuple[PressRow, ...]
    left_out: Tuple[LeftOut, ...]

    @property
    def divisors(self) -> Dict[Tuple[str, str], Union[Decimal, Fraction, None]]:
        """The divisor of each scope, by the stage and the scope."""
        return {(row.stage, row.scope): row.divisor for row in self.scopes}

    def votes_missing(self, stage: str, scope: str = "all") -> Dict[str, Optional[int]]:
        """The votes missing for one more seat, by the entry, in a scope of a stage."""
        return {row.entry: row.missing for row in self.entries if (row.stage, row.scope) == (stage, scope)}

    def __repr__(self) -> str:
        return "<Report by %s: %s>" % (self.law[0].law, ", ".join("%s %s" % (row.party, row.seats) for row in self.parties or self.press[:-1]))

    def _repr_html_(self) -> str:
        from . import pictures

        return pictures.report_of(self)


@dataclasses.dataclass(frozen=True, repr=False)
class Totals(_Tables):
    """The sums of returns, who takes part, and warnings of what is likely a mistake; `text` is the JSON of `totals`."""

    text: str
    totals: Tuple[TotalVotes, ...]
    votes: Tuple[PartyTotals, ...]
    lands: Tuple[LandTotals, ...]
    winners: Tuple[WinnersOf, ...]
    warnings: Tuple[WarningText, ...]

    def __repr__(self) -> str:
        return "<Totals of %d parties, %d warnings>" % (len(self.votes), len(self.warnings))


Seats = Union[int, str, None]


@dataclasses.dataclass(frozen=True, repr=False)
class Comparison(_Tables):
    """Seats by several rulebooks; `text` is the JSON of `compare`.

    books    the rulebooks
    seats    for each party, and `all`, the seats by each rulebook, by its word; the line of a fault where it gives none
    lists    the same for each list that has seats by one of them, by its Land and its party
    """

    text: str
    books: Tuple[Compared, ...]
    seats: Dict[str, Dict[str, Seats]]
    lists: Dict[Tuple[str, str], Dict[str, Seats]]

    def to_frame(self, kind: str = "seats") -> Frame:
        """The rows of `books`, or of `seats` or `lists` with a column for each rulebook."""
        if kind not in ("seats", "lists"):
            return super().to_frame(kind)
        import pandas

        return pandas.DataFrame.from_dict(getattr(self, kind), orient="index", columns=[row.book for row in self.books])

    def __repr__(self) -> str:
        return "<Comparison of %s>" % ", ".join(row.book for row in self.books)


def _made(kind: type, text: str) -> Any:
    tables = json.loads(text)["tables"]
    fields = [field.name for field in dataclasses.fields(kind)]
    return kind(text=text, **{key: _rows(tables, key) for key in fields if key in ROWS})


def report(text: str) -> Report:
    return _made(Report, text)


def totals(text: str) -> Totals:
    return _made(Totals, text)


def comparison(text: str) -> Comparison:
    tables = json.loads(text)["tables"]
    seats, lists = {}, {}
    for row in tables["compare"]:
        party = row.pop("party")
        row.pop("party_name")
        seats["all" if party is None else party] = row
    for row in tables["list_seats"]:
        lists[row.pop("land"), row.pop("party")] = row
        del row["land_name"], row["party_name"]
    return Comparison(text, _rows(tables, "books"), seats, lists)
