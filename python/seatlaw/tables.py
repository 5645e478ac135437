"""What counts give: seat tables, steps and the columns of stages, read off the texts of the proved calls when they are asked for."""
import dataclasses
import functools
from typing import Dict, List, NamedTuple, Optional, Tuple

from .frames import Frame, frame_of


class PartySeats(NamedTuple):
    """A party with its seats, and how many of them winners of constituencies fill."""

    party: str
    seats: int
    winners: int


class ListSeats(NamedTuple):
    """A list with its seats, and how many of them winners of constituencies fill."""

    land: str
    party: str
    seats: int
    winners: int


class Vacant(NamedTuple):
    """A list with vacant seats."""

    land: str
    party: str
    seats: int


class Constituency(NamedTuple):
    """A constituency whose winner sits as a single, or is not seated."""

    constituency: str


@dataclasses.dataclass(frozen=True)
class Table:
    """A seat table (docs/output.md, section 1); `text` is what `count` writes."""

    text: str = dataclasses.field(repr=False)

    def _words(self, kind: str) -> List[List[str]]:
        return [line.split()[1:] for line in self.text.splitlines() if line.startswith(kind + " ")]

    @functools.cached_property
    def total(self) -> int:
        """The seats of all lists, and all singles."""
        return int(self.text.split("\n", 1)[0].split()[1])

    @functools.cached_property
    def parties(self) -> Tuple[PartySeats, ...]:
        return tuple(PartySeats(party, int(seats), int(winners)) for party, seats, winners in self._words("party"))

    @functools.cached_property
    def lists(self) -> Tuple[ListSeats, ...]:
        return tuple(ListSeats(land, party, int(seats), int(winners)) for land, party, seats, winners in self._words("list"))

    @functools.cached_property
    def vacant(self) -> Tuple[Vacant, ...]:
        return tuple(Vacant(land, party, int(seats)) for land, party, seats in self._words("vacant"))

    @functools.cached_property
    def singles(self) -> Tuple[Constituency, ...]:
        """The constituencies whose winners sit as singles."""
        return tuple(Constituency(*words) for words in self._words("single"))

    @functools.cached_property
    def open(self) -> Tuple[Constituency, ...]:
        """The constituencies whose winners are not seated."""
        return tuple(Constituency(*words) for words in self._words("open"))

    @property
    def seats(self) -> Dict[str, int]:
        """The seats of each party, by its name."""
        return {row.party: row.seats for row in self.parties}

    def to_frame(self, kind: str = "parties") -> Frame:
        """The rows of `parties`, `lists`, `vacant`, `singles` or `open`."""
        kinds = {"parties": PartySeats, "lists": ListSeats, "vacant": Vacant, "singles": Constituency, "open": Constituency}
        return frame_of(getattr(self, kind), kinds[kind])

    def svg(self, colours: Optional[Dict[str, str]] = None) -> str:
        """The house as a half circle; `colours` has those of parties, as `{"Reds": "#d4133b"}`."""
        from . import pictures

        return pictures.house(self, colours or {})

    def _repr_html_(self) -> str:
        from . import pictures

        return pictures.page_of(self)

    def __repr__(self) -> str:
        return "<Table of %d seats: %s>" % (self.total, ", ".join("%s %d" % row[:2] for row in self.parties))


class SeatStep(NamedTuple):
    """How a seat was won (docs/output.md, section 1): `number` is the seat's in its entry; `mark` what won it."""

    stage: str
    scope: str
    entry: str
    number: int
    step: int
    mark: str


class Bound(NamedTuple):
    """The bounds of the divisors of a scope: the least quotient that won a seat and the greatest that won none; whether a lot fell between them."""

    stage: str
    scope: str
    last: str
    next: str
    lot: bool


# How many words a scope has, by its first one.
SCOPES = {"all": 1, "land": 2, "party": 2, "list": 3}


def _scoped(line: str) -> Tuple[str, str, List[str]]:
    """The stage, the scope, and the words after them."""
    words = line.split()[1:]
    end = 1 + SCOPES[words[1]]
    return words[0], " ".join(words[1:end]), words[end:]


def _step(line: str) -> SeatStep:
    stage, scope, (entry, number, step, *mark) = _scoped(line)
    return SeatStep(stage, scope, entry, int(number), int(step), " ".join(mark))


def _bound(line: str) -> Bound:
    stage, scope, words = _scoped(line)
    return Bound(stage, scope, words[0], words[1], words[2:] == ["lot"])


@dataclasses.dataclass(frozen=True)
class Steps:
    """Each seat with its step, the bounds of the divisors, and the seat table; `text` is what `steps` writes."""

    text: str = dataclasses.field(repr=False)

    @functools.cached_property
    def seats(self) -> Tuple[SeatStep, ...]:
        return tuple(_step(line) for line in self.text.splitlines() if line.startswith("seat "))

    @functools.cached_property
    def bounds(self) -> Tuple[Bound, ...]:
        return tuple(_bound(line) for line in self.text.splitlines() if line.startswith("bounds "))

    @functools.cached_property
    def table(self) -> Table:
        lines = self.text.splitlines(keepends=True)
        return Table("".join(line for line in lines if not line.startswith(("seat ", "bounds "))))

    def to_frame(self, kind: str = "seats") -> Frame:
        """The rows of `seats` or `bounds`."""
        return frame_of(getattr(self, kind), {"seats": SeatStep, "bounds": Bound}[kind])

    def __repr__(self) -> str:
        return "<Steps of %d seats, %d bounds>" % (len(self.seats), len(self.bounds))


class Cell(NamedTuple):
    """The number of a stage for an entry: `all`, a party, a Land, or a list as `LAND/PARTY`."""

    stage: str
    entry: str
    value: int


@dataclasses.dataclass(frozen=True)
class Column:
    """The column of a stage; `text` is what `stage` writes."""

    stage: str
    text: str = dataclasses.field(repr=False)

    @functools.cached_property
    def cells(self) -> Tuple[Cell, ...]:
        return tuple(Cell(self.stage, entry, int(value)) for entry, value in map(str.split, self.text.splitlines()))

    @property
    def values(self) -> Dict[str, int]:
        """The numbers by their entries."""
        return {cell.entry: cell.value for cell in self.cells}

    def __getitem__(self, entry: str) -> int:
        return self.values[entry]

    def to_frame(self) -> Frame:
        return frame_of(self.cells, Cell)

    def _repr_html_(self) -> str:
        from . import pictures

        return pictures.table_of(self.cells, Cell)


class BookLine(NamedTuple):
    """What `check` writes of a good rulebook."""

    version: int
    house: int
    stages: int
    law: str


def book_line(text: str) -> BookLine:
    _, version, _, house, _, stages, _, law = text.rstrip("\n").split(" ", 7)
    return BookLine(int(version), int(house), int(stages), law)
