"""What is counted: rulebooks and returns."""
import csv
import dataclasses
import functools
import io
import os
import pathlib
from typing import Any, Iterable, List, NamedTuple, Optional, Sequence, Tuple, Union

from .errors import Lot
from .frames import Frame, Row, frame_of, rows_of

HEADERS = ("kind", "kind2")


@dataclasses.dataclass(frozen=True)
class Rulebook:
    """The text of a rulebook; `name` is that of a statute of the library, with `@`, or the one that `compare` has for a text of one's own, or None."""

    data: bytes = dataclasses.field(repr=False)
    name: Optional[str] = None

    @classmethod
    def statute(cls, name: str) -> "Rulebook":
        """A statute of the library, one of `STATUTES`."""
        from . import calls

        return cls(calls.law(name).encode(), "@" + name)

    @classmethod
    def from_text(cls, text: Union[str, bytes], name: Optional[str] = None) -> "Rulebook":
        if name is not None and name.startswith("@"):
            raise ValueError("a name with @ is that of a statute")
        return cls(text.encode() if isinstance(text, str) else bytes(text), name)

    @classmethod
    def from_file(cls, path: Union[str, "os.PathLike[str]"], name: Optional[str] = None) -> "Rulebook":
        return cls.from_text(pathlib.Path(path).read_bytes(), name)

    @property
    def text(self) -> str:
        return self.data.decode(errors="replace")


@dataclasses.dataclass(frozen=True)
class Code:
    """The bytes of a code file (docs/code.md); `listing` is what `code` writes of a rulebook, and None of a file."""

    data: bytes = dataclasses.field(repr=False)
    listing: Optional[str] = dataclasses.field(default=None, repr=False, compare=False)

    @classmethod
    def from_file(cls, path: Union[str, "os.PathLike[str]"]) -> "Code":
        return cls(pathlib.Path(path).read_bytes())

    def to_file(self, path: Union[str, "os.PathLike[str]"]) -> None:
        pathlib.Path(path).write_bytes(self.data)

    @functools.cached_property
    def instructions(self) -> Tuple["Instruction", ...]:
        """The lines of the listing."""
        if self.listing is None:
            raise ValueError("a code file has no listing; `code` lists that of a rulebook")
        return tuple(_instruction(*line.split()) for line in self.listing.splitlines())

    def to_frame(self) -> Frame:
        return frame_of(self.instructions, Instruction)

    def __repr__(self) -> str:
        return "<Code of %d bytes>" % len(self.data)


class Instruction(NamedTuple):
    """A line of a listing: the number of an instruction, its name, and its operands as numbers."""

    number: int
    name: str
    operands: Tuple[int, ...]


def _instruction(number: str, name: str, *operands: str) -> Instruction:
    return Instruction(int(number), name, tuple(map(int, operands)))


Book = Union[Rulebook, str]  # a word with @ before it names a statute


@functools.lru_cache(maxsize=None)
def _statute(name: str) -> Rulebook:
    return Rulebook.statute(name)


def rulebook(book: Book) -> Rulebook:
    """The rulebook of a call's argument."""
    if isinstance(book, Rulebook):
        return book
    if isinstance(book, str) and book.startswith("@"):
        return _statute(book[1:])
    raise TypeError("a rulebook is asked for, or a statute as '@2023'; Rulebook.from_text and from_file make one")


class Land(NamedTuple):
    land: str
    people: int


class Party(NamedTuple):
    party: str
    minority: bool = False


class ListVotes(NamedTuple):
    """A party's list in a Land: its valid votes, those that are counted, and the names left on it where that is given."""

    land: str
    party: str
    valid: int
    counted: int
    left: Optional[int] = None


class Winner(NamedTuple):
    """Who won a constituency; an independent has no party."""

    land: str
    party: str
    constituency: str
    first: int
    valid: int


KINDS = {"land": Land, "party": Party, "list": ListVotes, "win": Winner, "lot": Lot}


def _cell(value: Any) -> str:
    """A cell of a record: a whole number or a word as it stands, and nothing for None."""
    if value is None:
        return ""
    if isinstance(value, float) or hasattr(value, "is_integer") and not isinstance(value, int):
        if not float(value).is_integer():
            raise ValueError("a number of returns is whole, and not %r" % (value,))
        return str(int(value))
    return str(int(value)) if isinstance(value, (bool, int)) else str(value)


def _record(kind: str, row: Row) -> List[str]:
    """The cells of a record."""
    get = lambda key: _cell(row.get(key))  # noqa: E731
    if kind == "land":
        return [kind, get("land"), "", get("people"), "", ""]
    if kind == "party":
        return [kind, "", get("party"), _cell(row.get("minority") or 0), "", ""]
    if kind == "list":
        counted = row.get("counted")
        return [kind, get("land"), get("party"), get("valid"), get("valid") if counted is None else _cell(counted), get("left")]
    if kind == "win":
        return [kind, get("land"), get("party"), get("constituency"), get("first"), get("valid")]
    return [kind, get("land"), get("party"), get("stage"), get("constituency"), ""]


def _written(records: Iterable[Sequence[str]]) -> bytes:
    out = io.StringIO()
    csv.writer(out, lineterminator="\n").writerows(records)
    return out.getvalue().encode()


@dataclasses.dataclass(frozen=True)
class Returns:
    """The returns of an election: the bytes of a CSV file (docs/returns.md). Whether they are in order is told when they are counted."""

    data: bytes = dataclasses.field(repr=False)

    @classmethod
    def from_text(cls, text: Union[str, bytes]) -> "Returns":
        return cls(text.encode() if isinstance(text, str) else bytes(text))

    @classmethod
    def from_file(cls, path: Union[str, "os.PathLike[str]"]) -> "Returns":
        return cls(pathlib.Path(path).read_bytes())

    @classmethod
    def from_records(cls, *, lands: Any, parties: Any, lists: Any, winners: Any = (), lots: Any = (), house: Optional[int] = None) -> "Returns":
        """Returns of tables, each a DataFrame or a list of dicts or of named tuples with these columns; those in brackets may be left out.

        lands    land, people
        parties  party, (minority)
        lists    land, party, valid, (counted: those that are valid), (left: names left on the list)
        winners  land, (party), constituency, first, valid
        lots     (land), (party), stage, (constituency)
        """
        tables = {"land": lands, "party": parties, "list": lists, "win": winners, "lot": lots}
        rows = [(kind, row) for kind, table in tables.items() for row in rows_of(table)]
        records = [_record(kind, row) for kind, row in rows]
        header = HEADERS[any(kind == "list" and row.get("left") is not None for kind, row in rows)]
        first = [[header, "land", "party", "a", "b", "c"]] + ([] if house is None else [["house", "", "", _cell(house), "", ""]])
        return cls(_written(first + records))

    @property
    def text(self) -> str:
        return self.data.decode(errors="replace")

    @functools.cached_property
    def all_records(self) -> Tuple[Tuple[str, ...], ...]:
        """The cells of the records, of which the header is the first."""
        text = self.data.decode("utf-8-sig", errors="replace")
        return tuple(tuple(row) for row in csv.reader(io.StringIO(text, newline="")) if row)

    @property
    def records(self) -> Tuple[Tuple[str, ...], ...]:
        """The cells of the records after the header."""
        return self.all_records[1:]

    def rows(self, kind: str) -> tuple:
        """The rows of a kind, `land`, `party`, `list`, `win` or `lot`, of returns that are in order."""
        made = {
            "land": lambda _, land, party, a, b, c: Land(land, int(a)),
            "party": lambda _, land, party, a, b, c: Party(party, a != "" and int(a) == 1),
            "list": lambda _, land, party, a, b, c: ListVotes(land, party, int(a), int(b), int(c) if c else None),
            "win": lambda _, land, party, a, b, c: Winner(land, party, a, int(b), int(c)),
            "lot": lambda _, land, party, a, b, c: Lot(land, party, a, b),
        }[kind]
        return tuple(made(*record) for record in self.records if record[0] == kind)

    @functools.cached_property
    def lands(self) -> Tuple[Land, ...]:
        return self.rows("land")

    @functools.cached_property
    def parties(self) -> Tuple[Party, ...]:
        return self.rows("party")

    @functools.cached_property
    def lists(self) -> Tuple[ListVotes, ...]:
        return self.rows("list")

    @functools.cached_property
    def winners(self) -> Tuple[Winner, ...]:
        return self.rows("win")

    @functools.cached_property
    def lots(self) -> Tuple[Lot, ...]:
        return self.rows("lot")

    def to_frame(self, kind: str = "list") -> Frame:
        return frame_of(self.rows(kind), KINDS[kind])

    def with_records(self, records: Iterable[Sequence[str]]) -> "Returns":
        """These returns with records of six cells after them."""
        end = b"" if self.data.endswith((b"\n", b"\r")) or not self.data else b"\n"
        return Returns(self.data + end + _written(records))

    def with_lots(self, lots: Iterable[Lot]) -> "Returns":
        """These returns with lots after them, in the order in which they were drawn."""
        return self.with_records(_record("lot", lot._asdict()) for lot in lots)

    def with_house(self, seats: int) -> "Returns":
        """These returns with a house of so many seats, of returns that give none."""
        return self.with_records([["house", "", "", _cell(seats), "", ""]])
