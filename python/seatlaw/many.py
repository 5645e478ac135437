"""Many counts of returns that differ in numbers alone: rows of a matrix are elections, and threads share them out. Needs numpy."""
import concurrent.futures
import dataclasses
import functools
import os
from typing import Any, Callable, Dict, Iterator, List, NamedTuple, Optional, Sequence, Tuple

import numpy

from . import calls
from ._library import DONE, FAILED, OTHER_SHAPE, Template, ask, counts, text_of
from .errors import OutOfMemory, SeatlawError
from .frames import Frame
from .inputs import Book, Returns, _written, rulebook

CHUNK = 64  # elections that a thread counts at a time


class Number(NamedTuple):
    """What a column of the matrix holds: a number of a record, by its kind and its names."""

    kind: str
    land: str
    party: str
    constituency: str = ""


# The kinds of numbers that may vary: the kind of their records and the cells in which they stand, by the index of the cell.
CELLS: Dict[str, Tuple[str, Tuple[int, ...]]] = {
    "votes": ("list", (3, 4)),  # valid and counted alike
    "valid": ("list", (3,)),
    "counted": ("list", (4,)),
    "people": ("land", (3,)),
    "first": ("win", (4,)),
    "first_valid": ("win", (5,)),
    "house": ("house", (3,)),
}


def _number(kind: str, record: Sequence[str]) -> Number:
    return Number(kind, record[1], record[2], record[3] if record[0] == "win" else "")


def _pieces(text: bytes, places: Sequence[int]) -> Iterator[bytes]:
    for begin, end in zip([0, *places], [*places, len(text)]):
        yield text[begin:end]


@dataclasses.dataclass(frozen=True, eq=False)
class Counts:
    """What many counts came to: a row for each election.

    statuses  0 for a table, 2 for a refusal, 3 for a legal fault; the seats of any other row than a table's are -1
    seats     the total, then the seats and the winners of each party, and then of each list
    """

    variations: "Variations" = dataclasses.field(repr=False)
    numbers: numpy.ndarray = dataclasses.field(repr=False)
    statuses: numpy.ndarray = dataclasses.field(repr=False)
    seats: numpy.ndarray = dataclasses.field(repr=False)

    @property
    def parties(self) -> Tuple[str, ...]:
        return self.variations.parties

    @property
    def lists(self) -> Tuple[Tuple[str, str], ...]:
        """The Land and the party of each list."""
        return self.variations.lists

    @property
    def total(self) -> numpy.ndarray:
        return self.seats[:, 0]

    def _of_parties(self, first: int) -> numpy.ndarray:
        return self.seats[:, first:1 + 2 * len(self.parties):2]

    @property
    def party_seats(self) -> numpy.ndarray:
        """The seats of parties: a row for each election, a column for each party."""
        return self._of_parties(1)

    @property
    def party_winners(self) -> numpy.ndarray:
        return self._of_parties(2)

    @property
    def list_seats(self) -> numpy.ndarray:
        """The seats of lists: a row for each election, a column for each list."""
        return self.seats[:, 1 + 2 * len(self.parties)::2]

    @property
    def list_winners(self) -> numpy.ndarray:
        return self.seats[:, 2 + 2 * len(self.parties)::2]

    def of(self, party: str) -> numpy.ndarray:
        """The seats of a party."""
        return self.party_seats[:, self.parties.index(party)]

    def fault(self, row: int) -> Optional[SeatlawError]:
        """The exception of a row that has no table."""
        try:
            calls.count(self.variations.book, self.variations.returns_of(self.numbers[row]))
        except SeatlawError as error:
            return error
        return None

    def to_frame(self) -> Frame:
        """The statuses, the totals and the seats of parties as a DataFrame."""
        import pandas

        frame = pandas.DataFrame(self.party_seats, columns=list(self.parties))
        frame.insert(0, "total", self.total)
        frame.insert(0, "status", self.statuses)
        return frame

    def __len__(self) -> int:
        return len(self.statuses)


class Variations:
    """Returns in which numbers vary.

    kinds  which numbers do: `votes` are those of lists, valid and counted alike; or `valid`, `counted`, `people`, `first` and `first_valid` of
           winners, `house`. The matrix has a column for each number, kind by kind, in the order of the records: `columns` says which.
    """

    def __init__(self, book: Book, returns: Returns, kinds: Sequence[str] = ("votes",)):
        self.book, self.returns = rulebook(book), returns
        self.parties = tuple(party.party for party in returns.parties)
        lands = [land.land for land in returns.lands]
        order = lambda row: (lands.index(row.land), self.parties.index(row.party))  # noqa: E731
        self.lists = tuple((row.land, row.party) for row in sorted(returns.lists, key=order))
        self.width = 1 + 2 * len(self.parties) + 2 * len(self.lists)
        self._lay_out(kinds)
        self._compare()

    def _lay_out(self, kinds: Sequence[str]) -> None:
        """The text of the returns without the numbers that vary, the places of those, and the column of each place."""
        cells: Dict[Tuple[int, int], int] = {}
        self.columns: List[Number] = []
        base: List[int] = []
        for kind in kinds:
            of, at = CELLS[kind]
            for i, record in enumerate(self.returns.all_records):
                if record[0] != of:
                    continue
                if len({int(record[cell]) for cell in at}) > 1:
                    raise ValueError("the counted votes of a list are not all valid ones: vary `valid` and `counted`")
                cells.update({(i, cell): len(base) for cell in at})
                self.columns.append(_number(kind, record))
                base.append(int(record[at[0]]))
        self.base = numpy.array(base, dtype=numpy.uint32)
        self._write(cells)

    def _write(self, cells: Dict[Tuple[int, int], int]) -> None:
        text, places, columns = bytearray(), [], []
        for i, record in enumerate(self.returns.all_records):
            for cell, word in enumerate(record):
                text += b"," if cell else b""
                column = cells.get((i, cell))
                if column is None:
                    text += _written([[word]]).rstrip(b"\n") if word else b""
                else:
                    places.append(len(text))
                    columns.append(column)
            text += b"\n"
        self._text = bytes(text)
        self._places = numpy.array(places, dtype=numpy.uintp)
        self._columns = numpy.array(columns, dtype=numpy.uint32)

    def _compare(self) -> None:
        """The text with the numbers that the returns have is counted as the returns are."""
        count = lambda returns: ask(["count", "--quiet", "book", "returns"], {"book": self.book.data, "returns": returns.data})  # noqa: E731
        if count(self.returns_of(self.base)) != count(self.returns):
            raise SeatlawError("these returns cannot be varied: written again they are counted otherwise")

    def returns_of(self, row: Any) -> Returns:
        """The returns with the numbers of a row."""
        pieces = list(_pieces(self._text, self._places.tolist()))
        numbers = [b"%d" % row[column] for column in self._columns.tolist()]
        return Returns(b"".join(part for pair in zip(pieces, [*numbers, b""]) for part in pair))

    def _template(self) -> Template:
        return Template(
            self._text, len(self._text), self._places.ctypes.data, self._columns.ctypes.data, len(self._places), len(self.base)
        )

    def count(self, numbers: Any, threads: Optional[int] = None, progress: bool = False) -> Counts:
        """Counts each row of a matrix of whole numbers, by so many threads (as many as there are processors if none is said)."""
        matrix = numpy.atleast_2d(numpy.asarray(numbers))
        if matrix.shape[1:] != self.base.shape:
            raise ValueError("the matrix must have %d columns" % len(self.base))
        if matrix.size and (matrix.dtype.kind not in "iu" or matrix.min() < 0 or matrix.max() >= 2**32):
            raise ValueError("a matrix of whole numbers from 0 to 4294967295 is asked for")
        matrix = numpy.ascontiguousarray(matrix, dtype=numpy.uint32)
        statuses = numpy.empty(len(matrix), dtype=numpy.uint8)
        seats = numpy.empty((len(matrix), self.width), dtype=numpy.int32)
        part = functools.partial(self._count_part, self._template(), matrix, seats, statuses)
        _shared(part, len(matrix), threads or os.cpu_count() or 1, progress)
        if OTHER_SHAPE in statuses:
            raise SeatlawError("a table has other lists than the returns")
        return Counts(self, matrix, statuses, seats)

    def _count_part(self, template: Template, matrix: numpy.ndarray, seats: numpy.ndarray, statuses: numpy.ndarray, begin: int, end: int) -> None:
        rows, book = matrix[begin:end], text_of(self.book.data)
        status = counts(book, template, rows.ctypes.data, len(rows), seats[begin:end].ctypes.data, self.width, statuses[begin:end].ctypes.data)
        if status != DONE or FAILED in statuses[begin:end]:
            raise OutOfMemory("out of memory")


def _bar(length: int, progress: bool) -> Any:
    """The progress bar of tqdm, where it is there and asked for."""
    if progress:
        try:
            from tqdm.auto import tqdm

            return tqdm(total=length, unit="count")
        except ImportError:
            pass
    return None


def _shared(part: Callable[[int, int], None], length: int, threads: int, progress: bool) -> None:
    """Has threads do parts of so many rows; an exception of one of them is raised here, and no further part is begun."""
    bar, begins = _bar(length, progress), range(0, length, CHUNK)
    with concurrent.futures.ThreadPoolExecutor(threads) as pool:
        waiting = [pool.submit(part, begin, min(begin + CHUNK, length)) for begin in begins]
        try:
            for begin, future in zip(begins, waiting):
                future.result()
                if bar is not None:
                    bar.update(min(CHUNK, length - begin))
        except BaseException:
            for future in waiting:
                future.cancel()
            raise
        finally:
            if bar is not None:
                bar.close()
