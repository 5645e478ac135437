"""Random elections counted in chunks, each into a file of its own, by whichever process or machine. Needs numpy; Parquet needs pandas, and pyarrow
or fastparquet."""
import functools
import os
import pathlib
from typing import Any, List

import numpy

from .inputs import Returns, Rulebook
from .many import Variations
from .simulation import Model, draw


@functools.lru_cache(maxsize=4)
def _variations(book: bytes, returns: bytes) -> Variations:
    return Variations(Rulebook(book), Returns(returns))


def write(path: pathlib.Path, header: List[str], rows: Any, form: str) -> None:
    """Writes the rows as npy, csv or parquet to the file, which is there when it is whole."""
    part = path.with_name(".%s.%d" % (path.name, os.getpid()))
    if form == "npy":
        with open(part, "wb") as file:
            numpy.save(file, rows)
    elif form == "csv":
        numpy.savetxt(part, rows, fmt="%d", delimiter=",", header=",".join(header), comments="")
    else:
        import pandas

        pandas.DataFrame(rows, columns=header).to_parquet(part, index=False)
    os.replace(part, path)


def count_chunk(book: bytes, returns: bytes, model: Model, seed: int, number: int, size: int, path: str, form: str) -> int:
    """Counts the elections of a chunk, which its number and the seed draw, into the file, and answers how many they are.

    A row has the status, the total, and the seats of each party.
    """
    made = _variations(book, returns)
    counts = made.count(draw(made, size, [seed, number], model), threads=1)
    rows = numpy.column_stack([counts.statuses, counts.total, counts.party_seats]).astype(numpy.int16)
    write(pathlib.Path(path), ["status", "total", *counts.parties], rows, form)
    return size
