"""Where things stand in the repository, for the scripts: its top, the built program, and the names of the statutes.

Scripts of other folders put this folder on their path. In a folder of archive/release, which has no sources,
the program stands at the top.
"""
import functools
import pathlib
import re

TOP = pathlib.Path(__file__).resolve().parent.parent
CRATES = TOP / "crates"
PROGRAM = CRATES / "seatlaw" / "out" / "seatlaw" if CRATES.is_dir() else TOP / "seatlaw"
EXAMPLES = CRATES / "sl_test_rows" / "data" / "examples"


@functools.lru_cache(None)
def statutes():
    """The names of the statutes of the library, in its order."""
    return tuple(re.findall(r'^ +name: "(.*)",$', (CRATES / "sl_laws" / "src" / "books.rt").read_text(), re.M))
