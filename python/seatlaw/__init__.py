"""Elections of the German Bundestag, counted by the proved calls of seatlaw.

>>> import seatlaw
>>> book = seatlaw.Rulebook.from_file("examples/first-count/book.law")
>>> returns = seatlaw.Returns.from_file("examples/first-count/returns.csv")
>>> seatlaw.count(book, returns)
<Table of 5 seats: Reds 2, Blues 1, Greens 1>
"""
from ._library import STATUTES, Reply, ask
from .calls import Shown, check, code, compare, count, explain, law, report, run, show, stage, stage_names, stages, steps, totals
from .errors import Explanation, LegalFault, Lot, OutOfBudget, OutOfMemory, Place, Refused, SeatlawError, Span
from .inputs import Code, Instruction, Land, ListVotes, Party, Returns, Rulebook, Winner
from .reports import Comparison, Report, Totals
from .tables import BookLine, Column, ListSeats, PartySeats, Steps, Table

__all__ = [
    "STATUTES", "BookLine", "Code", "Column", "Comparison", "Explanation", "Instruction", "Land", "LegalFault", "ListSeats", "ListVotes", "Lot",
    "OutOfBudget", "OutOfMemory", "Party", "PartySeats", "Place", "Refused", "Reply", "Report", "Returns", "Rulebook", "SeatlawError", "Shown", "Span", "Steps",
    "Table", "Totals", "Winner",
    "ask", "check", "code", "compare", "count", "explain", "law", "report", "run", "show", "stage", "stage_names", "stages", "steps", "totals",
]

# Names that need numpy, by the module that has them.
LATER = {"many": ("Counts", "Variations"), "simulation": ("Multinomial", "Normal", "Simulation", "chunks", "draw", "simulate")}
__all__ += [name for names in LATER.values() for name in names]


def __getattr__(name: str):
    """What needs numpy is brought in when it is asked for."""
    import importlib

    for module in ("many", "simulation"):
        if name in LATER[module]:
            return getattr(importlib.import_module("." + module, __name__), name)
    raise AttributeError("module %r has no attribute %r" % (__name__, name))
