"""Elections drawn at random around returns: errors of polls, by party and by Land. Needs numpy."""
import dataclasses
from typing import Any, Dict, Iterable, Iterator, Optional, Tuple, Union

import numpy

from .frames import Frame
from .inputs import Book, Returns
from .many import Counts, Variations


@dataclasses.dataclass(frozen=True)
class Multinomial:
    """A poll of so many people for whom they would vote: the shares of parties in the country are drawn as those of such a sample.

    by_land  whether each Land has a sample of its own, in proportion to its votes, in place of one for the country
    """

    sample: int
    by_land: bool = False


@dataclasses.dataclass(frozen=True)
class Normal:
    """Normal errors of shares: `party` of each party in the country, and `land` of each list on top, as standard deviations in parts of all votes.

    An error of 0.01 is one of a percentage point. A share below 0 is 0, and those of a Land are made to be all its votes again.
    """

    party: float
    land: float = 0.0


def _grid(variations: Variations) -> Tuple[numpy.ndarray, numpy.ndarray, numpy.ndarray]:
    """The votes by Land and party, and for each column of the matrix its Land and its party."""
    lands = list(dict.fromkeys(column.land for column in variations.columns))
    land = numpy.array([lands.index(column.land) for column in variations.columns])
    party = numpy.array([variations.parties.index(column.party) for column in variations.columns])
    votes = numpy.zeros((len(lands), len(variations.parties)))
    votes[land, party] = variations.base
    return votes, land, party


def _multinomial(rng: numpy.random.Generator, votes: numpy.ndarray, model: Multinomial, draws: int) -> numpy.ndarray:
    """Votes by draw, Land and party: those of the returns in the proportion in which the sample has more or fewer of the party."""
    if not model.by_land:
        national = votes.sum(axis=0)
        shares = rng.multinomial(model.sample, national / national.sum(), size=draws) / model.sample
        return votes * (shares * national.sum() / numpy.maximum(national, 1))[:, None, :]
    drawn = numpy.zeros((draws, *votes.shape))
    for i, row in enumerate(votes):
        size = max(1, round(model.sample * row.sum() / votes.sum()))
        drawn[:, i] = rng.multinomial(size, row / row.sum(), size=draws) * (row.sum() / size)
    return drawn


def _normal(rng: numpy.random.Generator, votes: numpy.ndarray, model: Normal, draws: int) -> numpy.ndarray:
    lands = votes.sum(axis=1, keepdims=True)
    shares = votes / numpy.maximum(lands, 1)
    errors = rng.normal(0, model.party, (draws, 1, votes.shape[1])) + rng.normal(0, model.land, (draws, *votes.shape))
    moved = numpy.where(votes > 0, numpy.maximum(shares + errors, 0), 0)
    return moved / numpy.maximum(moved.sum(axis=2, keepdims=True), 1e-12) * lands


Model = Union[Multinomial, Normal]


def draw(variations: Variations, draws: int, seed: Any, model: Model) -> numpy.ndarray:
    """A matrix of votes, a row for each draw. The same seed gives the same matrix; a seed is what numpy.random.default_rng takes."""
    votes, land, party = _grid(variations)
    rng = numpy.random.default_rng(seed)
    made = _multinomial(rng, votes, model, draws) if isinstance(model, Multinomial) else _normal(rng, votes, model, draws)
    return numpy.rint(made[:, land, party]).astype(numpy.uint32)


@dataclasses.dataclass(frozen=True, eq=False)
class Simulation:
    """What the elections that were drawn came to. Chances are parts of the draws that have a table."""

    counts: Counts

    @property
    def parties(self) -> Tuple[str, ...]:
        return self.counts.parties

    @property
    def seats(self) -> numpy.ndarray:
        """The seats of parties in the draws that have a table: a row for each draw, a column for each party."""
        return self.counts.party_seats[self.counts.statuses == 0]

    @property
    def without_table(self) -> int:
        """How many draws ended in a legal fault, as a tie without a lot, or were refused."""
        return int((self.counts.statuses != 0).sum())

    def in_house(self) -> Dict[str, float]:
        """The chance of each party to have a seat."""
        return dict(zip(self.parties, (self.seats > 0).mean(axis=0).tolist()))

    def majority(self, parties: Iterable[str]) -> float:
        """The chance of these parties to have more than half of the seats together."""
        columns = [self.parties.index(party) for party in parties]
        total = self.counts.total[self.counts.statuses == 0]
        return float((2 * self.seats[:, columns].sum(axis=1) > total).mean())

    def to_frame(self) -> Frame:
        """For each party the chance to have a seat, and quantiles of its seats."""
        import pandas

        marks = (0.05, 0.5, 0.95)
        frame = pandas.DataFrame({"in_house": list(self.in_house().values())}, index=list(self.parties))
        for mark in marks:
            frame["%d%%" % round(100 * mark)] = numpy.quantile(self.seats, mark, axis=0, method="inverted_cdf").astype(int)
        return frame


def simulate(
    book: Book, returns: Returns, draws: int, seed: Any, model: Model = Multinomial(1000), threads: Optional[int] = None, progress: bool = False
) -> Simulation:
    """Draws elections around the votes of the returns, and counts them. Winners of constituencies stay as they are."""
    variations = Variations(book, returns)
    return Simulation(variations.count(draw(variations, draws, seed, model), threads, progress))


def chunks(draws: int, size: int) -> Iterator[Tuple[int, int]]:
    """The parts of so many draws: the number of each, which goes into its seed, and how many draws it has."""
    for number, begin in enumerate(range(0, draws, size)):
        yield number, min(size, draws - begin)
