"""Many counts: a matrix is counted as each of its rows is alone, by any number of threads; what is drawn is drawn again."""
import contextlib
import io
import random
import unittest

import numpy

import pathlib
import seatlaw
import sys

sys.path.append(str(pathlib.Path(__file__).resolve().parents[2] / "tools"))
from repository import EXAMPLES  # noqa: E402

TEXT = "kind,land,party,a,b,c\nhouse,,,%d,,\n"


def returns_of(rng):
    """Random returns with a few Länder, parties, winners and ties."""
    lands, parties = ["L%d" % i for i in range(rng.randrange(1, 6))], ["P%d" % i for i in range(rng.randrange(1, 6))]
    text = TEXT % rng.choice((5, 20, 99)) + "".join("land,%s,,%d,,\n" % (land, rng.randrange(1, 99)) for land in lands)
    text += "".join("party,,%s,%d,,\n" % (party, rng.random() < 0.2) for party in parties)
    lists = [(land, party) for party in parties for land in lands if rng.random() < 0.9]
    text += "".join("list,%s,%s,%d,%d,\n" % (*it, votes, votes) for it in lists for votes in [rng.choice((0, 10, rng.randrange(10**6)))])
    wins = range(rng.choice((0, 3, 9)))
    text += "".join("win,%s,%s,w%d,%d,%d\n" % (rng.choice(lands), rng.choice(["", *parties]), i, rng.randrange(1, 9), 9) for i in wins)
    return seatlaw.Returns.from_text(text)


def alone(book, returns):
    """The status, and the numbers of the table, of a count by itself."""
    try:
        table = seatlaw.count(book, returns)
    except seatlaw.SeatlawError as error:
        return {"refused": 2, "fault": 3}[error.line.split()[0]], None
    numbers = [table.total, *(number for row in table.parties for number in row[1:]), *(number for row in table.lists for number in row[2:])]
    return 0, numbers


class Matrix(unittest.TestCase):
    def check(self, made, matrix, threads=None):
        counts = made.count(matrix, threads)
        for i, row in enumerate(matrix):
            status, numbers = alone(made.book, made.returns_of(row))
            self.assertEqual(counts.statuses[i], status)
            self.assertEqual(counts.seats[i].tolist(), numbers or [-1] * made.width)
        return counts

    def test_random_returns_and_rows(self):
        rng, numbers = random.Random(1), numpy.random.default_rng(1)
        for i in range(120):
            made = seatlaw.Variations(rng.choice(["@2023", "@2013", "@1956", "@2023-order"]), returns_of(rng))
            matrix = numbers.integers(0, rng.choice((3, 1000, 10**8 + 5)), (7, len(made.base)))
            self.check(made, numpy.vstack([made.base, matrix]), threads=1 + i % 4)

    def test_each_kind_of_number(self):
        rng = numpy.random.default_rng(2)
        returns = seatlaw.Returns.from_file(EXAMPLES / "covered" / "returns.csv")
        for kinds in (["people"], ["first"], ["first_valid"], ["house"], ["counted"], ["valid"], ["valid", "counted"], ["votes", "people", "house"]):
            made = seatlaw.Variations("@2023-order", returns, kinds)
            self.assertEqual(len(made.columns), len(made.base))
            self.check(made, numpy.vstack([made.base, rng.integers(0, 120000, (20, len(made.base)))]))

    def test_columns_and_views(self):
        returns = seatlaw.Returns.from_file(EXAMPLES / "covered" / "returns.csv")
        counts = self.check(seatlaw.Variations("@2023-order", returns), [[300000, 250000, 140000, 310000], [1, 0, 0, 0]])
        self.assertEqual(counts.parties, ("Reds", "Blues"))
        self.assertEqual(counts.party_seats.tolist()[0], [4, 6])
        self.assertEqual(counts.party_winners.tolist()[0], [3, 1])
        self.assertEqual(dict(zip(counts.lists, counts.list_seats[0].tolist()))["North", "Blues"], 3)
        self.assertEqual(counts.of("Blues")[0], 6)
        self.assertEqual(counts.to_frame().loc[0, "Reds"], 4)
        self.assertIsNone(counts.fault(0))

    def test_a_fault_of_a_row(self):
        made = seatlaw.Variations("@2023", seatlaw.Returns.from_text(TEXT % 5 + "land,N,,1,,\nparty,,A,0,,\nparty,,B,0,,\nlist,N,A,1,1,\nlist,N,B,2,2,\n"))
        counts = made.count([[10, 10], [100000001, 1]])
        self.assertEqual(counts.statuses.tolist(), [3, 2])
        self.assertEqual(counts.fault(0).kind, "tie")
        self.assertEqual(counts.fault(1).line.split()[:2], ["refused", "returns"])

    def test_the_progress_bar(self):
        made = seatlaw.Variations("@2023", seatlaw.Returns.from_file(EXAMPLES / "covered" / "returns.csv"))
        said = io.StringIO()
        with contextlib.redirect_stderr(said):
            made.count(numpy.tile(made.base, (200, 1)), progress=True)
        self.assertIn("200/200", said.getvalue())

    def test_wrong_matrices(self):
        made = seatlaw.Variations("@2023", seatlaw.Returns.from_file(EXAMPLES / "covered" / "returns.csv"))
        for wrong in ([[1, 2]], [[1, 2, 3, -1]], [[1, 2, 3, 2**32]], [[1, 2, 3, 0.5]], [["a"] * 4]):
            self.assertRaises(ValueError, made.count, wrong)
        self.assertEqual(len(made.count(numpy.zeros((0, 4), dtype=int))), 0)
        unequal = seatlaw.Returns.from_text(TEXT % 5 + "land,N,,1,,\nparty,,A,0,,\nlist,N,A,9,8,\n")
        self.assertRaises(ValueError, seatlaw.Variations, "@2023", unequal)
        seatlaw.Variations("@2023", unequal, ["valid", "counted"])


class Drawn(unittest.TestCase):
    def test_the_same_by_any_threads(self):
        returns = seatlaw.Returns.from_file(EXAMPLES / "elections" / "2025.csv")
        for model in (seatlaw.Multinomial(800), seatlaw.Multinomial(800, by_land=True), seatlaw.Normal(0.01, 0.005)):
            one, many = (seatlaw.simulate("@2023", returns, 500, 3, model, threads=threads) for threads in (1, 7))
            self.assertTrue((one.counts.seats == many.counts.seats).all())
            self.assertTrue((one.counts.numbers == many.counts.numbers).all())
            self.assertEqual(one.in_house()["CDU"], 1)
            self.assertLess(abs(numpy.quantile(one.seats[:, 0], 0.5) - 164), 5)
            self.assertEqual(one.majority(one.parties), 1)
            self.assertEqual(one.majority(["SSW"]), 0)
            self.assertEqual(list(one.to_frame().index), list(one.parties))

    def test_votes_of_a_land_stay(self):
        rng = random.Random(5)
        made = seatlaw.Variations("@2023", returns_of(rng))
        lands = [column.land for column in made.columns]
        for model in (seatlaw.Normal(0.02, 0.02), seatlaw.Multinomial(500, by_land=True)):
            drawn = seatlaw.draw(made, 50, 1, model)
            for land in set(lands):
                columns = [i for i, it in enumerate(lands) if it == land]
                self.assertLess(abs(drawn[:, columns].sum(axis=1) - made.base[columns].sum()).max(), 10)

    def test_chunks(self):
        self.assertEqual(list(seatlaw.chunks(25, 10)), [(0, 10), (1, 10), (2, 5)])


if __name__ == "__main__":
    unittest.main()
