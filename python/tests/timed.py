"""Times: a count of sixteen Länder in C and in Python, a matrix of them, and a plain numpy apportionment of the same votes beside it."""
import os
import pathlib
import random
import subprocess
import tempfile
import time

import numpy

import seatlaw
import sys

sys.path.append(str(pathlib.Path(__file__).resolve().parents[2] / "tools"))
from repository import TOP  # noqa: E402

PEOPLE = dict(SH=29, MV=16, HH=18, NI=81, HB=7, BB=25, ST=22, BE=36, NW=181, SN=41, HE=63, TH=21, RP=41, BY=133, BW=112, SL=10)
SHARES = dict(CDU=28.5, CSU=37, AFD=20.8, SPD=16.4, GRUENE=11.6, LINKE=8.8, BSW=5.0, FDP=4.3, FW=1.5, TIER=1.0, SSW=4.0)
HOUSE = 630


def has_list(land, party):
    return {"CDU": land != "BY", "CSU": land == "BY", "SSW": land == "SH"}.get(party, True)


def sixteen(winners):
    """Returns of sixteen Länder and eleven parties, with votes near those of an election, and with so many winners or none."""
    rng, lists, won = random.Random(7), [], []
    for land, people in PEOPLE.items():
        votes = {party: round(55000 * people * share / 100 * rng.uniform(0.7, 1.4)) for party, share in SHARES.items() if has_list(land, party)}
        lists += [{"land": land, "party": party, "valid": number} for party, number in votes.items()]
        best = sorted(votes, key=votes.get)[-3:]
        for _ in range(round(winners * people / sum(PEOPLE.values()))):
            first = rng.randrange(40000, 70000)
            won.append({"land": land, "party": rng.choices(best, (1, 3, 6))[0], "constituency": "%03d" % (len(won) + 1), "first": first, "valid": 150000})
    lands = [{"land": land, "people": 100000 * people} for land, people in PEOPLE.items()]
    return seatlaw.Returns.from_records(lands=lands, parties=[{"party": party, "minority": party == "SSW"} for party in SHARES], lists=lists, winners=won)


def webster(votes, seats):
    """Seats of rows of votes by Webster's method, for each row so many: rounded at a divisor, and then corrected one seat at a time."""
    whole = votes.sum(axis=1)
    given = numpy.floor(votes * (seats / numpy.maximum(whole, 1))[:, None] + 0.5).astype(numpy.int64)
    while True:
        lacking = seats - given.sum(axis=1)
        more, fewer = numpy.flatnonzero(lacking > 0), numpy.flatnonzero(lacking < 0)
        if not len(more) and not len(fewer):
            return given
        given[more, (votes[more] / (2 * given[more] + 1)).argmax(axis=1)] += 1
        last = numpy.where(given[fewer] > 0, votes[fewer] / (2 * given[fewer] - 1), numpy.inf)
        given[fewer, last.argmin(axis=1)] -= 1


def by_numpy(made, matrix):
    """The seats of parties by the two distributions of the statute of 2023, without winners: what a script would do."""
    party = numpy.array([made.parties.index(column.party) for column in made.columns])
    sums = numpy.stack([matrix[:, party == i].sum(axis=1, dtype=numpy.int64) for i in range(len(made.parties))], axis=1)
    minority = numpy.array([it == "SSW" for it in made.parties])
    upper = webster(numpy.where((100 * sums >= 5 * sums.sum(axis=1, keepdims=True)) | minority, sums, 0), numpy.full(len(matrix), HOUSE))
    lower = {i: webster(matrix[:, party == i].astype(numpy.int64), upper[:, i]) for i in range(len(made.parties))}
    return upper, lower


def clocked(call, times):
    """The least and the mean time of a call, in milliseconds."""
    taken = []
    for _ in range(times):
        begun = time.perf_counter()
        call()
        taken.append(1000 * (time.perf_counter() - begun))
    return min(taken), sum(taken) / times


def by_c(book, returns, times):
    with tempfile.TemporaryDirectory() as name:
        folder = pathlib.Path(name)
        (folder / "book").write_bytes(book.data)
        (folder / "returns").write_bytes(returns.data)
        out = TOP / "capi" / "out"
        words = [os.environ.get("CC", "cc"), "-std=c11", "-O2", "-D_GNU_SOURCE", "-I", str(out), str(TOP / "capi" / "tests" / "times.c"), str(out / "libseatlaw.so")]
        subprocess.run([*words, "-Wl,-rpath," + str(out), "-o", str(folder / "times")], check=True)
        said = subprocess.run([str(folder / "times"), str(folder / "book"), str(folder / "returns"), str(times)], stdout=subprocess.PIPE, check=True)
        return tuple(map(float, said.stdout.split()))


def single(book, returns, what):
    c, python = by_c(book, returns, 500), clocked(lambda: seatlaw.count(book, returns).total, 500)
    whole = clocked(lambda: (lambda table: (table.parties, table.lists))(seatlaw.count(book, returns)), 500)
    print("a count of sixteen Länder, %s, least and mean ms: C %.3f %.3f, Python %.3f %.3f (%.2f times), with all rows read off %.3f %.3f" % (
        what, *c, *python, python[0] / c[0], *whole))


def by_threads(made, matrix, what):
    """Times the rows by four threads, and a part of them by fewer: the time by the clock, and that of processors, which others do not disturb much."""
    for threads in (4, 2, 1):
        rows = matrix[:len(matrix) if threads == 4 else len(matrix) // 5]
        begun, used = time.perf_counter(), time.process_time()
        made.count(rows, threads)
        took, used = time.perf_counter() - begun, time.process_time() - used
        print("%d rows, %s, %d threads: %.2f s, %.4f ms a count; of processors %.4f ms a count" % (
            len(rows), what, threads, took, 1000 * took / len(rows), 1000 * used / len(rows)), flush=True)


def beside_numpy(made, matrix):
    """Times numpy alone, and says how many rows have the same seats."""
    counts, begun = made.count(matrix), time.process_time()
    upper, lower = by_numpy(made, matrix)
    took = time.process_time() - begun
    same = (upper == counts.party_seats).all(axis=1) & (counts.statuses == 0)
    for i, seats in lower.items():
        lands = [column.land for column in made.columns if column.party == made.parties[i]]
        at = [k for k, (_, party) in enumerate(made.lists) if party == made.parties[i]]
        same &= (seats[:, [lands.index(made.lists[k][0]) for k in at]] == counts.list_seats[:, at]).all(axis=1)
    print("numpy alone: %.4f ms of processors a count; %d of %d rows have the same seats of parties and lists, %d rows have no table" % (
        1000 * took / len(matrix), same.sum(), len(matrix), (counts.statuses != 0).sum()))


def measured(rows):
    book = seatlaw.Rulebook.statute("2023-order")
    print("processors: %d, load %s" % (os.cpu_count(), os.getloadavg()))
    for winners in (299, 0):
        single(book, sixteen(winners), "%d winners" % winners)
    for winners in (299, 0):
        made = seatlaw.Variations(book, sixteen(winners))
        matrix = seatlaw.draw(made, rows, 1, seatlaw.Normal(0.01, 0.01))
        by_threads(made, matrix, "%d winners" % winners)
    beside_numpy(made, matrix)
