"""Requests on which the page and the program are compared, of the inputs of the repository; and random inputs, and large ones."""
import pathlib
import random
import re
import sys

sys.path.append(str(pathlib.Path(__file__).resolve().parents[1] / "tools"))
from repository import EXAMPLES, TOP, statutes  # noqa: E402

sys.path += [str(TOP / "check"), str(TOP / "bench")]
import elections  # noqa: E402
import rows as test_rows  # noqa: E402
from doors import Case  # noqa: E402

LAWS = statutes()
METHODS = ("webster", "jefferson", "adams", "hamilton", "hill", "dean")
STAGE = re.compile(r"\bstage\s+(\w+)")
ELECTIONS = EXAMPLES / "elections"
LANGUAGES = ("de", "en")
REPORTS = ("report book returns", "stages book returns", "totals returns book", "totals returns", "compare returns @2023 book")
# Of each page of rows at most so many returns are counted by each of its books, and none of more bytes.
MOST, LARGEST = 30, 200_000


def request(words, book=b"", returns=b"", names=b""):
    """A request in which `book`, `returns` and `names` are files of these bytes; a book may also be the name of a statute with @ before it."""
    files = {"book": book, "returns": returns, "names": names}
    words = [book if word == "book" and isinstance(book, str) else word for word in words.split()]
    return Case(words, {name: data for name, data in files.items() if name in words})


def reports(book, returns, names=b""):
    """The reports on returns in both languages, with a book and without one."""
    for language in LANGUAGES:
        for words in REPORTS:
            yield request("%s --json --lang %s%s" % (words, language, " --names names" if names else ""), book, returns, names)


def counts(book, returns, stages):
    """All of a book on returns."""
    for words in ("count book returns", "count book returns --lang de", "steps book returns", *("stage book returns " + name for name in stages)):
        yield request(words, book, returns)
    yield from reports(book, returns)


def stages_of(book):
    return STAGE.findall(book.decode("latin-1"))


def examples():
    """Every book on every returns file of the examples, and each of its stages."""
    books = ["@" + law for law in LAWS] + [path.read_bytes() for path in sorted(EXAMPLES.glob("**/*.law"))]
    for book in books:
        yield request("check book", book)
        for path in sorted(EXAMPLES.glob("**/*.csv")):
            yield from counts(book, path.read_bytes(), ("lower", "upper", "none") if isinstance(book, str) else stages_of(book))
    for law in (*LAWS, "", "1999", "2023 ", "2023\u00e4"):
        yield Case(["law", law], {})
    for path in sorted(ELECTIONS.glob("20*.csv")):
        for names in ((ELECTIONS / "names.csv").read_bytes(), b"CDU,Union\nSPD\n", b"a,b,c\n", b"\xff,x\n"):
            yield from reports("@2023-order", path.read_bytes(), names)


def texts(row, suffix):
    """The files of a row with such a name, those that several pages take among them."""
    named = {word for call in row.calls for word in call.words}
    shared = {path.name: path.read_bytes() for path in test_rows.ROWS.glob("*" + suffix)}
    found = {**shared, **row.files}
    return [bytes(found[name]) for name in sorted(named) if name in found and name.endswith(suffix)]


def rows():
    """The books and the returns of the rows of the tests: each book is checked, and counts each returns of its page."""
    for page in test_rows.pages():
        books, files = {}, {}
        for row in test_rows.rows_of(page):
            books.update(dict.fromkeys(texts(row, ".law")))
            files.update(dict.fromkeys(text for text in texts(row, ".csv") if len(text) <= LARGEST))
        for book in books:
            yield request("check book", book)
            yield request("report book returns --json --lang de", book)
            for returns in list(files)[:MOST]:
                yield from counts(book, returns, stages_of(book)[:2])


class Random:
    """Random inputs: small elections with many ties, rulebooks of all methods, and a part of both spoilt."""

    def __init__(self, seed):
        self.rng = random.Random(seed)

    def pick(self, *items):
        return self.rng.choice(items)

    def votes(self):
        kind = self.rng.random()
        if kind < 0.4:
            return self.rng.randrange(0, 12) * 10
        return self.rng.randrange(0, 2000 if kind < 0.8 else 100_000_000)

    def returns(self):
        rng = self.rng
        lands = ["L%d" % i for i in range(rng.randrange(1, rng.choice((3, 5, 17))))]
        parties = [self.pick("A", "B", "CDU", "x-y_", "Z9") + str(i) for i in range(rng.randrange(1, rng.choice((4, 7, 20))))]
        second = rng.random() < 0.3
        records = [("kind2" if second else "kind") + ",land,party,a,b,c"]
        if rng.random() < 0.7:
            records.append("house,,,%d,," % rng.choice((1, 2, 3, 5, 7, 10, 20, 31, 100, 598)))
        records += ["land,%s,,%d,," % (land, self.votes()) for land in lands]
        records += ["party,,%s,%d,," % (party, rng.random() < 0.1) for party in parties]
        for land in lands:
            for party in parties:
                if rng.random() < 0.85:
                    valid = self.votes()
                    left = rng.choice(("", "0", "1", "5")) if second else ""
                    records.append("list,%s,%s,%d,%d,%s" % (land, party, valid, valid if rng.random() < 0.9 else valid // 2, left))
        winners = []
        for i in range(rng.choice((0, 0, 2, 6, 20))):
            land, party = rng.choice(lands), rng.choice(parties) if rng.random() < 0.9 else ""
            of = rng.randrange(1, 30)
            winners.append((land, party, "w%d" % i))
            records.append("win,%s,%s,w%d,%d,%d" % (land, party, i, rng.randrange(1, of + 1), of))
        if rng.random() < 0.5:
            records += self.lots(lands, parties, winners)
        return ("\n".join(records) + "\n").encode()

    def lots(self, lands, parties, winners):
        lots = []
        lots += ["lot,,%s,%s,," % (party, self.pick("upper", "s")) for party in self.rng.sample(parties, len(parties))]
        lots += ["lot,%s,%s,%s,," % (land, party, self.pick("lower", "s")) for land in lands for party in self.rng.sample(parties, len(parties))]
        lots += ["lot,%s,%s,seats,%s," % winner for winner in winners]
        return list(dict.fromkeys(lots))

    def rounding(self, minima):
        """A method with an option that it has, or now and then one that it may not have."""
        method = self.pick(*METHODS)
        if self.rng.random() < 0.05:
            return method + self.pick(", majority refuse", ", majority prefer", ", atleast winners")
        if method == "hamilton":
            return method + self.pick("", "", ", majority refuse", ", majority prefer")
        return method + self.pick("", "", ", majority refuse", *([", atleast winners"] if minima else []))

    def book(self):
        rng = self.rng
        if rng.random() < 0.3:
            return "@" + rng.choice(LAWS)
        plain = [method for method in METHODS if method != "hamilton"]
        eligible = self.pick("all", "all", "valid at least 5 per 100", "valid at least 1 per 10 or winners at least 2", "winners at least 1 or minority")
        last = self.pick("keep", "cover", "keep vacate")
        head = 'rulebook %d; law "t"; house %d; eligible %s; ' % (rng.choice((1, 2)) if last != "keep vacate" else 2, rng.choice((1, 4, 8, 20, 99)), eligible)
        pool = self.pick("house", "less(house, sum(outside, all))", "less(house, sum(independents, all))")
        kind = rng.random()
        if kind < 0.3:
            return (head + "stage s = split(%s, %s, %s); seats s %s;" % (pool, self.pick(*["counted"] * 19, "valid"), self.rounding(True), last)).encode()
        if kind < 0.75:
            stages = "stage upper = split(%s, sum(counted, party), %s); stage lower = split(upper, counted, %s); " % (pool, self.rounding(False), self.rounding(True))
            return (head + stages + "seats lower %s;" % last).encode()
        stages = "stage lands = split(house, population, %s); stage first = split(lands, counted, %s); " % (self.pick(*METHODS), self.pick(*METHODS))
        stages += "stage floor = sum(larger(first, winners), party); stage upper = grow(house, sum(counted, party), %s, floor, %d); " % (self.pick(*plain), rng.choice((50, 400, 4000)))
        stages += "stage lower = split(upper, counted, %s, atleast winners); " % self.pick(*plain)
        return (head + stages + "seats lower %s;" % last).encode()

    def spoilt(self, data):
        """The bytes with a few of them changed, cut, or exchanged."""
        rng, data = self.rng, bytearray(data)
        for _ in range(rng.choice((1, 1, 2, 5))):
            at = rng.randrange(len(data) + 1)
            kind = rng.random()
            if kind < 0.4 and at < len(data):
                data[at] = rng.choice(b'0199,,;\n"AaZ_-.# \r\xc3\xbc\x00') if rng.random() < 0.8 else rng.randrange(256)
            elif kind < 0.6:
                data[at:at] = rng.choice((b",", b"\n", b";", b"9", b'"', b" ", b"seats", b"\r\n", b"x"))
            elif kind < 0.8:
                del data[at:at + rng.choice((1, 1, 3, 10))]
            elif kind < 0.9:
                del data[at:]
            else:
                lines = data.split(b"\n")
                rng.shuffle(lines)
                data = bytearray(b"\n".join(lines))
        return bytes(data)


def largest():
    """The largest returns: 4 MiB with 64 Länder, 256 parties, 16,384 lists, 2,000 winners and 4,000 lots."""
    return elections.returns(4194304).encode()


def wide():
    """Returns of 64 Länder and 256 parties, each with a list in each Land, and 600 winners."""
    rng = random.Random(1)
    lands = ["Land%02d" % i for i in range(64)]
    parties = ["Party%03d" % i for i in range(256)]
    records = ["kind,land,party,a,b,c", "house,,,4000,,"]
    records += ["land,%s,,%d,," % (land, rng.randrange(1_000_000, 100_000_000)) for land in lands]
    records += ["party,,%s,1,," % party for party in parties]
    for land in lands:
        for party in parties:
            votes = rng.randrange(1, 1_000_000)
            records.append("list,%s,%s,%d,%d," % (land, party, votes, votes))
    for i in range(600):
        of = rng.randrange(100_000, 300_000)
        records.append("win,%s,%s,%d,%d,%d" % (rng.choice(lands), rng.choice(parties), i, rng.randrange(1, of), of))
    return ("\n".join(records) + "\n").encode()
