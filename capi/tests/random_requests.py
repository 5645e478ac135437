"""Random requests, and ones that nobody means, for the tests of the library and of the Python package: each is a case of check/doors.py."""
import pathlib
import random
import sys

TOP = pathlib.Path(__file__).resolve().parents[2]
sys.path[:0] = [str(TOP / "check"), str(TOP / "web")]
import cases  # noqa: E402
import rows as test_rows  # noqa: E402
from doors import Case  # noqa: E402
from hostile import CODE, ENDLESS  # noqa: E402

# How often each command is tried, and what it reads and writes.
COMMANDS = {
    "count": (20, "book returns"), "steps": (12, "book returns"), "stage": (10, "book returns stage"), "check": (6, "book"), "code": (6, "book out"),
    "run": (14, "code returns"), "law": (1, "law"), "explain": (1, "fault"), "report": (12, "book returns"), "stages": (4, "book returns"),
    "totals": (7, "returns book"), "compare": (7, "returns book"),
}
REPORTS = ("report", "stages", "totals", "compare")
FORMS = ([], ["--json"], ["--json"], ["--markdown"], ["--html"], ["--csv"])
NAMES = (b"", b'L0,Land Null\nB0,"B, die Null"\n', b"L0\n", b"a,b,c\n", b"\xff,x\n")
BEFORE = (b"", b"total 3\nparty A0 2 0\nparty gone 1 0\n", b"total\n")
FAULTS = ("B15", "b15", "C15", "R01", "l04", "B23", "B00", "A01", "C1", "B015", "", "x" * 300, "\u00e4", "--quiet", "B15 ")
LAW_NAMES = (*cases.LAWS, "2023x", "x" * 300, "", "2023 ", "2023\u00e4")
ODD_CODES = (b"", b"S", b"SLC\x01", b"SLC\x02\x00\x00", bytes(range(256)), b"\xff" * 70_000, b"SLC\x01" + b"\x00" * 4_194_300, b"SLC\x01" + b"\x00" * 4_194_301)


def options(rng, command):
    """Options of a command, and the files that they name."""
    words, files = list(rng.choice(([], [], ["--quiet"], ["--lang", "de"], ["--lang", "en"]))), {}
    if command in REPORTS:
        words += rng.choice(FORMS)
    if command in REPORTS and rng.random() < 0.3:
        words += ["--names", "names"]
        files["names"] = rng.choice(NAMES)
    if command == "compare":
        words += ["--method=" + method for method in rng.sample(cases.METHODS, rng.choice((0, 0, 1, 2)))]
    if command == "report" and rng.random() < 0.2:
        words += ["--short", "--before", "before"]
        files["before"] = rng.choice(BEFORE)
    return words, files


def given(name, data):
    """The word for an input, and the files: data is its bytes, or else the word itself, as @2023."""
    return (name, {name: data}) if isinstance(data, bytes) else (data, {})


def case_of(rng, command, book, code, returns, stage=None):
    """A request of a command: a book is bytes, or the name of a statute with @ before it."""
    words, files = options(rng, command)
    names = cases.stages_of(book) if isinstance(book, bytes) else ["pool", "upper", "lower"]
    inputs = {"book": book, "code": code, "returns": returns, "law": rng.choice(LAW_NAMES), "fault": rng.choice(FAULTS), "out": "out"}
    inputs["stage"] = rng.choice([*names, "none"]) if stage is None else stage
    named = COMMANDS[command][1].split()
    if command == "totals" and rng.random() < 0.3:
        named.remove("book")
    words.append("--")
    for name in named:
        word, more = given(name, inputs[name])
        words.append(word)
        files.update(more)
    if command == "compare":
        words += rng.sample(["@" + law for law in cases.LAWS], rng.randrange(3))
    if files and rng.random() < 0.02:
        del files[rng.choice(list(files))]
    return Case([command, *words], files)


def spoilt_code(rng, code):
    """A code file with a few of its bytes changed, taken away or put in, or cut."""
    code = bytearray(code)
    for _ in range(rng.choice((1, 1, 2, 4))):
        at, kind = rng.randrange(len(code) + 1), rng.random()
        if kind < 0.7 and at < len(code):
            code[at] = rng.randrange(rng.choice((4, 45, 256)))
        elif kind < 0.8:
            code[at:at] = rng.randbytes(1)
        elif kind < 0.9:
            del code[at:at + rng.choice((1, 2, 9))]
        else:
            del code[at:]
    return bytes(code)


def codes_of(ask, books):
    """The code files of rulebooks, of those that are not refused; `ask` gives the replies to cases."""
    replies = ask([Case(["code", "--quiet", word, "out"], files) for word, files in (given("book", book) for book in books)])
    return [reply.made for reply in replies if reply.made]


def codes_of_rows():
    """The code files of the rows of the tests."""
    named = (files.items() for page in test_rows.pages() for files in (row.files for row in test_rows.rows_of(page)))
    return sorted({bytes(data) for files in named for name, data in files if name.endswith(".slc")})


def random_cases(count, seed, ask):
    """Random small elections with many ties, rulebooks of all methods and their code files, and a part of all three spoilt."""
    made = cases.Random(seed)
    rng = made.rng
    codes = codes_of(ask, [made.book() for _ in range(count // 20 + 10)])
    codes += [spoilt_code(rng, code) for code in codes] + codes_of_rows()
    commands, weights = list(COMMANDS), [often for often, _ in COMMANDS.values()]
    for _ in range(count):
        book, returns = made.book(), made.returns()
        if rng.random() < 0.2:
            returns = made.spoilt(returns)
        if isinstance(book, bytes) and rng.random() < 0.2:
            book = made.spoilt(book)
        yield case_of(rng, rng.choices(commands, weights)[0], book, rng.choice(codes), returns)


def hostile(count, seed, ask):
    """Inputs that nobody means: no bytes, all bytes, random ones, the examples and their code files cut anywhere, changed everywhere, and repeated;
    endless and too long ones; and the largest returns."""
    rng, made = random.Random(seed), cases.Random(seed)
    books = [path.read_bytes() for path in sorted(cases.EXAMPLES.glob("**/*.law"))]
    returns = [path.read_bytes() for path in sorted(cases.EXAMPLES.glob("**/*.csv"))]
    codes = codes_of(ask, books)
    codes += [it[:rng.randrange(len(it))] for it in codes] + [spoilt_code(rng, it) for it in codes] + [2 * codes[0], CODE, *ODD_CODES]
    odd = [b"", b"\0", bytes(range(256)), b"\xff" * 70_000, b"(" * 65_536, b"\n" * 65_537, b'"' * 5000, b"\xef\xbb\xbf", rng.randbytes(65_536)]
    odd += [b"kind,land,party,a,b,c\n" + b"\n" * 4_194_304, b"kind,land,party,a,b,c\n" + b'"', b"kind,land,party,a,b,c\r" * 9999]
    books += odd + [it[:rng.randrange(len(it))] for it in books] + [made.spoilt(book) for book in books]
    returns += odd + [it[:rng.randrange(len(it))] for it in returns] + [made.spoilt(it) for it in returns]
    for _ in range(count):
        book, stage = rng.choice(["@2023", *books]), rng.choice(["", "upper", "\x7f", "x" * 70_000, "\u00e4", "--"])
        yield case_of(rng, rng.choice(list(COMMANDS)), book, rng.choice(codes), rng.choice(returns), stage)
    # (not on the largest returns: a code that does not end takes more than a minute on them, which is its budget of steps)
    yield Case(["run", "code", "returns"], {"code": ENDLESS, "returns": (cases.EXAMPLES / "tie" / "returns.csv").read_bytes()})
    for book in ("@2023", "@1956"):
        for data in (cases.largest(), cases.wide()):
            yield Case(["count", book, "returns"], {"returns": data})
