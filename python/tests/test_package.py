"""The package over the examples: results, exceptions, inputs made of tables, frames and pictures. Run at the top of the repository by python/test."""
import concurrent.futures
import dataclasses
import hashlib
import json
import pathlib
import re
import subprocess
import sys
import tempfile
import unittest
import xml.etree.ElementTree
from fractions import Fraction

import seatlaw
sys.path.append(str(pathlib.Path(__file__).resolve().parents[2] / "tools"))
from repository import EXAMPLES, TOP  # noqa: E402
from seatlaw import reports

ALL = sorted(EXAMPLES.glob("**/*.csv"))
RETURNS = [seatlaw.Returns.from_file(path) for path in ALL if path.read_bytes().startswith(b"kind")]
BOOKS = ["@" + name for name in seatlaw.STATUTES] + [seatlaw.Rulebook.from_file(path) for path in sorted(EXAMPLES.glob("**/*.law"))]


def outcome(call, *inputs):
    """The text of a result, or the line of an exception."""
    try:
        return call(*inputs).text
    except seatlaw.SeatlawError as error:
        return error.line


class Results(unittest.TestCase):
    def test_tables_have_each_line(self):
        for book in BOOKS:
            for returns in RETURNS:
                try:
                    table = seatlaw.count(book, returns)
                except seatlaw.SeatlawError:
                    continue
                rows = [("total", table.total), *(("party", *row) for row in table.parties), *(("list", *row) for row in table.lists)]
                rows += [*(("vacant", *row) for row in table.vacant)]
                singles, unseated = [row.constituency for row in table.singles], [row.constituency for row in table.open]
                rest = [("single" if name in singles else "open", name) for name in (row.constituency for row in returns.winners) if name in singles + unseated]
                self.assertEqual("".join(" ".join(map(str, row)) + "\n" for row in rows + rest), table.text)

    def test_steps_have_each_line(self):
        for book in BOOKS:
            for returns in RETURNS:
                try:
                    steps = seatlaw.steps(book, returns)
                except seatlaw.SeatlawError:
                    continue
                rows = [("seat", *row) for row in steps.seats]
                rows += [("bounds", *row[:4], *(["lot"] if row.lot else [])) for row in steps.bounds]
                self.assertEqual("".join(" ".join(map(str, row)) + "\n" for row in rows) + steps.table.text, steps.text)
                self.assertEqual(steps.table.text, seatlaw.count(book, returns).text)

    def test_stages(self):
        returns = seatlaw.Returns.from_file(EXAMPLES / "six-laws" / "returns.csv")
        found = {column.stage: column.values for column in seatlaw.stages("@2013", returns)}
        self.assertEqual(list(found), ["pool", "lands", "first", "floor", "upper", "lower"])
        self.assertEqual(found["floor"], {"A": 9, "B": 3})
        self.assertEqual(seatlaw.stage("@2013", returns, "lower")["X/A"], 6)
        for book in BOOKS:
            self.assertEqual(len(seatlaw.stage_names(book)), seatlaw.check(book).stages)

    def test_names_of_stages_in_odd_texts(self):
        book = seatlaw.Rulebook.from_text('rulebook 1; law "stage a = b"; house 4; eligible all; # stage c\nstage\ns=split(house, counted, webster); seats s keep;')
        self.assertEqual(seatlaw.stage_names(book), ("s",))
        self.assertEqual(seatlaw.check(book), (1, 4, 1, "stage a = b"))

    def test_seats_of_2025(self):
        returns = seatlaw.Returns.from_file(EXAMPLES / "elections" / "2025.csv")
        names = (EXAMPLES / "elections" / "names.csv").read_bytes()
        report = seatlaw.report("@2023-order", returns, names)
        self.assertEqual({row.party: row.seats for row in report.parties}, dict(CDU=164, AFD=152, SPD=120, GRUENE=85, LINKE=64, CSU=44, SSW=1))
        self.assertEqual(report.votes_missing("upper")["CDU"], 12422)
        self.assertEqual(report.divisors["upper", "all"], 68100)
        self.assertEqual(report.parties[4].party_name, "Die Linke")
        self.assertEqual(str(report.parties[0].percent), "26.139")
        self.assertEqual(report.parties[0].percent_exact * sum(row.valid for row in report.parties), 100 * 11196374)

    def test_a_lot_in_a_report(self):
        folder = EXAMPLES / "tie"
        report = seatlaw.report(seatlaw.Rulebook.from_file(folder / "book.law"), seatlaw.Returns.from_file(folder / "drawn.csv"))
        self.assertEqual([(row.divisor, row.lot) for row in report.scopes], [(200, True)])
        self.assertEqual({row.entry: row.lot for row in report.entries}, {"Town/Reds": True, "Town/Blues": False, "Town/Greens": True})
        self.assertEqual(reports._exact("divisor", "100/3"), Fraction(100, 3))

    def test_rows_are_those_of_the_schema(self):
        schema = json.loads((TOP / "docs" / "report.schema.json").read_text())
        for key, table in schema["properties"]["tables"]["properties"].items():
            if key in reports.ROWS:
                self.assertEqual(sorted(table["items"]["required"]), sorted(reports.ROWS[key]._fields), key)
        fields = lambda kind: sorted(field.name for field in dataclasses.fields(kind))  # noqa: E731
        self.assertEqual(sorted(set(schema["required"]) - {"tables"}), fields(reports.Heading))
        told = schema["$defs"]
        self.assertEqual(sorted(told["explanation_or_none"]["required"]), fields(seatlaw.Explanation))
        self.assertEqual(tuple(told["place"]["required"]), seatlaw.Span._fields)
        self.assertEqual(set(told["input"]["properties"]), set(reports.Input._fields))

    def test_headings(self):
        digest = lambda data: hashlib.sha256(data).hexdigest()  # noqa: E731
        book, returns = seatlaw.Rulebook.from_file(EXAMPLES / "first-count" / "book.law"), seatlaw.Returns.from_file(EXAMPLES / "first-count" / "returns.csv")
        both = (("book", digest(book.data), None), ("returns", digest(returns.data), None))
        for made, command in ((seatlaw.report(book, returns), "report"), (seatlaw.totals(returns, book), "totals"), (seatlaw.totals(returns), "totals")):
            heading = made.heading
            self.assertEqual((heading.schema, heading.command, heading.status, heading.fault, heading.explanation), (2, command, 0, None, None))
            self.assertEqual(heading.inputs, both if "book" in made.text[:300] else both[1:])
            self.assertIn('version = "%s"' % heading.program, (TOP / "python" / "pyproject.toml").read_text())
        compared = seatlaw.compare(returns, ["@2023", book]).heading
        statute = digest(seatlaw.law("2023").encode())
        self.assertEqual(compared.inputs, (("book", statute, "@2023"), ("book", both[0][1], "book"), both[1]))

    def test_names_of_scopes_and_entries(self):
        report = seatlaw.report("@2023-order", seatlaw.Returns.from_file(EXAMPLES / "elections" / "2025.csv"), (EXAMPLES / "elections" / "names.csv").read_bytes())
        self.assertEqual([(row.last, row.next) for row in report.scopes[:2]], [(("CSU",), ("CDU",)), (("Bund/CDU",), ("Bund/CDU",))])
        for row in report.entries:
            self.assertEqual("/".join(filter(None, (row.land, row.party))), row.entry)
        tied = seatlaw.Returns.from_file(EXAMPLES / "tie" / "drawn.csv")
        scope = seatlaw.report(seatlaw.Rulebook.from_file(EXAMPLES / "tie" / "book.law"), tied).scopes[-1]
        self.assertEqual((scope.last, scope.next), (("Town/Reds", "Town/Greens"), ("Town/Blues",)))

    def test_totals_and_compare(self):
        returns = seatlaw.Returns.from_file(EXAMPLES / "covered" / "returns.csv")
        totals = seatlaw.totals(returns, "@2023-order")
        self.assertEqual(totals.totals[0].valid, 1000000)
        self.assertEqual([row.warning for row in totals.warnings], ["house", "few_parties"])
        compared = seatlaw.compare(seatlaw.Returns.from_file(EXAMPLES / "six-laws" / "returns.csv"))
        self.assertEqual(compared.seats["B"]["@2013"], 4)
        self.assertEqual((compared.lists["X", "B"]["@2013"], compared.lists["Y", "A"]["@2023"]), (3, 1))
        own, path = seatlaw.Rulebook.from_file(EXAMPLES / "first-count" / "book.law"), EXAMPLES / "first-run" / "book.law"
        self.assertEqual([row.book for row in seatlaw.compare(returns, ["@2013", own]).books], ["@2013", "book"])
        compared = seatlaw.compare(returns, [own, seatlaw.Rulebook.from_file(path, "mine"), "@2023"], methods=["adams", "dean"])
        self.assertEqual([row.book for row in compared.books][:5], ["book", "mine", "@2023", "book+adams", "book+dean"])
        self.assertEqual(compared.seats["Reds"]["mine"], seatlaw.count(seatlaw.Rulebook.from_file(path), returns).seats["Reds"])

    def test_the_page_for_the_press(self):
        returns = seatlaw.Returns.from_file(EXAMPLES / "elections" / "2025.csv")
        table = seatlaw.count("@2023-order", returns)
        short = seatlaw.report("@2023-order", returns, short=True, before=table)
        self.assertEqual([(row.party, row.seats, row.before, row.change) for row in short.press[:-1]], [(row[0], row[1], row[1], 0) for row in table.parties])
        self.assertEqual((short.press[-1].party, short.press[-1].seats, short.heading.command, short.parties), (None, 630, "report --short", ()))
        self.assertRaises(ValueError, seatlaw.report, "@2023-order", returns, before=table)

    def test_languages(self):
        returns = seatlaw.Returns.from_file(EXAMPLES / "covered" / "returns.csv")
        told = [seatlaw.totals(returns, "@2023-order", language=language).warnings[1].text for language in ("en", "de")]
        self.assertIn("threshold", told[0])
        self.assertIn("Sperrklausel", told[1])
        with self.assertRaises(seatlaw.Refused) as caught:
            seatlaw.compare(seatlaw.Returns.from_text("kind;land"), language="de")
        self.assertIn("Semikolon", caught.exception.explained.sentence)
        self.assertIn("semicolon", caught.exception.explanation())
        self.assertRaises(ValueError, seatlaw.explain, "L04", "fr")

    def test_a_column_that_rows_do_not_know(self):
        text = seatlaw.totals(RETURNS[0]).text.replace('"lands":[{', '"lands":[{"further":1,')
        self.assertEqual(reports.totals(text).lands, seatlaw.totals(RETURNS[0]).lands)

    def test_any_request(self):
        reply = seatlaw.ask(["count", "book", "returns"], {"book": b"rulebook 3;", "returns": RETURNS[0].data})
        self.assertEqual((reply.status, reply.out, reply.made), (2, "refused book parse 1 11\n", b""))
        self.assertTrue(reply.err.startswith("error[B07]: "))
        self.assertEqual(seatlaw.ask(["--version"]).out.split()[0], "seatlaw")
        self.assertEqual(seatlaw.ask(["check", "book"], {"book": b""}).status, 2)
        self.assertEqual(seatlaw.ask(["count", "@2023", "returns"]).status, 5)


class AtOnce(unittest.TestCase):
    def test_what_is_shown_is_what_single_calls_give(self):
        for book in BOOKS:
            for returns in RETURNS:
                try:
                    shown = seatlaw.show(book, returns)
                except seatlaw.LegalFault as fault:
                    self.assertEqual(fault.line, outcome(seatlaw.count, book, returns))
                    self.assertEqual(fault.report.heading.fault, fault.line)
                    self.assertEqual(fault.totals.text, seatlaw.totals(returns, book).text)
                except seatlaw.Refused as error:
                    self.assertEqual(error.line, outcome(seatlaw.count, book, returns))
                else:
                    self.assertEqual(shown.table.text, seatlaw.count(book, returns).text)
                    self.assertEqual(shown.steps.text, seatlaw.steps(book, returns).text)
                    self.assertEqual(shown.report.text, seatlaw.report(book, returns).text)
                    self.assertEqual(shown.stages, tuple(seatlaw.stage(book, returns, name) for name in seatlaw.stage_names(book)))
                    self.assertEqual(shown.totals.text, seatlaw.totals(returns, book).text)
        tie = [seatlaw.Rulebook.from_file(EXAMPLES / "tie" / "book.law"), seatlaw.Returns.from_file(EXAMPLES / "tie" / "returns.csv")]
        for inputs in (("@2023", RETURNS[0]), tie):
            with self.assertRaises(seatlaw.Refused) as caught:
                seatlaw.show(*inputs, b"a,b,c\n")
            self.assertEqual((caught.exception.input, caught.exception.explained), ("names", None))


class Exceptions(unittest.TestCase):
    def test_a_refused_rulebook(self):
        text = seatlaw.law("2023").replace("split(upper", "split(uper")
        with self.assertRaises(seatlaw.Refused) as caught:
            seatlaw.check(seatlaw.Rulebook.from_text(text))
        error = caught.exception
        self.assertEqual((error.line, error.input, error.part, error.number, error.at), ("refused book check 5 243", "book", "check", 5, 243))
        self.assertEqual((error.code, error.place, error.explained.place), ("B15", (7, 21), (7, 21, 243, 247)))
        self.assertEqual((error.explained.sentence, error.explained.help[0]), ("there is no stage and no column `uper`", "did you mean `upper`?"))
        self.assertIn("did you mean `upper`?", str(error))
        self.assertIn("Fehler[B15]", error.explanation("de"))

    def test_refused_returns_and_names(self):
        with self.assertRaises(seatlaw.Refused) as caught:
            seatlaw.count("@2023", seatlaw.Returns.from_text("kind;land"))
        self.assertEqual((caught.exception.code, caught.exception.number, caught.exception.at), ("R01", 1, 1))
        good = seatlaw.Returns.from_file(EXAMPLES / "elections" / "2025.csv")
        for call, line, code in (
            (lambda: seatlaw.law("2021"), "refused law 2021", "B01"), (lambda: seatlaw.stage("@2023", good, "x"), "refused stage x", "B22"),
        ):
            with self.assertRaises(seatlaw.Refused) as caught:
                call()
            self.assertEqual((caught.exception.line, caught.exception.code, caught.exception.explained), (line, code, None))
            self.assertIn("Fehler[%s]" % code, caught.exception.explanation("de"))
        with self.assertRaises(seatlaw.Refused) as caught:
            seatlaw.report("@2023", good, b"a,b,c\n")
        self.assertEqual(caught.exception.input, "names")

    def test_a_tie_and_its_lots(self):
        book, returns = (seatlaw.Rulebook.from_file(EXAMPLES / "tie" / "book.law"), seatlaw.Returns.from_file(EXAMPLES / "tie" / "returns.csv"))
        with self.assertRaises(seatlaw.LegalFault) as caught:
            seatlaw.count(book, returns)
        fault = caught.exception
        self.assertEqual((fault.stage, fault.scope, fault.kind, fault.seats, fault.code), ("council", "all", "tie", 2, "L04"))
        self.assertEqual(fault.names, ("Town/Reds", "Town/Blues", "Town/Greens"))
        self.assertEqual([lot.party for lot in fault.lots], ["Reds", "Blues", "Greens"])
        self.assertEqual(fault.explained.records[0], "lot,Town,Reds,council,,")
        drawn = seatlaw.count(book, returns.with_lots(reversed(fault.lots)))
        self.assertEqual(drawn.seats["Greens"], seatlaw.count(book, returns.with_lots(fault.lots)).seats["Greens"] + 1)
        with self.assertRaises(seatlaw.LegalFault) as caught:
            seatlaw.report(book, returns)
        self.assertEqual(caught.exception.report.parties[0].valid, 500)

    def test_wrong_arguments(self):
        returns = RETURNS[0]
        self.assertRaises(TypeError, seatlaw.count, "2023", returns)
        self.assertRaises(ValueError, seatlaw.compare, returns, [book for book in BOOKS if not isinstance(book, str)][:2])
        self.assertRaises(UnicodeEncodeError, seatlaw.stage, "@2023", returns, "\ud800")


class Codes(unittest.TestCase):
    def test_a_run_is_the_count_of_its_book(self):
        for book in BOOKS:
            code = seatlaw.code(book)
            self.assertEqual(len(code.instructions), len(code.listing.splitlines()))
            self.assertEqual("".join("%d %s\n" % (it.number, " ".join([it.name, *map(str, it.operands)])) for it in code.instructions), code.listing)
            for returns in RETURNS:
                self.assertEqual(outcome(seatlaw.run, code, returns), outcome(seatlaw.count, book, returns))

    def test_files(self):
        code = seatlaw.code("@2013")
        with tempfile.TemporaryDirectory() as folder:
            path = pathlib.Path(folder) / "book.slc"
            code.to_file(path)
            self.assertEqual(path.read_bytes(), code.data)
            read = seatlaw.Code.from_file(path)
        self.assertEqual(read, code)
        self.assertRaises(ValueError, lambda: read.instructions)
        self.assertEqual(code.to_frame().shape, (len(code.instructions), 3))

    def test_refused_inputs(self):
        with self.assertRaises(seatlaw.Refused) as caught:
            seatlaw.code(seatlaw.Rulebook.from_text("rulebook 3;"))
        self.assertEqual((caught.exception.input, caught.exception.line), ("book", outcome(seatlaw.check, seatlaw.Rulebook.from_text("rulebook 3;"))))
        self.assertIn("--> book:1:", caught.exception.explanation())
        code = seatlaw.code("@2023").data
        for data, part, fault, at in ((b"SLC", "file", "C04", 3), (b"SLC\x02", "file", "C02", 3), (code + b"\0", "file", "C05", len(code))):
            with self.assertRaises(seatlaw.Refused) as caught:
                seatlaw.run(seatlaw.Code(data), RETURNS[0])
            self.assertEqual((caught.exception.input, caught.exception.part, caught.exception.code, caught.exception.at), ("code", part, fault, at))
        with self.assertRaises(seatlaw.Refused) as caught:
            seatlaw.run(seatlaw.Code(code), seatlaw.Returns.from_text("kind;land"))
        self.assertEqual((caught.exception.input, caught.exception.code, caught.exception.place), ("returns", "R01", (1, 1)))

    def test_an_endless_run(self):
        endless = seatlaw.Code(b"SLC\x01\x00\x00\x02\x00\x00\x00\x2a\x00\x00\x00\x00\x09\x00\x00\x00\x00")
        with self.assertRaises(seatlaw.OutOfBudget) as caught:
            seatlaw.run(endless, RETURNS[0])
        self.assertEqual((caught.exception.line, caught.exception.code), ("out of budget", "C15"))

    def test_a_fault_of_a_run(self):
        returns = seatlaw.Returns.from_file(EXAMPLES / "tie" / "returns.csv")
        with self.assertRaises(seatlaw.LegalFault) as caught:
            seatlaw.run(seatlaw.code(seatlaw.Rulebook.from_file(EXAMPLES / "tie" / "book.law")), returns)
        self.assertEqual([lot.party for lot in caught.exception.lots], ["Reds", "Blues", "Greens"])

    def test_what_codes_mean(self):
        self.assertTrue(seatlaw.explain("b15").startswith("B15: "))
        self.assertIn("Was zu tun ist", seatlaw.explain("C15", "de"))
        for word in ("B99", "", "B1", "\u00e4"):
            self.assertRaises(ValueError, seatlaw.explain, word)


class Inputs(unittest.TestCase):
    def test_returns_of_their_own_tables(self):
        for returns in RETURNS:
            house = [int(record[3]) for record in returns.records if record[0] == "house"]
            tables = dict(lands=returns.lands, parties=returns.parties, lists=returns.lists, winners=returns.winners, lots=returns.lots)
            made = seatlaw.Returns.from_records(**tables, house=house[0] if house else None)
            for book in BOOKS[::3]:
                self.assertEqual(outcome(seatlaw.count, book, made), outcome(seatlaw.count, book, returns))

    def test_returns_of_frames(self):
        import numpy
        import pandas

        lists = pandas.DataFrame({"land": ["N", "N"], "party": ["A", "B"], "valid": [10.0, 20.0], "left": [numpy.nan, 3]})
        made = seatlaw.Returns.from_records(lands=[{"land": "N", "people": numpy.int64(5)}], parties=pandas.DataFrame({"party": ["A", "B"]}), lists=lists)
        self.assertEqual(made.text.splitlines()[0], "kind2,land,party,a,b,c")
        self.assertEqual(made.text.splitlines()[-2:], ["list,N,A,10,10,", "list,N,B,20,20,3"])
        self.assertRaises(ValueError, seatlaw.Returns.from_records, lands=[{"land": "N", "people": 1.5}], parties=[], lists=[])
        self.assertEqual(list(made.to_frame("list").columns), ["land", "party", "valid", "counted", "left"])

    def test_a_house_and_quoted_cells(self):
        returns = seatlaw.Returns.from_text(b'\xef\xbb\xbf"kind",land,party,a,b,c\r\n\r\n"land",N,,"5",,\r\nparty,,A,0,,\r\nlist,N,A,10,10,')
        self.assertEqual(returns.lands, (("N", 5),))
        self.assertEqual(seatlaw.count("@2023", returns.with_house(7)).total, 7)


class Shown(unittest.TestCase):
    def test_the_house(self):
        for returns in RETURNS:
            table = seatlaw.count("@2008", returns) if outcome(seatlaw.count, "@2008", returns).startswith("total") else None
            if table is not None:
                root = xml.etree.ElementTree.fromstring(table.svg({"Reds": "#d4133b"}))
                self.assertEqual(len(root.findall("{http://www.w3.org/2000/svg}circle")), table.total)
                self.assertIn("<table>", table._repr_html_())

    def test_frames(self):
        returns = seatlaw.Returns.from_file(EXAMPLES / "covered" / "returns.csv")
        table, report = seatlaw.count("@2023", returns), seatlaw.report("@2023", returns)
        self.assertEqual(list(table.to_frame("vacant").columns), ["land", "party", "seats"])
        self.assertEqual(table.to_frame("open")["constituency"].tolist(), ["Lakes"])
        self.assertEqual(report.to_frame("covering")["seated"].tolist(), [True, True, True, False])
        self.assertEqual(seatlaw.steps("@2023", returns).to_frame("bounds").shape[1], 5)
        self.assertEqual(seatlaw.compare(returns).to_frame().loc["Reds", "@2023"], 4)
        self.assertIn("covering", report._repr_html_())
        self.assertIn("<table>", seatlaw.stage("@2023", returns, "upper")._repr_html_())


class Threads(unittest.TestCase):
    def test_thirty_two_at_once(self):
        inputs = [(book, returns) for book in BOOKS for returns in RETURNS]
        wanted = [outcome(seatlaw.count, *it) for it in inputs]
        with concurrent.futures.ThreadPoolExecutor(32) as pool:
            for _ in range(10):
                self.assertEqual(list(pool.map(lambda it: outcome(seatlaw.count, *it), inputs)), wanted)


# Counts the largest returns while the process may have little more memory than it has, and ever more, until there is enough.
WITHOUT_MEMORY = """
import resource, sys
sys.path.append(%r)
import elections, seatlaw
book, returns = seatlaw.Rulebook.statute("2023"), seatlaw.Returns.from_text(elections.returns(4194304))
hard = resource.getrlimit(resource.RLIMIT_AS)[1]
taken = int(open("/proc/self/statm").read().split()[0]) * resource.getpagesize()
failed, fault = 0, None
while fault is None:
    resource.setrlimit(resource.RLIMIT_AS, (taken + (failed << 19), hard))
    try:
        seatlaw.count(book, returns)
    except seatlaw.OutOfMemory as error:
        assert isinstance(error, MemoryError)
        failed += 1
    except seatlaw.LegalFault as error:
        fault = error
resource.setrlimit(resource.RLIMIT_AS, (hard, hard))
print(fault.kind, failed > 3)
"""


class Alone(unittest.TestCase):
    def test_without_memory(self):
        done = subprocess.run([sys.executable, "-c", WITHOUT_MEMORY % str(TOP / "bench")], stdout=subprocess.PIPE, check=True)
        self.assertEqual(done.stdout, b"tie True\n")

    def test_without_numpy_and_pandas(self):
        code = (
            "import sys; sys.modules.update(numpy=None, pandas=None); import seatlaw; r = seatlaw.Returns.from_file(%r); t = seatlaw.count('@2023', r)\n"
            "assert t.total == 630\n"
            "for call in (t.to_frame, lambda: seatlaw.simulate):\n"
            "    try: call()\n"
            "    except ImportError: pass\n"
            "    else: raise AssertionError\n" % str(EXAMPLES / "elections" / "2025.csv")
        )
        subprocess.run([sys.executable, "-c", code], check=True)

    def test_the_version_is_the_program_s(self):
        text = (TOP / "crates" / "sl_explain_texts" / "src" / "program.rt").read_text()
        wanted = re.search(r'VERSION: &str = "(.*)"', text)[1]
        self.assertIn('version = "%s"' % wanted, (TOP / "python" / "pyproject.toml").read_text())


if __name__ == "__main__":
    unittest.main()
