"""Explanations in parts: they are those of the text that the program writes, and the same whichever call has the fault. Run by python/test."""
import pathlib
import sys
import unittest

import seatlaw
sys.path.append(str(pathlib.Path(__file__).resolve().parents[2] / "tools"))
from repository import EXAMPLES  # noqa: E402
from seatlaw import errors
from test_package import BOOKS, RETURNS


def raised(call, *inputs):
    """The exception of a call, or None."""
    try:
        call(*inputs)
    except seatlaw.SeatlawError as error:
        return error
    return None


class Explanations(unittest.TestCase):
    def assert_told(self, error, data):
        """The parts of an explanation are those of its text, and the offsets of its place are at the line of the place in the input's bytes."""
        told, text = error.explained, error.explanation()
        self.assertIn("error[%s]: %s\n" % (told.code, told.sentence), text)
        self.assertEqual([line for line in told.help + told.records if "= help: %s\n" % line not in text], [])
        self.assertEqual([line for line in told.more if line not in text], [])
        self.assertEqual(errors.LOT.findall(text), list(told.records))
        found = errors.PLACE.search(text)
        self.assertEqual(error.place and (told.input, *map(str, error.place)), found and found.groups())
        if told.place is not None:
            before = data[told.input][:told.place.start].decode(errors="replace")
            self.assertEqual((before.count("\n") + 1, len(before.split("\n")[-1]) + 1), told.place[:2])
            self.assertLessEqual(told.place.start, told.place.end)
        self.assertEqual(error.code, told.code)

    def test_of_faults(self):
        faults = 0
        for book in BOOKS:
            for returns in RETURNS:
                error = raised(seatlaw.count, book, returns)
                if error is not None:
                    faults += 1
                    self.assert_told(error, {"returns": returns.data})
        self.assertGreater(faults, 3)

    def test_of_refusals(self):
        law, good = seatlaw.law("2023"), (EXAMPLES / "covered" / "returns.csv").read_text()
        books = [law.replace("split(upper", "split(uper"), law[:60], " ", "rulebook 1", law.replace("5 per 100", "5 per 0"), "\u00e4\n", law + "seats"]
        texts = ["", "kind;land", good.replace("310000,310000", "4.5,310000"), good + "list,North,Greens,1,1,\nland,,,x,,\n", good.replace("\n", "\r\n") + '"', "\u00e4" + good]
        pairs = [(seatlaw.Rulebook.from_text(text), seatlaw.Returns.from_text(good)) for text in books]
        pairs += [(seatlaw.Rulebook.from_text(law), seatlaw.Returns.from_text(text)) for text in texts]
        for book, returns in pairs:
            data = {"book": book.data, "returns": returns.data}
            errors_of = [raised(call, book, returns) for call in (seatlaw.count, seatlaw.report, seatlaw.show)]
            errors_of += [raised(seatlaw.totals, returns, book), raised(seatlaw.compare, returns, ["@2023", book])]
            for error in errors_of:
                self.assertIsInstance(error, seatlaw.Refused)
                self.assertEqual(error.line, errors_of[0].line)
                self.assert_told(error, data)
            self.assertEqual(errors_of[1].explained, errors_of[0].explained)
            self.assertEqual(errors_of[2].explained, errors_of[0].explained)
        for book, _ in pairs[:len(books)]:
            for call in (seatlaw.check, seatlaw.code):
                self.assert_told(raised(call, book), {"book": book.data})

    def test_without_parts(self):
        returns = seatlaw.Returns.from_file(EXAMPLES / "tie" / "returns.csv")
        run = raised(seatlaw.run, seatlaw.code(seatlaw.Rulebook.from_file(EXAMPLES / "tie" / "book.law")), returns)
        self.assertEqual((run.explained, run.code), (None, "L04"))
        self.assertEqual(raised(seatlaw.stage, "@2023", returns, "x").explained, None)


if __name__ == "__main__":
    unittest.main()
