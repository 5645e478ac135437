"""Somebody who has a keyboard and a screen reader alone: keys are pressed, and what is known of the page is what Chromium's accessibility tree says."""
import subprocess
import time

from browsers import Lost
from election import made_up
from user import DATA, User

WORDS = {
    "de": {"paste": "Text einfügen", "take": "Text übernehmen", "absent": "Nicht im Haus", "lacks": "es fehlen", "own": "Eigenes Regelwerk", "book": "Text des Regelwerks", "returns": "Wahlergebnis (Datei)",
           "steps": "Wie dieser Sitz gewonnen wurde", "last": "Linke, Bund, Sitz 64", "place": "Platz 1", "add": "Lose anhängen und neu zählen", "given": "ändern", "save": "Speichern", "table": "Tabelle (.txt)", "parties": "Parteien"},
    "en": {"paste": "Paste a text", "take": "Take the text", "absent": "Not in the house", "lacks": "lacks", "own": "Rulebook of your own", "book": "Text of the rulebook", "returns": "Returns (file)",
           "steps": "How this seat was won", "last": "Linke, Bund, seat 64", "place": "Place 1", "add": "Add the lots and count again", "given": "change", "save": "Save", "table": "Table (.txt)", "parties": "Parties"},
}
MOST_TABS = 150  # presses of Tab in which what is looked for has to come


class Node:
    """A node of the accessibility tree: its role, its name, what it is valued at, and those below it."""

    def __init__(self, given, every):
        self.given, self.every = given, every
        self.role, self.name, self.value = (given.get(key, {}).get("value", "") for key in ("role", "name", "value"))

    def has(self, key):
        return any(one["name"] == key and one["value"].get("value") for one in self.given.get("properties", []))

    def below(self):
        for number in self.given.get("childIds", []):
            if number in self.every:
                yield self.every[number]
                yield from self.every[number].below()

    def all_of(self, role, name=""):
        return [node for node in self.below() if node.role == role and name in node.name]


class Reader(User):
    def words(self, key):
        return WORDS[self.language][key]

    # ---- what is read out

    def tree(self):
        every = {}
        for given in self.browser.call("Accessibility.getFullAXTree")["nodes"]:
            every[given["nodeId"]] = Node(given, every)
        return next(node for node in every.values() if node.role == "RootWebArea")

    def read(self, role, name=""):
        """The first part of this role whose name has these words, when it comes to be."""
        end = time.monotonic() + 60
        while time.monotonic() < end:
            found = self.tree().all_of(role, name)
            if found:
                return found[0]
            time.sleep(0.3)
        raise Lost("nothing is read out as %s %s" % (role, name))

    def focused(self):
        """What has the focus."""
        number = self.browser.call("Runtime.evaluate", expression="document.activeElement")["result"]["objectId"]
        given = self.browser.call("Accessibility.getPartialAXTree", objectId=number, fetchRelatives=False)["nodes"][0]
        return Node(given, {})

    # ---- what is pressed

    def tab_to(self, name, *roles):
        """Presses Tab until the focus is on a part of such a name."""
        seen = []
        for _ in range(MOST_TABS):
            self.browser.press("Tab")
            node = self.focused()
            seen.append(node.name)
            if name in node.name and (not roles or node.role in roles):
                return node
        raise Lost("no Tab goes to %s: %s" % (name, seen))

    def press_at(self, name, *roles):
        self.tab_to(name, *roles)
        self.browser.press("Enter")

    def counted_by(self, act):
        """Does something after which the page counts; whoever reads hears that by the status."""
        before = self.run("document.body.dataset.counted || ''")
        act()
        self.browser.wait("(document.body.dataset.counted || '') !== %r" % before)
        self.browser.wait("document.body.dataset.shown")

    def pasted(self, name, text):
        """Goes to a field of text and puts a text in place of what is there."""
        self.tab_to(name, "textbox")
        self.browser.call("Input.dispatchKeyEvent", type="keyDown", key="a", code="KeyA", windowsVirtualKeyCode=65, modifiers=2, commands=["selectAll"])
        self.browser.call("Input.dispatchKeyEvent", type="keyUp", key="a", code="KeyA", windowsVirtualKeyCode=65, modifiers=2)
        self.browser.type(text)

    # ---- the way

    def from_the_start_to_a_partys_last_seat(self):
        """An election is chosen; the seats are one stop, in which the page keys go from party to party."""
        self.counted_by(lambda: self.press_at("2025", "button"))
        self.expect_in("the focus after the count", "2025.csv", self.focused().name)
        self.expect_in("what is told of the count", "2025.csv", self.told_by_status())
        self.tab_to("Sitz 1" if self.language == "de" else "seat 1", "button")
        self.browser.press("PageDown")
        self.browser.press("ArrowLeft")
        self.expect("the last seat of the first party", self.focused().name, self.words("last"))
        self.browser.press("Enter")
        heading = self.read("heading", self.words("steps"))
        self.expect_in("the heading of its steps", self.words("last"), heading.name)
        rows = [[cell.name for cell in row.below() if cell.role in ("cell", "gridcell", "rowheader")] for row in self.read("table", "Bund / Linke 64").all_of("row")]
        line = next(line for line in self.written("steps", "@2023-order", DATA / "elections" / "2025.csv") if line[:2] == ["seat", "lower"] and "Bund/LINKE" in line and line[line.index("Bund/LINKE") + 1] == "64")
        self.expect_in("its steps", line[-1], " ".join(cell for row in rows for cell in row))

    def told_by_status(self):
        return " ".join(" ".join(part.name for part in node.below()) for node in self.tree().all_of("status"))

    def to_the_reason_of_absence(self):
        """Returns are pasted; a table says of a party that is not in the house what it lacks."""
        path = self.file("made-up.csv", made_up())
        self.back_to_what_is_given()
        self.press_at(self.words("paste"))
        self.pasted(self.words("returns"), path.read_text())
        self.counted_by(lambda: self.press_at(self.words("take"), "button"))
        table = self.read("table", self.words("absent"))
        row = next(row for row in table.all_of("row") if any("FDP" in head.name for head in row.all_of("rowheader")))
        lacks = next(row["votes_short"] for row in self.tables("totals", path, "@2023-order")["votes"] if row["party"] == "FDP")
        number = "{:,}".format(lacks).replace(",", "." if self.language == "de" else ",")
        text = " ".join(cell.name for cell in row.below())
        for part in (self.words("lacks"), number):
            self.expect_in("why FDP is absent", part, text)
        self.expect("the heads of its table", len(table.all_of("columnheader")), 4)

    def back_to_what_is_given(self):
        """Goes back to the begin of the page, and opens what is folded there."""
        self.browser.press("Home")
        self.run("(document.activeElement.blur(), window.scrollTo(0, 0))")
        if not self.tree().all_of("button", "2025"):
            self.press_at(self.words("given"))

    def to_a_lot(self):
        """A rulebook and returns with a tie are pasted; the names are ordered as the lot has fallen, and it is counted again."""
        folder = DATA / "tie"
        self.back_to_what_is_given()
        self.pasted(self.words("returns"), (folder / "returns.csv").read_text())
        self.counted_by(lambda: self.press_at(self.words("take"), "button"))
        self.back_to_what_is_given()
        self.press_at(self.words("own"))
        self.pasted(self.words("book"), (folder / "book.law").read_text())
        self.counted_by(lambda: self.press_at(self.words("take"), "button"))
        place = self.tab_to(self.words("place"), "combobox")
        first = place.value
        self.browser.press("ArrowDown")
        self.browser.wait("document.querySelectorAll('.tie select')[0].value !== %r" % first)
        self.expect("whether another name stands at the first place", self.read("combobox", self.words("place")).value == first, False)
        self.counted_by(lambda: self.press_at(self.words("add"), "button"))
        self.read("table", self.words("parties"))

    def to_a_saved_table(self):
        """What the command writes is saved."""
        self.run("(document.activeElement.blur(), window.scrollTo(0, 0))")
        self.press_at(self.words("save"), "DisclosureTriangle", "button", "summary")
        self.press_at(self.words("table"), "button")
        name = self.run("'seatlaw-own-' + window.page.shownResult().book.name.replace(/[^\\w.-]+/g, '_') + '.txt'")
        saved = self.browser.downloaded(name)
        returns = self.file("drawn.csv", self.run("window.page.state.returns.text"))
        wanted = subprocess.run([self.program, "count", str(DATA / "tie" / "book.law"), str(returns)], capture_output=True, timeout=120)
        self.expect("the saved table, and its status", (saved, wanted.returncode), (wanted.stdout, 0))

    def names_of_controls(self):
        """Whatever takes the focus has a name, and tables have heads."""
        self.expect("controls without a name", [node.role for node in self.tree().below() if node.has("focusable") and not node.name and node.role not in ("generic", "RootWebArea")], [])

    def all(self):
        self.browser.call("Accessibility.enable")
        self.each((self.from_the_start_to_a_partys_last_seat, self.to_the_reason_of_absence, self.to_a_lot, self.to_a_saved_table, self.names_of_controls))
