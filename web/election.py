"""The page as that of an election: the result first, the house, the tables, what if, saving, print and both schemes. Each function is one thing asked for."""
import json
import math
import random
import subprocess
import xml.dom.minidom

import cases
from user import DATA, User

REAL = DATA / "elections" / "2025.csv"
COVERED = DATA / "covered" / "returns.csv"
# Sixteen Länder with their people in millions, and parties with their shares, for made-up returns.
LANDS = {"SH": 2.9, "HH": 1.9, "NI": 8.0, "HB": 0.7, "NW": 17.9, "HE": 6.3, "RP": 4.1, "BW": 11.1, "BY": 13.1, "SL": 1.0, "BE": 3.7, "BB": 2.5, "MV": 1.6, "SN": 4.1, "ST": 2.2, "TH": 2.1}
SHARES = {"CDU": 0.276, "AFD": 0.2, "SPD": 0.165, "GRUENE": 0.118, "LINKE": 0.085, "CSU": 0.38, "BSW": 0.0498, "FDP": 0.043, "FW": 0.015, "TIERSCHUTZ": 0.01, "VOLT": 0.007, "SSW": 0.045}
WINNING = ("CDU", "CSU", "SPD", "AFD", "GRUENE", "LINKE")


def stands(party, land):
    return {"CSU": land == "BY", "CDU": land != "BY", "SSW": land == "SH"}.get(party, True)


def made_up():
    """Returns of sixteen Länder, with 299 winners of constituencies."""
    rng = random.Random(5)
    records, votes = ["kind,land,party,a,b,c", "house,,,630,,"], {}
    records += ["land,%s,,%d,," % (land, people * 1e6) for land, people in LANDS.items()]
    records += ["party,,%s,%d,," % (party, party == "SSW") for party in SHARES]
    for land, people in LANDS.items():
        for party, share in SHARES.items():
            if stands(party, land):
                votes[land, party] = int(people * 580_000 * share * rng.uniform(0.75, 1.25))
                records.append("list,%s,%s,%d,%d," % (land, party, votes[land, party], votes[land, party]))
    seats = {land: max(1, round(299 * people / sum(LANDS.values()))) for land, people in LANDS.items()}
    seats["NW"] += 299 - sum(seats.values())
    number = 0
    for land, count in seats.items():
        own = [party for party in WINNING if stands(party, land)]
        for _ in range(count):
            number += 1
            of = rng.randrange(120_000, 180_000)
            winner = rng.choices(own, [votes[land, party] ** 3 for party in own])[0]
            records.append("win,%s,%s,%03d,%d,%d" % (land, winner, number, of * rng.uniform(0.25, 0.45), of))
    return "\n".join(records) + "\n"


def in_rows(seats, pick):
    """Of each row of seats, by its radius, the angle of the one that is picked."""
    rows = {}
    for x, y, _ in seats:
        radius, angle = math.hypot(x, y), math.atan2(-y, -x)
        row = next((known for known in rows if abs(known - radius) < 1), radius)
        rows[row] = pick(rows.get(row, angle), angle)
    return rows


def raggedness(left, right):
    """How far the edge between two parties goes from its mean angle, at the most."""
    ends, begins = in_rows(left, max), in_rows(right, min)
    middles = [((end + begin) / 2, radius) for radius, end in ends.items() for other, begin in begins.items() if abs(radius - other) < 1]
    mean = sum(angle for angle, _ in middles) / len(middles)
    return max(abs(angle - mean) * radius for angle, radius in middles)


class Election(User):
    def german(self, german, english):
        return german if self.language == "de" else english

    def begin(self, path=REAL, *laws):
        self.only(*(laws or ("2023-order",)))
        self.give(path)

    def made(self):
        return self.file("made-up.csv", made_up())

    # ---- the result first

    def landing(self):
        """An election is chosen by a press, and a template is there."""
        for year, law in (("2009", "2008"), ("2025", "2023-order")):
            self.reveal("#giving")
            self.after(lambda: self.browser.click('[data-election="%s"]' % year))
            self.expect("the seats of " + year, self.run("document.querySelector('.house .total').dataset.total"), self.table("@" + law, DATA / "elections" / (year + ".csv"))["total"][0][0])
        self.reveal("#giving", "#looks")
        self.browser.click("#template")
        template = self.file("template.csv", self.browser.downloaded("returns-template.csv"))
        self.expect("the status of the template", subprocess.run([self.program, "count", "@2023", str(template)], capture_output=True).returncode, 0)
        self.expect("what a file looks like", self.browser.text("#template-text"), template.read_text())

    def result_first(self):
        self.begin()
        self.browser.size(1400, 1000)
        self.browser.wait("document.querySelector('.house').getBoundingClientRect().top < 400")
        tops = self.run("['.house', 'table.parties'].map(css => document.querySelector(css).getBoundingClientRect()).map(box => [box.top, box.left])")
        self.expect("whether the house and the table stand in the first screen, side by side", [tops[0][0] < 400, tops[1][0] < 400, tops[1][1] > tops[0][1] + 300], [True, True, True])
        self.expect("whether what is given is folded", self.run("document.querySelector('#giving').open"), False)
        line = self.browser.text("#giving summary")
        for part in ("2025.csv", "2023", self.german("ändern", "change")):
            self.expect_in("the line above", part, line)
        self.expect("the focus", self.focus(), "result-part")
        self.browser.size(1200, 900)

    def statutes_in_few_lines(self):
        self.reveal("#giving")
        self.expect("whether the six statutes take less than 260 pixels", self.run("document.querySelector('#books').offsetHeight < 260"), True)
        text = self.browser.text("#books")
        for part in ("1957–1983", "Hare/Niemeyer" if self.language == "de" else "largest remainders", "2025"):
            self.expect_in("the list of statutes", part, text)
        self.reveal("#books details")
        self.expect_in("the text of a statute", "Bundeswahlgesetz 1956", self.browser.text("#books details pre"))

    # ---- the house

    def labels_of_all_parties(self):
        self.begin()
        labels = dict(self.run("[...document.querySelectorAll('.house .label')].map(l => [l.dataset.party, [...l.querySelectorAll('text')].map(x => x.textContent)])"))
        self.expect("the labels", {party: label[1] for party, label in labels.items()}, {p[0]: p[1] for p in self.table("@2023-order", REAL)["party"]})
        self.expect("proper names", [labels["GRUENE"][0], labels["AFD"][0]], ["Grüne", "AfD"])
        self.after(lambda: self.browser.choose("#names-file", self.file("n.csv", "SSW,Wähler\n")))
        self.expect("a short name of the file", self.run("document.querySelector('.house .label[data-party=SSW] text').textContent"), "Wähler")
        self.reveal("#giving")
        self.after(lambda: self.browser.click('[data-key="names-remove"]'))

    def edges_are_straight(self):
        """At each edge between large parties no seat of one lies beyond the edge by more than its own size, and no seats touch."""
        self.begin()
        seats = self.run("[...document.querySelectorAll('g.party')].map(g => [g.dataset.party, [...g.querySelectorAll('.seat')].map(s => ['cx', 'cy', 'r'].map(a => Number(s.getAttribute(a))))])")
        flat = [(party, x, y, r) for party, own in seats for x, y, r in own]
        touching = sum((a[1] - b[1]) ** 2 + (a[2] - b[2]) ** 2 < (1.99 * a[3]) ** 2 for i, a in enumerate(flat) for b in flat[:i])
        self.expect("how many seats touch", touching, 0)
        for (one, left), (other, right) in zip(seats, seats[1:]):
            if min(len(left), len(right)) >= 40:
                self.expect("whether the edge between %s and %s is straight" % (one, other), raggedness(left, right) < 1.3 * flat[0][3], True)
        self.expect("whether seats are larger than before at 360 pixels", 2 * flat[0][3] * 340 / 262 > 4.9, True)

    def order_is_moved(self):
        self.begin()
        order = "[...document.querySelectorAll('g.party')].map(g => g.dataset.party)"
        self.expect("the order from left to right", self.run(order), ["LINKE", "SPD", "GRUENE", "SSW", "CSU", "CDU", "AFD"])
        self.do("document.querySelector('.chip[data-party=\"AFD\"]').focus()")
        self.after_shown(lambda: self.do("document.activeElement.dispatchEvent(new KeyboardEvent('keydown', { key: 'ArrowLeft', shiftKey: true, bubbles: true }))"))
        self.expect("the order after a key", self.run(order)[-2:], ["AFD", "CDU"])
        self.expect("the focus", self.focus(), "chip AFD")
        self.after_shown(lambda: self.browser.click('[data-key="orderBack"]'))
        self.expect("the order as it was", self.run(order)[-1], "AFD")

    def majority_and_sums(self):
        self.begin()
        seats = {p[0]: int(p[1]) for p in self.table("@2023-order", REAL)["party"]}
        total = sum(seats.values())
        self.expect_in("the majority", str(total // 2 + 1), self.browser.text(".house .majority"))
        self.expect("the line", self.browser.count(".majority-line"), 1)
        for party in ("CDU", "CSU", "SPD"):
            self.browser.click('.chip[data-party="%s"]' % party)
        sum_of = seats["CDU"] + seats["CSU"] + seats["SPD"]
        self.expect_in("the sum", str(sum_of), self.browser.text(".coalition"))
        self.expect_in("the majority of the sum", self.german("%d mehr als nötig", "%d more than needed") % (sum_of - total // 2 - 1), self.browser.text(".coalition"))
        self.browser.click('.chip[data-party="SPD"]')
        self.expect_in("a sum that is short", self.german("es fehlen %d", "%d short") % (total // 2 + 1 - seats["CDU"] - seats["CSU"]), self.browser.text(".coalition"))
        for party in ("CDU", "CSU"):
            self.browser.click('.chip[data-party="%s"]' % party)

    def colours_are_told_apart(self):
        """Parties that sit side by side differ in light or in hue."""
        self.begin()
        fills = self.run("[...document.querySelectorAll('g.party')].map(g => g.getAttribute('fill'))")
        near = [(one, other) for i, one in enumerate(fills) for other in fills[:i] if sum((int(one[k:k + 2], 16) - int(other[k:k + 2], 16)) ** 2 for k in (1, 3, 5)) < 3000]
        self.expect("colours that are nearly the same", near, [])
        self.reveal("#colours-part")
        self.do("const c = document.querySelector('[data-key=\"colour CDU\"]'); c.value = '#112233'; c.dispatchEvent(new Event('input'));")
        self.expect("the colour that was chosen", self.run("document.querySelector('g.party[data-party=CDU]').getAttribute('fill')"), "#112233")

    def many_seats_are_grouped(self):
        self.begin(self.file("wide.csv", cases.wide()))
        total = self.browser.text(".house .total")
        self.expect("the number of the house", total, "{:,}".format(int(self.number(total))).replace(",", self.german(".", ",")))

    # ---- tables

    def shares_and_bars(self):
        path = self.made()
        self.begin(path)
        report = {row["party"]: row for row in self.tables("report", "@2023-order", path)["parties"]}
        total = sum(row["seats"] for row in report.values())
        rows = self.named_rows(".result table.parties")
        point = self.german(",", ".")
        wanted = {party: [row["percent"].replace(".", point), "%d%s%02d" % (row["seats"] * 10000 // total // 100, point, row["seats"] * 10000 // total % 100)] for party, row in report.items() if row["seats"]}
        self.expect("the shares", {party: [row[2], row[5]] for party, row in rows.items()}, wanted)
        self.expect("the order", list(rows), sorted(rows, key=lambda party: (-report[party]["seats"], -report[party]["valid"])))
        self.expect("the bars", self.browser.count(".result table.parties svg.bar"), len(rows))

    def difference_to_an_election(self):
        self.begin()
        self.after_shown(lambda: self.do("const s = document.querySelector('#before'); s.value = '2013'; s.dispatchEvent(new Event('change'));"))
        before = {p[0]: int(p[1]) for p in self.table("@2013", DATA / "elections" / "2013.csv")["party"]}
        now = {p[0]: int(p[1]) for p in self.table("@2023-order", REAL)["party"]}
        signed = lambda n: ("+" if n > 0 else "−" if n < 0 else "±") + str(abs(n))
        self.expect("the differences", {party: row[7] for party, row in self.named_rows(".result table.parties").items()}, {party: signed(seats - before.get(party, 0)) for party, seats in now.items()})
        self.after_shown(lambda: self.do("const s = document.querySelector('#before'); s.value = ''; s.dispatchEvent(new Event('change'));"))

    def absent_parties_with_the_reason(self):
        path = self.made()
        self.begin(path)
        votes = {row["party"]: row for row in self.tables("totals", path, "@2023-order")["votes"]}
        seats = {p[0]: p[1] for p in self.table("@2023-order", path)["party"]}
        rows = self.named_rows("table.absent")
        self.expect("the absent parties", set(rows), {party for party in votes if seats[party] == "0"})
        for party, row in rows.items():
            grouped = "{:,}".format(votes[party]["votes_short"]).replace(",", self.german(".", ","))
            self.expect_in("why %s is absent" % party, self.german("es fehlen %s Stimmen", "lacks %s votes") % grouped, row[3])

    def comparison_with_small_houses(self):
        path = self.made()
        self.begin(path, *cases.LAWS)
        self.expect("the small houses", self.browser.count(".compared thead .small-house"), 6)
        self.expect("the full results", self.browser.count(".result"), 1)
        rows = {row["party"]: row for row in self.tables("compare", path)["compare"]}
        first, last = rows["CDU"]["@1956"], rows["CDU"]["@2023"]
        total, cell = rows[None]["@2023"], self.run("(() => { const c = document.querySelectorAll('.compared tr[data-party=CDU] td')[4]; return [c.className, c.textContent]; })()")
        share = last * 10000 // total
        self.expect_in("the share of the house", "%d%s%02d %%" % (share // 100, self.german(",", "."), share % 100), cell[1])
        self.expect_in("the difference", ("+" if last > first else "−") + str(abs(last - first)), cell[1])
        self.expect_in("the sign as a class", "more" if last > first else "fewer", cell[0])
        self.expect("the first column", self.run("getComputedStyle(document.querySelector('.compared tbody th')).position"), "sticky")
        self.after(lambda: self.browser.click('[data-shows="2013"]'))
        self.expect("the statute in full", self.run("document.querySelector('.result').dataset.book"), "2013")
        self.expect("the focus", self.focus(), "show 2013")

    def plain_words(self):
        self.begin(self.made())
        self.reveal("#giving", "#totals-part")
        text = self.browser.text("#totals")
        cells = {cell for row in self.rows("#totals table") for cell in row}
        self.expect("the program's short words that are shown", cells & {row["condition"] for row in self.tables("totals", self.made(), "@2023-order")["votes"]}, set())
        self.expect_in("the words", self.german("nationale Minderheit", "national minority"), text)
        self.expect("the technical word", self.run("document.querySelector('#totals [title]').title"), "5 per 100")

    def warnings_and_trust_at_the_result(self):
        self.begin()
        self.expect("the warnings", len(self.list("#result-part #warnings")), len(self.tables("totals", REAL, "@2023-order")["warnings"]))
        self.expect("whether it is said what is proved", self.browser.text("#result-part .proved") != "", True)

    def scroll_bars_at_their_tables(self):
        self.browser.size(1400, 1000)
        self.begin(self.made())
        wide = self.run("[...document.querySelectorAll('.result > .scrolls')].filter(s => s.clientWidth - s.querySelector('table').offsetWidth > 20).length")
        self.expect("tables whose bar stands apart", wide, 0)
        self.expect("the heads", self.run("getComputedStyle(document.querySelector('.result thead th')).position"), "sticky")
        self.browser.size(1200, 900)

    def fits_a_phone(self):
        self.begin(self.made(), *cases.LAWS)
        for width in (450 if self.browser.name == "firefox" else 360, 768):
            self.browser.size(width, 740)
            self.reveal("details.lists", "details.bounds", "#giving", "#records-part")
            wide = self.run("[document.documentElement.scrollWidth, window.innerWidth]")
            self.expect("whether the page is wider than %d pixels" % width, wide[0] <= wide[1], True)
        self.browser.size(1200, 900)

    # ---- what if

    def what_if_by_a_slider(self):
        path = self.made()
        self.begin(path)
        self.reveal("#whatif-part")
        self.after(lambda: self.do("const s = document.querySelector('[data-key=\"range BSW\"]'); s.focus(); s.value = 20; s.dispatchEvent(new Event('input'));"))
        self.expect("the focus", self.focus(), "range BSW")
        self.expect("the number beside it", self.run("document.querySelector('[data-key=\"number BSW\"]').value"), "20")
        self.expect_in("what was changed", "BSW: +20", self.browser.text("#changed").replace("votes of ", ""))
        self.press_save("saveReturns")
        saved = self.file("saved.csv", self.browser.downloaded("returns.csv"))
        lines = zip(path.read_text().splitlines(), saved.read_text().splitlines())
        wrong = [(old, new) for old, new in lines if new != self.raised(old, "BSW", 20)]
        self.expect("the changed returns", wrong[:3], [])
        self.shown_seats(saved)
        self.press_save("saveJson")
        name = self.german("seatlaw-2023-order-geaendert.json", "seatlaw-2023-order-changed.json")
        self.expect("how many changes are saved", len(json.loads(self.browser.downloaded(name))["changed"]), 1)
        self.after(lambda: self.browser.click('[data-key="changedReset"]'))
        self.shown_seats(path)

    def raised(self, line, party, percent):
        cells = line.split(",")
        if cells[0] == "list" and cells[2] == party:
            cells[3:5] = [str(int(cell) * (100 + percent) // 100) for cell in cells[3:5]]
        return ",".join(cells)

    def shown_seats(self, path):
        wanted = {p[0]: p[1] for p in self.table("@2023-order", path)["party"] if p[1] != "0"}
        self.expect("the seats", {party: row[4] for party, row in self.named_rows(".result table.parties").items()}, wanted)

    def what_if_in_a_cell(self):
        self.begin()
        self.reveal("#giving", "#records-part")
        self.do("document.querySelector('[data-key=\"cell 9 3\"]').focus()")
        self.browser.press("Enter")
        self.browser.wait("document.querySelector('.cell-input')")
        self.do("document.querySelector('.cell-input').value = '9000000'")
        self.do("document.querySelector('[data-key=\"cell 9 3\"] .cell-input').focus()")
        self.after(lambda: self.browser.press("Enter"))
        self.expect_in("the refusal of more counted than valid votes", "refused returns 9 10", self.browser.text("#returns-answer"))
        self.do("document.querySelector('[data-key=\"cell 9 4\"]').focus()")
        self.browser.press("Enter")
        self.browser.wait("document.querySelector('.cell-input')")
        self.do("document.querySelector('.cell-input').value = '9000000'")
        self.after(lambda: self.browser.press("Enter"))
        changed = self.file("cell.csv", REAL.read_text().replace("list,Bund,CDU,11196374,11196374", "list,Bund,CDU,9000000,9000000"))
        self.shown_seats(changed)
        self.expect("the changes that are told", len(self.list("#changed")), 2)
        self.expect("the marked cells", self.browser.count(".changed-cell"), 2)

    # ---- saving, schemes, keys

    def picture_files(self):
        self.begin()
        self.press_save("saveSvg")
        text = self.browser.downloaded("seatlaw-2023-order.svg")
        made = xml.dom.minidom.parseString(text)
        self.expect("the circles of the SVG", len(made.getElementsByTagName("circle")), 630)
        self.expect_in("the SVG", "AfD", text.decode())
        self.press_save("savePng")
        data = self.browser.downloaded("seatlaw-2023-order.png")
        self.expect("the begin of the PNG, and its width", [data[:8], int.from_bytes(data[16:20], "big")], [b"\x89PNG\r\n\x1a\n", 2096])

    def keys_alone(self):
        """From the first seat to the last one of another party, its steps, and tables with heads for a screen reader."""
        self.begin()
        self.do("document.querySelector('.seat[tabindex=\"0\"]').focus()")
        self.browser.press("PageDown")
        self.expect("the first seat of the next party", self.run("document.activeElement.closest('g.party').dataset.party"), "SPD")
        self.browser.press("PageDown")
        self.browser.press("ArrowLeft")
        last = self.run("[document.activeElement.closest('g.party').dataset.party, document.activeElement.nextSibling === null, document.activeElement.getAttribute('role'), document.activeElement.getAttribute('aria-label')]")
        self.expect("the last seat of a party", last[:3], ["SPD", True, "button"])
        self.browser.press("Enter")
        self.browser.wait("document.querySelector('.seat-steps h4')")
        self.expect_in("what is read out", last[3], self.browser.text(".seat-steps h4"))
        heads = self.run("[...document.querySelectorAll('table')].filter(t => !t.querySelector('th[scope=col]') || !t.querySelector('th[scope=row]')).map(t => t.className)")
        self.expect("tables without heads", heads, [])
        self.expect("the link past what is given", self.run("document.querySelector('.skip').getAttribute('href')"), "#result-part")

    def size_of_the_file(self):
        self.expect("whether the page has more than 1.5 million bytes", self.run("new Blob([document.documentElement.outerHTML]).size > 1500000"), False)

    def all(self):
        self.each((
            self.landing, self.result_first, self.statutes_in_few_lines, self.labels_of_all_parties, self.edges_are_straight, self.order_is_moved, self.majority_and_sums, self.colours_are_told_apart,
            self.many_seats_are_grouped, self.shares_and_bars, self.difference_to_an_election, self.absent_parties_with_the_reason, self.comparison_with_small_houses, self.plain_words,
            self.warnings_and_trust_at_the_result, self.scroll_bars_at_their_tables, self.fits_a_phone, self.what_if_by_a_slider, self.what_if_in_a_cell, self.picture_files, self.keys_alone, self.size_of_the_file,
        ))
