"""Uses the page as somebody would: chooses, drops and pastes, clicks and reads, and compares what stands there with what the program writes."""
import json
import subprocess

import cases
from browsers import BROWSERS
from user import DATA, User

TIE = DATA / "tie"
WORDS = {
    "de": {"title": "Sitzverteilung des Bundestags", "direct": "direkt", "refused": "Das Wahlergebnis ist zurückgewiesen",
           "tie": "Ein Los muss entscheiden", "book": "Zeile 2, Spalte 7", "seat": "Wie dieser Sitz gewonnen wurde", "thousand": "1.000.000"},
    "en": {"title": "Seats of the Bundestag", "direct": "direct", "refused": "The returns are refused",
           "tie": "A lot has to decide", "book": "Line 2, column 7", "seat": "How this seat was won", "thousand": "1,000,000"},
}


class Use(User):
    """The tables of the page against those of the program."""

    def words(self, key):
        return WORDS[self.language][key]

    def words_of_the_page(self):
        self.expect("the title", self.browser.text("h1"), self.words("title"))
        self.expect("the language", self.run("document.documentElement.lang"), self.language)
        self.expect("requests", self.run("performance.getEntriesByType('resource').map(e => e.name).filter(n => !n.startsWith('blob:'))"), [])
        nameless = """[...document.querySelectorAll('button, input, select, textarea')].filter(e => !(e.getAttribute('aria-label')
            || e.getAttribute('aria-labelledby') || e.tagName === 'BUTTON' && e.textContent.trim() || (e.labels && [...e.labels].some(l => l.textContent.trim())))).map(e => e.outerHTML)"""
        self.expect("controls without a name", self.run(nameless), [])

    def shown_table(self, law, returns):
        """The tables of a result are those of the program."""
        self.show_law(law)
        wanted, result = self.table("@" + law, returns), '.result[data-book="%s"]' % law
        found = self.named_rows(result + " table.parties")
        seated = {p[0]: p[1:] for p in wanted["party"] if p[1] != "0"}
        has_winners = self.tables("totals", returns)["totals"][0]["winners"] > 0
        self.expect("the parties by " + law, {party: [self.number(row[4]), row[6]] for party, row in found.items() if party}, {party: [p[0], p[1] if has_winners else "–"] for party, p in seated.items()})
        self.expect("the seats by " + law, self.run("document.querySelector(%s).dataset.total" % json.dumps(result + " .house .total")), wanted["total"][0][0])
        self.expect("the circles by " + law, self.browser.count(result + " .seat"), int(wanted["total"][0][0]))
        self.reveal(result + " details.lists")
        lists = self.named_rows(result + " details.lists > div > .scrolls > table.lists", "list")
        self.expect("the lists by " + law, {key: [row[2], row[3]] for key, row in lists.items()},
                    {"/".join(row[:2]): [row[2], row[3] if has_winners or row[3] != "0" else "–"] for row in wanted["list"] if row[2] != "0"})
        text = self.browser.text(result)
        for name in wanted["open"] + wanted["single"]:
            self.expect_in("the result by " + law, name[0], text)

    def chosen_file(self):
        self.only("2023-order", "2008")
        returns = DATA / "covered" / "returns.csv"
        self.give(returns)
        for law in ("2008", "2023-order"):
            self.shown_table(law, returns)
        self.expect_in("the head of a table", self.words("direct"), self.browser.text(".result table.parties"))
        self.before_the_count(returns)

    def before_the_count(self, returns):
        """The totals and the warnings, by the statute of 2008."""
        self.show_law("2008")
        wanted = self.tables("totals", returns, "@2008")
        self.reveal("#giving", "#totals-part")
        self.expect_in("the totals", self.words("thousand"), self.browser.text("#totals"))
        titles = self.run("[...document.querySelectorAll('#totals table.totals tbody tr:not(.sum)')].map(row => row.children[5].querySelector('[title]')?.title || row.children[5].textContent)")
        self.expect("who takes part", titles, [row["condition"] or "–" for row in wanted["votes"]])
        self.expect("the warnings", self.list("#warnings"), [row["text"] for row in wanted["warnings"]])

    def shown_told(self, what, css, told):
        """An explanation of the program stands in a part of the page."""
        self.expect("the sentence of " + what, self.browser.text(css + " .told .sentence"), told[0])
        self.expect("the remedies of " + what, self.list(css + " .told"), told[1])

    def dropped_file(self):
        returns = DATA / "six-laws" / "returns.csv"
        self.after(lambda: self.browser.drop("#drop", returns))
        self.only(*cases.LAWS)
        self.expect("the results", self.browser.count(".result"), 1)
        for law in cases.LAWS:
            self.shown_table(law, returns)
        compared = self.tables("compare", returns)
        found = {party: [cell.split(" ")[0] for cell in self.run("[...document.querySelectorAll('.compared tr[data-party=\"%s\"] .seats')].map(c => c.textContent)" % party)] for party in self.named_rows(".compared")}
        self.expect("the seats side by side", found, {row["party"]: [str(row["@" + law]) for law in cases.LAWS] for row in compared["compare"] if row["party"]})
        differs = [self.stage(row["differs"] or "–") for row in compared["books"]]
        self.expect("where the statutes differ", self.run("[...document.querySelectorAll('.compared tr[data-row=\"differs\"] td')].map(c => c.textContent)"), differs)

    def steps_of_a_seat(self):
        self.only("2023")
        returns = DATA / "covered" / "returns.csv"
        self.give(returns)
        lines = self.written("steps", "@2023", returns)
        self.do("document.querySelector('.chip[data-party=\"Reds\"]').scrollIntoView()")
        first = self.run("document.querySelector('g.party[data-party=\"Blues\"] .seat').dataset.seat")
        self.browser.click('.seat[data-seat="%s"]' % first)
        self.browser.wait("document.querySelector('.seat-steps table')")
        self.expect_in("the steps of a seat", self.words("seat"), self.browser.text(".seat-steps"))
        self.expect_in("the steps of a seat", "500000/1", self.browser.text(".seat-steps"))
        self.browser.key('.seat[data-seat="0"]', "ArrowRight")
        self.expect("the focus", self.run("document.activeElement.dataset.seat"), "1")
        self.browser.press("Enter")
        self.browser.wait("document.querySelector('.seat-steps').textContent.includes('600000/3')")
        self.margins(lines, self.tables("report", "@2023", returns))
        self.reveal("details.all-steps")
        wanted = [[self.stage(line[1]), line[4], line[5]] for line in lines if line[:3] == ["seat", "upper", "all"]]
        found = [[row[0], row[3], row[4]] for row in self.rows("details.all-steps table.steps")]
        self.expect("the steps of a stage", found, wanted)
        self.reveal("details.columns")
        self.select("details.columns select", "lower")
        self.browser.wait("document.querySelector('details.columns table.column caption')?.textContent === '%s'" % self.stage("lower"))
        self.expect("the column of a stage", {key: row[1] for key, row in self.named_rows("details.columns table.column", "entry").items()}, dict(self.written("stage", "@2023", returns, "lower")))

    def select(self, css, value):
        self.do("const s = document.querySelector(%s); s.value = %s; s.dispatchEvent(new Event('change'));" % (json.dumps(css), json.dumps(value)))

    def margins(self, lines, tables):
        """The divisors, the quotients, the last seats, and the votes missing for one more seat in each scope."""
        self.reveal("details.bounds")
        rows = self.rows("details.bounds table.bounds")
        wanted = [[self.stage(line[1]), line[-2], line[-1]] for line in lines if line[0] == "bounds"]
        self.expect("the bounds", [[row[0], row[4].split(" ")[0], row[6].split(" ")[0]] for row in rows], wanted)
        plain = [[row[0], row[2], self.number(row[3]), row[5], row[7]] for row in rows]
        self.expect("the divisors", plain, [[self.stage(row["stage"]), str(row["seats"]), row["divisor"], *(", ".join(row[key] or ["–"]).replace("/", " / ") for key in ("last", "next"))] for row in tables["scopes"]])
        for scope in tables["scopes"]:
            key = "%s %s" % (scope["stage"], scope["scope"])
            self.select("details.bounds select", key)
            wanted = {row["entry"]: [str(row["seats"]), str(row["missing"])] for row in tables["entries"] if (row["stage"], row["scope"]) == (scope["stage"], scope["scope"])}
            found = {entry: [row[3], self.number(row[4])] for entry, row in self.named_rows("details.bounds table.missing", "entry").items()}
            self.expect("the votes missing in %s" % key, found, wanted)

    def refused_record(self):
        self.only("2023-order")
        text = (DATA / "covered" / "returns.csv").read_text().replace("list,South,Reds,140000", "list,South,Reds,140.000")
        self.paste(text)
        answer = self.browser.text("#returns-answer")
        for part in (self.words("refused"), "refused returns 5 9", "list,South,Reds,140.000,140000,"):
            self.expect_in("the refusal", part, answer)
        told = self.told("count", "@2023-order", self.file("refused.csv", text))
        self.shown_told("the refusal", "#returns-answer", told)
        self.expect("what stands below the record", self.run("document.querySelector('#bad-record').nextElementSibling.textContent"), told[0])
        self.expect("the marked record", self.run("document.querySelector('#bad-record th').textContent.split(' ')[0]"), "9")
        self.expect("the marked cell", self.marked_cells(), ["140.000"])

    def marked_cells(self):
        return self.run("[...document.querySelectorAll('.bad-cell')].map(cell => cell.textContent)")

    def refused_cells(self):
        """The cells that are marked of records after good ones, with the program's line."""
        good = "kind,land,party,a,b,c\nland,X,,1,,\nparty,,A,0,,\nlist,X,A,9,9,\nwin,X,A,w1,5,9\n"
        for record, line, wanted in (
            ("land,Y,,1,", "2 6", []), ("seat,X,,1000,,", "3 6", ["seat"]), ("house,X,,0,,", "2 6", ["X"]), ("list,X,A,5,5,2", "2 6", ["2"]),
            ("land,X Y,,1,,", "4 6", ["X Y"]), ("lot,X,,,,", "4 6", [""]), ("land,Y,,1x,,", "5 6", ["1x"]), ("house,,,0,,", "6 6", ["0"]),
            ("land,Y,,100000001,,", "6 6", ["100000001"]), ("list,Y,A,5,5,", "7 6", ["Y"]), ("lot,X,A,seats,w2,", "7 6", ["w2"]), ("land,X,,x,,", "8 6", ["X"]),
            ("win,X,A,w1,0,9", "8 6", ["w1"]), ("win,X,A,w2,9,x", "5 6", ["x"]), ("win,X,A,w2,9,5", "6 6", ["9", "5"]), ("list,X,A,5,6,", "9 6", ["5", "6"]),
        ):
            self.paste(good + record + "\n")
            self.expect_in("the refusal of " + record, "refused returns %s" % line, self.browser.text("#returns-answer"))
            self.expect("the marked cells of " + record, self.marked_cells(), wanted)

    def refused_book(self):
        self.reveal("#giving", "#own")
        book = self.file("bad.law", b'rulebook 1; law "t";\nhouse 4001; eligible all;\nseats winners keep;')
        self.after(lambda: self.browser.choose("#own-file", book))
        answer = self.browser.text("#own-answer")
        self.expect_in("the refusal of a book", self.words("book"), answer)
        self.expect_in("the refusal of a book", "refused book check 2 27", answer)
        self.expect("the marked word", self.browser.text("#own-answer mark"), "4001")
        self.shown_told("the refusal of a book", "#own-answer", self.told("check", book))
        around = [self.run("document.querySelector('#own-answer .told').%sElementSibling.textContent" % side) for side in ("previous", "next")]
        self.expect("the text around what is said of a book", around, ['rulebook 1; law "t";\nhouse 4001; eligible all;', "seats winners keep;"])

    def tie(self):
        self.only()
        self.after(lambda: self.browser.drop("#drop", TIE / "book.law"))
        self.give(TIE / "returns.csv")
        self.expect_in("the tie", self.words("tie"), self.browser.text(".tie"))
        sentence, remedies = self.told("count", TIE / "book.law", TIE / "returns.csv")
        self.shown_told("the tie", ".fault", (sentence, [remedy for remedy in remedies if not remedy.startswith("lot,")]))
        self.do("const s = document.querySelectorAll('.tie select')[0]; s.value = 'Town/Greens'; s.dispatchEvent(new Event('change'));")
        lots = self.browser.text(".lots").split("\n")
        self.expect("the lots", lots, ["lot,Town,Greens,council,,", "lot,Town,Blues,council,,", "lot,Town,Reds,council,,"])
        self.after(lambda: self.browser.click(".add-lots"))
        returns = self.file("drawn.csv", (TIE / "returns.csv").read_bytes() + ("\n".join(lots) + "\n").encode())
        wanted = self.table(TIE / "book.law", returns)
        found = self.named_rows(".result table.parties")
        self.expect("the parties after the lot", {party: row[4] for party, row in found.items()}, {p[0]: p[1] for p in wanted["party"] if p[1] != "0"})
        self.press_save("saveReturns")
        self.expect("the returns with the lots", self.browser.downloaded("returns.csv"), returns.read_bytes())

    def names(self):
        self.only("2023")
        self.give(DATA / "covered" / "returns.csv")
        short = self.file("short.csv", "Reds,Rote\nLakes,Alle Seen\n")
        self.after(lambda: self.browser.choose("#names-file", short))
        text = self.browser.text(".result")
        for part in ("Rote", "Alle Seen"):
            self.expect_in("the result with full names", part, text)
        self.do("document.querySelector('#patterns').click()")
        self.expect_in("the fill with patterns", "url(#", self.run("document.querySelector('g.party').getAttribute('fill')"))
        self.do("document.querySelector('#patterns').click()")
        self.reveal("#giving")
        self.after(lambda: self.browser.click('[data-key="names-remove"]'))
        self.expect("whether the name is gone", "Rote" in self.browser.text(".result"), False)

    def saved(self):
        returns = DATA / "covered" / "returns.csv"
        for key, name, command in (("saveTable", "seatlaw-2023.txt", "count"), ("saveSteps", "seatlaw-2023-steps.txt", "steps")):
            self.press_save(key)
            done = subprocess.run([self.program, command, "@2023", str(returns)], capture_output=True, timeout=120)
            self.expect("the saved " + name, self.browser.downloaded(name), done.stdout)
        self.press_save("saveReport")
        self.expect("the saved report", json.loads(self.browser.downloaded("seatlaw-2023-report.json"))["tables"], self.tables("report", "@2023", returns))
        self.press_save("saveJson")
        saved = json.loads(self.browser.downloaded("seatlaw-2023.json"))
        table = self.table("@2023", returns)
        self.expect("the JSON", [[p["party"], str(p["seats"]), str(p["direct"])] for p in saved["table"]["parties"]], table["party"])
        self.press_save("saveCsv")
        lines = self.browser.downloaded("seatlaw-2023.csv").decode().splitlines()
        self.expect("the CSV", [line.split(",")[2:] for line in lines if ",list," in line], table["list"])

    def other_language(self):
        other = "en" if self.language == "de" else "de"
        self.switch(other)
        self.expect("the title in the other language", self.browser.text("h1"), WORDS[other]["title"])
        self.expect_in("the head of a table in the other language", WORDS[other]["direct"], self.browser.text(".result table.parties"))
        self.switch(self.language)

    def requests(self):
        outside = [url for url in self.browser.asked if not url.startswith(("file:", "data:", "blob:"))]
        self.expect("requests to a network", outside, [])
        told = """new Promise(resolve => { document.addEventListener('securitypolicyviolation', event => resolve(event.effectiveDirective));
            const script = document.createElement('img'); script.src = 'https://localhost/picture.png'; document.body.append(script);
            setTimeout(() => resolve('nothing'), 3000); })"""
        self.expect("what forbids a request", self.run(told), "img-src")

    def all(self):
        self.each((self.words_of_the_page, self.chosen_file, self.dropped_file, self.steps_of_a_seat, self.refused_record, self.refused_cells, self.refused_book, self.tie,
                   self.names, self.saved, self.other_language, self.requests))


def without(page, program):
    """The page in a Chromium that gives it no worker, and in one that has no memory of 64 bits: how many things are wrong."""
    wrong = 0
    for what, script in (("worker", "window.Worker = undefined"), ("memory", "WebAssembly.validate = () => false")):
        browser = BROWSERS["chromium"]("en")
        try:
            browser.call("Page.addScriptToEvaluateOnNewDocument", source=script)
            browser.open(page.as_uri())
            use = Use(browser, "en", program)
            if what == "worker":
                browser.wait("document.body && document.body.dataset.ready")
                use.expect("a worker", browser.run("window.page.calls.hasWorker()"), False)
                use.each((use.chosen_file,))
            else:
                browser.wait("document.querySelector('#too-old')?.hidden === false")
                use.expect_in("the notice", "from 133 on", browser.text("#too-old"))
                use.expect("whether the work is hidden", browser.run("document.querySelector('#work').hidden"), True)
            wrong += use.wrong
        finally:
            browser.close()
    print("chromium, without a worker and without memory of 64 bits: %d things are wrong" % wrong)
    return wrong
