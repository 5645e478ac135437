"""Attacks on the page: what may get stuck, get lost or be shown wrongly. Each of these was wrong in a page before."""
import json
import pathlib
import re
import subprocess
import sys
import tempfile
import time

import cases
from user import DATA, User

WEB = pathlib.Path(__file__).resolve().parent
COVERED = DATA / "covered" / "returns.csv"
REAL = DATA / "elections" / "2025.csv"
BOOK = b'rulebook 1; law "t"; house 10; eligible all; stage s = split(house, sum(counted, party), webster); stage l = split(s, counted, webster); seats l keep;'
OF_A_COUNT = ["count", "steps", "report", "stages", "totals"]  # what the page asks of a rulebook and returns
UNREADABLE = "Blob.prototype.arrayBuffer = function () { return Promise.reject(new DOMException('gone', 'NotFoundError')); };"
# Returns in which a Land and a party have one name.
ONE_NAME = """kind,land,party,a,b,c
house,,,20,,
land,BERLIN,,300,,
land,HH,,150,,
party,,BERLIN,0,,
party,,B,0,,
list,BERLIN,BERLIN,117,117,
list,BERLIN,B,90,90,
list,HH,B,83,83,
list,HH,BERLIN,21,21,
"""


# In the page: notes the calls, and measures how long the page answers nothing.
COUNTED = """
  const ask = window.page.calls.ask, asked = [];
  let longest = 0, last = performance.now();
  window.page.calls.ask = (words, files) => { asked.push(words[0]); return ask(words, files); };
  const watch = setInterval(() => { longest = Math.max(longest, performance.now() - last); last = performance.now(); }, 5);
  window.counted = () => { clearInterval(watch); window.page.calls.ask = ask; return [longest, asked]; };
"""


class Stuck(User):
    """Each function is one finding."""

    def begin(self, path=COVERED, law="2023"):
        self.only(law)
        self.give(path)

    # ---- what is kept

    def typed_rulebook_is_kept(self):
        self.begin()
        self.reveal("#giving", "#own")
        self.do("document.querySelector('#own-text').value = 'typed';")
        self.switch("en" if self.language == "de" else "de")
        self.switch(self.language)
        self.expect("the text after the language", self.run("document.querySelector('#own-text').value"), "typed")
        self.after(lambda: self.browser.choose("#names-file", self.file("n.csv", "Reds,Rote\n")))
        self.after(lambda: self.browser.drop("#drop", self.file("r.csv", COVERED.read_bytes())))
        self.expect("the text after names and returns", self.run("document.querySelector('#own-text').value"), "typed")
        self.do("document.querySelector('#own-text').value = '';")

    def focus_and_parts_are_kept(self):
        self.begin(self.file("many.csv", cases.wide()[:12000].rsplit(b"\n", 1)[0] + b"\n"), "2008")
        self.reveal("#giving", "#records-part", "details.lists", "details.bounds")
        self.do("document.querySelector('[data-key=\"later\"]').focus();")
        self.browser.press("Enter")
        self.expect("the focus after the next records", self.focus(), "later")
        self.browser.click('.seat[data-seat="0"]')
        self.browser.wait("document.querySelector('.seat-steps h4')")
        for what, act in (("the patterns", lambda: self.do("document.querySelector('#patterns').click()")), ("the language", lambda: self.switch("en" if self.language == "de" else "de")),
                          ("the language again", lambda: self.switch(self.language))):
            act()
            open_parts = self.run("['details.lists', 'details.bounds'].map(css => document.querySelector(css)?.open)")
            self.expect("which parts are open after " + what, open_parts, [True, True])
            self.expect("whether the seat is shown after " + what, self.browser.count(".seat-steps h4"), 1)
        self.do("document.querySelector('#patterns').click()")

    def scope_is_kept(self):
        self.begin()
        self.reveal("details.bounds")
        self.do("const s = document.querySelector('details.bounds select'); s.value = 'lower party Blues'; s.dispatchEvent(new Event('change')); s.focus();")
        self.after(lambda: self.do("window.page.recount()"))
        self.expect("the scope after a count", self.run("document.querySelector('details.bounds select').value"), "lower party Blues")
        self.expect("the focus after a count", self.focus(), "bounds-scope")

    # ---- calls that fail

    def dead_worker_is_replaced(self):
        self.begin()
        self.do("window.page.calls.worker().terminate()")
        self.after(lambda: self.browser.choose("#returns-file", REAL))
        self.expect("the house after the worker died", self.run("document.querySelector('.house .total').dataset.total"), self.table("@2023", REAL)["total"][0][0])
        self.after(lambda: self.do("window.page.recount(); window.page.calls.worker().terminate();"))
        self.expect("the house after it died in a count", self.run("document.querySelector('.house .total').dataset.total"), self.table("@2023", REAL)["total"][0][0])

    def dead_worker_twice_is_told(self):
        self.begin()
        self.do("window.kept = Worker.prototype.postMessage; Worker.prototype.postMessage = function (message, ...rest) { if (message.number) this.terminate(); else window.kept.call(this, message, ...rest); };")
        try:
            self.after(lambda: self.do("window.page.recount()"))
            self.expect_in("what is told", "zweimal" if self.language == "de" else "twice", self.browser.text(".result .refused"))
        finally:
            self.do("Worker.prototype.postMessage = window.kept;")
        self.after(lambda: self.browser.click('.result [data-key="again"]'))
        self.expect("the seats when it lives again", self.browser.count(".seat"), 10)

    def unreadable_file_is_told(self):
        self.begin()
        self.do("window.kept = Blob.prototype.arrayBuffer; " + UNREADABLE)
        self.browser.choose("#returns-file", REAL)
        self.browser.wait("document.querySelector('#message').textContent")
        self.expect_in("the message", "2025.csv", self.browser.text("#message"))
        self.expect("the chosen file", self.run("document.querySelector('#returns-file').value"), "")
        self.do("Blob.prototype.arrayBuffer = window.kept;")
        self.give(REAL)
        self.expect("the message after a good file", self.browser.text("#message"), "")

    def good_file_behind_an_unreadable_one(self):
        self.begin()
        dropped = """(() => { const kept = Blob.prototype.arrayBuffer; let times = 0;
            Blob.prototype.arrayBuffer = function () { times += 1; return times === 1 ? Promise.reject(new DOMException('gone', 'NotFoundError')) : kept.call(this); };
            const carried = new DataTransfer(); carried.items.add(new File(['x'], 'folder')); carried.items.add(new File([%s], 'good.csv'));
            document.querySelector('#drop').dispatchEvent(new DragEvent('drop', { dataTransfer: carried, bubbles: true, cancelable: true })); })()"""
        self.after(lambda: self.run(dropped % json.dumps(REAL.read_text())))
        self.expect_in("the returns", "good.csv", self.browser.text("#returns-taken"))
        self.browser.wait("document.querySelector('#message').textContent")
        self.expect_in("the message", "folder", self.browser.text("#message"))

    def failed_is_not_memory(self):
        reply = self.run("window.page.ask(['check', 'book'], [{ name: 'book' }]).then(reply => [reply.status, reply.error])")
        self.expect("the status of a file without bytes", reply[0], 8)
        self.expect_in("its error", "TypeError", reply[1])
        self.expect("the status of words that are refused", self.run("window.page.ask(['nonsense'], []).then(reply => reply.status)"), 1)
        self.expect("the status of out of memory", self.run("window.page.statusOf(new RangeError('WebAssembly.Memory(): could not allocate memory'))"), 5)

    def memory_is_given_back(self):
        self.expect("whether a memory of 300 MB is given back", self.run("(async () => { const desk = new window.page.Desk(await WebAssembly.compile(await window.page.unpacked('module'))); desk.ask(['check', 'book'], [{ name: 'book', bytes: new Uint8Array(300 << 20) }]); return desk.calls === null; })()"), True)

    def large_files_are_not_read(self):
        self.begin()
        path = self.file("large.csv", b"")
        with open(path, "r+b") as f:
            f.truncate(400 << 20)
        self.do("window.kept = Blob.prototype.arrayBuffer; window.most = 0; Blob.prototype.arrayBuffer = function () { window.most = Math.max(window.most, this.size); return window.kept.call(this); };")
        self.give(path)
        self.expect_in("the refusal", "refused returns toolong", self.browser.text("#returns-answer"))
        self.do("const carried = new DataTransfer(); carried.items.add(new File([new Blob(Array(100).fill(new Uint8Array(1 << 20)))], 'heap.bin'));"
                "document.querySelector('#drop').dispatchEvent(new DragEvent('drop', { dataTransfer: carried, bubbles: true, cancelable: true }));")
        self.browser.wait("document.querySelector('#message').textContent")
        self.expect_in("the message", "heap.bin", self.browser.text("#message"))
        self.expect("whether more was read than an input may have", self.run("window.most") <= 4194305, True)
        self.do("Blob.prototype.arrayBuffer = window.kept;")

    def count_is_cancelled(self):
        self.begin()
        self.do("window.page.recount(); document.querySelector('#cancel').click();")
        self.browser.wait("!document.querySelector('#again').hidden")
        self.expect("whether what stands there is marked", self.run("document.body.classList.contains('old')"), True)
        self.after(lambda: self.browser.click("#again"))
        self.expect("whether it is marked after the count", self.run("document.body.classList.contains('old')"), False)

    def old_result_is_marked(self):
        self.begin()
        seen = self.run("""(async () => { const done = document.body.dataset.counted; window.page.takeReturns('new.csv', window.page.encoded(%s));
            const at = [document.body.classList.contains('old'), [...document.querySelectorAll('#save-menu button')].every(b => b.disabled), document.querySelector('#old-note').textContent];
            document.querySelector('[data-language="1"]').click(); await new Promise(r => setTimeout(r, 0)); document.querySelector('[data-language="%d"]').click();
            at.push(document.querySelector('#result-head').textContent.includes('new.csv') && document.body.dataset.counted === done && !document.body.classList.contains('old'));
            while (document.body.dataset.counted === done) await new Promise(r => setTimeout(r, 5));
            return [...at, document.body.classList.contains('old'), [...document.querySelectorAll('#save-menu button')].some(b => b.disabled)]; })()""" % (json.dumps(REAL.read_text()), self.language == "en"))
        self.expect("whether the old result is marked, and not saved", seen[:2], [True, True])
        self.expect_in("the note", "returns.csv", seen[2])
        self.expect("whether the new name stands unmarked above the old result, or the new result is marked", seen[3:], [False, False, False])

    # ---- files

    def names_by_the_program(self):
        self.begin(REAL, "2023-order")
        for name, data in (("three.csv", b"a,b,c\n"), ("latin.csv", "CDU,B\u00fcndnis\n".encode("latin-1")), ("four.csv", b"kind,name,full,colour\nparty,CDU,Christlich,#112233\n")):
            self.do("document.querySelector('#message').replaceChildren()")
            self.reveal("#giving")
            self.browser.choose("#names-file", self.file(name, data))
            self.browser.wait("document.querySelector('#message').textContent")
            self.expect_in("what is told of " + name, "refused names 1", self.browser.text("#message"))
        quoted = self.file("quoted.csv", 'CDU,"Christlich, Demokratisch"\n')
        self.after(lambda: self.browser.choose("#names-file", quoted))
        shown = [row["party_name"] for row in self.tables("report", "@2023-order", REAL, "--names", quoted)["parties"] if row["party"] == "CDU"]
        self.expect("the name of the CDU", self.named_rows(".result table.parties")["CDU"][0], shown[0])
        self.reveal("#giving")
        self.after(lambda: self.browser.click('[data-key="names-remove"]'))

    def dropped_files_are_known(self):
        self.begin()
        comments = b"# comment\n" * 300 + BOOK
        for name, data, kind in (("quoted.csv", b'CDU,"Christlich, Demokratisch"\n', "names"), ("single.csv", b"CDU,Union", "names"), ("semi.csv", b'CDU;x,"Union; Christlich"\n', "names"),
                                 ("book.txt", comments, "book"), ("bad.txt", b'rulebook 1; law "t"; house 4001; eligible all; seats winners keep;', "book"),
                                 ("bad.csv", COVERED.read_bytes().replace(b"140000", b"140.000"), "returns"), ("good.txt", COVERED.read_bytes(), "returns"), ("what.bin", b"\x00\x01\x02", "returns")):
            self.expect("what %s is" % name, self.after_taken(lambda: self.browser.drop("#drop", self.file(name, data))), kind)
        self.reveal("#giving")
        if self.browser.count('[data-key="names-remove"]'):
            self.after(lambda: self.browser.click('[data-key="names-remove"]'))

    def empty_files_are_explained(self):
        self.begin()
        empty = self.file("empty.csv", b"")
        self.give(empty)
        self.expect_in("the returns", "empty.csv", self.browser.text("#returns-taken"))
        self.expect_in("the refusal", self.told("count", "@2023", empty)[0], self.browser.text("#returns-answer"))
        self.after(lambda: self.browser.choose("#own-file", self.file("empty.law", b"")))
        self.expect_in("the refusal of the book", "refused book parse 1 0", self.browser.text("#own-answer"))

    def refused_without_a_statute(self):
        self.only()
        self.paste("rubbish\n1,2")
        self.expect_in("the refusal", "refused returns", self.browser.text("#returns-answer"))

    def text_can_be_dragged(self):
        cancelled = """(() => { const carried = new DataTransfer(); carried.setData('text/plain', 'x'); const event = new DragEvent('dragover', { dataTransfer: carried, bubbles: true, cancelable: true });
            document.querySelector('#returns-text').dispatchEvent(event); return [event.defaultPrevented, document.querySelector('#drop').classList.contains('over')]; })()"""
        self.expect("whether dragged text is taken away, and the zone marked", self.run(cancelled), [False, False])

    # ---- what is shown

    def land_and_party_of_one_name(self):
        path = self.file("one-name.csv", ONE_NAME)
        self.begin(path, "2013")
        seats = self.run("[...document.querySelectorAll('g.party[data-party=\"BERLIN\"] .seat')].map(s => s.dataset.seat)")
        self.browser.click('.seat[data-seat="%s"]' % seats[0])
        self.browser.wait("document.querySelector('.seat-steps h4')")
        self.reveal(".seat-steps details")
        own = [line for line in self.written("steps", "@2013", path) if line[:4] == ["seat", "upper", "all", "BERLIN"]]
        self.expect("the stages of the party's seats", self.run("[...document.querySelectorAll('.seat-steps details tbody tr')].map(r => r.children[0].textContent)"), [self.stage("upper")] * len(own))
        self.after(lambda: self.browser.choose("#names-file", self.file("n.csv", "HH,Hamburg\n")))
        self.reveal("details.bounds")
        self.do("const s = document.querySelector('details.bounds select'); s.value = 'lands all'; s.dispatchEvent(new Event('change'));")
        heads = self.run("[...document.querySelectorAll('details.bounds table.missing thead th')].map(h => h.textContent)")
        self.expect("the weight of Länder", heads[1], "Einwohner" if self.language == "de" else "People")
        self.expect("the Länder", [row[0] for row in self.rows("details.bounds table.missing")], ["BERLIN", "Hamburg"])
        self.expect("what the entries are", self.run("window.page.shownResult().stages.stages.map(row => row.stage + ' ' + row.shape).join()"), "pool one,lands land,first list,floor party,upper party,lower list")
        self.reveal("#giving")
        self.after(lambda: self.browser.click('[data-key="names-remove"]'))

    def controls_are_shown_as_such(self):
        self.only("2023")
        self.paste("kind,land,party,a,b,c\nland,X,,1,,\nparty,,\u202eCBA\u001b[31m,0,,\n")
        text = self.browser.text("#returns-answer")
        self.expect("whether a control is left in the answer", any(c in text for c in "\u202e\u001b"), False)
        for part in ("‹U+202E›CBA", "‹U+001B›"):
            self.expect_in("the answer", part, text)
        self.expect("controls left in the records", self.run("/[\\u202e\\u001b]/.test(document.querySelector('#records').textContent)"), False)
        self.expect("how code is written", self.run("getComputedStyle(document.querySelector('#returns-answer code')).unicodeBidi"), "isolate")

    def own_book_of_a_statutes_name(self):
        self.begin()
        self.only("2023-order")
        self.after(lambda: self.browser.choose("#own-file", self.file("2023-order", BOOK)))
        heads = self.run("[...document.querySelectorAll('.compared thead button')].map(b => b.textContent)")
        self.expect("how many heads there are", len(set(heads)), 2)
        self.press_save("saveTable")
        self.browser.downloaded("seatlaw-own-2023-order.txt")
        self.after(lambda: self.browser.choose("#own-file", self.file("=cmd." + "x" * 200 + ".law", BOOK)))
        self.browser.size(450, 740)
        wide = self.run("[document.documentElement.scrollWidth, window.innerWidth]")
        self.browser.size(1200, 900)
        self.expect("whether a long name makes the page wide", wide[0] <= wide[1], True)
        first = self.run("window.page.saving.csvOf(window.page.shownResult()).split('\\n')[1]")
        self.expect("the begin of a cell", first[:2], "'=")

    def no_winners_is_no_zero(self):
        self.begin(REAL, "2023-order")
        self.expect("the winners of the CDU", self.named_rows(".result table.parties")["CDU"][6], "–")
        self.expect("whether it is said", self.browser.count(".no-winners"), 1)

    def saved_page_is_filled(self):
        self.begin()
        text = self.run("window.page.saving.pageOf(window.page.shownResult(), window.page.article)")
        for part in ("<script", "<button", "<input", "<select"):
            self.expect("whether the saved page has a " + part, part in text, False)
        parts = re.findall(r'<details[^>]*data-part="([^"]*)"', text)
        self.expect("the parts", set(parts) >= {"lists", "bounds", "all-steps", "columns"}, True)
        empty = self.run("(() => { const made = new DOMParser().parseFromString(window.page.saving.pageOf(window.page.shownResult(), window.page.article), 'text/html');"
                         " return [...made.querySelectorAll('details')].filter(d => !d.querySelector('td')).map(d => d.dataset.part); })()")
        self.expect("the parts without a table", empty, [])
        for part in (self.stage("lower") + ", ", "returns.csv", "SHA-256", "</svg>"):
            self.expect_in("the saved page", part, text)

    def sources_are_told(self):
        self.begin()
        text = self.browser.text(".sources")
        sums = [self.sum_of(COVERED.read_bytes()), self.sum_of(subprocess.run([self.program, "law", "2023"], capture_output=True).stdout)]
        for part in ("returns.csv", "2023", *sums, "1.0.0", self.run("document.querySelector('#module').dataset.sum")):
            self.expect_in("where the result comes from", part, text)
        if self.browser.name == "chromium":
            printed = self.printed()
            for part in ("returns.csv", *sums, "630"):
                self.expect_in("the print", part, printed)

    def sum_of(self, data):
        return subprocess.run(["sha256sum"], input=data, capture_output=True).stdout.decode().split()[0]

    def printed(self):
        """The words of the print, in one line."""
        paper = self.browser.paper()
        self.expect("a sheet", b"/MediaBox [0 0 594.95" in paper or b"/MediaBox [0 0 595" in paper, True)
        return subprocess.run(["pdftotext", "-layout", "-", "-"], input=paper, capture_output=True).stdout.decode().replace("\n", "")

    def focus_on_a_seat_is_seen(self):
        self.begin()
        self.browser.click('.seat[data-seat="0"]')
        self.browser.key('.seat[data-seat="0"]', "ArrowRight")
        self.expect("the ring", self.run("document.querySelector('.ring').getAttribute('visibility')"), "visible")
        self.expect("its two colours", self.run("[...document.querySelectorAll('.ring circle')].map(c => getComputedStyle(c).stroke)"), ["rgb(255, 255, 255)", "rgb(0, 0, 0)"])

    def scripts_of_others_do_not_run(self):
        ran = """new Promise(resolve => { window.ran = false; const part = document.createElement('script'); part.src = URL.createObjectURL(new Blob(['window.ran = true'], { type: 'text/javascript' }));
            document.body.append(part); setTimeout(() => resolve(window.ran), 300); })"""
        self.expect("whether a script of a blob ran", self.run(ran), False)

    def words_without_scripts(self):
        self.expect("what stands there without scripts", self.browser.count("noscript"), 1)

    def module_without_calls_is_no_page(self):
        """A module that lacks the calls is not put into a page."""
        with tempfile.TemporaryDirectory() as folder:
            module = pathlib.Path(folder) / "empty.wasm"
            module.write_bytes(b"\0asm\1\0\0\0")
            done = subprocess.run([sys.executable, str(WEB / "inline.py"), str(module), folder + "/page.html"], capture_output=True, text=True)
            self.expect("whether the page was written", (done.returncode != 0, pathlib.Path(folder, "page.html").exists()), (True, False))

    def large_returns_are_little_work(self):
        """64 Länder and 256 parties under six statutes: one statute is counted in full, and little is made and drawn at once."""
        path = self.file("wide.csv", cases.wide())
        self.only(*cases.LAWS)
        began = time.monotonic()
        asked = self.little_at_once("wide returns under six statutes", path)
        took = time.monotonic() - began
        began = time.monotonic()
        for words in (["compare", path], *(["report", "@" + law, path] for law in cases.LAWS)):
            subprocess.run([self.program, *map(str, words), "--json"], capture_output=True)
        print("%s: wide returns under six statutes are shown in %.1f s; the program's compare and six reports take %.1f s" % (self.browser.name, took, time.monotonic() - began))
        self.expect("the calls", asked, [*OF_A_COUNT, "compare"])
        self.expect("whether it makes more than 30,000 elements", self.browser.count("*") > 30000, False)
        total = self.table("@%s" % self.run("document.querySelector('.result').dataset.book"), path)["total"][0][0]
        self.expect("the circles", str(self.browser.count(".result .seat")), total)

    def largest_returns_are_little_work(self):
        """4 MiB with a tie and 4,000 warnings."""
        self.only("2023-order")
        self.expect("the calls", self.little_at_once("the largest returns", self.file("largest.csv", cases.largest())), OF_A_COUNT)

    def little_at_once(self, what, path):
        """Gives returns: in Chromium the longest task of the page's own thread works for no more than 200 ms. Answers the calls that are asked for."""
        self.do(COUNTED)
        give = lambda: (self.give(path), self.browser.wait("!document.querySelector('.not-yet')"))
        longest = self.browser.longest(give) if self.browser.name == "chromium" else (give(), 0)[1]
        block, asked = self.run("window.counted()")
        print("%s: %s: the longest block %.0f ms%s" % (self.browser.name, what, block, ", the longest work of the processor at once %.0f ms" % longest if longest else ""))
        self.expect("whether %s keep the page's thread at work for more than 200 ms" % what, longest > 200, False)
        return asked

    def all(self):
        self.each((
            self.typed_rulebook_is_kept, self.focus_and_parts_are_kept, self.scope_is_kept, self.dead_worker_is_replaced, self.dead_worker_twice_is_told, self.unreadable_file_is_told,
            self.good_file_behind_an_unreadable_one, self.failed_is_not_memory, self.memory_is_given_back, self.large_files_are_not_read, self.count_is_cancelled, self.old_result_is_marked,
            self.names_by_the_program, self.dropped_files_are_known, self.empty_files_are_explained, self.refused_without_a_statute, self.text_can_be_dragged, self.land_and_party_of_one_name,
            self.controls_are_shown_as_such, self.own_book_of_a_statutes_name, self.no_winners_is_no_zero, self.saved_page_is_filled, self.sources_are_told, self.focus_on_a_seat_is_seen,
            self.scripts_of_others_do_not_run, self.words_without_scripts, self.module_without_calls_is_no_page, self.large_returns_are_little_work,
            self.largest_returns_are_little_work,
        ))
