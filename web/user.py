"""Somebody who uses the page in one browser and one language, and knows what the program writes on the same files."""
import json
import os
import pathlib
import subprocess
import tempfile

import cases
from browsers import Lost

DATA = cases.EXAMPLES


# The words of the page for stages of the library's statutes.
STAGES = {
    "de": {"pool": "Sitze für Listen", "lands": "Sitze der Länder", "upper": "Oberverteilung", "lower": "Unterverteilung"},
    "en": {"pool": "Seats for lists", "lands": "Seats of the Länder", "upper": "Upper distribution", "lower": "Lower distribution"},
}


class User:
    """What all tests of the page share. Each thing that is wrong is printed and counted."""

    def __init__(self, browser, language, program):
        self.browser, self.language, self.program = browser, language, program
        self.wrong, self.act = 0, ""
        self.folder = tempfile.TemporaryDirectory()

    def expect(self, what, found, wanted):
        if found != wanted:
            self.say("%s is %.600r, and not %.600r" % (what, found, wanted))

    def expect_in(self, what, part, text):
        if part not in (text or ""):
            self.say("%s has no %r: %r" % (what, part, (text or "")[:300]))

    def say(self, what):
        self.wrong += 1
        print("%s, %s: %s: %s" % (self.browser.name, self.language, self.act, what), flush=True)

    def each(self, acts):
        """Does each of these, and says of which something was wrong."""
        failed = []
        for act in acts:
            before, self.act = self.wrong, act.__name__
            try:
                act()
            except (Lost, KeyError, IndexError, ValueError, TypeError) as error:
                self.say("%s: %s" % (type(error).__name__, str(error)[:400]))
            if self.wrong > before:
                failed.append(act.__name__)
        print("%s, %s: %d of %d uses are right%s" % (self.browser.name, self.language, len(acts) - len(failed), len(acts), "; wrong: " + " ".join(failed) if failed else ""), flush=True)

    def file(self, name, data):
        path = pathlib.Path(self.folder.name) / name
        path.write_bytes(data if isinstance(data, bytes) else data.encode())
        return path

    # ---- the program

    def written(self, *words):
        done = subprocess.run([self.program, *map(str, words)], capture_output=True, timeout=120)
        return [line.split(" ") for line in done.stdout.decode().splitlines()]

    def tables(self, command, *words):
        """The tables of a report by their keys, with sentences in the language of the page."""
        done = subprocess.run([self.program, command, "--json", "--lang", self.language, *map(str, words)], capture_output=True, timeout=120)
        return json.loads(done.stdout)["tables"]

    def told(self, command, *words):
        """The sentence and the remedies of an explanation, as the page shows them."""
        done = subprocess.run([self.program, command, "--lang", self.language, *map(str, words)], capture_output=True, timeout=120)
        lines = done.stderr.decode().replace("`", "").splitlines()
        return lines[0].split(": ", 1)[1], [line.split(": ", 1)[1] for line in lines if line.startswith("  = ")]

    def table(self, book, returns):
        """The lines of the program's table by their first word."""
        lines = self.written("count", book, returns)
        return {kind: [line[1:] for line in lines if line[0] == kind] for kind in ("total", "party", "list", "single", "open", "vacant")}

    # ---- the page

    def run(self, expression):
        return self.browser.run(expression)

    def do(self, statements):
        self.browser.run("(async () => { %s })()" % statements)

    def after(self, act):
        """Does something after which the page counts, and waits for that."""
        before = self.run("document.body.dataset.counted || ''")
        act()
        self.browser.wait("(document.body.dataset.counted || '') !== %s" % json.dumps(before), float(os.environ.get("SEATLAW_PATIENCE", 120)))

    def after_shown(self, act):
        """Does something after which the page shows its results again."""
        before = self.run("document.body.dataset.shown || ''")
        act()
        self.browser.wait("(document.body.dataset.shown || '') !== %s" % json.dumps(before))

    def after_taken(self, act):
        """Does something after which a file that was dropped is taken."""
        self.do("delete document.body.dataset.taken")
        act()
        self.browser.wait("document.body.dataset.taken")
        return self.run("document.body.dataset.taken.split(' ')[0]")

    def stage(self, name):
        """A stage of a statute as the page names it; a dash is no stage."""
        return STAGES[self.language].get(name, name)

    def switch(self, language):
        self.after_shown(lambda: self.browser.click('[data-language="%d"]' % (language == "en")))

    def reveal(self, *selectors):
        """Opens these parts."""
        for css in selectors:
            self.do("const part = document.querySelector(%s); if (part && !part.open) { part.open = true; part.dispatchEvent(new Event('toggle')); }" % json.dumps(css))
        self.run("new Promise(resolve => setTimeout(resolve, 30))")

    def only(self, *laws):
        """Chooses just these statutes, and removes a rulebook."""
        self.reveal("#giving", "#own")
        if self.run("Boolean(window.page.state.own)"):
            self.after(lambda: self.browser.click("#own-remove"))
        for law in cases.LAWS:
            box = '#books input[value="%s"]' % law
            if self.run("document.querySelector(%s).checked" % json.dumps(box)) != (law in laws):
                self.after(lambda: self.browser.click(box))

    def give(self, path):
        self.after(lambda: self.browser.choose("#returns-file", path))

    def paste(self, text):
        self.reveal("#giving", "#paste-part")
        self.do("document.querySelector('#returns-text').value = %s;" % json.dumps(text))
        self.after(lambda: self.browser.click("#take"))

    def show_law(self, law):
        """Has a statute shown in full."""
        if self.run("document.querySelector('.result')?.dataset.book") != law:
            self.after(lambda: self.browser.click('[data-shows="%s"]' % law))

    def rows(self, css):
        """The cells of a table's rows."""
        return self.run("[...document.querySelectorAll(%s)].map(row => [...row.children].map(cell => cell.textContent.trim()))" % json.dumps(css + " tbody tr"))

    def named_rows(self, css, key="party"):
        """The cells of a table's rows by the name that each row has as data."""
        return dict(self.run("[...document.querySelectorAll(%s)].filter(row => row.dataset.%s !== undefined).map(row => [row.dataset.%s, [...row.children].map(cell => cell.textContent.trim())])"
                             % (json.dumps(css + " tbody tr"), key, key)))

    def list(self, css):
        return self.run("[...document.querySelectorAll(%s)].map(item => item.textContent)" % json.dumps(css + " li"))

    def number(self, text):
        """A number as it stands on the page, in digits alone."""
        return text.replace("." if self.language == "de" else ",", "")

    def press_save(self, key):
        self.do("document.querySelector('#save-menu').open = true")
        self.browser.click("#save-menu .save-" + key)

    def focus(self):
        return self.run("document.activeElement && (document.activeElement.dataset.key || document.activeElement.id || document.activeElement.tagName)")
