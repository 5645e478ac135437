"""Pictures of the page, taken in Chromium: five uses of it at each of three widths, in both languages and schemes, and what is printed.

Those that docs/page.md shows go to docs/page/. All others go to web/out/pictures/, with a sheet for each use that has its twelve pictures side by side.
"""
import itertools
import json
import pathlib
import shutil
import subprocess
import tempfile

import cases
import election
from browsers import BROWSERS

TO = cases.TOP / "docs" / "page"
ASIDE = cases.TOP / "web" / "out" / "pictures"
# The pictures that docs/page.md shows; the others are to be looked at.
SHOWN = (
    "start-de-light-1400", "real-de-light-1400", "real-en-dark-1400", "real-de-dark-360", "comparison-en-light-1400", "what-if-en-light-1400",
    "refused-en-light-1400", "refused-book-de-light-1400", "tie-de-light-768", "seat-en-light-1400", "margins-en-light-1400",
)
DATA = cases.EXAMPLES
REFUSED = (DATA / "covered" / "returns.csv").read_text().replace("list,South,Reds,140000", "list,South,Reds,140.000")
WIDTHS = {360: 780, 768: 1024, 1400: 1000}
LANGUAGES = ("de", "en")
SCHEMES = ("light", "dark")


class Pictured:
    """The page at one width, in one language and scheme."""

    def __init__(self, page, language, scheme="light", width=1400):
        self.browser, self.folder = BROWSERS["chromium"](language, scheme=scheme), tempfile.TemporaryDirectory()
        self.page, self.look = page, "%s-%s-%d" % (language, scheme, width)
        self.browser.size(width, WIDTHS[width])
        self.open()

    def __enter__(self):
        return self

    def __exit__(self, *_):
        self.browser.close()

    def open(self):
        """Opens the page again."""
        self.browser.open(self.page.as_uri())
        self.browser.wait("document.body && document.body.dataset.ready")

    def after(self, act):
        before = self.browser.run("document.body.dataset.counted || ''")
        act()
        self.browser.wait("(document.body.dataset.counted || '') !== %s" % json.dumps(before), 60)

    def give(self, name, data):
        path = pathlib.Path(self.folder.name) / name
        path.write_bytes(data if isinstance(data, bytes) else data.encode())
        self.after(lambda: self.browser.choose("#returns-file", path))

    def give_book(self, name, data):
        path = pathlib.Path(self.folder.name) / name
        path.write_bytes(data)
        self.after(lambda: self.browser.choose("#own-file", path))

    def only(self, *laws):
        self.browser.run("(() => { document.querySelector('#giving').open = true; })()")
        for law in cases.LAWS:
            box = '#books input[value="%s"]' % law
            if self.browser.run("document.querySelector(%s).checked" % json.dumps(box)) != (law in laws):
                self.after(lambda: self.browser.click(box))

    def fold(self):
        self.browser.run("(() => { document.querySelector('#giving').open = false; })()")

    def take(self, use, css=None):
        if css:
            self.browser.run("document.querySelector(%s).scrollIntoView()" % json.dumps(css))
        self.browser.run("(document.activeElement?.blur(), new Promise(resolve => setTimeout(resolve, 400)))")
        name = "%s-%s" % (use, self.look)
        self.browser.picture((TO if name in SHOWN else ASIDE) / (name + ".png"))


# ---- the uses that are taken at every width, in both languages and schemes; each begins with the page as it is opened


def real(shown):
    """The election of 2025."""
    shown.after(lambda: shown.browser.click('[data-election="2025"]'))
    shown.take("real")


def made_up(shown):
    """Sixteen Länder with 299 winners."""
    shown.give("made-up.csv", election.made_up())
    shown.take("made-up")


def comparison(shown):
    """The same by six statutes."""
    shown.give("made-up.csv", election.made_up())
    shown.only(*cases.LAWS)
    shown.fold()
    shown.take("comparison", "#result-part")


def refused(shown):
    """A refused record."""
    shown.give("returns.csv", REFUSED)
    shown.take("refused", "#returns-answer")


def tie(shown):
    """A tie without a lot."""
    shown.only()
    shown.give_book("book.law", (DATA / "tie" / "book.law").read_bytes())
    shown.give("returns.csv", (DATA / "tie" / "returns.csv").read_bytes())
    shown.take("tie", "#result-part")


USES = (real, made_up, comparison, refused, tie)


def every_look(page):
    for language, scheme, width in itertools.product(LANGUAGES, SCHEMES, WIDTHS):
        with Pictured(page, language, scheme, width) as shown:
            for use in USES:
                shown.open()
                use(shown)


# ---- what is taken once


def start(page):
    with Pictured(page, "de") as shown:
        shown.take("start")


def what_if(page):
    with Pictured(page, "en") as shown:
        shown.give("made-up.csv", election.made_up())
        shown.browser.run("(() => { document.querySelector('#whatif-part').open = true; })()")
        shown.browser.wait("document.querySelector('[data-key=\"range BSW\"]')")
        shown.browser.run("(() => { const s = document.querySelector('[data-key=\"range BSW\"]'); s.value = 12; s.dispatchEvent(new Event('input')); })()")
        shown.browser.wait("document.querySelector('#changed li') && !document.body.classList.contains('old')")
        shown.take("what-if", "#result-part")


def refused_book(page):
    with Pictured(page, "de") as shown:
        shown.give_book("own.law", b'rulebook 1; law "t";\nhouse 4001; eligible all;\nseats winners keep;')
        shown.take("refused-book", "#own-answer")


def parts(page):
    with Pictured(page, "en") as shown:
        shown.only("2023")
        shown.give("returns.csv", (DATA / "covered" / "returns.csv").read_bytes())
        shown.browser.click('.seat[data-seat="3"]')
        shown.browser.wait("document.querySelector('.seat-steps table')")
        shown.take("seat", "#result-part")
        shown.browser.run("(() => { document.querySelector('details.bounds').open = true; })()")
        shown.browser.wait("document.querySelector('table.missing')")
        shown.take("margins", "details.bounds")


def printed(page):
    """Two sheets of paper."""
    with Pictured(page, "de") as shown:
        shown.give("made-up.csv", election.made_up())
        with tempfile.TemporaryDirectory() as folder:
            path = pathlib.Path(folder) / "page.pdf"
            path.write_bytes(shown.browser.paper())
            subprocess.run(["pdftoppm", "-png", "-r", "70", "-l", "2", str(path), str(ASIDE / "print-de")], check=True)
            shutil.move(ASIDE / "print-de-1.png", TO / "print-de-1.png")


# ---- pictures of pictures, where ImageMagick is there to make them


def smaller():
    """Leaves the pictures of docs/page.md 64 colours."""
    for path in TO.glob("*.png"):
        subprocess.run(["convert", str(path), "-strip", "+dither", "-colors", "64", str(path)], check=True)


def side_by_side():
    """A sheet for each use: its pictures in both languages and schemes, at one width a row."""
    for use in (use.__name__.replace("_", "-") for use in USES):
        rows = []
        for width in WIDTHS:
            names = ["%s-%s-%s-%d" % (use, *look, width) for look in itertools.product(LANGUAGES, SCHEMES)]
            rows += [str((TO if name in SHOWN else ASIDE) / (name + ".png")) for name in names]
        subprocess.run(["montage", *rows, "-tile", "4x3", "-geometry", "560x560+6+6", str(ASIDE / ("all-" + use + ".png"))], check=True)


def taken(page):
    TO.mkdir(exist_ok=True)
    ASIDE.mkdir(parents=True, exist_ok=True)
    for take in (every_look, start, what_if, refused_book, parts, printed):
        take(page)
    if shutil.which("montage"):
        side_by_side()
        smaller()
