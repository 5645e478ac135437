"""How far words, controls and pictures stand out from what lies behind them, by measure, in both schemes (WCAG 2.2, 1.4.3 and 1.4.11)."""
import cases
from browsers import BROWSERS
from election import made_up
from user import DATA, User

# In the page: each visible text, the edge of each control, and each part of a picture, with its contrast and the least that it needs.
MEASURED = """(() => {
  const canvas = document.createElement('canvas').getContext('2d', { willReadFrequently: true });
  const rgba = text => { canvas.clearRect(0, 0, 1, 1); canvas.fillStyle = text; canvas.fillRect(0, 0, 1, 1); return [...canvas.getImageData(0, 0, 1, 1).data]; };
  const over = (colour, below, part) => colour.slice(0, 3).map((v, i) => v * part + below[i] * (1 - part));
  const light = c => c.map(v => v / 255).map(v => v <= 0.04045 ? v / 12.92 : ((v + 0.055) / 1.055) ** 2.4).reduce((s, v, i) => s + v * [0.2126, 0.7152, 0.0722][i], 0);
  const contrast = (one, other) => { const [a, b] = [light(one), light(other)]; return (Math.max(a, b) + 0.05) / (Math.min(a, b) + 0.05); };
  const paper = rgba(getComputedStyle(document.body).backgroundColor).slice(0, 3);
  const behind = part => { for (let at = part; at; at = at.parentElement) { const b = rgba(getComputedStyle(at).backgroundColor); if (b[3] === 255) return b.slice(0, 3); } return paper; };
  const opacity = part => { let all = 1; for (let at = part; at; at = at.parentElement) all *= Number(getComputedStyle(at).opacity); return all; };
  const seen = part => part.getClientRects().length > 0 && part.checkVisibility({ visibilityProperty: true }) && !part.closest('.unseen, .skip, [aria-hidden=true]:not(.around):not(.seat-name)');
  const of = (part, colour, least, what) => { const below = behind(part), c = rgba(colour); return [what, Math.round(contrast(over(c, below, opacity(part) * c[3] / 255), below) * 100) / 100, least]; };
  const name = part => part.tagName.toLowerCase() + (part.getAttribute('class') ? '.' + part.getAttribute('class').replaceAll(' ', '.') : '') + ' ' + part.textContent.trim().slice(0, 30);
  const texts = [...document.querySelectorAll('body *')].filter(part => [...part.childNodes].some(n => n.nodeType === 3 && n.data.trim()) && seen(part) && !['SCRIPT', 'STYLE', 'OPTION', 'NOSCRIPT'].includes(part.tagName));
  const words = texts.map(part => {
    const style = getComputedStyle(part), size = parseFloat(style.fontSize) * (part.namespaceURI.includes('svg') ? part.ownerSVGElement.getScreenCTM().a : 1);
    const isLarge = size >= 24 || (size >= 18.66 && Number(style.fontWeight) >= 700);
    return of(part, part.namespaceURI.includes('svg') ? style.fill : style.color, isLarge ? 3 : 4.5, name(part));
  });
  const edge = part => { const style = getComputedStyle(part), below = behind(part.parentElement), inside = behind(part); return [name(part), Math.round(100 * Math.max(parseFloat(style.borderTopWidth) ? contrast(rgba(style.borderTopColor).slice(0, 3), below) : 0, contrast(inside, below))) / 100, 3]; };
  const controls = [...document.querySelectorAll('button, select, textarea, input[type=text], input[type=number], .file, .menu > summary')].filter(part => seen(part) && !part.disabled && !part.matches('.menu li button')).map(edge);
  const drawn = [...document.querySelectorAll('.house g.party .seat:first-child, .small-house path, svg.bar rect, .swatch rect')].filter(part => part.getClientRects().length).map(part => {
    const style = getComputedStyle(part), below = behind(part.closest('svg').parentElement);
    const frame = part.closest('.swatch') ? getComputedStyle(part.closest('.swatch')).borderTopColor : parseFloat(style.strokeWidth) ? style.stroke : 'transparent';
    const best = Math.max(contrast(over(rgba(style.fill), below, rgba(style.fill)[3] / 255), below), contrast(over(rgba(frame), below, rgba(frame)[3] / 255), below));
    return ['picture ' + (part.closest('svg').getAttribute('class')) + ' ' + (part.closest('[data-party]')?.dataset.party || part.dataset.swatch), Math.round(best * 100) / 100, 3];
  });
  const lines = [...document.querySelectorAll('.majority-line, .house .leader')].map(part => of(part, getComputedStyle(part).stroke, 3, 'line ' + part.getAttribute('class')));
  return { paper, words, controls, drawn, lines };
})()"""


class Contrast(User):
    """Each scheme in a browser of its own: six statutes of made-up returns with all parts open, a refused record, and a tie."""

    def measured(self, what, least):
        found = self.run(MEASURED)
        self.expect("whether so many words of %s are measured, and some controls" % what, (len(found["words"]) > least, len(found["controls"]) > 5), (True, True))
        for kind in ("words", "controls", "drawn", "lines"):
            low = sorted({(name, has, needs) for name, has, needs in found[kind] if has < needs})
            self.expect("%s of %s that stand out too little" % (kind, what), low[:12], [])
        return found

    def in_scheme(self, scheme):
        kept = self.browser
        self.browser = BROWSERS[kept.name](self.language, scheme=scheme)
        try:
            self.browser.open(kept.run("location.href"))
            self.browser.wait("document.body && document.body.dataset.ready")
            self.measured("the beginning", 20)
            self.after(lambda: self.browser.click('[data-election="2009"]'))
            self.expect("whether a picture is measured", len(self.measured("the election of 2009", 50)["drawn"]) > 15, True)
            self.only(*cases.LAWS)
            self.give(self.file("made-up.csv", made_up()))
            self.reveal("#giving", "#own", "#looks", "#paste-part", "#records-part", "#totals-part", "#whatif-part", "#colours-part", "details.lists", "details.bounds", "details.all-steps")
            found = self.measured("a result", 200)
            self.expect("whether the paper is dark", sum(found["paper"]) < 200, scheme == "dark")
            self.paste((DATA / "covered" / "returns.csv").read_text().replace("list,South,Reds,140000", "list,South,Reds,140.000"))
            self.measured("a refusal", 100)
            self.only()
            self.after(lambda: self.browser.choose("#own-file", DATA / "tie" / "book.law"))
            self.give(DATA / "tie" / "returns.csv")
            self.measured("a tie", 50)
        finally:
            self.browser.close()
            self.browser = kept

    def light(self):
        self.in_scheme("light")

    def dark(self):
        self.in_scheme("dark")

    def all(self):
        self.each((self.light, self.dark))
