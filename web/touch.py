"""The page under a finger and a mouse that drags: seats on a phone, sums, and the order of the parties."""
from election import REAL
from user import User

ORDER = "[...document.querySelectorAll('g.party')].map(g => g.dataset.party)"
SMALL = """[...document.querySelectorAll('#result-part button, #result-part summary')].map(part => [part.textContent, part.getBoundingClientRect()])
    .filter(([, box]) => box.width && Math.min(box.width, box.height) < 24).map(([text]) => text)"""


class Touch(User):
    def begin(self, width, height):
        self.browser.size(width, height)
        self.only("2023-order")
        self.give(REAL)

    def chip(self, party):
        return self.browser.middle('.chip[data-party="%s"]' % party)

    def seats_by_touch(self):
        """On a phone, where a finger is wider than a seat: a tap beside a seat chooses the nearest one."""
        self.begin(450 if self.browser.name == "firefox" else 360, 740)
        for number in (0, 300, 629):
            x, y = self.browser.middle('.seat[data-seat="%d"]' % number)
            radius = self.run("document.querySelector('.seat').getBoundingClientRect().width / 2")
            self.browser.tap(x, y + 0.5 * radius)
            name = self.run("document.querySelector('.seat[data-seat=\"%d\"]').getAttribute('aria-label')" % number)
            self.browser.wait("document.querySelector('.seat-steps h4')?.textContent.endsWith(%r)" % name)
            self.expect("the focus", self.run("document.activeElement.dataset.seat"), str(number))
        x, y = self.browser.middle('.seat[data-seat="0"]')
        self.browser.tap(x - 1.9 * radius, y)
        self.browser.wait("document.activeElement.dataset.seat === '0'")

    def sums_by_touch(self):
        for pressed in ("true", "false"):
            self.browser.tap(*self.chip("SPD"))
            self.browser.wait("document.querySelector('.chip[data-party=SPD]').getAttribute('aria-pressed') === '%s'" % pressed)

    def controls_are_large_enough(self):
        self.expect("controls of the result that are smaller than 24 pixels", self.run(SMALL), [])

    def order_by_dragging(self):
        for touch, width, height in ((False, 1200, 900), (True, 1200, 900), (True, 450 if self.browser.name == "firefox" else 360, 740)):
            self.begin(width, height)
            begin = self.run(ORDER)
            first, second = begin[0], begin[1]
            self.after_shown(lambda: self.drag(second, first, touch))
            self.expect("the order after a drag", self.run(ORDER), [second, first, *begin[2:]])
            self.expect("the parties that a drag has pressed", self.browser.count('.chip[aria-pressed="true"]'), 0)
            self.after_shown(lambda: self.browser.click('[data-key="orderBack"]'))
            self.expect("the order as it was", self.run(ORDER), begin)

    def drag(self, party, other, touch):
        begin, end = self.chip(party), self.chip(other)
        begin = self.chip(party)
        self.browser.drag([begin, *([a + (b - a) * part for a, b in zip(begin, end)] for part in (0.2, 0.5, 0.9)), end], touch)

    def all(self):
        self.each((self.seats_by_touch, self.sums_by_touch, self.controls_are_large_enough, self.order_by_dragging))
