import tempfile
import unittest
from pathlib import Path

from picture.tests import browser
from picture.tests.test_page import EXAMPLE, run

WIDE, NARROW = 1280, 420
PATH, BEST = (0xE8, 0x59, 0x0C), (0x0B, 0x2E, 0x59)  # colours
# What a person sees of a mark, once it is scrolled to: whether it has an area, is not hidden, and is on top where one points at its middle.
HELPERS = """
const box = e => e.getBoundingClientRect();
const show = e => { e.scrollIntoView({block: 'center', inline: 'center'}); return box(e); };
const isOnTop = e => { const r = show(e), hit = document.elementFromPoint(r.x + r.width / 2, r.y + r.height / 2); return hit !== null && e.contains(hit); };
const isShown = s => s.visibility == 'visible' && s.display != 'none' && s.opacity > 0;
const isPainted = e => { const r = show(e); return r.width + r.height > 0 && isShown(getComputedStyle(e)); };
const all = (selector, test) => [...document.querySelectorAll(selector)].map(test);
const words = selector => all(selector, e => e.textContent);
const column = row => box(document.querySelector('#row-' + row).closest('.row').querySelector('.column'));
const middle = row => column(row).x + column(row).width / 2;
const spans = (e, from, to) => box(e).x == middle(from) && box(e).right == middle(to);
const isInPane = e => { const r = box(e), p = box(e.closest('.pane')); return r.x > p.x + 96 && r.right < p.right && r.y > 0 && r.bottom < innerHeight; };
"""


@unittest.skipUnless(browser.is_installed(), "%s is not installed" % browser.PROGRAM)
class Page(unittest.TestCase):
    """The page of the example drive: sixteen rows on five of six elements, rows 4 and 5 in a tunnel, row 15 broken."""

    @classmethod
    def setUpClass(cls):
        cls.folder = tempfile.TemporaryDirectory()
        cls.file = Path(cls.folder.name) / "drive.html"
        cls.file.write_text(run("picture", EXAMPLE).stdout, encoding="utf-8")
        cls.browser = browser.Browser()

    @classmethod
    def tearDownClass(cls):
        cls.browser.__exit__()
        cls.folder.cleanup()

    def opened(self, width):
        self.browser.open(self.file, width, 900)
        self.browser.value(HELPERS)

    def check(self, expression, expected):
        self.assertEqual(self.browser.value(expression), expected, expression)

    def test_marks(self):
        """The drive: dots, best path, gap, broken row, link and lanes can be seen, at two widths."""
        for width in (WIDE, NARROW):
            self.opened(width)
            self.check("words('.body .names text')", ["scores from"] + ["element %d" % k for k in (0, 1, 2, 4, 5)])
            self.check("words('.axis text:not(.minute)')", [str(k) for k in range(16)])
            self.check("all('.body circle', isOnTop)", [True] * 23)
            self.check("all('.body .gap', isOnTop)", [True])
            self.check("all('.body .path', e => e.classList[1])", ["step", "over", "broken"])
            self.check("all('.body .path, .body .cross, .body .link', isPainted)", [True] * 5)
            self.check("all('.body .broken .column', e => box(e).x == column(15).x)", [True])
            self.check("performance.getEntriesByType('resource').length", 0)

    def test_colours(self):
        """Nothing covers the best path and the dots; the gap and the broken row are tinted; a lane's name stands beside its dots."""
        self.opened(WIDE)
        places = self.browser.value("[0, 1, 15].map(k => box(document.querySelector('#row-' + k))).map(r => [r.x + r.width / 2, r.y + r.height / 2])")
        first, second, last = places
        self.assertEqual(self.browser.colour_at((first[0] + second[0]) / 2, first[1]), PATH)
        self.assertEqual(self.browser.colour_at(*first), BEST)
        gap = self.browser.value("(r => [r.x + r.width / 4, r.bottom - 4])(box(document.querySelector('.body .gap')))")
        self.assertLess(max(self.browser.colour_at(*gap)), 235)
        red, green, _ = self.browser.colour_at(last[0], last[1] - 40)
        self.assertGreater(red, green + 15)
        names = "[...document.querySelectorAll('.body .names text')].map(box)"
        self.check("%s.every(r => r.right < column(0).x)" % names, True)
        self.check("(r => r.y < %f && %f < r.bottom)(%s.at(-1))" % (last[1], last[1], names), True)

    def test_page_fits(self):
        """The page itself does not scroll sideways: the drive and the network do, each in its pane."""
        for width in (WIDE, NARROW):
            self.opened(width)
            self.check("document.documentElement.scrollWidth <= innerWidth", True)
        self.check("document.querySelector('.pane').scrollWidth > document.querySelector('.pane').clientWidth", True)

    def test_titles(self):
        """Each mark has a title with its numbers."""
        self.opened(WIDE)
        marks = ".body circle, .body .column, .body .gap, .body .link, .bands .bar, .element, .relation"
        self.check("all('%s', e => e.querySelector(':scope > title') !== null)" % marks, [True] * (23 + 14 + 1 + 1 + 14 + 6 + 5))
        dot = ["row 6, minute 6", "element 1 at intrinsic 0.75", "raw log -0.3"]
        title = self.browser.value("document.querySelector('#row-6 title').textContent").split("\n")
        self.assertEqual(title[:3], dot)
        self.assertRegex(title[3], r"^score -\d+\.\d+$")
        self.assertEqual(title[4:], ["parent: candidate 0 of row 3, element 1", "line 42 of the file"])

    def test_pointing(self):
        """Pointing at the row behind the tunnel shows its parents and the row that its scores came from, and no other row's."""
        self.opened(WIDE)
        self.check("all('.origin', e => getComputedStyle(e).visibility).filter(x => x != 'hidden').length", 0)
        place = self.browser.value("show(document.querySelector('#row-6')); [column(6).x + 4, column(6).bottom - 6]")
        self.browser.point_at(*place)
        self.check("all('.origin', e => getComputedStyle(e).visibility).filter(x => x != 'hidden').length", 1)
        self.check("(o => o.querySelector('text').textContent)(document.querySelector('.row:hover .origin'))", "row 3")
        self.check("(o => box(o.querySelector('rect')).x == column(3).x)(document.querySelector('.row:hover .origin'))", True)
        self.check("spans(document.querySelector('.row:hover .origin path'), 3, 6)", True)

    def test_tunnel(self):
        """A visible link crosses the tunnel, from row 3 to row 6, whether one points at it or not."""
        self.opened(WIDE)
        self.check("spans(document.querySelector('.body .link'), 3, 6)", True)

    def test_segments(self):
        """Segments before and after collapsing, on the axis of the rows; bridges hatched, those taken out struck through; the decision in words."""
        self.opened(WIDE)
        self.check("all('.bands .bar', isOnTop)", [True] * 14)
        self.check("words('.bands .bar:not(.bridge) text')", list("012145") + list("0145"))
        self.check("words('.bands .bridge text')", ["3"] * 4)
        self.check("all('.bands .bridge rect', e => getComputedStyle(e).fill.includes('#bridge'))", [True] * 4)
        self.check("all('.bands .taken > path', isPainted)", [True] * 4)
        self.check("(b => [b.x - 1 == column(2).x, b.right + 1 == column(8).right])(box(document.querySelectorAll('.bands .bar rect')[1]))", [True, True])
        self.check("words('#decisions + ol li')", ["Element 1 goes on over a span of 2 rows; removed between: elements 3, 2 and 3."])

    def test_network(self):
        """The network: a box for each element, a line for each relation, windows and arrows, the best path's strong."""
        for width in (WIDE, NARROW):
            self.opened(width)
            self.check("all('.element', isOnTop)", [True] * 6)
            self.check("words('.element text:nth-of-type(2)')", ["400 m", "600 m", "600 m", "10 m", "500 m", "120 m"])
            self.check("all('.relation path + path', isPainted)", [True] * 5)
            self.check("words('.relation.strong title').map(t => t.split(':')[0]).sort()", ["relation %d" % k for k in (0, 2, 3, 4)])
            self.check("words('.relation .window')", ["shut 120-240"])
            self.check("all('.relation path[marker-end]', e => 1).length + all('.relation path[marker-start]', e => 1).length", 9)

    def test_refusals(self):
        """What was refused: line, call, number and reason."""
        self.opened(NARROW)
        rows = self.browser.value("all('#refused + table tr', e => [...e.cells].map(c => c.textContent))")
        self.assertEqual([cells[:3] for cells in rows[1:]], [["40", "strike of 9 rows", "13"], ["60", "feed of 1 candidate and 1 distance", "17"]])
        self.check("all('#refused + table td', isPainted).every(x => x)", True)

    def test_jump(self):
        """A link leads to a row that is out of sight, on either side, and not behind the names of the lanes."""
        self.opened(NARROW)
        self.jump(15, 0, "document.querySelector('.jumps a[href=\"#row-15\"]').click()")
        self.jump(2, 10000, "location.hash = '#row-2'")

    def jump(self, row, scrolled, action):
        """An action brings a row into sight, from where the pane is scrolled to."""
        seen = "isInPane(document.querySelector('#row-%d'))" % row
        self.check("document.querySelector('.pane').scrollLeft = %d; %s" % (scrolled, seen), False)
        self.browser.value(action)
        self.check("new Promise(done => setTimeout(done, 100)).then(() => %s)" % seen, True)
