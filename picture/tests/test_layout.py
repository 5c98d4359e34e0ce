import unittest

from picture.layout import LANE, TOP, Step, axis_of, gaps, heights, is_over_gap, lanes_of, parent_lines, path_steps, pieces, shade
from picture.marks import number
from picture.tests.examples import NO_SCORE, drive, row

# Two rows, two without candidates, and one behind them, all on elements 7 and 2.
TUNNEL = [
    row(0, (7, -1.0), (2, -3.0)),
    row(1, (2, -2.0, 0), (7, -2.5, 0), predecessor=0),
    row(2, predecessor=1),
    row(3, predecessor=1),
    row(4, (7, -4.0, 1), (2, NO_SCORE), predecessor=1),
]


class Lanes(unittest.TestCase):
    def test_order(self):
        """An element has one lane, in the order in which candidates name them."""
        self.assertEqual(lanes_of(TUNNEL), {7: 0, 2: 1})
        self.assertEqual(lanes_of([]), {})

    def test_dots(self):
        """A dot stands in the middle of its row and lane."""
        axis = axis_of(TUNNEL)
        self.assertEqual(axis.dot(1, 0), (1.5 * axis.pitch, TOP + 1.5 * LANE))
        self.assertEqual((axis.width, axis.height >= TOP + 2 * LANE), (5 * axis.pitch, True))

    def test_coordinates(self):
        """A tenth of a pixel is told, however far to the right."""
        self.assertEqual([number(value) for value in (0, 20.0, 1310690.0, 130010.5, 7 / 3)], ["0", "20", "1310690", "130010.5", "2.3"])

    def test_shared_lane(self):
        """Candidates of one element stand apart within its lane, up to sixteen of them."""
        for count in (2, 16):
            found = heights(row(0, *[(3, -1.0)] * count), {3: 0})
            self.assertEqual(sorted(set(found)), found)
            self.assertTrue(TOP < found[0] and found[-1] < TOP + LANE, found)

    def test_shades(self):
        """The lower below the row's best, the lighter."""
        self.assertEqual([shade(-5.0 - below, -5.0) for below in (0.0, 0.5, 1.0, 1.5, 3.5, 10.5)], [0, 1, 1, 2, 3, 4])
        self.assertEqual([shade(NO_SCORE, -5.0), shade(NO_SCORE, NO_SCORE)], [5, 5])


class Tunnel(unittest.TestCase):
    def test_gaps(self):
        """Rows without candidates next to each other are one gap."""
        self.assertEqual(gaps(TUNNEL), [(2, 3)])
        self.assertEqual(gaps([row(0), row(1, (0, -1.0)), row(2)]), [(0, 0), (2, 2)])

    def test_links(self):
        """Only the row behind the gap has its scores from another row than the one before."""
        self.assertEqual([is_over_gap(one) for one in TUNNEL], [False, False, False, False, True])

    def test_parents(self):
        """A line to each candidate with a parent, from its parent's dot, over the gap too."""
        axis = axis_of(TUNNEL)
        self.assertEqual(parent_lines(TUNNEL[4], axis), [(axis.dot(1, 1), axis.dot(4, 0))])
        self.assertEqual(len(parent_lines(TUNNEL[1], axis)), 2)
        self.assertEqual(parent_lines(TUNNEL[0], axis), [])

    def test_path(self):
        """Steps of the best path: to the next row, over a gap, into a broken row."""
        rows, path = TUNNEL + [row(5, (2, -30.0, 0), predecessor=4)], [(0, 0), (1, 1), (4, 0), (5, 0)]
        axis = axis_of(rows)
        steps = path_steps(drive(rows, path, broken=[5]), axis)
        self.assertEqual([step.kind for step in steps], ["step", "over", "broken"])
        self.assertEqual((steps[1].start, steps[1].end), (axis.dot(1, 1), axis.dot(4, 0)))

    def test_pieces(self):
        """A step that runs through several drawings is cut at their borders."""
        self.assertEqual(list(pieces(Step((50, 0), (250, 20), "over"), 100)), [(0, [(50, 0), (100, 5)]), (1, [(100, 5), (200, 15)]), (2, [(200, 15), (250, 20)])])
        self.assertEqual(list(pieces(Step((110, 7), (130, 7), "step"), 100)), [(1, [(110, 7), (130, 7)])])
