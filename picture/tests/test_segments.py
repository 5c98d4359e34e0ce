import unittest

from picture.answers import Decision, Segment
from picture.bands import decision_words
from picture.segments import Bar, bars_after, bars_before, bridge_flags, elements_on_path, relations_on_path, stack_height, stacks
from picture.tests.examples import bridge, drive, group, line_of, relation, row

# The example drive's: element 1 goes on over 2, and what lay between is taken out.
BEFORE = [group(0, 0, 1), group(1, 2, 8), bridge(3, 8), group(2, 9, 10), bridge(3, 10), group(1, 11, 12, 0.5), bridge(3, 12), group(4, 13, 14)]
AFTER = [group(0, 0, 1), group(1, 2, 12), bridge(3, 12), group(4, 13, 14)]


class Bars(unittest.TestCase):
    def test_bridges(self):
        """A bridge has the last row of the group before it; a group of one row has not."""
        self.assertEqual(bridge_flags(BEFORE), [False, False, True, False, True, False, True, False])
        self.assertEqual(bridge_flags([group(0, 3, 3), bridge(1, 3), bridge(2, 3), group(3, 4, 4), group(0, 5, 5)]), [False, True, True, False, False])

    def test_taken_out(self):
        """What collapsing took out belongs to the segment before it that is left."""
        bars = bars_before(BEFORE, AFTER)
        self.assertEqual([bar.taken_by for bar in bars], [None, None] + [AFTER[1]] * 4 + [None, None])
        self.assertEqual(bars_after(bars, AFTER), [Bar(one, k == 2, None) for k, one in enumerate(AFTER)])

    def test_nothing_taken_out(self):
        """Where collapsing changed nothing every bar is left."""
        self.assertEqual([bar.taken_by for bar in bars_before(BEFORE, BEFORE)], [None] * 8)
        self.assertEqual(bars_before([], []), [])

    def test_joined_bridges(self):
        """A bridge that collapsing joined with a later one stays behind its first row."""
        joined = Segment(3, 0.0, 1.0, 8, 10)
        bars = bars_before(BEFORE[1:6], [BEFORE[1], joined, BEFORE[5]])
        self.assertEqual([bar.taken_by for bar in bars], [None, None, joined, joined, None])
        self.assertEqual({row: [bar.segment for bar in stack] for row, stack in stacks(bars_after(bars, [BEFORE[1], joined, BEFORE[5]])).items()}, {8: [joined]})

    def test_decisions(self):
        """Decisions in words."""
        self.assertEqual(decision_words(Decision(1, 1, [2])), "Element 1 goes on over a span of 1 row; removed between: element 2.")
        self.assertEqual(decision_words(Decision(1, 2, [3, 2, 3])), "Element 1 goes on over a span of 2 rows; removed between: elements 3, 2 and 3.")
        self.assertEqual(decision_words(Decision(1, 0, [])), "Element 1: two segments next to each other became one.")

    def test_stacks(self):
        """The bridges behind a row stand one below the other, not more than fit."""
        bars = bars_before([group(0, 0, 4)] + [bridge(k, 4) for k in range(1, 9)], [])
        self.assertEqual({row: [bar.segment.element for bar in stack] for row, stack in stacks(bars).items()}, {4: [1, 2, 3, 4, 5, 6, 7, 8]})
        self.assertEqual([stack_height(bars), stack_height(bars[:3]), stack_height([])], [5, 2, 0])


class OnPath(unittest.TestCase):
    ROWS = [row(0, (0, -1.0), minute=3), row(1, (2, -1.0), minute=6)]

    def used(self, network):
        """What a path from element 0 over bridge 1 to element 2, reached at minute 6, uses of a network."""
        made = drive(self.ROWS, [(0, 0), (1, 0)], segments=[group(0, 0, 0), bridge(1, 0), group(2, 1, 1)], network=network)
        return elements_on_path(made), relations_on_path(made)

    def test_relations(self):
        """The elements of all segments, and the relations from one to the next."""
        self.assertEqual(self.used(line_of(4, relation(2, 0))), ({0, 1, 2}, {0, 1}))

    def test_direction(self):
        """Only relations that one may pass in the path's direction, whichever end they name first."""
        others = relation(1, 0, forward=False), relation(1, 0, backward=False), relation(0, 1, forward=False, backward=False)
        self.assertEqual(self.used(line_of(4, *others))[1], {0, 1, 3})

    def test_windows(self):
        """Only relations that are open at the minute of the later group's first row."""
        self.assertEqual(self.used(line_of(4, relation(0, 1, (6, 7)), relation(0, 1, (3, 6)), relation(1, 2, (0, 99))))[1], {0, 1, 4})

    def test_no_segments(self):
        """Without segments the path's own candidates count."""
        made = drive(self.ROWS, [(0, 0), (1, 0)], network=line_of(3))
        self.assertEqual((elements_on_path(made), relations_on_path(made)), ({0, 2}, set()))
