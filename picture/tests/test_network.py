import shutil
import tempfile
import unittest
from pathlib import Path

from picture.language import Network
from picture.network_chart import direction_words, heads, not_drawn, relation_words
from picture.network_layout import HEIGHT, WIDTH, by_graphviz, by_rule, columns, drawn, in_dot, plan
from picture.tests.examples import line_of, relation

# A line of 0 to 3; 2 hangs beside it by a relation that names side 0 first; 5 stands alone; the last two name what there is not.
JOINS = [relation(0, 1), relation(1, 3, (5, 9), (20, 30)), relation(2, 0, sides=(0, 1)), relation(3, 4)]
YARD = Network([100.0] * 6, JOINS + [relation(0, 9), relation(0, 1, sides=(2, 0))])


def overlapping(boxes):
    """Pairs of boxes that share a place."""
    places = sorted(boxes.items())
    return [(a, b) for a, (x, y) in places for b, (u, v) in places if a < b and abs(x - u) < WIDTH and abs(y - v) < HEIGHT]


class Plans(unittest.TestCase):
    def check_plan(self, made):
        self.assertEqual(sorted(made.boxes), list(range(6)))
        self.assertEqual(sorted(made.curves), [0, 1, 2, 3])
        self.assertEqual(overlapping(made.boxes), [])
        self.assertIn(1, made.labels)
        width, height = made.size
        for x, y in made.boxes.values():
            self.assertTrue(WIDTH / 2 <= x <= width - WIDTH / 2 + 1 and HEIGHT / 2 <= y <= height - HEIGHT / 2 + 1, (x, y, made.size))
        for number, one in drawn(YARD).items():
            self.check_ends(made, one, made.curves[number])

    def check_ends(self, made, one, points):
        """A line goes from the edge of one box to the edge of the other, side 0 on the left."""
        ends = {(one.start, one.start_side), (one.end, one.end_side)}
        edges = [(made.boxes[element][0] + WIDTH * (side - 0.5), made.boxes[element][1]) for element, side in ends]
        for x, y in (points[0], points[-1]):
            self.assertTrue(any(abs(x - u) < 3 and abs(y - v) < 3 for u, v in edges), (one, points, edges))
        self.assertEqual(len(points) % 3, 1)

    def test_rule(self):
        """The plain rule: every element once, none over another, lines from side to side."""
        self.check_plan(by_rule(YARD, "it is tested"))
        self.assertEqual(columns(YARD), {0: 0, 1: 1, 2: 1, 3: 2, 4: 3, 5: 0})

    @unittest.skipUnless(shutil.which("dot"), "graphviz is not installed")
    def test_graphviz(self):
        """Graphviz: the same, and from left to right where side 1 meets side 0."""
        made = by_graphviz(YARD)
        self.check_plan(made)
        self.assertTrue(made.boxes[0][0] < made.boxes[1][0] < made.boxes[3][0] and made.boxes[0][0] < made.boxes[2][0], made.boxes)
        self.assertIn("graphviz", made.said)

    def test_said(self):
        """Where graphviz is not there, takes too long or fails, the plain rule serves, and the page says why."""
        self.assertIn("graphviz is not installed", plan(YARD, program="no-such-program").said)
        self.assertIn("graphviz ended with status 1", plan(YARD, program="false").said)
        with tempfile.TemporaryDirectory() as folder:
            slow = Path(folder) / "slow"
            slow.write_text("#!/bin/sh\nexec sleep 60\n")
            slow.chmod(0o755)
            self.assertIn("graphviz did not end within 0.1 s", plan(YARD, program=slow, seconds=0.1).said)

    def test_dot(self):
        """Side 0 is a box's left edge, and windows are its label."""
        text = in_dot(YARD)
        self.assertIn('e0 -> e2 [id="2" tailport=e headport=w];', text)
        self.assertIn('e1 -> e3 [id="1" tailport=e headport=w label="shut 5-9, 20-30"];', text)

    def test_no_relations(self):
        """Elements alone."""
        self.assertEqual(sorted(by_rule(Network([1.0, 2.0], []), "").boxes), [0, 1])


class Words(unittest.TestCase):
    def test_directions(self):
        """Directions in words and as arrow heads, which follow a line that is drawn the other way round."""
        self.assertEqual(direction_words(relation(0, 1)), "both ways")
        self.assertEqual(direction_words(relation(0, 1, forward=False)), "only from element 1 to element 0")
        self.assertEqual(direction_words(relation(0, 1, forward=False, backward=False)), "in neither direction")
        self.assertIn("marker-end", heads(relation(0, 1, backward=False)))
        self.assertIn("marker-start", heads(relation(0, 1, sides=(0, 1), backward=False)))

    def test_windows(self):
        """Windows in words."""
        self.assertEqual(relation_words(4, relation(0, 1, (5, 9)))[2:], ["shut from minute 5 on, open again at 9"])

    def test_not_drawn(self):
        """Relations that name what there is not are told in words."""
        self.assertEqual([words.split(":")[0] for words in not_drawn(YARD)], ["relation 4", "relation 5"])
        self.assertEqual(not_drawn(line_of(3)), [])
