import unittest

from picture.answers import Decision, Segment, answered, answers_of, read_decisions, read_path, read_segments
from picture.journal import Candidate, rows_of
from picture.language import commands_of
from picture.tests import ROOT

OUTPUT = """open ok
feed refused 17
words 2
50000001
FFFFFFFF
close C004000000000000 1
at 3 0
row 1 2 7
candidate 0 3FE0000000000000 1 BFF0000000000000 1 C000000000000000
distance 3FF0000000000000
distance 4000000000000000
steps 1
step 0 1 1 0 8000000000000000
route 4049000000000000 3
3 5 6
route none
route refused 16
triple yes
segments 1
segment 2 0000000000000000 3FF0000000000000 3 8
collapse 1 1
segment 2 0000000000000000 3FF0000000000000 3 8
decision 2 4 2 0 1
kept yes
replay row 3""".split("\n")


class Answers(unittest.TestCase):
    def test_every_answer(self):
        """Every answer of `cases` ends where the next one begins."""
        found = [(answer.words[0], len(answer.lines), answer.refusal) for answer in answers_of(OUTPUT)]
        self.assertEqual([words for words, _, _ in found], "open feed words close row steps route route route triple segments collapse kept replay".split())
        self.assertEqual([lines for _, lines, _ in found], [0, 0, 2, 1, 3, 1, 1, 0, 0, 0, 1, 2, 0, 0])
        self.assertEqual([number for _, _, number in found if number], [17, 16])

    def test_lists(self):
        """Path, segments and decisions."""
        answers = {answer.words[0]: answer for answer in answers_of(OUTPUT)}
        segment = Segment(2, 0.0, 1.0, 3, 8)
        self.assertEqual(read_path(answers["close"]), ([(3, 0)], -2.5))
        self.assertEqual((read_segments(answers["segments"]), read_segments(answers["collapse"])), ([segment], [segment]))
        self.assertEqual(read_decisions(answers["collapse"]), [Decision(2, 4, [0, 1])])
        self.assertEqual([read_path(next(answers_of([line]))) for line in ("close none", "close refused 7")], [([], None)] * 2)

    def test_commands(self):
        """A command that answers nothing has no answer; `routes` has one for each pair of sides."""
        commands = commands_of(b"network 1 0 1 0 0 0 0 1 routes minute 3 journal 5 open")
        answers = answers_of(["route none"] * 4 + ["open ok", "open refused 12"])
        found = [(command.keyword, len(answers)) for command, answers in answered(commands, answers)]
        self.assertEqual(found, [("network", 0), ("routes", 4), ("minute", 0), ("journal", 1), ("open", 1)])


class Journal(unittest.TestCase):
    def test_tunnel(self):
        """The example's journal: rows without candidates, and the row behind them, whose scores came from before them."""
        rows = rows_of((ROOT / "examples" / "tunnel.txt").read_text().split())
        self.assertEqual([(row.minute, len(row.candidates), row.predecessor) for row in rows], [(3, 1, None), (4, 1, 0), (5, 0, 1), (6, 0, 1), (8, 1, 1)])
        self.assertEqual(rows[0].candidates, [Candidate(0, 0.125, 0, -1.0, None, -1.0)])
        self.assertEqual(rows[4].candidates, [Candidate(0, 0.75, 0, -0.25, 0, -1.75)])
        self.assertEqual([row.scores for row in rows], [True, True, False, False, True])

    def test_no_rows(self):
        """A journal that was only opened."""
        self.assertEqual(rows_of(["50000001"]), [])
