import unittest

from picture.answers import answers_of
from picture.drive import JOURNAL, read_drive
from picture.journal import NO_PARENT, Candidate
from picture.language import float_of
from picture.tests import ROOT
from picture.tests.test_page import EXAMPLE, run


def ask(text):
    return run("cases", text=text.decode()).stdout.splitlines()


def read_candidate(line):
    """A candidate as `row` tells it."""
    _, element, intrinsic, near, raw_log, parent, score = line.split()
    return Candidate(int(element), float_of(intrinsic), int(near), float_of(raw_log), None if int(parent) == NO_PARENT else int(parent), float_of(score))


class ReadBack(unittest.TestCase):
    def test_rows(self):
        """The rows that are drawn are those that `cases` reads back, and their scores came from the rows that its steps begin at."""
        text = (ROOT / EXAMPLE).read_bytes()
        drive = read_drive(text, ask)
        questions = "".join("row %d steps %d\n" % (row.number, row.number) for row in drive.rows)
        answers = list(answers_of(ask(JOURNAL.encode() + text + questions.encode())))[-2 * len(drive.rows) :]
        self.assertEqual(len(drive.rows), 16)
        for row, told, steps in zip(drive.rows, answers[::2], answers[1::2]):
            self.assertEqual(row.minute, int(told.words[3]))
            self.assertEqual(row.candidates, [read_candidate(line) for line in told.lines[: int(told.words[1])]])
            self.assertLessEqual({int(line.split()[1]) for line in steps.lines}, {row.predecessor})
            self.assertEqual(row.number in drive.broken, bool(row.candidates) and row.predecessor is not None and not steps.lines)
