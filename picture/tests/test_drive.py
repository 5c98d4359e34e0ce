import re
import unittest

from picture.answers import answered, answers_of
from picture.drive import JOURNAL, QUESTIONS, Unreadable, lines_of_rows, looks_broken, read_drive, refusals_of
from picture.journal import Candidate, Row
from picture.language import commands_of
from picture.refusals import MEANINGS
from picture.tests import ROOT

NOTHING = ["close none", "words 1", "50000001", "segments 0", "collapse 0 0"]


def calls(text, answers):
    return list(answered(commands_of(text), answers_of(answers.split("; "))))


class Calls(unittest.TestCase):
    def test_lines_of_rows(self):
        """Each standing row has the line of its fix: those struck and refused have none, and opening begins anew."""
        text = b"journal 50\nfeed 0 0\nopen\nfeed 0 0\nfeed 0 0\nstrike 1\nfeed 0 0\nfeed 0 0\nstrike 9\n"
        answers = "open ok; feed ok; open ok; feed ok; feed ok; strike ok; feed refused 17; feed ok; strike refused 13"
        self.assertEqual(lines_of_rows(calls(text, answers)), [4, 8])

    def test_lines_are_not_known(self):
        """A journal that was loaded or changed word by word tells no lines."""
        self.assertEqual(lines_of_rows(calls(b"feed 0 0\nload 1 50000001\nfeed 0 0", "feed ok; feed ok")), [])

    def test_refusals(self):
        """Refusals are listed in words, with number and line."""
        found = refusals_of(calls(b"journal 0\nfeed 1 1 0 0.5 1 -1 3\n\nstrike 1\nclose", "open refused 12; feed refused 10; strike refused 13; close none"), 0)
        self.assertEqual([one.line for one in found], [1, 2, 4])
        self.assertEqual([one.what for one in found], ["opening a journal of 0 words", "feed of 1 candidate and 1 distance", "strike of 1 row"])
        self.assertEqual([one.number for one in found], [12, 10, 13])
        self.assertIn("number of distances", found[1].meaning)


    def test_every_number(self):
        """Every refusal number of the header has words."""
        numbers = re.findall(r"BOX_REFUSED_\w+ = (\d+)", (ROOT / "include" / "box.h").read_text(encoding="utf-8"))
        self.assertEqual(sorted(MEANINGS), sorted(map(int, numbers)))


class Asking(unittest.TestCase):
    def asked(self, text, answers):
        """What is asked on a file's text, and the drive that the answers give."""
        seen = []
        return seen, read_drive(text, lambda question: seen.append(question.decode()) or answers)

    def test_journal(self):
        """A file that opens no journal gets one, and the lines that are told are the file's own."""
        seen, drive = self.asked(b"\nstrike 1 # no row", ["open ok", "strike refused 13"] + NOTHING)
        self.assertEqual(seen, [JOURNAL + "\nstrike 1 # no row\n" + QUESTIONS])
        self.assertEqual([one.line for one in drive.refusals], [2])
        seen, drive = self.asked(b"journal 9", ["open ok"] + NOTHING)
        self.assertEqual(seen, ["journal 9\n" + QUESTIONS])

    def test_unreadable(self):
        """A word that cannot be read is told by its number in the file."""
        for text, answers, number in ((b"feed x", ["open ok", "error 4"], 2), (b"journal x", ["error 2"], 2)):
            with self.assertRaises(Unreadable) as stopped:
                self.asked(text, answers)
            self.assertEqual(stopped.exception.number, number)

    def test_refused_journal(self):
        """A journal that is not well formed has no rows, and segments that are refused are not collapsed."""
        held = ["collapse 1 0", "segment 0 0000000000000000 0000000000000000 0 0"]
        _, drive = self.asked(b"journal 9", ["open ok", "close refused 7", "words 1", "50000002", "segments refused 7"] + held)
        self.assertEqual((drive.rows, drive.path, drive.collapsed, [one.number for one in drive.unanswered]), ([], [], [], [7, 7]))

    def test_refused_collapse(self):
        """Collapsing that is refused is said to be so."""
        _, drive = self.asked(b"journal 9", ["open ok"] + NOTHING[:4] + ["collapse refused 15"])
        self.assertEqual([(one.what, one.number) for one in drive.unanswered], [("Collapsing", 15)])


class Broken(unittest.TestCase):
    FIRST = Row(0, 0, None, [Candidate(0, 0.5, 0, -1.0, None, -1.0), Candidate(1, 0.5, 0, -1.0, None, -1.0)])

    def after(self, *candidates):
        return Row(1, 0, 0, [Candidate(2, 0.5, 0, raw_log, parent, score) for raw_log, parent, score in candidates])

    def test_looks_broken(self):
        """-23.0 below the best before, then the candidate's log, which counts -23.025850929940457 at least."""
        floored = (-1.0 + -23.0) + -23.025850929940457
        self.assertTrue(looks_broken(self.after((-0.5, 1, -24.5), (float("-inf"), 1, floored)), [self.FIRST]))
        self.assertFalse(looks_broken(self.after((-0.5, 1, -24.5), (-0.5, 1, -23.5)), [self.FIRST]))
        self.assertFalse(looks_broken(self.after((-0.5, None, float("-inf"))), [self.FIRST]))
        self.assertFalse(looks_broken(self.FIRST, []))
