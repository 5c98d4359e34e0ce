import re
import subprocess
import tempfile
import unittest

from picture.tests import ROOT

EXAMPLE = "examples/drive.cases"
BAD = "network 1 0\n100 270 90 90 270 1\nsettings 10 30\nfeed 1 0 0 0.1 1 -1e5\n"
DAMAGED = "network 1 0\n100 270 90 90 270 1\nsettings 10 30\njournal 50\nfeed 1 0 0 0.1 1 -1\npoke 1 FFFFFFFF\n"


def run(*words, text=None):
    return subprocess.run([ROOT / "run", *words], input=text, capture_output=True, text=True, cwd=ROOT, encoding="utf-8")


class Command(unittest.TestCase):
    def test_from_outside(self):
        """The page is one file without a script and without anything from outside."""
        done = run("picture", EXAMPLE)
        self.assertEqual((done.returncode, done.stderr), (0, ""))
        self.assertEqual(re.findall(r"<script|<link|<img|<iframe|@import|https?:|url\((?!#)|\bsrc=", done.stdout), [])
        self.assertTrue(done.stdout.startswith("<!DOCTYPE html>") and done.stdout.endswith("</html>\n"))

    def test_standard_input(self):
        """A drive from standard input gets the same page but for its name."""
        text = (ROOT / EXAMPLE).read_text(encoding="utf-8")
        self.assertEqual(run("picture", text=text).stdout, run("picture", EXAMPLE).stdout.replace(EXAMPLE, "standard input"))

    def test_bad_input(self):
        """A word that cannot be read, or is missing, is told as `cases` tells it, with its status and without a page."""
        for text in (BAD, "journal 99\n" + BAD, BAD.split("-1e5")[0], "poke 0 50000001", "collapse", "short"):
            with tempfile.NamedTemporaryFile("w", suffix=".cases") as file:
                file.write(text)
                file.flush()
                ours, theirs = run("picture", file.name), run("cases", file.name)
            self.assertEqual((ours.returncode, ours.stdout, ours.stderr), (theirs.returncode, "", theirs.stderr), text)
            self.assertEqual((theirs.returncode, "word" in theirs.stderr), (1, True), text)

    def test_no_file(self):
        """A file that is not there, and a word too many."""
        missing, more = run("picture", "no such file"), run("picture", EXAMPLE, EXAMPLE)
        self.assertEqual((missing.returncode, missing.stdout, missing.stderr), (2, "", "run: cannot read no such file: No such file or directory\n"))
        self.assertEqual((more.returncode, more.stdout, "too many words" in more.stderr), (2, "", True))

    def test_damaged_journal(self):
        """A journal that is not well formed is said to be so, and the rest is drawn."""
        done = run("picture", text=DAMAGED)
        self.assertEqual((done.returncode, done.stderr), (0, ""))
        self.assertIn("Closing at the end of the file was refused with 7: the journal is not well formed.", done.stdout)
        self.assertIn('class="network"', done.stdout)

    def test_short_that_waits(self):
        """A `short` at the file's end does not cut the picture's own questions."""
        text = (ROOT / EXAMPLE).read_text(encoding="utf-8")
        self.assertEqual(run("picture", text=text + "short answer 0 short decisions 0 short lengths 1").stdout, run("picture", text=text).stdout)

    def test_readme(self):
        """The README's picture is what the command makes."""
        self.assertEqual(run("picture", "--svg", EXAMPLE).stdout, (ROOT / "docs" / "drive.svg").read_text(encoding="utf-8"))
