"""Rows and drives for the tests, each with the fields that a test looks at."""

from picture.answers import Segment
from picture.drive import Drive
from picture.journal import Candidate, Row
from picture.language import Network, Relation

NO_SCORE = float("-inf")


def row(number, *candidates, predecessor=None, minute=0):
    """A row of pairs of an element and a score, or of triples with a parent."""
    made = [Candidate(one[0], 0.5, 0, -1.0, (one + (None,))[2], one[1]) for one in candidates]
    return Row(number, minute, predecessor, made)


def drive(rows=(), path=(), broken=(), segments=(), collapsed=(), network=Network([], [])):
    return Drive(network, list(rows), [], set(broken), list(path), None, list(segments), list(collapsed), [], [], [])


def group(element, first, last, start=0.25):
    return Segment(element, start, 0.75, first, last)


def bridge(element, row_before):
    return Segment(element, 0.0, 1.0, row_before, row_before)


def relation(start, end, *windows, sides=(1, 0), forward=True, backward=True):
    return Relation(start, end, *sides, forward, backward, list(windows))


def line_of(count, *others):
    """A network of so many elements in a line."""
    return Network([100.0] * count, [relation(k, k + 1) for k in range(count - 1)] + list(others))
