"""Where the marks of a drive stand: rows from left to right, a lane for each element that a candidate names."""

from collections import Counter
from typing import NamedTuple

LANE = 26  # pixels
TOP = 24  # above the first lane, for the links over gaps
SHADES = (0.0, 1.0, 3.0, 10.0)  # how far below the row's best the darker shades go


class Step(NamedTuple):
    """A step of the best path: its dots, and whether it is over a gap or into a broken row."""

    start: tuple
    end: tuple
    kind: str


def pitch_of(count):
    """The width of a row, in pixels: the fewer there are, the wider."""
    return 40 if count <= 40 else 28 if count <= 400 else 20


def label_step(count):
    """Every so manyth row is labelled."""
    return 1 if count <= 40 else 5


def lanes_of(rows):
    """The lane of each element, in the order in which candidates first name them."""
    lanes = {}
    for row in rows:
        for candidate in row.candidates:
            lanes.setdefault(candidate.element, len(lanes))
    return lanes


def heights(row, lanes):
    """The height of each of a row's dots. Those of one element share its lane, one below the other."""
    many = Counter(candidate.element for candidate in row.candidates)
    seen, found = Counter(), []
    for candidate in row.candidates:
        element = candidate.element
        apart = min(8, (LANE - 10) / max(1, many[element] - 1))
        found.append(TOP + LANE * lanes[element] + LANE / 2 + apart * (seen[element] - (many[element] - 1) / 2))
        seen[element] += 1
    return found


class Axis(NamedTuple):
    """Which rows there are, and where their dots stand."""

    pitch: int
    lanes: dict
    dots: list  # for each row the heights of its dots

    @property
    def width(self):
        return self.pitch * len(self.dots)

    @property
    def height(self):
        return TOP + LANE * len(self.lanes) + 4

    def across(self, row):
        """The middle of a row."""
        return self.pitch * row + self.pitch / 2

    def dot(self, row, candidate):
        return self.across(row), self.dots[row][candidate]


def axis_of(rows):
    lanes = lanes_of(rows)
    return Axis(pitch_of(len(rows)), lanes, [heights(row, lanes) for row in rows])


def shade(score, best):
    """The number of a dot's shade: 0 the row's best, then ever lighter; one more than those without a score."""
    if score == float("-inf"):
        return len(SHADES) + 1
    return sum(best - score > limit for limit in SHADES)


def gaps(rows):
    """The first and last row of each stretch of rows without candidates."""
    found = []
    for row in rows:
        if row.candidates:
            continue
        if found and found[-1][1] == row.number - 1:
            found[-1] = (found[-1][0], row.number)
        else:
            found.append((row.number, row.number))
    return found


def is_over_gap(row):
    """Whether a row's scores came from another row than the one before."""
    return bool(row.candidates) and row.predecessor is not None and row.predecessor != row.number - 1


def path_steps(drive, axis):
    steps = []
    for before, after in zip(drive.path, drive.path[1:]):
        kind = "broken" if after[0] in drive.broken else "over" if after[0] > before[0] + 1 else "step"
        steps.append(Step(axis.dot(*before), axis.dot(*after), kind))
    return steps


def pieces(step, width):
    """The pieces of a step in the drawings of this width that it runs through, each with the drawing's number."""
    (left, upper), (right, lower) = step.start, step.end
    for block in range(int(left // width), int(right // width) + 1):
        ends = max(left, width * block), min(right, width * (block + 1))
        yield block, [(x, upper + (lower - upper) * (x - left) / (right - left)) for x in ends]


def parent_lines(row, axis):
    """A line to each dot of a row from the dot of its parent."""
    ends = enumerate(row.candidates)
    return [(axis.dot(row.predecessor, one.parent), axis.dot(row.number, k)) for k, one in ends if one.parent is not None and row.predecessor is not None]
