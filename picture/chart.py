"""Draws the rows of a drive: axis, lanes, dots, best path, gaps and broken rows, and what is shown of a row that one points at."""

from picture.layout import LANE, TOP, gaps, is_over_gap, label_step, parent_lines, path_steps, pieces, shade
from picture.marks import counted, exact, line, number, svg, title

BLOCK = 100  # rows in one drawing: a browser passes over those that are out of sight
AXIS = 40
LABELS = 96  # the width of what stands before the first row
BEND = 14  # of a link over a gap


def span(noun, first, last):
    return "%s %d" % (noun, first) if first == last else "%ss %d to %d" % (noun, first, last)


def rows_in_words(first, last):
    return span("row", first, last)


def place(drive, first, last):
    """The lines of the file where the fixes of rows stand."""
    return span("line", drive.lines[first], drive.lines[last]) + " of the file" if drive.lines else ""


def axis_strip(drive, axis):
    """Row numbers, and under them minutes."""
    marks, step = [], label_step(len(drive.rows))
    for row in drive.rows:
        x = number(axis.across(row.number))
        if row.number % step == 0:
            marks.append('<text x="%s" y="15">%d</text><text class="minute" x="%s" y="31">%d</text>' % (x, row.number, x, row.minute))
        marks.append('<path class="tick" d="M%s %dv4"/>' % (x, AXIS - 4))
    return svg("axis", 0, axis.width, AXIS, "".join(marks), "row numbers and minutes")


def axis_names():
    text = '<text class="name" x="%d" y="15">row</text><text class="name minute" x="%d" y="31">minute</text>' % (LABELS - 8, LABELS - 8)
    return svg("names", 0, LABELS, AXIS, text)


def lane_names(axis):
    """The element of each lane."""
    marks = ['<text class="name from" x="%d" y="16">scores from</text>' % (LABELS - 8)]
    for element, lane in axis.lanes.items():
        y = TOP + LANE * lane
        marks.append('<text class="name" x="%d" y="%d">element %d</text>' % (LABELS - 8, y + 17, element))
    return svg("names", 0, LABELS, axis.height, "".join(marks))


def lane_stripes(axis, left, width):
    """Every other lane is tinted."""
    return '<rect class="stripes" x="%s" y="%d" width="%s" height="%d"/>' % (number(left), TOP, number(width), LANE * len(axis.lanes))


def draw_gap(drive, axis, first, last):
    rows = drive.rows[first : last + 1]
    minutes = span("minute", rows[0].minute, rows[-1].minute)
    told = title("%s, %s" % (rows_in_words(first, last), minutes), "no candidates", place(drive, first, last))
    column = '<rect class="gap" x="%s" y="0" width="%s" height="%d">%s</rect>'
    return column % (number(axis.pitch * first), number(axis.pitch * len(rows)), axis.height, told)


def dot_words(drive, row, candidate):
    parent = "none"
    if candidate.parent is not None and row.predecessor is not None:
        element = drive.rows[row.predecessor].candidates[candidate.parent].element
        parent = "candidate %d of row %d, element %d" % (candidate.parent, row.predecessor, element)
    below = " (%s below the row's best)" % exact(round(row.best - candidate.score, 6)) if float("-inf") < candidate.score < row.best else ""
    return title(
        "row %d, minute %d" % (row.number, row.minute),
        "element %d at intrinsic %s%s" % (candidate.element, exact(candidate.intrinsic), ", near an end" if candidate.near else ""),
        "raw log " + exact(candidate.raw_log),
        "score " + exact(candidate.score) + below,
        "parent: " + parent,
        place(drive, row.number, row.number),
    )


def row_words(drive, row):
    come = "the first row that scores" if row.predecessor is None else "scores came from row %d" % row.predecessor
    if not row.scores:
        come = "no candidate has a score"
    broken = "broken: no step leads to it from row %d" % row.predecessor if row.number in drive.broken else ""
    return title("row %d, minute %d" % (row.number, row.minute), counted(len(row.candidates), "candidate"), come, broken, place(drive, row.number, row.number))


def row_kind(drive, row):
    return " broken" if row.number in drive.broken else "" if row.scores else " silent"


def draw_origin(row, axis):
    """The parents of a row, and the row that its scores came from: shown when one points at it."""
    if row.predecessor is None:
        return ""
    lines = "".join(line(*ends) for ends in parent_lines(row, axis))
    left = axis.pitch * row.predecessor
    column = '<rect x="%s" y="0" width="%d" height="%d"/>' % (number(left), axis.pitch, axis.height)
    words = '<text x="%s" y="14">row %d</text>' % (number(axis.across(row.predecessor)), row.predecessor)
    return '<g class="origin">%s<path d="%s"/>%s</g>' % (column, lines, words)


def target_of(row, on_path):
    """The dot that a link to the row leads to: that of the best path, or the first of the best."""
    return on_path.get(row.number, max(range(len(row.candidates)), key=lambda k: row.candidates[k].score))


def draw_row(drive, axis, row, on_path):
    """A row with candidates: its column, which one may point at, and its dots, the better ones on top."""
    best, dots, target = row.best, [], target_of(row, on_path)
    for k in sorted(range(len(row.candidates)), key=lambda k: (k == target, row.candidates[k].score)):
        candidate, (x, y) = row.candidates[k], axis.dot(row.number, k)
        kind = "d%d" % shade(candidate.score, best) + (" on" if on_path.get(row.number) == k else "")
        name = ' id="row-%d"' % row.number if k == target else ""
        dots.append('<circle%s class="%s" cx="%s" cy="%s" r="5">%s</circle>' % (name, kind, number(x), number(y), dot_words(drive, row, candidate)))
    left = number(axis.pitch * row.number)
    column = '<rect class="column" x="%s" y="0" width="%d" height="%d">%s</rect>' % (left, axis.pitch, axis.height, row_words(drive, row))
    mark = '<path class="cross" d="M%s 4l10 10m0 -10l-10 10"/>' % number(axis.across(row.number) - 5) if row.number in drive.broken else ""
    return '<g class="row%s">%s%s%s%s</g>' % (row_kind(drive, row), column, draw_origin(row, axis), mark, "".join(dots))


def draw_link(row, axis):
    """A link to a row from the one that its scores came from, over the rows between."""
    start, end = axis.across(row.predecessor), axis.across(row.number)
    words = title("the scores of row %d came from row %d" % (row.number, row.predecessor))
    bow = "M%s 23Q%s 7 %s 7H%sQ%s 7 %s 23" % tuple(map(number, (start, start, start + BEND, end - BEND, end, end)))
    return '<path class="link" d="%s">%s</path>' % (bow, words)


def draw_path(drive, axis):
    """The best path in the drawings that it runs through, each kind of step as one line."""
    lines = {}
    for step in path_steps(drive, axis):
        for block, ends in pieces(step, BLOCK * axis.pitch):
            lines.setdefault((block, step.kind), []).append(line(*ends))
    for (block, kind), data in lines.items():
        yield block, '<path class="path %s" d="%s"/>' % (kind, "".join(data))


def marks_of(drive, axis):
    """The marks of the lanes, each with the number of its drawing; what comes later lies on top. A link stands in the drawing of its later row."""
    for first, last in gaps(drive.rows):
        for block in range(first // BLOCK, last // BLOCK + 1):
            yield block, draw_gap(drive, axis, max(first, BLOCK * block), min(last, BLOCK * block + BLOCK - 1))
    for row in drive.rows:
        if is_over_gap(row):
            yield row.number // BLOCK, draw_link(row, axis)
    yield from draw_path(drive, axis)
    on_path = dict(drive.path)
    for row in drive.rows:
        if row.candidates:
            yield row.number // BLOCK, draw_row(drive, axis, row, on_path)


def lane_blocks(drive, axis):
    """The lanes in drawings of so many rows each."""
    blocks = [[] for _ in range(-(-len(drive.rows) // BLOCK))]
    for block, mark in marks_of(drive, axis):
        blocks[block].append(mark)
    return ["".join(marks) for marks in blocks]


def lane_strip(drive, axis):
    drawings = []
    for k, block in enumerate(lane_blocks(drive, axis)):
        left = axis.pitch * BLOCK * k
        width = min(axis.pitch * BLOCK, axis.width - left)
        label = rows_in_words(BLOCK * k, min(BLOCK * k + BLOCK, len(drive.rows)) - 1)
        drawings.append(svg("lanes", left, width, axis.height, lane_stripes(axis, left, width) + block, label))
    return "".join(drawings)
