"""Draws the segments of the best path below the rows, before and after collapsing, and says in words what collapsing decided."""

from picture.chart import LABELS, rows_in_words
from picture.marks import counted, exact, number, svg, title
from picture.segments import STACKED, bars_after, bars_before, stack_height, stacks

BAR = 20  # pixels
SMALL = 15
EDGE = 8
LABELLED = 160  # a label stands in the middle of so much of a bar
REPEAT = 30  # rows after which a long bar is labelled again


def listed(names):
    """Numbers in a sentence."""
    names = [str(name) for name in names]
    return names[0] if len(names) == 1 else "%s and %s" % (", ".join(names[:-1]), names[-1])


def bar_words(bar):
    """The numbers of a segment, and what became of it."""
    one = bar.segment
    rows = rows_in_words(one.first, one.last)
    where = "bridge behind row %d" % one.first if bar.is_bridge else rows
    on = "joined with later ones, up to row %d" % one.last if bar.is_bridge and one.first < one.last else ""
    taken = bar.taken_by
    gone = "taken out by collapsing: element %d has %s now" % (taken.element, rows_in_words(taken.first, taken.last)) if taken else ""
    return title("element %d, %s" % (one.element, where), "from intrinsic %s to %s" % (exact(one.start), exact(one.end)), on, gone)


def box(bar, x, y, width, height, label, words, more=""):
    """A box with a label; struck through where collapsing takes the segment out."""
    kind = "bar" + (" bridge" if bar.is_bridge else "") + (" taken" if bar.taken_by else "")
    wide = min(width, LABELLED)
    size = min(12, height - 3, (wide - 3) / (0.6 * len(label)))
    shape = '<rect x="%s" y="%s" width="%s" height="%s" rx="3"/>' % tuple(map(number, (x, y, width, height)))
    text = '<text x="%s" y="%s" font-size="%s">%s</text>' % (number(x + wide / 2), number(y + height / 2 + 0.36 * size), number(size), label)
    strike = '<path d="M%s %sh%s"/>' % (number(x - 2), number(y + height / 2), number(width + 4)) if bar.taken_by else ""
    return '<g class="%s">%s%s%s%s%s</g>' % (kind, words, shape, text, more, strike)


def draw_group(bar, axis, y):
    """A bar over the rows of a segment. A long one is labelled again where the label before is out of sight."""
    one = bar.segment
    x, width = axis.pitch * one.first + 1, axis.pitch * (one.last - one.first + 1) - 2
    again = range(one.first + REPEAT, one.last, REPEAT)
    more = "".join('<text x="%s" y="%s" font-size="12">%d</text>' % (number(axis.across(row)), number(y + BAR - 6), one.element) for row in again)
    return box(bar, x, y, width, BAR, str(one.element), bar_words(bar), more)


def draw_stack(bars, axis, y):
    """The bridges behind a row, one below the other, on the border to the next row. One that collapsing joined with later ones reaches up to its last row."""
    width = min(26, axis.pitch - 2)
    x = axis.pitch * (bars[0].segment.first + 1) - width / 2
    shown = bars if len(bars) <= STACKED else bars[: STACKED - 1]
    drawn = []
    for k, bar in enumerate(shown):
        reach = axis.pitch * (bar.segment.last - bar.segment.first) - 2
        drawn.append(box(bar, x, y + (SMALL + 2) * k, max(width, reach), SMALL, str(bar.segment.element), bar_words(bar)))
    rest = bars[len(shown) :]
    if rest:
        words = title("%d more bridges behind row %d" % (len(rest), rest[0].segment.first), "elements " + listed([bar.segment.element for bar in rest]))
        drawn.append(box(rest[0], x, y + (SMALL + 2) * (STACKED - 1), width, SMALL, "+%d" % len(rest), words))
    return "".join(drawn)


def band_height(bars):
    return EDGE + BAR + 4 + (SMALL + 2) * stack_height(bars)


def draw_band(bars, axis, y):
    groups = "".join(draw_group(bar, axis, y + EDGE) for bar in bars if not bar.is_bridge)
    return groups + "".join(draw_stack(stack, axis, y + EDGE + BAR + 3) for stack in stacks(bars).values())


def bands(drive):
    """The two lists of bars, with the names of their bands."""
    before = bars_before(drive.segments, drive.collapsed)
    return [("segments", before)] + ([("collapsed", bars_after(before, drive.collapsed))] if drive.collapsed else [])


def total_height(drive):
    return sum(band_height(bars) for _, bars in bands(drive))


def band_strip(drive, axis):
    marks, y = [], 0
    for _, bars in bands(drive):
        marks.append('<path class="rule" d="M0 %sH%s"/>' % (number(y + 0.5), number(axis.width)) + draw_band(bars, axis, y))
        y += band_height(bars)
    return svg("bands", 0, axis.width, y, "".join(marks), "segments before and after collapsing")


def band_names(drive):
    marks, y = [], 0
    for name, bars in bands(drive):
        marks.append('<path class="rule" d="M0 %sH%d"/>' % (number(y + 0.5), LABELS))
        marks.append('<text class="name" x="%d" y="%s">%s</text>' % (LABELS - 8, number(y + EDGE + 15), name))
        y += band_height(bars)
    return svg("names", 0, LABELS, y, "".join(marks))


def decision_words(decision):
    """A decision of collapsing as a sentence."""
    if not decision.removed:
        return "Element %d: two segments next to each other became one." % decision.element
    many = "element" if len(decision.removed) == 1 else "elements"
    return "Element %d goes on over a span of %s; removed between: %s %s." % (decision.element, counted(decision.span, "row"), many, listed(decision.removed))
