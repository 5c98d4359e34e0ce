"""One page of a drive, without anything from outside; or its rows and segments alone, as a drawing."""

from html import escape
from pathlib import Path

from picture import bands, chart
from picture.layout import axis_of
from picture.legend import DEFINITIONS, legend
from picture.marks import counted, exact, number
from picture.network_chart import network_drawing, not_drawn
from picture.network_layout import plan
from picture.segments import elements_on_path, relations_on_path

FOLDER = Path(__file__).resolve().parent
LONG = 200  # rows: a longer drive has links to its places
JUMPS = 20  # so many
MOST_REFUSALS = 1000  # that are listed


def css(name):
    return (FOLDER / name).read_text(encoding="utf-8")


def summary(drive):
    """The drive in a sentence or two."""
    rows = drive.rows
    if not rows:
        return "There is nothing to draw." if drive.unanswered else "No row stands."
    empty = sum(not row.candidates for row in rows)
    words = ["%s, minutes %d to %d" % (counted(len(rows), "row"), rows[0].minute, rows[-1].minute)]
    words += ["%s without candidates" % format(empty, ",")] if empty else []
    words += ["%s broken" % format(len(drive.broken), ",")] if drive.broken else []
    path = "No row scores: there is no path." if drive.score is None else "The best path scores %s." % exact(drive.score)
    built = " It has %s, %s after collapsing." % (counted(len(drive.segments), "segment"), format(len(drive.collapsed), ",")) if drive.segments else ""
    return ", ".join(words) + ". " + path + built


def strip(name, names, drawing):
    return '<div class="strip %s">%s%s</div>' % (name, names, drawing)


def jumps(drive):
    """Links to places of a long drive, and to its broken rows."""
    count, standing = len(drive.rows), [row.number for row in drive.rows if row.candidates]
    is_long = standing and count > LONG
    places = sorted({min(standing, key=lambda row: abs(row - k)) for k in range(0, count, -(-count // JUMPS))}) if is_long else []
    return links("Rows", places) + links("Broken rows", sorted(drive.broken))


def links(name, rows):
    """Links to rows, the first of them where there are many."""
    if not rows:
        return ""
    shown = rows[: 2 * JUMPS]
    more = " and %s more" % format(len(rows) - len(shown), ",") if len(rows) > len(shown) else ""
    return '<p class="jumps">%s: %s%s</p>' % (name, " ".join('<a href="#row-%d">%d</a>' % (row, row) for row in shown), more)


def pane(drive):
    axis = axis_of(drive.rows)
    strips = strip("head", chart.axis_names(), chart.axis_strip(drive, axis)) + strip("body", chart.lane_names(axis), chart.lane_strip(drive, axis))
    if drive.segments:
        strips += strip("foot", bands.band_names(drive), bands.band_strip(drive, axis))
    return '<div class="pane" tabindex="0" aria-label="the drive">%s</div>' % strips


def unanswered(drive):
    """What `cases` would not tell of the journal at the file's end."""
    return "".join('<p class="said">%s at the end of the file was refused with %d: %s.</p>' % (one.what, one.number, one.meaning) for one in drive.unanswered)


def drive_section(drive):
    hint = "<p>Point at a row to see the parents of its candidates and the row that its scores came from, and at any mark for its numbers.</p>"
    return unanswered(drive) + (legend() + hint + jumps(drive) + pane(drive) if drive.rows else "")


def decision_section(drive):
    told = "".join("<li>%s</li>" % bands.decision_words(one) for one in drive.decisions)
    return "<ol>%s</ol>" % told if told else "<p>Nothing: every segment is left.</p>"


def network_section(drive):
    network = drive.network
    if not network.lengths:
        return "<p>It has no elements.</p>"
    made = plan(network)
    drawing = network_drawing(network, made, elements_on_path(drive), relations_on_path(drive))
    words = "Sides are numbered at the edges of each box; arrows show which way one may pass; what the best path uses is drawn strong."
    if any(relation.windows for relation in network.relations):
        words += " A relation that is shut 5-9 is so from minute 5 on, and open again at 9."
    others = "".join("<li>%s</li>" % one for one in not_drawn(network))
    told = "<p>Not drawn, since they name an element or a side that there is not:</p><ul>%s</ul>" % others if others else ""
    return '<p>%s <span class="plan">%s</span></p><div class="pane">%s</div>%s' % (words, made.said, drawing, told)


def refusal_section(drive):
    if not drive.refusals:
        return "<p>Nothing.</p>"
    shown = drive.refusals[:MOST_REFUSALS]
    rows = "".join("<tr><td>%d</td><td>%s</td><td>%d</td><td>%s</td></tr>" % (one.line, escape(one.what), one.number, one.meaning) for one in shown)
    more = len(drive.refusals) - len(shown)
    rest = "<p>And %s.</p>" % counted(more, "further refusal") if more else ""
    return "<table><tr><th>Line</th><th>What</th><th>Number</th><th>Why</th></tr>%s</table>%s" % (rows, rest)


def sections(drive):
    """Anchor, link, heading and content of each section."""
    yield "drive", "Drive", "The drive", drive_section(drive)
    if drive.collapsed:
        yield "decisions", "Collapsing", "What collapsing decided", decision_section(drive)
    yield "network", "Network", "The network", network_section(drive)
    yield "refused", "Refused (%d)" % len(drive.refusals), "What was refused", refusal_section(drive)


def page(drive, name):
    """The whole page of the drive in a file of this name."""
    made = list(sections(drive))
    contents = "".join('<a href="#%s">%s</a>' % (key, label) for key, label, _, _ in made)
    body = "\n".join('<h2 id="%s">%s</h2>%s' % (key, heading, content) for key, _, heading, content in made)
    head = '<meta charset="utf-8"><meta name="viewport" content="width=device-width, initial-scale=1"><title>%s</title>' % escape(name)
    style = "<style>%s%s</style>" % (css("style.css"), css("page.css"))
    definitions = '<svg class="defs" aria-hidden="true">%s</svg>' % DEFINITIONS
    top = "<h1>%s</h1><p>%s</p><nav>%s</nav>" % (escape(name), summary(drive), contents)
    foot = '<p class="plan">Drawn from the answers of <code>cases</code>.</p>'
    return '<!DOCTYPE html>\n<html lang="en"><head>%s%s</head>\n<body>%s%s\n%s%s</body></html>\n' % (head, style, definitions, top, body, foot)


def drawing(drive):
    """Rows and segments alone, as an SVG file."""
    axis = axis_of(drive.rows)
    strips = [(chart.axis_names(), chart.axis_strip(drive, axis), chart.AXIS), (chart.lane_names(axis), chart.lane_strip(drive, axis), axis.height)]
    if drive.segments:
        strips.append((bands.band_names(drive), bands.band_strip(drive, axis), bands.total_height(drive)))
    y, parts = 8, []
    for names, marks, height in strips:
        parts.append('<g transform="translate(8 %s)">%s<g transform="translate(%d 0)">%s</g></g>' % (number(y), names, chart.LABELS, marks))
        y += height
    width, height = axis.width + chart.LABELS + 24, y + 8
    size = 'width="%s" height="%s" viewBox="0 0 %s %s"' % ((number(width), number(height)) * 2)
    ground = '<rect width="%s" height="%s" fill="#fff"/>' % (number(width), number(height))
    return '<svg xmlns="http://www.w3.org/2000/svg" %s><style>%s</style>%s%s%s</svg>\n' % (size, css("style.css"), DEFINITIONS, ground, "".join(parts))
