"""Hatching, stripes and arrow heads that the drawings share, and what their marks mean."""

from picture.layout import LANE, SHADES, TOP

STRIPE = '<pattern id="stripes" width="10" height="%d" y="%d" patternUnits="userSpaceOnUse"><rect width="10" height="%d" fill="#f3f6f9"/></pattern>'
HATCH = (
    '<pattern id="%s" width="%d" height="8" patternUnits="userSpaceOnUse" patternTransform="rotate(45)">'
    '<rect width="%d" height="8" fill="%s"/><rect width="%d" height="8" fill="%s"/></pattern>'
)
ARROW = (
    '<marker id="arrow" viewBox="0 0 10 10" refX="9" refY="5" markerWidth="9" markerHeight="9" markerUnits="userSpaceOnUse" orient="auto-start-reverse">'
    '<path d="M0 0L10 5L0 10z" style="stroke:none;fill:#33475b"/></marker>'
)
HATCHES = HATCH % ("no-candidates", 8, 8, "#dfe3e7", 3, "#c9ced4") + HATCH % ("bridge", 6, 6, "#fff", 2, "#8aa4bd")
DEFINITIONS = "<defs>%s%s%s</defs>" % (STRIPE % (2 * LANE, TOP, LANE), HATCHES, ARROW)


def key(drawing, words, width=22):
    return '<li><svg width="%d" height="16" viewBox="0 0 %d 16">%s</svg>%s</li>' % (width, width, drawing, words)


def legend():
    """What the marks of the drive mean."""
    words = ["the row's best score"] + ["up to %g below" % limit for limit in SHADES[1:]] + ["more below", "no score"]
    dots = [key('<circle class="d%d" cx="11" cy="8" r="5"/>' % k, text) for k, text in enumerate(words)]
    others = [
        key('<path class="path" d="M2 8H20"/>', "best path"),
        key('<path class="path over" d="M2 8H20"/>', "over a gap"),
        key('<rect class="gap" width="22" height="16"/>', "no candidates"),
        key('<g class="silent"><rect class="column" width="22" height="16"/></g>', "no candidate scores"),
        key('<path class="cross" d="M6 3l10 10m0 -10l-10 10"/>', "broken row"),
        key('<path class="link" d="M2 14C4 3 18 3 20 14"/>', "where scores came from, over a gap"),
        key('<g class="bar"><rect x="1" y="2" width="20" height="12" rx="3"/></g>', "segment"),
        key('<g class="bar bridge"><rect x="1" y="2" width="20" height="12" rx="3"/></g>', "bridge"),
        key('<g class="bar taken"><rect x="1" y="2" width="20" height="12" rx="3"/><path d="M0 8h22"/></g>', "taken out by collapsing"),
    ]
    return '<ul class="legend">%s</ul>' % "".join(dots + others)
