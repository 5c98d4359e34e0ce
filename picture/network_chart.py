"""Draws the network: elements as boxes with their lengths, relations as lines between their sides."""

from picture.marks import exact, number, svg, title
from picture.network_layout import HEIGHT, WIDTH, drawn, is_turned, windows_in_words

MARGIN = 12


def metres(length):
    return exact(length).removesuffix(".0") + " m"


def draw_element(element, length, middle, on_path):
    """A box with the element's number and length, and the numbers of its sides."""
    x, y = middle[0] - WIDTH / 2, middle[1] - HEIGHT / 2
    words = title("element %d, %s" % (element, metres(length)), "on the best path" if on_path else "")
    shape = '<rect x="%s" y="%s" width="%d" height="%d" rx="4"/>' % (number(x), number(y), WIDTH, HEIGHT)
    name = '<text class="number" x="%s" y="%s">%d</text>' % (number(middle[0]), number(middle[1] - 2), element)
    length_text = '<text x="%s" y="%s">%s</text>' % (number(middle[0]), number(middle[1] + 13), metres(length))
    sides = "".join('<text class="side" x="%s" y="%s">%d</text>' % (number(x + 7 + (WIDTH - 14) * side), number(y + 12), side) for side in (0, 1))
    return '<g class="element%s">%s%s%s%s%s</g>' % (" strong" if on_path else "", words, shape, name, length_text, sides)


def direction_words(relation):
    if relation.forward and relation.backward:
        return "both ways"
    if relation.forward or relation.backward:
        return "only from element %d to element %d" % ((relation.start, relation.end) if relation.forward else (relation.end, relation.start))
    return "in neither direction"


def relation_words(number_of_relation, relation):
    ends = "side %d of element %d with side %d of element %d" % (relation.start_side, relation.start, relation.end_side, relation.end)
    windows = ["shut from minute %d on, open again at %d" % window for window in relation.windows]
    return ["relation %d: %s" % (number_of_relation, ends), direction_words(relation)] + windows


def heads(relation):
    """Arrow heads at the ends of the line that one may run to."""
    at_end, at_start = (relation.backward, relation.forward) if is_turned(relation) else (relation.forward, relation.backward)
    return ('marker-end="url(#arrow)" ' if at_end else "") + ('marker-start="url(#arrow)" ' if at_start else "")


def curve_data(points):
    first, *others = ["%s %s" % (number(x), number(y)) for x, y in points]
    return "M" + first + "C" + " ".join(others)


def draw_relation(number_of_relation, relation, plan, on_path):
    words = relation_words(number_of_relation, relation)
    kind = "relation" + (" strong" if on_path else "") + ("" if relation.forward or relation.backward else " closed")
    data = curve_data(plan.curves[number_of_relation])
    shape = '<path class="touch" d="%s"/><path %sd="%s"/>' % (data, heads(relation), data)
    label = windows_in_words(relation)
    if label:
        x, y = plan.labels[number_of_relation]
        shape += '<text class="window" x="%s" y="%s">%s</text>' % (number(x), number(y - 1), label)
    return '<g class="%s">%s%s</g>' % (kind, title(*words, "on the best path" if on_path else ""), shape)


def network_drawing(network, plan, elements, relations):
    """The whole network; what the best path uses is drawn strong."""
    shown = drawn(network).items()
    weak = [draw_relation(k, one, plan, False) for k, one in shown if k not in relations]
    strong = [draw_relation(k, one, plan, True) for k, one in shown if k in relations]
    boxes = [draw_element(k, length, plan.boxes[k], k in elements) for k, length in enumerate(network.lengths)]
    width, height = plan.size
    content = '<g transform="translate(%d %d)">%s</g>' % (MARGIN, MARGIN, "".join(weak + strong + boxes))
    return svg("network", 0, width + 2 * MARGIN, height + 2 * MARGIN, content, "the network")


def not_drawn(network):
    """The relations that are passed over, in words."""
    shown = drawn(network)
    return [", ".join(relation_words(k, one)) for k, one in enumerate(network.relations) if k not in shown]
