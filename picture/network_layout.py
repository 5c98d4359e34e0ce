"""Where elements and relations stand: by graphviz, a tool that lays out graphs, where it is at hand, else by a plain rule."""

import json
import subprocess
from typing import NamedTuple

WIDTH, HEIGHT = 92, 40  # of an element's box, in pixels
APART = 110  # between two columns, by the plain rule
SECONDS = 4  # that graphviz may take


class Plan(NamedTuple):
    boxes: dict  # the middle of each element's box
    curves: dict  # for each relation the points of its line: the first, then three for each piece
    labels: dict  # where a relation's windows are told
    size: tuple
    said: str  # who laid it out


def drawn(network):
    """The relations that are drawn, by their numbers: the others name an element that the network does not have."""
    known = len(network.lengths)
    return {number: one for number, one in enumerate(network.relations) if one.start < known and one.end < known and max(one.start_side, one.end_side) < 2}


def windows_in_words(relation):
    """The windows as a label: `120-240` is shut from minute 120 on, until 240."""
    return "shut " + ", ".join("%d-%d" % window for window in relation.windows) if relation.windows else ""


def is_turned(relation):
    """Whether a line is drawn from the relation's end to its start, so that it runs from left to right."""
    return (relation.start_side, relation.end_side) == (0, 1)


def ends(relation):
    """Element and side of both ends of a line, in the order in which it is drawn."""
    pair = (relation.start, relation.start_side), (relation.end, relation.end_side)
    return pair[::-1] if is_turned(relation) else pair


def in_dot(network):
    """The network in graphviz's language: side 0 is the left edge of a box, side 1 the right one."""
    inches = WIDTH / 72, HEIGHT / 72
    text = ["digraph {", 'rankdir=LR; nodesep=0.3; ranksep=0.7; node [shape=box fixedsize=true width=%g height=%g label=""];' % inches]
    text.append("edge [dir=none fontsize=11];")
    text += ["e%d;" % element for element in range(len(network.lengths))]
    for number, relation in drawn(network).items():
        (start, start_side), (end, end_side) = ends(relation)
        label = windows_in_words(relation)
        told = ' label="%s"' % label if label else ""
        text.append('e%d -> e%d [id="%d" tailport=%s headport=%s%s];' % (start, end, number, "we"[start_side], "we"[end_side], told))
    return "\n".join(text + ["}", ""])


def point(text):
    x, y = text.split(",")
    return float(x), float(y)


def by_graphviz(network, program="dot", seconds=SECONDS):
    """The plan that graphviz makes, or a sentence that says why there is none."""
    try:
        done = subprocess.run([program, "-Tjson0"], input=in_dot(network).encode(), capture_output=True, timeout=seconds, check=True)
    except FileNotFoundError:
        return "graphviz is not installed where this page was made"
    except subprocess.TimeoutExpired:
        return "graphviz did not end within %g s" % seconds
    except subprocess.CalledProcessError as error:
        return "graphviz ended with status %d" % error.returncode
    return read_plan(json.loads(done.stdout))


def read_plan(graph):
    """A plan from graphviz's answer, whose heights count from below."""
    _, _, width, height = map(float, graph["bb"].split(","))

    def turned(text):
        x, y = point(text)
        return x, height - y

    boxes = {int(one["name"][1:]): turned(one["pos"]) for one in graph.get("objects", [])}
    edges = graph.get("edges", [])
    curves = {int(one["id"]): [turned(text) for text in one["pos"].split()] for one in edges}
    labels = {int(one["id"]): turned(one["lp"]) for one in edges if "lp" in one}
    return Plan(boxes, curves, labels, (width, height), "Laid out by graphviz.")


def neighbours(network):
    found = {element: [] for element in range(len(network.lengths))}
    for relation in drawn(network).values():
        found[relation.start].append(relation.end)
        found[relation.end].append(relation.start)
    return found


def columns(network):
    """The column of each element: how many relations it is away from the lowest number that it hangs together with."""
    found, around = {}, neighbours(network)
    for first in around:
        layer = [] if first in found else [first]
        depth = 0
        while layer:
            for element in layer:
                found[element] = depth
            layer = sorted({other for element in layer for other in around[element]} - found.keys())
            depth += 1
    return found


def side_point(box, side):
    """The middle of a box's edge."""
    return box[0] + (WIDTH / 2 if side else -WIDTH / 2), box[1]


def curve(boxes, relation):
    """A line that leaves both boxes straight from their sides."""
    (start, start_side), (end, end_side) = ends(relation)
    first, last = side_point(boxes[start], start_side), side_point(boxes[end], end_side)
    bend = APART / 2
    return [first, (first[0] + (bend if start_side else -bend), first[1]), (last[0] + (bend if end_side else -bend), last[1]), last]


def by_rule(network, reason):
    """Elements in columns, those of one column by their numbers."""
    boxes, filled = {}, {}
    for element, column in sorted(columns(network).items()):
        row = filled.get(column, 0)
        filled[column] = row + 1
        boxes[element] = (APART / 2 + WIDTH / 2 + (WIDTH + APART) * column, HEIGHT / 2 + 8 + (HEIGHT + 24) * row)
    curves = {number: curve(boxes, relation) for number, relation in drawn(network).items()}
    labels = {number: (sum(x for x, _ in points) / 4, sum(y for _, y in points) / 4 - 4) for number, points in curves.items()}
    size = (WIDTH + APART) * max(1, len(filled)), 16 + (HEIGHT + 24) * max(filled.values(), default=1)
    said = "Laid out by a plain rule, in columns from the lowest element on, since %s; lines may run behind boxes." % reason
    return Plan(boxes, curves, labels, size, said)


def plan(network, program="dot", seconds=SECONDS):
    made = by_graphviz(network, program, seconds)
    return by_rule(network, made) if isinstance(made, str) else made
