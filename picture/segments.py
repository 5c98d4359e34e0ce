"""The segments of the best path as bars: which are bridges, which collapsing takes out, and what of the network the path uses."""

from typing import NamedTuple

STACKED = 5  # bridges that are drawn at one place; of more the last one counts the rest


class Bar(NamedTuple):
    segment: object
    is_bridge: bool
    taken_by: object  # the segment that has its rows after collapsing, or none where it is left


def bridge_flags(segments):
    """Which segments are bridges: their rows are the last one of the group before. A group begins behind it."""
    return [k > 0 and one.first <= segments[k - 1].last for k, one in enumerate(segments)]


def bars_before(segments, collapsed):
    """The segments before collapsing. Those that are left keep their element, start and first row, and their order."""
    bars, left = [], list(reversed(collapsed))
    holder = None
    for one, is_bridge in zip(segments, bridge_flags(segments)):
        if left and (left[-1].element, left[-1].start, left[-1].first) == (one.element, one.start, one.first):
            holder = left.pop()
            bars.append(Bar(one, is_bridge, None))
        else:
            bars.append(Bar(one, is_bridge, holder))
    return bars


def bars_after(before, collapsed):
    """The segments that are left after collapsing."""
    kept = [bar for bar in before if bar.taken_by is None]
    return [Bar(one, bar.is_bridge, None) for one, bar in zip(collapsed, kept)]


def stacks(bars):
    """The bridges behind each row, as lists by its number."""
    found = {}
    for bar in bars:
        if bar.is_bridge:
            found.setdefault(bar.segment.first, []).append(bar)
    return found


def stack_height(bars):
    """How many bridges are drawn one below the other."""
    return min(STACKED, max(map(len, stacks(bars).values()), default=0))


def elements_on_path(drive):
    """Those of its segments, bridges too; where there are none, those of its candidates."""
    if drive.segments:
        return {one.element for one in drive.segments}
    return {drive.rows[row].candidates[candidate].element for row, candidate in drive.path}


def relations_on_path(drive):
    """The numbers of the relations that lead from a segment of the path to the next, open at the minute of the later group's first row."""
    between = {}
    for number, one in enumerate(drive.network.relations):
        between.setdefault(frozenset((one.start, one.end)), []).append((number, one))
    found, minute = set(), 0
    segments, flags = drive.segments, bridge_flags(drive.segments)
    for k in range(len(segments) - 2, -1, -1):
        if not flags[k + 1]:
            minute = drive.rows[segments[k + 1].first].minute
        ends = segments[k].element, segments[k + 1].element
        found.update(number for number, one in between.get(frozenset(ends), ()) if one.leads(*ends) and one.is_open(minute))
    return found
