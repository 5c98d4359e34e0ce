"""Cases in which each call refuses with each number that it has, and their neighbours that it accepts, at both edges of each range; the edges at
which a side pair or a step is possible or a bridge is made; those of windows and minutes; and journals that are loaded and replayed."""

import itertools
import math
import struct

NAN = math.nan
INFINITY = math.inf


def bits(value):
    return struct.unpack(">Q", struct.pack(">d", value))[0]


def above(value):
    return math.nextafter(value, INFINITY)


def below(value):
    return math.nextafter(value, -INFINITY)


def text(value):
    """A number; a float as a decimal where that is short, else by its bits."""
    if isinstance(value, float) and not (math.isfinite(value) and len(repr(value)) < 12 and "e" not in repr(value)):
        return f"{bits(value):016X}"
    return str(value)


def line(*values):
    return " ".join(text(value) for value in values) + "\n"


# ---- networks

ELEMENT = (100.0, 90.0, 90.0, 90.0, 90.0, 1)
RELATIONS = ((0, 1, 1, 0, 1, 1), (1, 2, 1, 0, 1, 1))


def network(elements=(ELEMENT,) * 3, relations=RELATIONS):
    return line("network", len(elements), len(relations)) + "".join(line(*entry) for entry in (*elements, *relations))


def element(place, value):
    """An element with one of its values, its length first, another."""
    return ELEMENT[:place] + (value,) + ELEMENT[place + 1:]


def relation(place, value):
    return RELATIONS[0][:place] + (value,) + RELATIONS[0][place + 1:]


# ---- fixes, and a journal of three rows

def feed(*candidates, distances=()):
    return line("feed", len(candidates), len(distances)) + "".join(line(*c) for c in candidates) + (line(*distances) if distances else "")


def candidate(element=0, intrinsic=0.5, near=1, raw_log=-1.0):
    return (element, intrinsic, near, raw_log)


SETTINGS = line("settings", 50.0, 30.0)
SECOND = feed(candidate(1), candidate(2), distances=(100.0, 200.0))
THIRD = feed(candidate(2, raw_log=-2.0), distances=(100.0, 50.0))
DRIVE = "journal 100\n" + feed(candidate()) + SECOND + THIRD

# The calls over a network, and those over a journal.
NETWORK_CALLS = ("route 0 0 2 1\n", "triple 0 1 2\n", "steps 2\n", "segments\n", "replay\n", feed())
JOURNAL_CALLS = ("close\n", "row 2\n", "steps 2\n", "segments\n", "replay\n", feed(), "strike 1\n", "open\n")
FIELDS = "lengths headings flags from to from_side to_side forward backward window_counts window_firsts window_lasts".split()


def minute(number):
    return line("minute", number)


def start():
    return minute(0) + network() + SETTINGS + DRIVE


def windows(relation, *pairs):
    """The windows of a relation, each with its first and last minute."""
    return line("windows", relation, len(pairs), *itertools.chain(*pairs))


def title(number, what):
    return f"\n# {number}: {what}\n"


def networks():
    """Checks 1 to 5, and their order."""
    yield title(1, "a slice that is too short; one that is not")
    yield start()
    for field, entries in zip(FIELDS, (3, 12, 3, 2, 2, 2, 2, 2, 2, 2, 8, 8)):
        for n in (entries - 1, entries):
            yield from (f"short {field} {n}\n{call}" for call in NETWORK_CALLS)
    yield "short headings 11\nroutes\n"
    yield title("2 to 5", "the edges of each range; all four, then without the first of them, and so on")
    for length in (0.0, 1048576.0, -0.0, above(1048576.0), below(0.0), NAN, INFINITY):
        yield asked(network((element(0, length), ELEMENT, ELEMENT)))
    for place in (1, 2, 3, 4):
        for heading in (0.0, -0.0, below(360.0), 360.0, below(0.0), NAN):
            yield asked(network((ELEMENT, ELEMENT, element(place, heading))))
    for faulty in ((2, 1), (2, 2), (3, 1), (3, 2)):
        yield asked(network(relations=(RELATIONS[1], relation(*faulty))))
    for itself in ((1, 1, 0, 1, 1, 1), (1, 1, 0, 1, 0, 0), (7, 7, 0, 0, 1, 1), (1, 7, 0, 0, 1, 1)):
        yield asked(network(relations=(*RELATIONS, itself)))
    faulty = element(0, -1.0), element(1, 360.0), relation(2, 2), (0, 0, 0, 1, 1, 1)
    for first in range(4):
        fine = (ELEMENT, ELEMENT, RELATIONS[0], RELATIONS[1])
        parts = fine[:first] + faulty[first:]
        yield asked(network((*parts[:2], ELEMENT), parts[2:]))


def asked(faulty):
    return start() + faulty + "".join(NETWORK_CALLS)


def limits():
    """The counts of check 1."""
    for elements, relations in ((1024, 1), (1025, 1), (1, 4096), (1, 4097)):
        yield title(1, f"{elements} elements, {relations} relations")
        yield start() + network((ELEMENT,) * elements, (RELATIONS[0],) * relations) + "".join(NETWORK_CALLS)


def settings():
    """Check 6, and that checks 1 to 5 come first."""
    yield title(6, "the edges of both settings")
    yield start()
    edges = (0.0, -0.0, 0.001, 1e6, below(0.001), above(1e6), -1.0, NAN, INFINITY)
    for beta, scale in [(edge, 30.0) for edge in edges] + [(50.0, edge) for edge in edges]:
        yield line("settings", beta, scale) + "steps 2\nreplay\n" + feed() + "strike 1\n"
    yield line("settings", -1.0, 30.0) + network((element(0, -1.0),)) + "steps 2\nreplay\n" + feed()


# ---- journals

def word(at, value):
    return f"poke {at} {value:08X}\n"


def float_words(at, value):
    return word(at, bits(value) >> 32) + word(at + 1, bits(value) & 0xFFFFFFFF)


def places(counts):
    """Where the records of rows with these candidates and predecessor candidates begin, and where the last of them ends."""
    at = [1]
    for c, p in counts:
        at.append(at[-1] + 7 * c + 2 * c * p + 5)
    return at


# The candidates and predecessor candidates of DRIVE's rows, where these begin, and its used words.
COUNTS = ((1, 0), (2, 1), (1, 2))
*ROWS, USED = places(COUNTS)
ENDS = (*ROWS[1:], USED)


def cell(row, number):
    """Where a candidate of DRIVE begins: one word, then its intrinsic, raw log and score."""
    return ROWS[row] + 3 + 7 * number


def distance(row, number):
    """Where a distance of DRIVE is, behind their count."""
    return cell(row, COUNTS[row][0]) + 1 + 2 * number


CELLS = (cell(0, 0), cell(1, 0), cell(1, 1), cell(2, 0))


def damages():
    """Words poked into the journal of DRIVE."""
    heads = (ROWS[0], 0x10000001), (ROWS[1], 0x10000022), (ROWS[2], 0x10000041)
    yield from ((0, value) for value in (0x50000000 + USED, 0x40000000 + USED, 0x50000000, 0x50000001, 0x50000000 + ROWS[2], 0x50000000 + USED - 1))
    yield from ((0, value) for value in (0x50000000 + USED + 1, 0x50000064, 0x50000065, 0x5FFFFFFF, USED, 0xFFFFFFFF))
    for at, head in heads:
        yield from ((at, value) for value in (head ^ 0x10000000, head + 1, head + 0x20, head | 0x400, head | 0x08000000, head & ~0x1F))
    yield from ((ROWS[2], 0x10000000 | p << 5 | c) for c, p in ((0, 0), (17, 0), (16, 2), (17, 2), (31, 2), (1, 16), (1, 17), (1, 31), (31, 31)))
    for at, named in zip(CELLS, (31 << 11, 0, 1 << 11, 0)):
        word_of = 0x20000000 | named
        yield from ((at, value) for value in (word_of | 1023, word_of | 1024, word_of | 0x10000, word_of ^ 0x20000000))
        yield from ((at, 0x20000000 | parent << 11 | 1) for parent in (0, 1, 2, 30, 31))
    for row, (c, p) in enumerate(COUNTS):
        yield from ((cell(row, c), value) for value in (0x30000000 + c * p + 1, 0x30000200 + c * p, 0x40000000 + c * p))
    for start, end in zip(ROWS, ENDS):
        yield from ((end - 1, 0x40000000 + end - start + off) for off in (-1, 1, 0x1000000))


def float_damages():
    """Floats poked into it: intrinsics, raw logs, scores, distances."""
    for row in range(3):
        yield from ((cell(row, 0) + 1, value) for value in (0.0, 1.0, -0.0, above(1.0), below(0.0), NAN))
    for row in range(3):
        yield from ((cell(row, 0) + 3, value) for value in (-INFINITY, -745.0, 0.0, -0.0, below(-745.0), above(0.0), NAN, INFINITY))
    for row, at in zip((0, 1, 1, 2), CELLS):
        least = -1e13 * (row + 1)
        yield from ((at + 5, value) for value in (-INFINITY, least, 0.0, -0.0, below(least), above(0.0), NAN, INFINITY))
    for row, number in ((1, 0), (1, 1), (2, 0), (2, 1)):
        yield from ((distance(row, number), value) for value in (0.0, -0.0, 20100000.0, above(20100000.0), below(0.0), NAN, INFINITY))


def journals():
    """Check 7 by every call on a journal."""
    yield title(7, "damaged journals, and some that are well formed though no feed wrote them")
    yield network() + SETTINGS
    yield "".join(JOURNAL_CALLS) + "words\n"
    for at, value in damages():
        yield DRIVE + word(at, value) + "words\n" + "".join(JOURNAL_CALLS)
    for at, value in float_damages():
        yield DRIVE + float_words(at, value) + "".join(JOURNAL_CALLS)


# Rows that score and rows that do not: before the first scoring row one whose logs are minus infinity and an empty one, then two empty ones in a
# tunnel, a row behind it, a broken one, and an empty one. Their candidates and predecessor candidates, and their predecessors.
TUNNEL = (
    "journal 100\n" + feed(candidate(raw_log=-INFINITY)) + feed() + feed(candidate()) + feed() + feed()
    + feed(candidate(1, near=0), distances=(100.0,)) + feed(candidate(2, near=0), distances=(100.0,)) + feed()
)
*TUNNEL_ROWS, _ = places(((1, 0), (0, 0), (1, 0), (0, 0), (0, 0), (1, 1), (1, 1), (0, 0)))
PREDECESSORS = (None, None, None, 2, 2, 2, 5, 6)


def misnamings():
    """Of each row of TUNNEL: where it names its predecessor, the right word, and each wrong one: an offset one off, that of the row before where it
    is not the predecessor, 0 where there is one, the row's own offset, another kind."""
    for row, predecessor in enumerate(PREDECESSORS):
        at, right = TUNNEL_ROWS[row], 0 if predecessor is None else TUNNEL_ROWS[predecessor]
        offsets = {right + 1, (right - 1) % 2**28, TUNNEL_ROWS[row - 1] if row > 0 else 0, 0, at} - {right}
        yield at + 1, 0x70000000 + right, [0x70000000 + offset for offset in sorted(offsets)] + [0x60000000 + right]


def predecessors():
    """Check 7 on the predecessor that a row names. Each word is put right again, so that it alone is refused."""
    yield title(7, "the predecessors of a drive through a tunnel, and others named in their places")
    yield network() + SETTINGS + TUNNEL + "words\nclose\nrow 4\nrow 5\nsteps 5\nrow 6\nsteps 6\nsegments\n"
    for at, right, wrong in misnamings():
        yield from (word(at, value) + "".join(JOURNAL_CALLS[:-1]) + word(at, right) for value in wrong)
    yield "words\n" + "".join(JOURNAL_CALLS[:-1])
    yield title(7, "rows that a poked score makes scoring or not: the rows behind them must name another predecessor")
    yield TUNNEL + float_words(TUNNEL_ROWS[5] + 8, -INFINITY) + "".join(JOURNAL_CALLS[:-1])
    yield word(TUNNEL_ROWS[6] + 1, 0x70000000 + TUNNEL_ROWS[2]) + "words\nsteps 6\n" + "".join(JOURNAL_CALLS)
    yield TUNNEL + word(0, 0x50000000 + TUNNEL_ROWS[2]) + float_words(TUNNEL_ROWS[0] + 8, -1.0) + "".join(JOURNAL_CALLS[:-1])
    yield word(TUNNEL_ROWS[1] + 1, 0x70000000 + TUNNEL_ROWS[0]) + "words\n" + "".join(JOURNAL_CALLS)
    yield title(7, "the predecessor of a row that is fed after a strike")
    yield "".join(TUNNEL + f"strike {rows}\n" + feed() + "words\n" for rows in (1, 2, 3, 4, 5, 6, 8))


# ---- fixes

def fixes():
    """Checks 8 to 10 and 12, and their order."""
    yield title(8, "16 and 17 candidates; fields of unequal count")
    yield network() + SETTINGS
    for count in (16, 17):
        yield "journal 400\n" + feed(*(candidate(),) * count)
    for field in ("elements", "intrinsics", "near", "raw_logs"):
        yield f"journal 400\nshort {field} 1\n" + feed(candidate(), candidate())
    yield title(9, "the edges of each field; an unknown element, in the fix and in a standing row")
    for faulty in (
        *({"element": element} for element in (2, 3, 1024, 4294967295)),
        *({"intrinsic": value} for value in (0.0, 1.0, -0.0, above(1.0), below(0.0), NAN)),
        *({"near": near} for near in (0, 1, 2)),
        *({"raw_log": value} for value in (-INFINITY, -745.0, 0.0, -0.0, below(-745.0), above(0.0), NAN, INFINITY)),
    ):
        yield "journal 400\n" + feed(candidate(), candidate(**faulty))
    for known in (3, 2):
        yield DRIVE + network((ELEMENT,) * known, RELATIONS[:1]) + "steps 1\nsteps 0\nsegments\nreplay\n" + feed()
    yield network()
    yield title(10, "the edges of a distance, and how many there are")
    for distance in (0.0, -0.0, 20100000.0, above(20100000.0), below(0.0), NAN, INFINITY):
        yield "journal 400\n" + feed(candidate()) + feed(candidate(), distances=(distance,))
    for count in (0, 1, 2, 3):
        yield DRIVE + feed(candidate(), candidate(), distances=(1.0,) * count)
    yield DRIVE + "short distances 1\n" + feed(candidate(), candidate(), distances=(1.0, 1.0))
    yield "journal 400\n" + feed(candidate(), distances=(1.0,))
    yield title(12, "the last word of a journal")
    for room in (12, 13):
        yield f"journal {room}\n" + feed(candidate()) + "words\n"
    for room in (0, 1, 5, 6):
        yield f"journal {room}\nopen\n" + feed()
    yield title(12, "the last word of a record, by the candidates of its row and of the predecessor")
    for c, p in itertools.product((0, 1, 2, 16), repeat=2):
        end = places(((p, 0), (c, p)))[-1]
        rows_fed = feed(*(candidate(),) * p) + feed(*(candidate(),) * c, distances=(1.0,) * (c * p))
        yield from (f"journal {room}\n{rows_fed}" for room in (end - 1, end))
    yield title("8 to 10, 17, 12", "all at once, then without the first of them, and so on")
    crowd = (candidate(),) * 17
    for fix in (feed(*crowd, distances=(NAN,)), feed(candidate(3), distances=(NAN,)), feed(candidate(), distances=(NAN,)), feed(candidate())):
        yield "journal 12\n" + minute(2**28) + fix
    yield minute(2**28 - 1) + feed(candidate()) + minute(0) + feed(candidate())


def rows():
    """Check 13."""
    yield title(13, "the last row, and one more")
    for count in (0, 1, 3, 4, 4294967295):
        yield start() + f"strike {count}\nwords\n"
    for row in (0, 2, 3, 4294967295):
        yield start() + f"row {row}\nsteps {row}\n"


# ---- lists

def lists():
    """Checks 14 and 15; whether the buffers keep what they held."""
    yield title(15, "a buffer of the list's length, and one shorter")
    yield start()
    for call, count in (("route 0 0 2 1", 6), ("close", 3), ("row 1", 2), ("steps 2", 2), ("segments", 3), ("routes", 6)):
        yield from (f"short answer {n}\n{call}\nkept\n" for n in (0, count - 1, count, count + 1))
    yield from (f"short distances {n}\nrow 1\nkept\n" for n in (0, 1, 2, 3))
    yield from (f"short decisions {n}\ncollapse built\nkept\n" for n in (0, 17, 18, 19))
    yield title(14, "the edges of a segment's fields")
    fine = (0, 0.0, 1.0, 0, 2)
    for place, values in (
        (1, (0.0, -0.0, 1.0, above(1.0), below(0.0), NAN)),
        (2, (0.0, -0.0, 1.0, above(1.0), below(0.0), NAN)),
        (3, (2, 3)),
        (4, (65534, 65535, 4294967295)),
    ):
        for value in values:
            faulty = fine[:place] + (value,) + fine[place + 1:]
            yield f"collapse 2\n{line(*fine)}{line(*faulty)}kept\n"
    yield "short decisions 5\ncollapse 1\n" + line(0, NAN, 1.0, 0, 0) + "kept\n"


# ---- thresholds

def thresholds():
    """Beta 0, and a bridge over a very short element, on both sides of 1e-9."""
    yield "\n# beta 0: a gap below 1e-9 is possible\n" + network() + line("settings", 0.0, 30.0)
    for distance in (0.0, below(1e-9), 1e-9, above(1e-9)):
        yield "journal 400\n" + feed(candidate(0, 1.0)) + feed(candidate(1, 0.0), distances=(distance,)) + "row 1\nsteps 1\n"
    yield "\n# a route of cost below 1e-9 makes no bridge\n" + SETTINGS
    for length in (0.0, below(1e-9), 1e-9, above(1e-9)):
        yield network((ELEMENT, element(0, length), ELEMENT))
        yield "journal 400\n" + feed(candidate(0, 1.0)) + feed(candidate(2, 0.0), distances=(0.0,)) + "segments\n"


# ---- the lowest score of a possible side pair (document 02, K2)

BELOW_LOWEST = "\n# a pair below -745.0 is impossible: "


def around(value):
    return below(value), value, above(value)


def turning(turn, flag=1):
    """Two joined elements of 0 m, whose four side pairs have a route of 0 m and this turn: the distance is the gap, and all four score alike."""
    return network(((0.0, 0.0, 0.0, 0.0, 0.0, 1), (0.0, turn, turn, turn, turn, flag)), RELATIONS[:1])


def step(distance, first=candidate(0), second=candidate(1)):
    return "journal 400\n" + feed(first) + feed(second, distances=(distance,)) + "row 1\nsteps 1\n"


def lowest_terms():
    """Side pairs of which one term alone is at -745.0 or next to it, the other 0."""
    yield BELOW_LOWEST + "the distance alone\n" + turning(0.0)
    for beta in (1.0, 0.001, 3.0, 20000.0):
        yield line("settings", beta, 30.0) + "".join(step(gap) for gap in around(745.0 * beta))
    yield BELOW_LOWEST + "a route longer than the distance\n" + line("settings", 1.0, 30.0)
    for length in around(745.0):
        yield network((element(0, length), element(0, 0.0)), RELATIONS[:1]) + step(0.0, candidate(0, 0.0))
    for beta, what in ((0.0, "the turn alone, beta 0"), (1.0, "the turn alone")):
        yield BELOW_LOWEST + what + "\n"
        for scale in (0.125, 0.001):
            yield line("settings", beta, scale) + "".join(turning(turn) + step(0.0) for turn in around(745.0 * scale))
        yield turning(180.0) + step(0.0) + turning(180.0, flag=0) + step(0.0)


def lowest_sums():
    """Side pairs of two terms whose sum is at -745.0 or next to it. A sum halfway to the binary64 next to it rounds to -745.0, which is even."""
    half, halfway = 372.5, (above(745.0) - 745.0) / 2
    small = 1e-14, halfway, above(halfway), 1.0
    yield BELOW_LOWEST + "two halves; their sum is next to -745.0, rounds to it, is it, rounds to it, is next to it\n" + turning(93.125) + line("settings", 1.0, 0.25)
    yield "".join(step(gap) for gap in (below(below(half)), *around(half), above(above(half))))
    yield BELOW_LOWEST + "neither term is, their sum is\n" + step(400.0) + step(745.0)
    yield BELOW_LOWEST + "the first term at -745.0, and a second that is rounded off or not\n" + line("settings", 1.0, 1.0)
    yield "".join(turning(turn) + step(745.0) for turn in small)
    yield BELOW_LOWEST + "the second term at -745.0, and such a first\n" + turning(93.125) + line("settings", 1.0, 0.125)
    yield "".join(step(gap) for gap in small)
    yield BELOW_LOWEST + "not a step on the same element\n" + line("settings", 0.001, 0.001) + step(20100000.0, second=candidate(0))


def lowest_rows():
    """Steps, rows and paths that depend on whether a side pair is possible."""
    far, asked = above(745.0), "row 1\nsteps 1\nclose\n"
    yield BELOW_LOWEST + "some of a step's four; at 2,000 m all\n" + line("settings", 1.0, 30.0) + network((element(0, 1000.0),) * 2, RELATIONS[:1])
    for distance in (1000.0, 1745.0, above(1745.0), 2000.0, below(2255.0), 2255.0, 3000.0):
        yield step(distance, candidate(0, 0.0), candidate(1, 0.0))
    yield BELOW_LOWEST + "all steps of a row, which breaks; then all but one\n" + network((element(0, 0.0),) * 3)
    yield "journal 400\n" + feed(candidate(0), candidate(1)) + feed(candidate(2), candidate(2, 0.25), distances=(far, 746.0, 1000.0, 20100000.0)) + asked
    yield feed(candidate(0), distances=(745.0, far)) + "row 2\nsteps 2\nclose\n"
    yield BELOW_LOWEST + "all steps to one candidate, which stays at minus infinity; then to both, and the row breaks\n"
    for distances in ((745.0, far), (far, far)):
        yield "journal 400\n" + feed(candidate(0)) + feed(candidate(1), candidate(2), distances=distances) + asked
        yield feed(candidate(2), distances=(0.0, 0.0)) + "row 2\nsteps 2\nclose\nsegments\n"
    yield BELOW_LOWEST + "the step of the best path, which then takes another\n"
    for distance in (745.0, far):
        yield "journal 400\n" + feed(candidate(0, raw_log=0.0), candidate(2, raw_log=-745.0)) + feed(candidate(1), distances=(distance, 2.0)) + asked


# ---- windows (document 02, K4)

# Routes and triples over relation 0 of RELATIONS, both ways, and over relation 1.
OVER_BOTH = "route 0 0 2 1\nroute 2 1 0 0\nroute 0 1 1 0\nroute 1 0 0 1\nroute 1 1 2 0\ntriple 0 1 2\ntriple 2 1 0\n"
LAST_MINUTE = 2**32 - 1


def asked_at(minutes, calls=OVER_BOTH):
    return "".join(minute(number) + calls for number in minutes)


def window_edges():
    """A relation is shut from a window's first minute on, and open again at its last."""
    yield "\n# windows: the first minute is shut, the last open again, both ways\n" + network() + windows(0, (10, 20))
    yield asked_at((0, 9, 10, 11, 19, 20, 21, LAST_MINUTE)) + asked_at((9, 10, 19, 20), "routes\n")
    yield "\n# windows: of one minute, from the first minute on, up to the last there is\n"
    yield from (windows(1, pair) + asked_at((0, 1, 9, 10, 11, LAST_MINUTE - 1, LAST_MINUTE))
                for pair in ((10, 11), (0, 1), (0, 10), (10, LAST_MINUTE), (LAST_MINUTE - 1, LAST_MINUTE), (0, LAST_MINUTE)))
    yield "\n# windows: four of them, which overlap, touch, lie in one another and are in no order; each of the four alone; fewer again; none\n"
    overlapping = (30, 40), (10, 20), (15, 25), (33, 35)
    touching = (20, 30), (10, 20), (40, 41), (30, 31)
    for four in (overlapping, touching):
        yield network() + windows(0, *four) + asked_at(sorted({number + off for pair in four for number in pair for off in (-1, 0)}))
    apart = (10, 11), (20, 21), (30, 31), (40, 41)
    for count in (4, 3, 2, 1, 0):
        yield windows(0, *apart[:count]) + asked_at((10, 20, 30, 40), "route 0 0 2 1\n")
    yield "\n# windows: of the second relation alone, of both, of none again with a new network\n"
    yield network() + windows(1, *apart) + asked_at((10, 40)) + windows(0, (40, 50)) + asked_at((10, 40, 45)) + network() + asked_at((10, 40))
    yield from window_ways()


def window_ways():
    """Relations that are one way, parallel, skipped, or passed by on a detour."""
    yield "\n# windows: of relations that are open one way only\n"
    for flags in ((1, 0), (0, 1), (0, 7)):
        yield network(relations=(RELATIONS[0][:4] + flags, RELATIONS[1])) + windows(0, (10, 20)) + asked_at((9, 10, 20))
    yield "\n# windows: of one of two parallel relations, of both, of both at different minutes\n"
    yield network(relations=(*RELATIONS, (1, 0, 0, 1, 1, 1))) + windows(0, (10, 20)) + asked_at((10,))
    yield windows(2, (10, 20)) + asked_at((10,)) + windows(2, (15, 25)) + asked_at((10, 15, 19, 20, 24, 25))
    yield "\n# windows: of a relation that is skipped, and of the one behind it\n"
    yield network(relations=(RELATIONS[0], (1, 7, 0, 0, 1, 1), RELATIONS[1])) + windows(1, (5, 15)) + windows(2, (10, 20)) + asked_at((5, 10, 15, 20))
    yield "\n# windows: a detour while the short way is shut\n"
    yield network(relations=(*RELATIONS, (0, 2, 1, 0, 1, 1))) + windows(2, (10, 20)) + asked_at((9, 10, 20))
    yield windows(0, (15, 30)) + asked_at((10, 15, 20, 30))


# Windows that check 16 refuses.
FALLING = (10, 10), (10, 9), (0, 0), (LAST_MINUTE, 0), (LAST_MINUTE, LAST_MINUTE)
FINE = (10, 20)


def window_refusals():
    """Checks 1 and 16 of windows, and their order among the others."""
    calls = "".join(NETWORK_CALLS)
    yield title(1, "four windows of a relation, five, six; four again")
    yield start()
    yield from (windows(relation, *(FINE,) * count) + calls for relation in (0, 1) for count in (4, 5, 6, 4))
    yield title(16, "windows whose last minute is not after the first, at each place; one that is")
    yield start()
    yield from (windows(relation, falling) + calls for relation in (0, 1) for falling in (*FALLING, (10, 11)))
    yield from (windows(0, *(FINE,) * place, (10, 10), *(FINE,) * (3 - place)) + calls for place in range(4))
    yield title(16, "such a window past the count is not looked at; nor is a fifth before check 1")
    yield windows(0, FINE, FINE, FINE, (9, 8)) + calls + windows(0, FINE, FINE, FINE) + calls + windows(0, FINE, FINE, FINE, FINE, (9, 8)) + calls
    yield windows(0, (9, 8)) + calls + windows(0) + calls
    yield title(16, "relations that are skipped, of one unknown element, of two, without a way")
    for skipped in ((1, 7, 0, 0, 1, 1), (7, 1, 0, 0, 1, 1), (7, 8, 0, 0, 1, 1), (0, 2, 0, 0, 0, 0)):
        yield start() + network(relations=(*RELATIONS, skipped)) + windows(2, (10, 10)) + calls + windows(2, FINE) + calls
    yield from window_order()


def window_order():
    """Check 16 behind 1 to 5 and before 6, 7, 9 and 13."""
    calls = "".join(NETWORK_CALLS)
    yield title("2 to 5, 16", "all at once, then without the first of them, and so on")
    faulty = element(0, -1.0), element(1, 360.0), relation(2, 2), (0, 0, 0, 1, 1, 1)
    for first in range(5):
        parts = (ELEMENT, ELEMENT, RELATIONS[0], RELATIONS[1])[:first] + faulty[first:]
        yield start() + network((*parts[:2], ELEMENT), parts[2:]) + windows(0, (5, 5)) + calls
    yield title("1, 16", "both: five windows behind one that falls; a slice cut short")
    yield start() + windows(0, *((5, 5),) * 5) + calls + windows(0, (5, 5)) + "".join(f"short to 1\n{call}" for call in NETWORK_CALLS)
    yield title("16, 6, 7", "all at once, then without the first of them, and so on")
    yield start() + word(0, 0xFFFFFFFF) + windows(0, (5, 5)) + line("settings", -1.0, 30.0) + calls + windows(0, FINE) + calls + SETTINGS + calls
    yield title("16, 9, 13", "the same")
    yield start() + network((ELEMENT,) * 2, RELATIONS[:1]) + windows(0, (5, 5)) + "steps 3\nsegments\nreplay\n" + feed(candidate(2))
    yield windows(0, FINE) + "steps 3\nsegments\nreplay\n" + feed(candidate(2))


def window_slices():
    """The three slices of windows cut short, alone and together; cut to nothing they say that there are none."""
    slices = "window_counts", "window_firsts", "window_lasts"
    cuts = [(first, *rest) for first in (0, 1, 2) for rest in itertools.product((0, 4, 8), repeat=2)]
    yield title(1, "slices of windows cut short: all of them to nothing is no windows")
    yield start() + windows(0, (10, 20)) + windows(1, (10, 20)) + minute(15)
    for cut in cuts:
        yield "".join(f"short {name} {n}\n" for name, n in zip(slices, cut) if n < (2 if name == "window_counts" else 8)) + "route 0 0 2 1\n"
    no_windows = "".join(f"short {name} 0\n" for name in slices)
    yield "".join(no_windows + call for call in (*NETWORK_CALLS, "triple 2 1 0\n", "routes\n"))
    yield title("1, 16", "a window that falls, in slices cut to nothing")
    route = "route 0 0 2 1\n"
    yield windows(0, (5, 5)) + route + no_windows + route + route + windows(0, *(FINE,) * 5) + no_windows + route
    yield title(1, "relations cut short, with their windows and without")
    one_relation = "".join(f"short {name} 1\n" for name in FIELDS[3:9])
    one_each = "short window_counts 1\nshort window_firsts 4\nshort window_lasts 4\n"
    yield windows(0, (30, 40)) + windows(1, (10, 20))
    yield from (asked_at((15, 30), one_relation + cut + "route 0 0 1 1\n") for cut in ("", one_each, no_windows))
    yield title(1, "no relations, and no windows")
    yield network(relations=()) + "route 0 0 0 1\nshort window_firsts 1\nroute 0 0 0 1\n"
    yield title(1, "windows of the last of 4,096 relations; of one more")
    for count in (4096, 4097):
        yield network(relations=(RELATIONS[1],) * (count - 1) + RELATIONS[:1]) + windows(count - 1, (10, 20)) + asked_at((10, 20), route)


# ---- minutes of fixes (document 02, K4)

def fed_at(*minutes, fix=feed()):
    return "".join(minute(number) + fix for number in minutes)


def minutes():
    """Check 17, by the last standing row, an empty one too, and by the 28 bits of a minute."""
    scoring = feed(candidate())
    yield title(17, "a minute below that of the last row; equal and later ones; after a strike an earlier one again")
    yield network() + SETTINGS + "journal 400\n" + fed_at(5, 5, 4, 6, 5, 0, 6, 7) + "words\nstrike 1\n" + fed_at(6) + "strike 2\n" + fed_at(4, 5, 6)
    yield "strike 4\n" + fed_at(4, 5) + "row 0\nstrike 99\nstrike 2\n" + fed_at(0) + "row 0\nwords\nopen\n" + fed_at(0) + minute(0)
    yield title(17, "the last row is empty, its predecessor earlier; or does not score")
    yield "journal 400\n" + minute(5) + scoring + fed_at(8) + "".join(
        minute(number) + feed(candidate(1), distances=(100.0,)) for number in (4, 5, 7, 8)) + "row 2\nwords\n"
    yield "journal 400\n" + fed_at(5, fix=feed(candidate(raw_log=-INFINITY))) + fed_at(4, 5, fix=scoring) + minute(9) + "row 0\nrow 1\nwords\n"
    yield title(17, "the most that 28 bits hold, and one more")
    for fix in (feed(), scoring):
        yield from ("journal 400\n" + fed_at(number, fix=fix) + "words\n" for number in (2**28 - 1, 2**28, 2**31, 2**32 - 1))
    yield "journal 400\n" + fed_at(2**28 - 2, 2**28 - 1, 2**28 - 1, 2**28, 2**28 - 2, 0) + "row 2\nwords\n"
    yield title("9, 10, 17, 12", "all at once, then without the first of them, and so on")
    for element, distances in ((3, (NAN,)), (0, (NAN,)), (0, ()), (0, (1.0,))):
        faulty = feed(candidate(element), distances=distances)
        yield "journal 13\n" + minute(5) + scoring + minute(4) + faulty + minute(5) + faulty
    yield "journal 6\n" + fed_at(5, 4, 5, 6, 2**28) + minute(0)


# Rows at minutes 5, 7, 7 and 9, the second and third empty.
TIMES = 5, 7, 7, 9
TIMED = "journal 100\n" + fed_at(5, fix=feed(candidate())) + fed_at(7, 7) + fed_at(9, fix=feed(candidate(1), distances=(100.0,)))
*TIMED_ROWS, _ = places(((1, 0), (0, 0), (0, 0), (1, 1)))


def minute_words():
    """Check 7 on the minute of a row. Each word is put right again, so that it alone is refused."""
    yield title(7, "the minutes of a drive, others in their places, and words of other kinds")
    yield network() + windows(0, (8, 9)) + SETTINGS + TIMED + "words\n" + "".join(f"row {row}\n" for row in range(4)) + minute(0)
    for row, time in enumerate(TIMES):
        earlier, later = (0, *TIMES)[row], (*TIMES, 2**28 - 1)[row + 1]
        around = {0, earlier - 1, earlier, earlier + 1, time, later - 1, later, later + 1, 2**28 - 1} - {-1, 2**28}
        values = [0x80000000 + value for value in sorted(around)] + [kind + time for kind in (0, 0x70000000, 0x90000000, 0xF0000000)]
        at = TIMED_ROWS[row] + 2
        yield from (word(at, value) + f"row {row}\nclose\nsteps 3\nsegments\nreplay\nstrike 0\n" + word(at, 0x80000000 + time) for value in values)
    yield title(7, "minutes that all rise from another, and a fix behind a last minute that was poked")
    yield "".join(word(at + 2, 0x80000000 + 20 + row) for row, at in enumerate(TIMED_ROWS)) + "words\n" + "".join(JOURNAL_CALLS[:-1]) + fed_at(22, 23)
    yield TIMED + word(TIMED_ROWS[3] + 2, 0x8FFFFFFF) + fed_at(9, 2**28 - 1) + "words\n" + minute(0)


def joined(*distances, first=candidate(0), second=candidate(1)):
    """Two fixes, the second at some distance of the first."""
    return feed(first), feed(second, distances=distances)


def minute_steps():
    """A row's steps are those at its own minute, when it is fed and when they are listed."""
    one, other = joined(100.0)
    yield "\n# a row's steps at its own minute: shut from 10 on, open again at 20\n" + network() + windows(0, (10, 20))
    for before, own in ((9, 9), (9, 10), (10, 10), (15, 19), (19, 20), (10, 20), (20, 20), (0, 30)):
        yield "journal 400\n" + minute(before) + one + minute(own) + other + "row 1\nsteps 1\nclose\n"
        yield from (minute(number) + "steps 1\nsteps 0\nsegments\n" for number in (0, 15, LAST_MINUTE))
    yield "\n# across empty rows, whose minutes do not count\n"
    for minutes in ((9, 10, 20), (9, 9, 10), (10, 15, 20), (9, 15, 19)):
        before, empty, own = minutes
        yield "journal 400\n" + minute(before) + one + fed_at(empty) + minute(own) + other + minute(0) + "row 2\nsteps 1\nsteps 2\nclose\n"
    yield "\n# windows that came after the fix, and went again\n" + network() + "journal 400\n" + minute(10) + one + other + "steps 1\n"
    yield windows(0, (10, 11)) + "steps 1\nclose\nsegments\n" + windows(0, (9, 10), (11, 12)) + "steps 1\n" + windows(0) + "steps 1\n"
    yield "\n# a detour while the short way is shut: longer, and of another score\n"
    yield network(relations=(*RELATIONS, (0, 2, 1, 0, 1, 1))) + windows(2, (10, 20))
    first, last = joined(100.0, second=candidate(2))
    yield from ("journal 400\n" + minute(number) + first + last + minute(0) + "row 1\nsteps 1\nsegments\n" for number in (9, 10, 19, 20))
    yield "\n# some steps of a row are shut, others not\n" + network() + windows(1, (10, 20))
    yield "journal 400\n" + minute(9) + one + minute(10) + SECOND + THIRD + minute(20) + feed(candidate(1), distances=(100.0,)) + minute(0)
    yield "".join(f"row {row}\nsteps {row}\n" for row in range(4)) + "close\nsegments\n"


# Elements 0 and 2 joined by element 1, and fixes on 0, 0, 2 and 2.
GROUPS = feed(candidate(0)), feed(candidate(0), distances=(0.0,)), feed(candidate(2), distances=(200.0,)), feed(candidate(2), distances=(0.0,))


def grouped_at(*minutes):
    """Two groups of two rows each, at these minutes."""
    return "journal 400\n" + "".join(minute(number) + fix for number, fix in zip(minutes, GROUPS)) + minute(0) + "segments\ncollapse built\n"


def minute_bridges():
    """A bridge is one at the minute of the later group's first row."""
    shut = (9, 9, 10, 20), (9, 9, 10, 10), (0, 10, 19, 20), (0, 9, 19, 19)
    open_again = (9, 19, 20, 20), (10, 10, 20, 20), (9, 9, 9, 10), (9, 10, 20, 20), (0, 9, 20, 21), (20, 20, 20, 20)
    times = shut + open_again
    for relation in (0, 1):
        yield f"\n# bridges over relation {relation}, shut from 10 on, open again at 20\n" + network() + windows(relation, (10, 20))
        yield from (grouped_at(*minutes) for minutes in times)
    for direct in ((0, 2, 1, 0, 1, 1), (2, 0, 0, 1, 1, 1), (0, 2, 1, 0, 1, 0), (2, 0, 0, 1, 0, 1)):
        yield "\n# no bridge where a relation joins the groups, one while it is shut\n"
        yield network(relations=(*RELATIONS, direct)) + windows(2, (10, 20))
        yield from (grouped_at(*minutes) for minutes in times)
    yield "\n# two bridges, each at its own minute\n" + network() + windows(0, (10, 20))
    there, back = feed(candidate(2), distances=(200.0,)), feed(candidate(0), distances=(200.0,))
    for minutes in ((9, 9, 9), (9, 9, 10), (9, 10, 20), (10, 20, 20), (9, 10, 19), (15, 20, 25)):
        yield "journal 400\n" + "".join(minute(number) + fix for number, fix in zip(minutes, (GROUPS[0], there, back))) + "segments\n"
    yield minute(0)


# ---- journals that are loaded and replayed (document 02, K5)

def halves(value):
    return bits(value) >> 32, bits(value) & 0xFFFFFFFF


def record(*cells, distances=(), place=0, minute=0):
    """The words of a row's record, whose predecessor stands at a place. A cell is a candidate, its parent and its score."""
    before = len(distances) // len(cells) if cells else 0
    words = [0x10000000 | before << 5 | len(cells), 0x70000000 + place, 0x80000000 + minute]
    for (element, intrinsic, near, raw_log), parent, score in cells:
        words += [0x20000000 | parent << 11 | near << 10 | element, *halves(intrinsic), *halves(raw_log), *halves(score)]
    words += [0x30000000 + len(distances), *itertools.chain(*map(halves, distances))]
    return words + [0x40000000 + len(words) + 1]


def journal(*records):
    """The used words of a journal."""
    words = list(itertools.chain(*records))
    return [0x50000001 + len(words), *words]


def load(words):
    return f"load {len(words)}\n" + "".join(" ".join(f"{word:08X}" for word in words[at:at + 14]) + "\n" for at in range(0, len(words), 14))


NONE = 31
# Three rows on one element, on which a step scores 0: the score of a row is that of the one before, and its own log. The places of their records.
STAYING = (
    record((candidate(), NONE, -1.0)),
    record((candidate(), 0, -2.0), distances=(0.0,), place=1),
    record((candidate(), 0, -3.0), distances=(0.0,), place=13),
)
STAYED = journal(*STAYING)
*STAYED_ROWS, _ = places(((1, 0), (1, 1), (1, 1)))
LOADED_CALLS = ("words\n", "replay\n", "close\n", "row 2\n", "steps 2\n", "segments\n", feed(), "strike 0\n")


def loads():
    """Slices of just the words that were loaded: as long as they are, and with nothing changed in them."""
    calls = "".join(LOADED_CALLS)
    yield "\n# load: no words, and then one; a first word that is none, that of no row, one that tells too few, one that tells too many\n"
    yield minute(0) + network() + SETTINGS + load([]) + calls + "open\nwords\n"
    for first in (0xFFFFFFFF, 0x50000001, 0x50000000, 0x50000002, 0x40000001, 0):
        yield load([first]) + calls + "open\nreplay\nwords\n"
    yield "\n# load: a journal with no room, with room for a fix and for all but its last word; what is past the used words\n"
    for more in ((), (0xFFFFFFFF,) * 5, (0xFFFFFFFF,) * 4, STAYING[1], (0x10000000, 0x70000000)):
        yield load([*STAYED, *more]) + calls + "replay\nwords\n"
    yield "\n# load: cut short, with its first word as it was, and with one that tells what is left\n"
    for end in (1, 2, *STAYED_ROWS[1:], len(STAYED) - 1):
        yield load(STAYED[:end]) + calls + load([0x50000000 + end, *STAYED[1:end]]) + calls
    yield "\n# load: a journal over one that was fed and poked, which is gone; then a longer and a shorter one\n"
    yield DRIVE + word(0, 0) + load(STAYED) + calls + "journal 40\n" + feed(candidate()) + "words\nreplay\n" + load(STAYED[:1]) + calls
    yield "\n# load: opened, fed, struck and poked as any journal\n"
    yield load([0] * 30) + "open\nreplay\n" + feed(candidate()) + feed(candidate(), distances=(0.0,)) + "words\nreplay\nstrike 1\nreplay\n"
    yield word(29, 1) + feed(candidate(1), distances=(100.0,)) + "words\nreplay\n" + word(5, 0) + "replay\n"


def replays():
    """Which row is told, and what is not looked at."""
    yield "\n# replay: a journal just opened, and one that could not be\n" + minute(0) + network() + SETTINGS
    yield "journal 1\nreplay\njournal 400\nreplay\njournal 0\nreplay\n"
    yield "\n# replay: three rows; the score of each a unit less, of two, of all: the first is told\n" + load(STAYED) + "replay\n"
    for marred in itertools.product((0, 1), repeat=3):
        yield "".join(word(at + 9, mar) for at, mar in zip(STAYED_ROWS, marred)) + "replay\n"
    yield "\n# replay: fixes that are other than they were, but each row is what feeding gives\n"
    first = record((candidate(raw_log=-4.0), NONE, -4.0))
    for scores in itertools.product((-2.0, -5.0), (-3.0, -6.0)):
        behind = (record((candidate(), 0, score), distances=(0.0,), place=at) for at, score in zip(STAYED_ROWS, scores))
        yield load(journal(first, *behind)) + "replay\n"
    yield "\n# replay: after strikes, over words that other rows left; over a record that is not used\n"
    yield DRIVE + "".join("strike 1\nreplay\n" for _ in range(3)) + DRIVE + "strike 2\n" + SECOND + "replay\n" + THIRD + "replay\nwords\n"
    yield DRIVE + word(ROWS[2], 0) + "replay\nstrike 1\n" + word(0, 0x50000000 + ROWS[2]) + "replay\n"
    yield "\n# replay: a slice that it does not take stays cut for the call that does\n" + DRIVE
    yield "short answer 0\nreplay\nclose\nshort elements 1\nreplay\n" + feed(candidate(), candidate(), distances=(0.0,) * 2)
    yield from replayed_fields()
    yield from replayed_zeros()
    yield from replayed_tunnel()
    yield from replayed_crowd()
    yield from replayed_changes()
    yield from replayed_minutes()


# A drive in which each field counts, two candidates a row: which of them are near, what their parents are, and where the records begin.
PAIR_FIXES = (
    ((candidate(0, 0.25, near=0), candidate(0, 0.75, raw_log=-2.0)), ()),
    ((candidate(1, 0.25, raw_log=-0.5), candidate(1, 0.75, near=0)), (100.0, 150.0, 40.0, 90.0)),
    ((candidate(0, 0.5), candidate(2, 0.5, near=0, raw_log=-0.25)), (75.0, 120.0, 100.0, 60.0)),
)
PAIR_PARENTS = (NONE, NONE), (0, 1), (0, 0)
PAIRS_FED = "journal 200\n" + "".join(feed(*candidates, distances=distances) for candidates, distances in PAIR_FIXES)
*PAIR_ROWS, _ = places(((2, 0), (2, 2), (2, 2)))
PAIR_CELLS = [(row, number, PAIR_ROWS[row] + 3 + 7 * number) for row in range(3) for number in range(2)]


def replayed_names():
    """Parents, near flags and elements, each as it was fed and otherwise."""
    for row, number, at in PAIR_CELLS:
        (name, _, near, _), parent = PAIR_FIXES[row][0][number], PAIR_PARENTS[row][number]
        parents = ((other, near, name) for other in (0, 1, 2, NONE))
        fixes = ((parent, flag, other) for flag in (0, 1) for other in (0, 1, 2, 3))
        for parent, flag, other in (*parents, *fixes):
            yield PAIRS_FED + word(at, 0x20000000 | parent << 11 | flag << 10 | other) + "replay\n"


def replayed_floats():
    """Intrinsics, raw logs, scores and distances, next to what was fed and others."""
    for row, number, at in PAIR_CELLS:
        _, intrinsic, _, raw_log = PAIR_FIXES[row][0][number]
        yield from (PAIRS_FED + float_words(at + 1, value) + "replay\n" for value in (0.0, 1.0, *around(intrinsic)))
        yield from (PAIRS_FED + float_words(at + 3, value) + "replay\n" for value in (0.0, -INFINITY, *around(raw_log)))
        yield from (PAIRS_FED + float_words(at + 5, value) + "replay\n" for value in (0.0, -INFINITY, -1.5, -2.0))
        yield from (PAIRS_FED + word(at + 6, value) + "replay\n" for value in (0, 1))
    for row, number in itertools.product((1, 2), range(4)):
        at, distance = PAIR_ROWS[row] + 18 + 2 * number, PAIR_FIXES[row][1][number]
        yield from (PAIRS_FED + float_words(at, value) + "replay\n" for value in (0.0, 20100000.0, *around(distance)))


def replayed_fields():
    """Each field of a record, by the row that it is in."""
    yield "\n# replay: parents, near flags and elements, in range and not\n" + PAIRS_FED + "replay\nrow 0\nrow 1\nrow 2\n"
    yield from replayed_names()
    yield "\n# replay: intrinsics, raw logs, scores and distances\n"
    yield from replayed_floats()
    yield "\n# replay: raw logs below the floor score alike, but not in a first row\n"
    floored = "journal 100\n" + feed(candidate(raw_log=-24.0)) + feed(candidate(raw_log=-24.0), distances=(0.0,)) + "replay\n"
    yield from (floored + float_words(at, value) + "replay\n" for at in (7, 19) for value in (-745.0, -INFINITY, -23.5, -23.0))


def replayed_zeros():
    """0.0 and -0.0 are different words of one number."""
    yield "\n# replay: scores and raw logs of 0.0 and -0.0\n" + network() + SETTINGS
    for raw_log in (0.0, -0.0):
        fed = "journal 40\n" + feed(candidate(raw_log=raw_log)) + feed(candidate(raw_log=raw_log), distances=(0.0,)) + "words\nreplay\n"
        yield from (fed + float_words(at, value) + "replay\n" for at in (7, 9, 19, 21) for value in (0.0, -0.0))
        yield fed + float_words(24, -0.0) + "replay\n"
        yield fed + float_words(7, -raw_log) + float_words(9, -raw_log) + "replay\n"


def replayed_tunnel():
    """Rows whose predecessor is not the row before, rows that break, rows that do not score, empty rows."""
    yield "\n# replay: a drive through a tunnel; the score of each row that has one, a unit less or more; parents, near flags, elements\n"
    yield network() + SETTINGS + TUNNEL + "replay\nrow 5\nrow 6\n"
    for row in (2, 5, 6):
        at = TUNNEL_ROWS[row] + 3
        yield from (TUNNEL + word(at + 6, value) + "replay\n" for value in (1, 0xFFFFFFFF))
        yield from (TUNNEL + word(at, 0x20000000 | parent << 11 | near << 10 | name) + "replay\n"
                    for parent in (0, NONE) for near in (0, 1) for name in (0, 1, 2))
    yield "\n# replay: the row that does not score made to score, behind which rows name none; as the last row; its raw log alone\n"
    yield TUNNEL + float_words(TUNNEL_ROWS[0] + 8, -1.0) + "replay\nstrike 0\n" + TUNNEL + "strike 7\nreplay\n" + float_words(9, -1.0) + "replay\n"
    yield float_words(7, -1.0) + "replay\n" + float_words(9, -INFINITY) + "replay\n"
    yield "\n# replay: the minutes of empty rows\n" + TUNNEL
    minutes = (7, 1), (7, 2**28 - 1), (6, 1), (4, 1), (4, 0), (1, 1), (1, 0)
    yield from (word(TUNNEL_ROWS[row] + 2, 0x80000000 + value) + "replay\n" for row, value in minutes)
    yield "\n# replay: before the first row that scores one of two candidates that does not, behind it an empty one\n"
    silent = feed(candidate(1, near=0, raw_log=-INFINITY), candidate(2, near=0, raw_log=-INFINITY))
    yield "journal 100\n" + silent + feed(candidate()) + feed() + feed(candidate(1), candidate(2), distances=(90.0, 200.0)) + feed() + "replay\n"
    yield feed(candidate(2), distances=(90.0, 0.0)) + "replay\nwords\n"


def replayed_crowd():
    """16 candidates on 16, each the parent of the one of its own number."""
    yield "\n# replay: 16 candidates on 16; the last one's score and parent, the last distance, the first; the score of the last one before\n"
    first, second = ([candidate(element, number / 16) for number in range(16)] for element in (0, 1))
    own = feed(*second, distances=[100.0 if p == c else 1000.0 for p in range(16) for c in range(16)])
    yield network() + SETTINGS + "journal 1200\n" + feed(*first) + own + "replay\n"
    (_, at, end), last = places(((16, 0), (16, 16))), 3 + 7 * 15
    yield from (word(at + last + 6, value) + "replay\n" for value in (1, 0))
    yield from (word(at + last, 0x20000401 | parent << 11) + "replay\n" for parent in (14, 16, 31, 15))
    for place in (at + 116, end - 3):
        yield from (float_words(place, value) + "replay\n" for value in (90.0, above(100.0), 1000.0, 100.0))
    yield word(1 + last + 6, 1) + "replay\n"


def replayed_changes():
    """Other networks and settings than those fed with."""
    turned = (ELEMENT, element(3, 120.0), ELEMENT)
    yield "\n# replay: other settings, and the same again\n" + network(turned) + SETTINGS + PAIRS_FED + "replay\n"
    for beta, scale in ((above(50.0), 30.0), (25.0, 30.0), (0.0, 30.0), (50.0, above(30.0)), (50.0, 1.0), (50.0, 30.0)):
        yield line("settings", beta, scale) + "replay\n"
    yield "\n# replay: other networks: more elements, each one's length, a heading, a flag; no relation, one of them, one way\n"
    more, unturned = (*turned, ELEMENT), (ELEMENT, element(5, 0), ELEMENT)
    lengths = (turned[:at] + ((101.0, *turned[at][1:]),) + turned[at + 1:] for at in range(3))
    yield from (network(elements) + "replay\n" for elements in (more, *lengths, (ELEMENT,) * 3, unturned, turned))
    for relations in ((), RELATIONS[:1], RELATIONS[1:], (relation(4, 0), RELATIONS[1]), (relation(5, 0), RELATIONS[1]), RELATIONS):
        yield network(turned, relations) + "replay\n"
    yield "\n# 9, replay: fewer elements, in a journal whose rows are on all of them, on the first one, on none\n"
    for fixes in (3, 2, 1, 0):
        yield network() + "journal 100\n" + "".join((feed(candidate()), SECOND, THIRD)[:fixes])
        yield from (network((ELEMENT,) * known, RELATIONS) + "replay\n" for known in (3, 2, 1, 0))
    yield "\n# 7 and 9, replay: both\n" + network() + DRIVE + word(1, 0) + network((ELEMENT,))
    yield "replay\n" + word(1, 0x10000001) + "replay\n" + network() + "replay\n"


def replayed_minutes():
    """Each row at its own minute."""
    there, back = feed(candidate(1), distances=(100.0,)), feed(candidate(0), distances=(100.0,))
    yield "\n# replay: rows before a window, in it and behind it; each minute earlier or later; other windows, and the same again; none\n"
    yield network() + windows(0, (10, 20))
    times = (9, 9, 10, 19, 19, 20, 30)
    fed = "journal 200\n" + "".join(minute(time) + fix for time, fix in zip(times, (feed(candidate()), there, back, there, back, there, back)))
    yield fed + minute(0) + "replay\n" + "".join(f"row {row}\n" for row in range(1, 7))
    *at, _ = places(((1, 0), *((1, 1),) * 6))
    for row, time in enumerate(times):
        earlier, later = (0, *times)[row], (*times, 2**28 - 1)[row + 1]
        others = (value for value in sorted({earlier, earlier + 1, 10, 19, 20, later}) if earlier <= value <= later)
        yield from (word(at[row] + 2, 0x80000000 + value) + "replay\n" for value in (*others, time))
    yield "replay\n"
    for pairs in (((9, 20),), ((10, 19),), ((11, 20),), ((10, 21),), ((30, 31),), (), ((19, 20), (10, 19)), ((10, 20),)):
        yield windows(0, *pairs) + "replay\n"
    yield "".join(f"short {name} 0\n" for name in FIELDS[9:]) + "replay\nreplay\n"
    yield "\n# replay: an empty row in a window, between two that are not\n"
    yield from ("journal 100\n" + minute(first) + feed(candidate()) + minute(empty) + feed() + minute(last) + there + "replay\n"
                + word(15, 0x80000000 + first) + "replay\n" + word(15, 0x80000000 + last) + "replay\n" + word(20, 0x80000000 + empty) + "replay\n"
                for first, empty, last in ((9, 15, 20), (9, 9, 15), (10, 15, 19), (5, 20, 25)))
    yield minute(0)


def cases():
    kinds = (networks, limits, settings, journals, predecessors, fixes, rows, lists, thresholds, lowest_terms, lowest_sums, lowest_rows, window_edges,
             window_refusals, window_slices, minutes, minute_words, minute_steps, minute_bridges, loads, replays)
    return "".join(part for kind in kinds for part in kind())
