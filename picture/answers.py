"""What `cases` prints, answer by answer."""

from typing import NamedTuple

from picture.language import float_of

MOST_ELEMENTS = 1100  # that `routes` goes through


class Answer(NamedTuple):
    words: list  # of its first line
    lines: list  # behind it

    @property
    def refusal(self):
        """The number that the call was refused with, or none."""
        return int(self.words[2]) if self.words[1:2] == ["refused"] else None


class Segment(NamedTuple):
    element: int
    start: float
    end: float
    first: int
    last: int


class Decision(NamedTuple):
    element: int
    span: int
    removed: list


def line_count(words):
    """How many lines follow the first line of an answer."""
    if words[1] in ("refused", "none"):
        return 0
    keyword, numbers = words[0], words[1:]
    if keyword in ("words", "steps", "segments"):
        return int(numbers[0])
    if keyword == "close":
        return int(numbers[1])
    if keyword == "row":
        return int(numbers[0]) * (1 + int(numbers[1]))
    if keyword == "collapse":
        return int(numbers[0]) + int(numbers[1])
    return 1 if keyword == "route" else 0


def answers_of(lines):
    """The answers in lines of output."""
    at = 0
    while at < len(lines):
        words = lines[at].split()
        end = at + 1 + line_count(words)
        yield Answer(words, lines[at + 1 : end])
        at = end


def answer_count(command, elements):
    """How many answers a command has, on a network of so many elements."""
    if command.keyword == "routes":
        return (2 * min(elements, MOST_ELEMENTS)) ** 2
    return 0 if command.keyword in ("network", "windows", "minute", "settings", "poke", "short", "load") else 1


def answered(commands, answers):
    """Each command with its answers."""
    elements = 0
    for command in commands:
        if command.keyword == "network":
            elements = int(command.words[0])
        yield command, [next(answers) for _ in range(answer_count(command, elements))]


def read_path(answer):
    """The pairs of a row and a candidate, and the score; no pairs and no score where there is no path."""
    if answer.words[1] in ("refused", "none"):
        return [], None
    return [tuple(map(int, line.split()[1:])) for line in answer.lines], float_of(answer.words[1])


def read_segment(line):
    _, element, start, end, first, last = line.split()
    return Segment(int(element), float_of(start), float_of(end), int(first), int(last))


def read_segments(answer):
    return [read_segment(line) for line in answer.lines if line.startswith("segment ")]


def read_decision(line):
    element, span, _, *removed = map(int, line.split()[1:])
    return Decision(element, span, removed)


def read_decisions(answer):
    return [read_decision(line) for line in answer.lines if line.startswith("decision ")]
