"""The case language: the commands of a file, and the network that stands at its end."""

import struct
from typing import NamedTuple

# How many words stand behind a keyword. Those whose number depends on the first of them are in `operand_count`.
OPERANDS = dict.fromkeys(("open", "words", "close", "routes", "segments", "kept", "replay"), 0)
OPERANDS.update(dict.fromkeys(("minute", "journal", "strike", "row", "steps"), 1))
OPERANDS.update(settings=2, poke=2, short=2, triple=3, route=4)


class Command(NamedTuple):
    keyword: str
    words: list  # behind the keyword
    line: int  # of the file, counted from 1


class Relation(NamedTuple):
    """Forward from `start` to `end`, backward the other way, through these sides. It is shut from the first minute of each window on, and open at its last."""

    start: int
    end: int
    start_side: int
    end_side: int
    forward: bool
    backward: bool
    windows: list

    def leads(self, source, target):
        """Whether one may pass from one element to another here."""
        return (self.start, self.end, self.forward) == (source, target, True) or (self.end, self.start, self.backward) == (source, target, True)

    def is_open(self, minute):
        return not any(first <= minute < last for first, last in self.windows)


class Network(NamedTuple):
    lengths: list
    relations: list


def words_of(text):
    """The words of a text without its comments, and the line of each."""
    words, lines = [], []
    for number, line in enumerate(text.decode("latin-1").split("\n"), 1):
        found = line.split("#", 1)[0].split()
        words += found
        lines += [number] * len(found)
    return words, lines


def operand_count(words, at):
    """How many words belong to the keyword at a place, behind it."""
    keyword = words[at]
    if keyword == "network":
        return 2 + 6 * int(words[at + 1]) + 6 * int(words[at + 2])
    if keyword == "windows":
        return 2 + 2 * int(words[at + 2])
    if keyword == "feed":
        return 2 + 4 * int(words[at + 1]) + int(words[at + 2])
    if keyword == "load":
        return 1 + int(words[at + 1])
    if keyword == "collapse":
        return 1 if words[at + 1] == "built" else 1 + 5 * int(words[at + 1])
    return OPERANDS[keyword]


def commands_of(text):
    """The commands of a text that `cases` could read to its end."""
    words, lines = words_of(text)
    commands, at = [], 0
    while at < len(words):
        end = at + 1 + operand_count(words, at)
        commands.append(Command(words[at], words[at + 1 : end], lines[at]))
        at = end
    return commands


def float_of(word):
    """Its 16 hexadecimal digits, or a decimal, which has at most 15 digits."""
    if len(word) == 16 and set(word) <= set("0123456789ABCDEF"):
        return struct.unpack(">d", bytes.fromhex(word))[0]
    return float(word)


def network_of(commands):
    """The last network, with the windows that its relations got after it."""
    network = Network([], [])
    for command in commands:
        if command.keyword == "network":
            network = read_network(command.words)
        elif command.keyword == "windows":
            numbers = [int(word) for word in command.words]
            network.relations[numbers[0]].windows[:] = list(zip(numbers[2::2], numbers[3::2]))
    return network


def read_network(words):
    elements, relations = int(words[0]), int(words[1])
    fields = words[2:]
    lengths = [float_of(word) for word in fields[: 6 * elements : 6]]
    numbers = [int(word) for word in fields[6 * elements :]]
    return Network(lengths, [read_relation(numbers[6 * k : 6 * k + 6]) for k in range(relations)])


def read_relation(fields):
    start, end, start_side, end_side, forward, backward = fields
    return Relation(start, end, start_side, end_side, forward != 0, backward != 0, [])


def setup_of(commands):
    """The text of the last network, its windows and the last settings."""
    kept = {}
    for command in commands:
        if command.keyword == "network":
            kept = {key: text for key, text in kept.items() if key == "settings"}
        if command.keyword in ("network", "settings", "windows"):
            key = (command.keyword, command.words[0]) if command.keyword == "windows" else command.keyword
            kept[key] = " ".join([command.keyword] + command.words)
    return "\n".join(kept.values()) + "\n"
