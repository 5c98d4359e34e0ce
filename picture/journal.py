"""The rows of a journal, from its used words as `cases` prints them. README.md, "Reading a dump by eye", has their layout."""

import struct
from typing import NamedTuple

NO_PARENT = 31


class Candidate(NamedTuple):
    element: int
    intrinsic: float
    near: int
    raw_log: float
    parent: object  # a candidate's number in the row that the scores came from, or none
    score: float


class Row(NamedTuple):
    number: int
    minute: int
    predecessor: object  # the number of the row that the scores came from, or none
    candidates: list

    @property
    def best(self):
        """The greatest score, minus infinity where there is none."""
        return max((candidate.score for candidate in self.candidates), default=float("-inf"))

    @property
    def scores(self):
        """Document 01: a row scores if one of its scores is finite."""
        return self.best > float("-inf")


def read_candidate(stored, at):
    head, intrinsic, raw_log, score = struct.unpack_from(">Iddd", stored, 4 * at)
    parent = head >> 11 & 31
    return Candidate(head & 1023, intrinsic, head >> 10 & 1, raw_log, None if parent == NO_PARENT else parent, score)


def rows_of(words):
    """The rows of a journal that is well formed."""
    stored = bytes.fromhex("".join(words))
    rows, numbers, at = [], {}, 1
    while at < len(words):
        head, predecessor, minute = struct.unpack_from(">III", stored, 4 * at)
        count, before = head & 31, head >> 5 & 31
        candidates = [read_candidate(stored, at + 3 + 7 * k) for k in range(count)]
        numbers[at] = len(rows)
        rows.append(Row(len(rows), minute & 0xFFFFFFF, numbers.get(predecessor & 0xFFFFFFF), candidates))
        at += 7 * count + 2 * count * before + 5
    return rows
