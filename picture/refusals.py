"""Refusals in words. Documents 01 and 02 number them; include/box.h says the same of each."""

from typing import NamedTuple

from picture.marks import counted

MEANINGS = {
    1: "a count is over its limit, or slices that belong together have unequal counts",
    2: "an element's length is out of range",
    3: "a heading is out of range",
    4: "a relation's side is above 1",
    5: "a relation of an element with itself",
    6: "beta or scale is out of range",
    7: "the journal is not well formed",
    8: "over 16 candidates, or candidate fields of unequal count",
    9: "an element that the network does not have, in the fix or in a standing row, or a candidate's field that is out of range",
    10: "the wrong number of distances, or one that is out of range",
    11: "65,535 rows stand already",
    12: "the journal has too few words left",
    13: "more rows to strike than stand, or a row that does not stand",
    14: "a segment whose intrinsic is outside 0 to 1, whose first row is after its last, or whose row is above 65,534",
    15: "the list is longer than its buffer",
    16: "a window's last minute is not after its first",
    17: "the fix's minute is below that of the last row that stands, or out of range",
}


class Refusal(NamedTuple):
    line: object  # of the file, or none where the picture itself asked
    what: str
    number: int

    @property
    def meaning(self):
        return MEANINGS.get(self.number, "a number that this picture has no words for")


def in_words(command):
    """What a command asks for."""
    keyword, words = command.keyword, command.words
    if keyword == "feed":
        return "feed of %s and %s" % (counted(int(words[0]), "candidate"), counted(int(words[1]), "distance"))
    if keyword == "strike":
        return "strike of %s" % counted(int(words[0]), "row")
    if keyword == "journal":
        return "opening a journal of %s" % counted(int(words[0]), "word")
    if keyword == "collapse" and words[0] != "built":
        return "collapse of %s" % counted(int(words[0]), "segment")
    if keyword == "route":
        return "route from side %s of element %s to side %s of element %s" % (words[1], words[0], words[3], words[2])
    return " ".join([keyword] + words)
