#!/usr/bin/env python3
"""Brings the repository's own definitions, lemmas and fields to snake case, once, after the kit's port/port.py.

usage: respell.py TOP

everyBelow -> every_below, upTo-turn -> up_to-turn, record fields and local names too; getD, which the library calls get_or now, follows it.
Types, modules, strings, and the names of functions of src/ stay. Lemmas that would get their definition's name end in _lem (LEMMAS).
Words of .antt files, of .rt files outside strings, and of must-fail edits are turned; in comments only names that the code has.
"""
import os
import re
import sys

WORD = re.compile(r"[^\s(){}.;,@\"«»\[\]\\:`]+")
CAMEL = re.compile(r"[a-z].*[a-z0-9][A-Z]|[a-z].*[a-z0-9]_[A-Z]")
# A lemma and the definition that it would share its name with; by file, since the names are local there.
LEMMAS = {
    "journal/proofs/Reading.antt": ["read_float", "read_cell"],
    "closing/proofs/Rows.antt": ["row_number"],
    "replaying/proofs/Refed.antt": ["same_row"],
    "decoder/proofs/Scores.antt": ["rows_in"],
    "decoder/proofs/Standing.antt": ["rows_in"],
    "decoder/proofs/Chains.antt": ["rows_in"],
}


def snake(word):
    def part(p):
        if not re.match(r"[a-z]", p):
            return p
        p = re.sub(r"^getD(?![a-z])", "get_or", p)
        return re.sub(r"(?<=[a-z0-9])_?([A-Z])", lambda m: "_" + m.group(1).lower(), p)

    return "-".join(part(p) for p in word.split("-"))


def pieces(text, comment):
    """Code, strings and comments in turn: (kind, text)."""
    for m in re.finditer(r"(?P<comment>%s[^\n]*)|(?P<string>b?\"(?:[^\"\\]|\\.)*\")|(?P<code>(?:(?!%s|b?\").)+|.)" % (comment, comment), text, re.S):
        yield m.lastgroup, m.group()


def files(top):
    for folder, below, names in os.walk(os.path.join(top, "crates")):
        below[:] = sorted(d for d in below if d != "out")
        for name in sorted(names):
            if name.endswith((".antt", ".rt", ".edit")):
                yield os.path.join(folder, name)


def is_own(word):
    return re.match(r"[a-z]", word) and snake(word) != word


def main(top):
    known = set()
    for path in files(top):
        if path.endswith(".edit"):
            continue
        with open(path, encoding="utf-8") as f:
            text = f.read()
        for kind, piece in pieces(text, "--" if path.endswith(".antt") else "//"):
            if kind == "code":
                known |= {w for w in WORD.findall(piece) if is_own(w)}
    for path in files(top):
        with open(path, encoding="utf-8") as f:
            text = f.read()
        lemmas = next((names for end, names in LEMMAS.items() if path.endswith("/crates/" + end)), [])
        if path.endswith(".edit"):
            out = WORD.sub(lambda m: snake(m.group()) if m.group() in known else m.group(), text)
        else:
            out = ""
            for kind, piece in pieces(text, "--" if path.endswith(".antt") else "//"):
                if kind == "code":
                    for name in lemmas:
                        piece = re.sub(r"(?<![\w.-])%s(?![\w'-])" % name, name + "_lem", piece)
                if kind != "string":
                    piece = WORD.sub(lambda m: snake(m.group()) if m.group() in known else m.group(), piece)
                out += piece
        if out != text:
            with open(path, "w", encoding="utf-8") as f:
                f.write(out)
    for word in sorted(known):
        print(word, snake(word))


if __name__ == "__main__":
    if len(sys.argv) != 2:
        sys.exit(__doc__)
    main(sys.argv[1])
