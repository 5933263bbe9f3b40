#!/usr/bin/env python3
"""Checks the model of `walks` against the rows of whole runs of crates/row_tests, which the program is checked against
too.

A script of many lines takes the model too long: such rows are skipped, and counted.
`crates/row_tests/src/main.rt` says how a row is written.
"""
import sys
from collections import Counter
from dataclasses import dataclass

from runs import ended
from tables import RUNS, texts

# The model goes through all standing commands at each line, and is given no more lines than this.
MOST_LINES = 1000


@dataclass
class Row:
    name: str = ""
    depth: int = 100
    strict: bool = False
    tile: bytes = b""
    script: bytes = b""
    ends: str = "Done"
    replies: bytes = b""
    # None if it is not given.
    gives: bytes = None

    def tile_wanted(self):
        """The tile that is written, or None."""
        kept = self.tile if self.ends in ("Done", "SomeRefused") else None
        return kept if self.gives is None else self.gives


def bytes_of(words, pieces):
    """The bytes of pieces."""
    found = b""
    for word in words.split():
        count, _, name = word.rpartition("*")
        found += int(count or 1) * (pieces[name] if name in pieces else bytes.fromhex(name))
    return found


def read_line(row, word, rest, pieces):
    """Takes what a line of a table says."""
    text = rest.encode()
    if word == "piece":
        name, words = rest.split(" = ")
        pieces[name] = bytes_of(words, pieces)
    elif word == "strict":
        row.strict = True
    elif word == "depth":
        row.depth = int(rest)
    elif word in ("row", "ends"):
        setattr(row, {"row": "name"}.get(word, word), rest)
    elif word in ("tile", "gives"):
        setattr(row, word, bytes_of(rest, pieces))
    elif word[:1] in ("<", ">"):
        added = {"": text + b"\n", "|": text}.get(word[1:], bytes_of(rest, pieces) if word[1:] == word[0] else None)
        which = "replies" if word[0] == "<" else "script"
        setattr(row, which, getattr(row, which) + added)
    elif word not in ("", "#"):
        raise ValueError(f"no line of a table: {word} {rest}")


def read_rows():
    """The rows of all tables of runs."""
    pieces, rows = {}, []
    for text in texts(RUNS):
        for block in text.split("\n\n"):
            row = Row()
            for line in block.split("\n"):
                read_line(row, *line.partition(" ")[::2], pieces)
            rows += [row] if row.name else []
    return rows


def unmodelled(row):
    """Why the model has no answer to a row, or None."""
    return "a walk through all lines takes too long" if row.script.count(b"\n") > MOST_LINES else None


def outcome_of(end):
    """The outcome of a run that the model carried out, as a row has it."""
    if end.status == 3:
        return f"TileRefused(BadWire {{ place: {int(end.complaint.split()[-1])} }})"
    return ["Done", "SomeRefused" if end.tile is not None else "StrictStop"][end.status]


def fault_of(row):
    """What the model answers differently, or None."""
    end = ended(row.tile, row.script, row.depth, row.strict)
    outcome = outcome_of(end)
    if (outcome, end.replies, end.tile) == (row.ends, row.replies, row.tile_wanted()):
        return None
    return f"{row.name}: the model ends {outcome}, answers {end.replies[:2000]!r}, and leaves {end.tile!r:.2000}"


def wrong_rows():
    """What the model answers differently."""
    return [fault for row in read_rows() if not unmodelled(row) and (fault := fault_of(row))]


def main():
    wrong, passed = wrong_rows(), Counter(filter(None, map(unmodelled, read_rows())))
    for row in wrong:
        print(row)
    over = ", ".join(f"{count} where {why}" for why, count in passed.items())
    print(f"rows: {len(read_rows()) - passed.total()} rows, {len(wrong)} faults; passed over: {over}")
    return 1 if wrong else 0


if __name__ == "__main__":
    sys.exit(main())
