#!/usr/bin/env python3
"""Runs tileshell on hostile tiles: whether each is answered as it should be, in linear time and bounded memory."""
import argparse
import itertools
import sys
from dataclasses import dataclass
from pathlib import Path
from typing import Callable

import peers
from generate import GROUP, GROUP_END, MOST_OPEN, SPARE, bytes_field, number_field, varint
from measure import Program, run_once
from report import shown, steepness, table
from targets import OURS
from tiles import MEBIBYTE, SIZES, Tile

SCRIPT = 'rename-layer "a" "b"\nrename-layer #0 "b"\nundo\n'

# One name is kept for this number of bytes of a tile: a line holds as many as there are for the largest.
BYTES_OF_A_NAME = 6400
LETTERS = "abcdefghijklmnopqrstuvwxy"

# How often a tile is run; of the times the least counts.
TRIES = 5
SECONDS = 60

# The status of a run on a tile that opens, none of which has a layer `a`, and on one that is refused.
OPENED, REFUSED = 1, 3

# More memory is slower memory, so linear time grows a little faster than the tile. Time that grows as its square has 2.
MOST_EXPONENT = 1.2

# In two runs of a program the peaks differ by less.
NOISE = MEBIBYTE

# The most bytes that a layer's tag and length take here.
HEAD = 5

OTHER_END = b"\x14"
LAYER_TAG, FEATURE_TAG = b"\x1a", b"\x12"
LAYER, FEATURE = bytes_field(3, b""), bytes_field(2, b"")
PAST_END = varint((1 << 64) - 1)
LAYER_PAST_END, FEATURE_PAST_END = LAYER_TAG + PAST_END, FEATURE_TAG + PAST_END

# Longer than what is left of a layer that is as long.
PAST_LAYER = LAYER_TAG + varint(127)

# Of no name that `many_names` keeps.
NAMED_LAYER = bytes_field(3, bytes_field(1, b"zzz"))

# The smallest fields: of those that keep no bytes, and of those that do.
NUMBER, BYTE = number_field(1, 0), bytes_field(1, b"\0")

# More calls in one another than a stack has room for.
LEVELS = 100_000


def repeated(unit, size):
    return size // len(unit) * unit


def ending_in(unit, size, last):
    """What comes last is met when all the rest was read."""
    return repeated(unit, size - len(last)) + last


def groups(deep):
    return deep * GROUP + deep * GROUP_END


TOO_DEEP = groups(MOST_OPEN + 1)


def many_names(size):
    """A line that keeps the layers of many names, of which there are more in a larger tile."""
    names = map("".join, itertools.product(LETTERS, repeat=3))
    return "keep " + " ".join(f'"{name}"' for name in itertools.islice(names, size // BYTES_OF_A_NAME)) + "\n"


def nested_bytes(levels):
    """A layer, in it a feature, and in that LEN fields in one another."""
    heads, size = [], 0
    for level in reversed(range(levels)):
        heads.append((FEATURE_TAG if level else LAYER_TAG) + varint(size))
        size += len(heads[-1])
    return b"".join(reversed(heads))


@dataclass(frozen=True)
class Hostile:
    name: str
    # Makes a tile of at most the number of bytes that it takes.
    make: Callable[[int], bytes]
    # The place of its fault, counted from its end where it is negative. None where it opens.
    place: int
    # Whether it is of fields that keep bytes each, be it one.
    keeps_bytes: bool = False
    # What is run on a tile of the size that it takes. No line of it is accepted.
    script: Callable[[int], str] = lambda size: SCRIPT


HOSTILE = [
    Hostile("groups that never end", lambda size: repeated(GROUP, size), 0),
    Hostile("a group of fields that never ends", lambda size: GROUP + repeated(NUMBER, size - 1), 0),
    Hostile("groups in a layer that never end", lambda size: bytes_field(3, repeated(GROUP, size - HEAD)), 0),
    Hostile("ends of no group", lambda size: repeated(GROUP_END, size), 0),
    Hostile("groups with other groups' ends", lambda size: repeated(GROUP + OTHER_END, size), 0),
    Hostile("groups 101 deep", lambda size: repeated(TOO_DEEP, size), 0),
    Hostile("groups 100 deep, then 101", lambda size: ending_in(groups(MOST_OPEN), size, TOO_DEEP), -len(TOO_DEEP)),
    # A group keeps its end tag.
    Hostile("empty groups", lambda size: repeated(groups(1), size), None, keeps_bytes=True),
    Hostile("empty layers", lambda size: repeated(LAYER, size), None),
    Hostile("empty features", lambda size: bytes_field(3, repeated(FEATURE, size - HEAD)), None),
    Hostile("layers past the end", lambda size: repeated(LAYER_PAST_END, size), 0),
    Hostile("fields, then a layer past the end",
            lambda size: ending_in(NUMBER, size, LAYER_PAST_END), -len(LAYER_PAST_END)),
    Hostile("LEN fields past their layer's end", lambda size: repeated(PAST_LAYER, size), 0),
    Hostile("features, then one past their layer's end",
            lambda size: bytes_field(3, ending_in(FEATURE, size - HEAD, FEATURE_PAST_END)), 0),
    Hostile("a layer that wants one byte", lambda size: bytes_field(3, bytes(size - HEAD))[:-1], 0),
    Hostile("LEN fields in LEN fields", lambda size: repeated(nested_bytes(LEVELS), size), None),
    Hostile("layers, and many names to keep", lambda size: repeated(NAMED_LAYER, size), None, script=many_names),
]


@dataclass(frozen=True)
class Measured:
    """Some runs on a tile of `size` bytes, and the most memory that they may take."""
    size: int
    runs: list
    bound: float

    @property
    def quickest(self):
        return min(self.runs, key=lambda run: run.milliseconds)

    @property
    def peak(self):
        return highest(self.runs)


def highest(runs):
    return max(run.peak for run in runs)


def runs_on(program, content, lines=SCRIPT):
    """Some runs of a script on a tile of these bytes."""
    tile = Tile("hostile", peers.BUILD / "hostile.pbf", layer=None, size=len(content))
    tile.path.write_bytes(content)
    script = peers.BUILD / "script"
    script.write_text(lines)
    return [run_once(program, tile, script, SECONDS) for _ in range(TRIES)]


def multiples(program, size):
    """What as many of the smallest fields take as there are of two bytes, to their size: each keeps a byte, or none."""
    print(f"bench: smallest fields, {size:,} bytes", flush=True)
    number, byte = (highest(runs_on(program, repeated(unit, size))) / size for unit in [NUMBER, BYTE])
    return {True: byte * len(BYTE) / len(NUMBER), False: number}


def measured(program, hostile, size, multiple):
    print(f"bench: {hostile.name}, {size:,} bytes", flush=True)
    content = hostile.make(size)
    runs = runs_on(program, content, hostile.script(size))
    return Measured(len(content), runs, multiple[hostile.keeps_bytes] * len(content) + NOISE)


def is_answered(hostile, size, run):
    """Whether the tile was opened, or refused for its fault, as it should be."""
    if hostile.place is None:
        return run.status == OPENED
    return run.status == REFUSED and run.said.endswith(f" BadWire place {hostile.place % size}")


def exponent(sizes):
    """That of time."""
    small, large = sizes[0], sizes[-1]
    return steepness(small.quickest.milliseconds, large.quickest.milliseconds, large.size / small.size)


def runs_table(found):
    rows = []
    for hostile, sizes in found.items():
        for each in sizes:
            run = each.quickest
            rows.append([hostile.name, f"{each.size:,}", str(run.status), run.said, shown(run.milliseconds, 1),
                         shown(each.peak / each.size, 2), shown(each.bound / each.size, 2)])
    return table(["Tile", "Bytes", "Status", "Reply", "Milliseconds", "Peak memory to the tile", "At most"], rows)


def verdict(hostile, sizes):
    """Whether each run was answered, in linear time, in no more memory than small fields take."""
    return [
        all(is_answered(hostile, each.size, run) for each in sizes for run in each.runs),
        exponent(sizes) <= MOST_EXPONENT,
        all(each.peak <= each.bound for each in sizes),
    ]


def verdicts_table(found):
    rows = []
    for hostile, sizes in found.items():
        holds = ["yes" if each else "no" for each in verdict(hostile, sizes)]
        rows.append([hostile.name, shown(exponent(sizes), 2), *holds])
    return table(["Tile", "Exponent of time", "Answered", "Linear", "Memory bounded"], rows)


def main():
    parser = argparse.ArgumentParser(description=__doc__)
    parser.add_argument("tileshell", type=Path)
    program = Program(OURS, (parser.parse_args().tileshell.resolve(),))

    peers.check_needed(["g++"])
    peers.build_measure()
    sizes = [mebibytes * MEBIBYTE - SPARE for mebibytes in SIZES]
    smallest = {size: multiples(program, size) for size in sizes}
    found = {hostile: [measured(program, hostile, size, smallest[size]) for size in sizes] for hostile in HOSTILE}
    print(runs_table(found), verdicts_table(found), sep="\n\n")
    if not all(all(verdict(hostile, sizes)) for hostile, sizes in found.items()):
        sys.exit("bench: not every hostile tile is borne")


if __name__ == "__main__":
    main()
