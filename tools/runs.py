"""A whole run of the program, as docs/FORMATS.md has it: from a tile and a script to a status and what is written."""
from dataclasses import dataclass

import tiles
from opening import fault_place
from walks import State, plain_walk, replies_of


@dataclass(frozen=True)
class Ended:
    """How a run ends, and what it writes."""
    status: int
    replies: bytes
    # What is printed on standard error.
    complaint: bytes
    # None if no tile is written.
    tile: bytes


def ended(tile, script, depth=100, strict=False):
    """How the run ends over a tile and a script, both bytes, if there is memory and the devices serve."""
    place = fault_place(tile)
    if place is not None:
        return Ended(3, b"", b"tileshell: tile refused: 1 BadWire place %d\n" % place, None)
    start = State(tiles.read_tile(tile), depth)
    return end_of(start, plain_walk(start, script.split(b"\n")), strict)


def end_of(start, found, strict):
    """How the run whose lines have these answers ends, from this state on."""
    refused = [place for place, answer in enumerate(found) if answer.refusal]
    if strict and refused:
        return Ended(1, replies_of(found[:refused[0] + 1]).encode(), b"", None)
    last = found[-1].state if found else start
    return Ended(1 if refused else 0, replies_of(found).encode(), b"", tiles.bytes_of(last.tile()))
