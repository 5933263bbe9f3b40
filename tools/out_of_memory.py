"""What a script may come to when one growth of memory is refused: what is printed of it, checked against the model of
`walks`."""
from dataclasses import dataclass, field
from functools import cache

import tiles
from walks import State, plain_walk, replies_of, walk

# Each line is answered as if no growth were refused: a list that asks for room ahead can do without it.
PLAIN = "plain"

# What a refused growth does to a script: a line is refused, or the run ends and writes no tile. For a line that goes back
# or on over steps this is said separately.
LINE = "line"
GOING_BACK = "going back"
RUN = "run"

# The lines that go over steps and have no other words, for which memory could be wanted.
OVER_STEPS = ["undo", "redo", "cancel"]


@dataclass
class Printed:
    """What is printed of a run of a script."""
    outcome: str
    depth: int = 0
    tile: bytes = b""
    script: list = field(default_factory=list)
    replies: list = field(default_factory=list)
    # None if no tile was written.
    edited: bytes = None


class Wrong(Exception):
    """What is wrong with a run."""


def judged_script(printed):
    """What the growth was refused to. What was printed is checked against the model."""
    if printed.outcome == "NoMemory":
        check_cut(printed)
        return RUN
    found, state = model_walk(printed)
    check_end(printed, "SomeRefused" if any(answer.refusal for answer, _ in found) else "Done", state)
    odd = [answer for answer, is_plain in found if not is_plain]
    if len(odd) > 1:
        raise Wrong(f"more than one line is out of memory: {printed.replies}")
    if not odd:
        return PLAIN
    return GOING_BACK if goes_over_steps(printed, odd[0]) else LINE


def goes_over_steps(printed, answer):
    """Returns whether memory was refused for a step: to a line that has no other words, or to one that was stopped on its way."""
    line = int(answer.reply.split()[1])
    return answer.taken is not None or printed.script[line - 1].strip() in OVER_STEPS


@cache
def fronts_of(tile, depth, *script):
    """What may be replied by a run that ends early: the first of the plain answers, each whole."""
    plain = plain_walk(State(tiles.read_tile(tile), depth), script)
    return {replies_of(plain[:count]) for count in range(len(plain) + 1)}


def check_cut(printed):
    """A run that ends out of memory replied with the first of the plain answers, each whole, and wrote no tile."""
    if printed.edited is not None or replies_printed(printed) not in fronts_of(printed.tile, printed.depth, *lines_of(printed)):
        raise Wrong(f"a run without memory replied {printed.replies} and wrote {printed.edited}")


def lines_of(printed):
    return [line.encode() for line in printed.script]


def replies_printed(printed):
    return "".join(f"{reply}\n" for reply in printed.replies)


def model_walk(printed):
    try:
        return walk(State(tiles.read_tile(printed.tile), printed.depth), lines_of(printed), replies_printed(printed))
    except ValueError as error:
        raise Wrong(str(error)) from error


def check_end(printed, outcome, state):
    """The run ended like this, and wrote the tile of the state."""
    stands = tiles.bytes_of(state.tile())
    if printed.outcome != outcome:
        raise Wrong(f"it ended as {printed.outcome}, and should as {outcome}")
    if printed.edited != stands:
        raise Wrong(f"it wrote {printed.edited}, and should write {stands}")
