"""A trial: a tile, a script and the words of a run, what the program makes of them, and what the model does."""
import random
import subprocess
from dataclasses import dataclass, field, replace

from opening import fault_place
from random_scripts import random_script
from random_tiles import one_in, random_tile
from runs import Ended, ended
from tiles import read_tile
from walks import State

# What OUT holds before a run.
BEFORE = b"as it was"

# The seconds that a run may take.
LIMIT = 60

# Depths that a script of some lines reaches, and others.
DEPTHS = ["1", "2", "3", "+4", "05", "100", "10000"]


@dataclass(frozen=True)
class Trial:
    tile: bytes
    script: bytes
    # None if it is not given.
    depth: str = None
    strict: bool = False
    # Whether the script comes from a file, and whether OUT is the file TILE.
    is_file: bool = False
    is_in_place: bool = False
    # For each line that the model answers, the request and the answer.
    answers: list = field(default=(), compare=False)

    def words(self):
        """The words of the command line that choose how the script is run."""
        return (["--depth", self.depth] if self.depth else []) + (["--strict"] if self.strict else [])

    def before(self):
        return self.tile if self.is_in_place else BEFORE


def random_trial(seed, place):
    """The trial of this place among those of the seed."""
    draw = random.Random(f"{seed} {place}")
    tile = random_tile(draw)
    depth = draw.choice(DEPTHS) if one_in(draw, 2) else None
    start = State(read_tile(tile) if fault_place(tile) is None else (), int(depth or 100))
    lines, answers = random_script(draw, start)
    script = b"\n".join(lines) + (b"" if one_in(draw, 5) else b"\n")
    return Trial(tile, script, depth, one_in(draw, 8), one_in(draw, 4), one_in(draw, 4), answers)


def by_model(trial):
    """How the model ends; its tile is what OUT then holds."""
    end = ended(trial.tile, trial.script, int(trial.depth or 100), trial.strict)
    return end if end.tile is not None else replace(end, tile=trial.before())


def by_program(program, folder, trial):
    """How the program ends; its tile is what OUT then holds."""
    tile, script = folder / "tile", folder / "script"
    out = tile if trial.is_in_place else folder / "out"
    out.write_bytes(BEFORE)
    tile.write_bytes(trial.tile)
    script.write_bytes(trial.script)
    words = trial.words() + (["--script", script] if trial.is_file else [])
    try:
        typed = b"" if trial.is_file else trial.script
        ran = subprocess.run([program, tile, out, *words], input=typed, capture_output=True, timeout=LIMIT)
    except subprocess.TimeoutExpired:
        return Ended(f"none in {LIMIT} seconds", b"", b"", b"")
    return Ended(ran.returncode, ran.stdout, ran.stderr, out.read_bytes())
