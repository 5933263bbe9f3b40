"""The job `sessions`, of tileshell alone: what many steps take that undo and redo can go over."""
import dataclasses

from measure import least, run_in_turns
from report import Stepped, shown, table

# The number of renames that are made, and then as many undos and as many redos, as far as each depth goes in turns.
STEPS = 10_000
DEPTHS = [100, 10_000]

# What is shown are differences of times, of which a slow second of the machine would make much: so the least of many runs.
TURNS = 41

RENAMES = 'rename-layer "{layer}" "renamed"\nrename-layer "renamed" "{layer}"\n' * (STEPS // 2)


def moves(depth):
    """Undos as far as they go, then redos, and so on."""
    return ("undo\n" * depth + "redo\n" * depth) * (STEPS // depth)


def stepped(tileshell, tiles):
    """What the steps take on each tile at each depth."""
    return [stepped_at(tileshell, tile, depth) for tile in tiles for depth in DEPTHS]


def stepped_at(tileshell, tile, depth):
    print(f"bench: {tile.name}, sessions at depth {depth:,}", flush=True)
    program = dataclasses.replace(tileshell, words=(*tileshell.words, "--depth", str(depth)))
    # The first script is what the others are held against, at the depth that is not asked for.
    jobs = [(tileshell, ""), (program, RENAMES), (program, RENAMES + moves(depth))]
    runs = run_in_turns(tile, jobs, TURNS)
    return Stepped(tile, depth, STEPS, 2 * STEPS, *(done and least(done) for done in runs))


def sessions(steps):
    """What the steps take beside an empty script, and an undo or redo beside a rename."""
    heads = ["Tile", "Depth", "Memory beside an empty script in KiB", "Bytes for each step kept",
             "Microseconds of a rename", "of an undo or redo", "undo or redo / rename"]
    rows = [[each.tile.name, f"{each.depth:,}", shown(each.kibibytes, 0), shown(each.bytes_a_step, 0),
             shown(each.rename_time, 1), shown(each.move_time, 2), shown(each.ratio, 2)] for each in steps]
    return table(heads, rows)
