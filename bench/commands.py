"""The job `commands`, of tileshell alone: what one line takes on a small map and on a large one."""
from measure import measure_in_turns
from report import Commanded, shown, table

# A script has this number of lines, so that what they take stands out of what the tile takes.
LINES = 200_000

# What the lines do, by a name or by an ordinal.
COMMANDS = {
    "a layer renamed by its name, and undone": 'rename-layer "{layer}" "renamed"\nundo\n',
    "a layer renamed by its ordinal, and undone": 'rename-layer #0 "renamed"\nundo\n',
    "a feature listed by its ordinal": 'list "{layer}" 50\n',
    "an id set by an ordinal": 'set-id "{layer}" 50 7\n',
}


def commanded(tileshell, tiles):
    """What the lines take on each tile."""
    found = []
    for tile in tiles:
        print(f"bench: {tile.name}, {LINES:,} commands", flush=True)
        scripts = ["", *(lines * (LINES // lines.count("\n")) for lines in COMMANDS.values())]
        empty, *done = measure_in_turns(tile, [(tileshell, script) for script in scripts])
        found += [Commanded(tile, command, LINES, empty, each) for command, each in zip(COMMANDS, done)]
    return found


def commands(found):
    """What a line takes on each tile, a row for each command."""
    tiles = list(dict.fromkeys(each.tile for each in found))
    rows = [[command, *(shown(each.microseconds, 2) for each in found if each.command == command)] for command in COMMANDS]
    return table(["A line", *(tile.name for tile in tiles)], rows)
