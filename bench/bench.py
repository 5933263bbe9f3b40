#!/usr/bin/env python3
"""Measures tileshell beside programs that do the same job, and writes the tables."""
import argparse
import dataclasses
import datetime
import os
from pathlib import Path

import peers
import plots
from commands import LINES, commanded, commands
from features import RUNS_OF_FEATURES, features, walked
from figures import WholeRun, keep
from generate import LAYERS
from measure import (COUNTED_MILLISECONDS, FEWER_RUNS, LONG_TURN, RUNS, Program, costliest, count_instructions, measure,
                     measure_in_turns, run_once, script_of)
from phases import phased, phases
from report import (Listed, Result, Undone, comparison, endings, growth, instructions, memory, put_section, shown, table,
                    time)
from sessions import sessions, stepped
from targets import (ATTRIBUTES, COMPACTED, EMPTY, EXCLUDED, IDS, JOB, KEPT, MANY, OURS, SHIFTS, UNTAGGED, command_targets,
                     session_targets, targets, verdicts, walk_targets)
from tiles import alternating_layers, generated_tiles, largest_map, points, real_tiles, smallest_map, smallest_maps

RESULTS = peers.HERE / "RESULTS.md"

RENAME = 'rename-layer "{layer}" "renamed"\n'

# Each job is a script. New jobs come here, where the peers can do them.
JOBS = {
    EMPTY: "",
    JOB: RENAME,
    MANY: (RENAME + "undo\n") * 1000,
    KEPT: 'keep "{layer}"\n',
    "one layer dropped": 'drop-layer "{layer}"\n',
    IDS: "".join(f'set-id "{{layer}}" {turn % 100} {10**9 + turn}\n' for turn in range(1000)),
    ATTRIBUTES: "".join(f'set "{{layer}}" {turn % 100} "new" uint {10**9 + turn}\n' for turn in range(1000)),
    SHIFTS: "".join(f'shift "{name}" {feature} -30 3\n' for feature in range(100) for name in LAYERS),
    EXCLUDED: 'exclude * "key:0"\n',
    UNTAGGED: "exclude-all *\n",
    COMPACTED: 'exclude * "key:0"\ncompact *\n',
}

# Jobs that are left out on a large tile, and jobs of the smallest map alone.
LONG_JOBS = [MANY, IDS, ATTRIBUTES, SHIFTS]
SMALL_JOBS = [IDS, ATTRIBUTES, SHIFTS]

# The same of a large tile of one kind: a third of the crumbs are keys that go, and what is kept of them takes too much memory.
LONG_JOBS_OF_KIND = {"crumbs": [COMPACTED]}

# The jobs of tiles of one kind, which have no others: all features of the one have the key that goes. protobuf loses an empty packed field, where it is not to go.
JOBS_OF_KIND = {"common key": [EMPTY, EXCLUDED], "empty tags": [UNTAGGED], "tagged layers": [EXCLUDED], "half-used pools": [COMPACTED]}

# Jobs that are undone, of tileshell alone, by the kind of tile: each second layer goes, or a pair of each feature, or
# each second key and value, and comes back. They are held against an empty script.
UNDONE = {
    "alternating layers": ("one kind kept", 'keep "{layer}"\n'),
    "common key": (EXCLUDED, JOBS[EXCLUDED]),
    "half-used pools": ("compacted", "compact *\n"),
}

# The job `long script`: one script of few of these lines and one of many, of tileshell alone, for its memory.
LONG_PAIR = 'rename-layer "{layer}" "renamed for the length of a line"\nundo\n'
LONG_LINES = [1_000, 100_000]
LONG_SECONDS = 300

# The job `list`, of tileshell alone: runs that stop at their last line, which is refused, and so write no tile. The
# first reads the tile, the second lists a layer too.
READING = "undo\n"
LISTING = 'list "{layer}"\n' + READING

FEATURES_WALKED = f"A line for each of many features: wall time in milliseconds, medians of {RUNS_OF_FEATURES} runs"

COMMANDS_TOLD = f"{LINES:,} lines of one command: wall time of a line in microseconds, tileshell alone"

PHASES_TOLD = "Where the time of one rename goes, tileshell alone"

SESSIONS = "Renames, and undos and redos over them, tileshell alone"

RUNS_MEASURED = f"medians of {RUNS} runs in turns, or of {FEWER_RUNS} if one of each takes more than {LONG_TURN} s in all"

DASHES = """\
A dash: not done, or not measured.
`protozero, layers alone` reads a layer up to its name and copies all else unread, so it checks none of that.
protozero does not read groups."""


def programs(tileshell):
    return [
        Program(OURS, (tileshell,)),
        Program("protozero", (peers.BUILD / "protozero_peer",)),
        Program("protozero, layers alone", (peers.BUILD / "protozero_layers_peer",)),
        Program("protobuf", (peers.BUILD / "protobuf_peer",), keeps_order=False),
        Program("cat", ("cat",), only_copies=True),
    ]


def processor():
    for line in Path("/proc/cpuinfo").read_text().split("\n"):
        if line.startswith("model name"):
            return line.split(":")[1].strip()
    return "an unknown processor"


def jobs_of(tile):
    """On a large tile the long jobs are left out."""
    if tile.kind in JOBS_OF_KIND:
        return JOBS_OF_KIND[tile.kind]
    long_jobs = LONG_JOBS + LONG_JOBS_OF_KIND.get(tile.kind, [])
    return [job for job in JOBS
            if not (tile.is_large and job in long_jobs) and (tile.is_smallest_map or job not in SMALL_JOBS)]


def results_of(programs, tiles, with_valgrind):
    """Measures every job on every tile, and says how far it is."""
    results = []
    for tile in tiles:
        for job in jobs_of(tile):
            print(f"bench: {tile.name}, {job}", flush=True)
            script = script_of(JOBS[job], tile)
            figures, ended = measure(programs, tile, script)
            if with_valgrind and not tile.is_large:
                count_all(programs, tile, script, figures)
            results.append(Result(tile, job, figures, ended))
    return results


def count_all(programs, tile, script, figures):
    for program in programs:
        found = figures.get(program.name)
        if found and found.milliseconds < COUNTED_MILLISECONDS and not program.only_copies:
            count = count_instructions(program, tile, script)
            figures[program.name] = dataclasses.replace(found, instructions=count)


def load():
    """How many programs ran or waited in the last minute."""
    return os.getloadavg()[0]


def conditions(load_before, missing):
    """When and where the results were taken."""
    loads = f"load average {load_before:.1f} before and {load():.1f} after"
    busy = "; the machine was busy, so times are rough" if max(load_before, load()) > os.cpu_count() / 2 else ""
    lines = [f"{datetime.date.today()}, {processor()}, {os.cpu_count()} cores, {loads}{busy}."]
    lines += [f"Without {package}: {loss}." for package, loss in missing.items()]
    return "\n".join(lines)


def counted_maps(tiles):
    """The maps that are not large, from the smallest to the largest."""
    return sorted((tile for tile in tiles if tile.kind == "map" and not tile.is_large), key=lambda tile: tile.size)


def largest(tiles):
    """The largest map."""
    return max((tile for tile in tiles if tile.kind == "map"), key=lambda tile: tile.size)


def costs(tileshell, tile):
    """What takes most of the instructions."""
    rows = [(f"`{name}`", share) for name, share in costliest(tileshell, tile, script_of(JOBS[JOB], tile))]
    heading = f"### What takes most instructions: {tile.name}, {JOB}"
    return heading + "\n\n" + table(["Function, without what it calls", "Share"], rows)


def long_script(tileshell, tile):
    """Whether memory grows with the script."""
    rows = []
    for lines in LONG_LINES:
        print(f"bench: {tile.name}, long script of {lines:,} lines", flush=True)
        script = script_of(LONG_PAIR * (lines // 2), tile)
        run = run_once(tileshell, tile, script, LONG_SECONDS)
        rows.append([f"{lines:,}", f"{script.stat().st_size:,}", shown(run.peak / 1024, 0), shown(run.milliseconds, 0),
                     "done" if run.is_done else run.ending])
    heading = f"### A long script: {tile.name}, {tileshell.name} alone, one run each"
    heads = ["Lines", "Bytes of the script", "Peak memory in KiB", "Milliseconds", "How it ended"]
    return heading + "\n\n" + table(heads, rows)


def listed(tileshell, tiles):
    """The times of reading a tile, and of reading it and listing a layer; none where a run did otherwise."""
    program = dataclasses.replace(tileshell, words=(*tileshell.words, "--strict"), status=1)
    found = []
    for tile in tiles:
        print(f"bench: {tile.name}, list", flush=True)
        figures = measure_in_turns(tile, [(program, READING), (program, LISTING)])
        found.append(Listed(tile, *(each and time(each) for each in figures)))
    return found


def undone(tileshell, tiles):
    """The times of an empty script on each tile, of one that does the job of its kind, and of one that undoes it then."""
    found = []
    for tile in tiles:
        job, lines = UNDONE[tile.kind]
        print(f"bench: {tile.name}, {job}, and undone", flush=True)
        figures = measure_in_turns(tile, [(tileshell, script) for script in ("", lines, lines + "undo\n")])
        found.append(Undone(tile, job, *(each and time(each) for each in figures)))
    return found


def undoing(undos):
    """What a job and its undo take beside an empty script, and the undo beside the job."""
    rows = [[each.tile.name, each.job, shown(each.empty, 1), shown(each.done, 1), shown(each.both, 1), shown(each.ratio, 2), shown(each.share, 2)]
            for each in undos]
    return table(["Tile", "Job", "Empty script", "Done", "Done and undone", "Done and undone / empty", "Undo / job"], rows)


def listing(lists):
    """What listing takes beside reading."""
    rows = [[each.tile.name, shown(each.reading, 1), shown(each.both, 1), shown(each.ratio, 2)] for each in lists]
    return table(["Tile", "Reading", "Reading and listing", "Listing / reading"], rows)


def section(whole, pictures):
    """The tables of all results, and the pictures of some, if there are any."""
    results, names = whole.results, whole.programs
    without_floor = [name for name in names if name != "cat"]
    parts = [
        ("Targets", verdicts([*targets(results, whole.lists, whole.undos), *session_targets(whole.steps),
                               *walk_targets(whole.walks), *command_targets(whole.commands)])),
        *([("Plots", pictures)] if pictures else []),
        (f"Wall time in milliseconds, {RUNS_MEASURED}", comparison(results, names, time, 1)),
        ("Peak memory, as a multiple of the tile", memory(results, names)),
        ("Millions of instructions", comparison(results, without_floor, instructions, 1e6)),
        ("Growth of time from the smallest to the largest tile, as an exponent", growth(results, names)),
        ("One layer listed: wall time in milliseconds, tileshell alone", listing(whole.lists)),
        ("Done and undone: wall time in milliseconds, tileshell alone", undoing(whole.undos)),
        (FEATURES_WALKED, features(whole.walks)),
        (COMMANDS_TOLD, commands(whole.commands)),
        (PHASES_TOLD, phases(largest(result.tile for result in results), whole.phases)),
        (SESSIONS, sessions(whole.steps)),
        ("Not done", endings(results)),
    ]
    return "\n\n".join([*(f"### {heading}\n\n{text}" for heading, text in parts), DASHES])


def all_jobs(run, title):
    """What is measured of these programs, as text of that title, and when and where it was. The figures are kept."""
    peers.check_needed()
    missing = peers.missing_optional()
    for package, loss in missing.items():
        print(f"bench: without Debian's package {package}, {loss}")
    peers.build()
    tiles = generated_tiles()
    if not {"gdal-bin", "qgis-common"} & missing.keys():
        tiles += real_tiles()

    load_before = load()
    results = results_of(run, tiles, "valgrind" not in missing)
    lists = listed(run[0], [tile for tile in tiles if tile.kind == "map"])
    undos = undone(run[0], [alternating_layers(), *(tile for tile in tiles if tile.kind in UNDONE)])
    steps = stepped(run[0], counted_maps(tiles)[:2])
    walks = walked(run[0], points(), "gdal-bin" not in missing)
    lines = commanded(run[0], [counted_maps(tiles)[0], largest(tiles)])
    run_parts = phased(run[0], largest(tiles), JOBS[JOB])
    whole = WholeRun(title, [program.name for program in run], results, lists, undos, steps, walks, lines, run_parts)
    keep(whole)
    pictures = "" if plots.PACKAGE in missing else plots.pictures(whole, plots.drawn(whole))
    parts = [conditions(load_before, missing), section(whole, pictures)]
    parts.append(long_script(run[0], counted_maps(tiles)[0]))
    if "valgrind" not in missing:
        parts.append(costs(run[0], counted_maps(tiles)[-1]))
    return "\n\n".join(parts)


def long_script_alone(run):
    return long_script(run[0], smallest_map())


def sessions_alone(run):
    steps = stepped(run[0], smallest_maps())
    return f"### Targets\n\n{verdicts(session_targets(steps))}\n\n### {SESSIONS}\n\n{sessions(steps)}"


def features_alone(run):
    walks = walked(run[0], points(), "gdal-bin" not in peers.missing_optional())
    return f"### Targets\n\n{verdicts(walk_targets(walks))}\n\n### {FEATURES_WALKED}\n\n{features(walks)}"


def commands_alone(run):
    found = commanded(run[0], [smallest_map(), largest_map()])
    return f"### Targets\n\n{verdicts(command_targets(found))}\n\n### {COMMANDS_TOLD}\n\n{commands(found)}"


def phases_alone(run):
    tile = largest_map()
    return f"### {PHASES_TOLD}\n\n{phases(tile, phased(run[0], tile, JOBS[JOB]))}"


# The jobs that can be measured alone, of the first program.
ALONE = {"long-script": long_script_alone, "sessions": sessions_alone, "features": features_alone, "commands": commands_alone,
         "phases": phases_alone}


def one_job(run, job):
    """What is measured by one job, as text, and when and where it was."""
    peers.check_needed(["g++"])
    peers.build_measure()
    load_before = load()
    found = ALONE[job](run)
    return conditions(load_before, {}) + "\n\n" + found


def main():
    parser = argparse.ArgumentParser(description=__doc__)
    parser.add_argument("tileshell", type=Path)
    parser.add_argument("--title", default="Today", help="the section of RESULTS.md that is written")
    parser.add_argument("--only", choices=ALONE, help="one job alone, for which g++ is enough")
    arguments = parser.parse_args()

    run = programs(arguments.tileshell.resolve())
    text = one_job(run, arguments.only) if arguments.only else all_jobs(run, arguments.title)
    print(text)
    put_section(RESULTS, arguments.title, text)


if __name__ == "__main__":
    main()
