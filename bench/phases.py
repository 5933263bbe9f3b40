"""The job `phases`, of tileshell alone: where the time of one run goes."""
import os
import statistics
import subprocess
import time

from measure import RUNS, script_of
from peers import BUILD
from report import Phase, shown, table

NOTES = BUILD / "phases"

# In the order of phases.cpp, and what is left after its last note.
NAMES = ["start", "read the file", "open the document, and answer the line", "encode the document", "write the file", "end"]


def phased(program, tile, lines):
    """The phases of a run, each the median of several runs."""
    print(f"bench: {tile.name}, phases", flush=True)
    script = script_of(lines, tile)
    runs = [phases_of(program, tile, script) for _ in range(RUNS)]
    return [Phase(name, *map(statistics.median, zip(*each))) for name, each in zip(NAMES, zip(*runs))]


def phases_of(program, tile, script):
    """What each phase of one run took: milliseconds of the clock, of the program and of the system, and page faults."""
    program.out.unlink(missing_ok=True)
    surroundings = {**os.environ, "LD_PRELOAD": str(BUILD / "phases.so"), "PHASES": str(NOTES)}
    with open(script, "rb") as given, open(program.replies, "wb") as replies:
        start = time.monotonic_ns()
        child = subprocess.Popen(program.command(tile.path), stdin=given, stdout=replies, env=surroundings)
        status, usage = os.wait4(child.pid, 0)[1:]
    child.returncode = os.waitstatus_to_exitcode(status)
    end = [time.monotonic_ns(), 1e6 * usage.ru_utime, 1e6 * usage.ru_stime, usage.ru_minflt]
    notes = [[start, 0, 0, 0], *([int(word) for word in line.split()] for line in NOTES.read_text().splitlines()), end]
    return [[(after - before) / unit for before, after, unit in zip(one, other, (1e6, 1e3, 1e3, 1))]
            for one, other in zip(notes, notes[1:])]


def phases(tile, found):
    """What each phase takes, and all of them."""
    rows = [[each.name, *figures_of(each)] for each in found]
    whole = Phase("all", *(sum(part) for part in zip(*(each.parts for each in found))))
    rows.append([whole.name, *figures_of(whole)])
    return f"{tile.name}, medians of {RUNS} runs.\n\n" + table(["Phase", "Milliseconds", "user", "system", "Page faults"], rows)


def figures_of(phase):
    return [*(shown(part, 1) for part in phase.parts[:3]), shown(phase.faults, 0)]
