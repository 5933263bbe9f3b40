"""The job `features`, of tileshell beside GDAL: a line for each of many features of one layer."""
import statistics

from measure import Program, run_once, script_of
from report import Walked, shown, table

FEATURES = 20_000

# The median is taken of this number of runs.
RUNS_OF_FEATURES = 3

# A run that takes more processor time is stopped.
SECONDS = 300

LISTED = "listed by ordinal"
LISTED_BY_ID = "listed by id"
SET = "id set by ordinal"
SET_BY_ID = "id set by id"

# What is done with each feature. The ids of the tile are from 1 on; the new ones are others.
LINES = {
    LISTED: 'list "{{layer}}" {ordinal}\n',
    LISTED_BY_ID: 'list "{{layer}}" @{identifier}\n',
    SET: 'set-id "{{layer}}" {ordinal} {other}\n',
    SET_BY_ID: 'set-id "{{layer}}" @{identifier} {other}\n',
}

# GDAL's program, which lists all features of a tile.
OGRINFO = Program("ogrinfo", ("ogrinfo", "-q", "-al"), only_copies=True)


def lines_of(job):
    return "".join(LINES[job].format(ordinal=ordinal, identifier=ordinal + 1, other=10**9 + ordinal) for ordinal in range(FEATURES))


def walked(tileshell, tile, with_gdal):
    """What each job takes on a tile."""
    print(f"bench: {tile.name}, {FEATURES:,} features", flush=True)
    listed = taken(OGRINFO, tile, "") if with_gdal else None
    return [Walked(tile, job, FEATURES, taken(tileshell, tile, lines_of(job)), listed if job in (LISTED, LISTED_BY_ID) else None)
            for job in LINES]


def taken(program, tile, lines):
    """The milliseconds of a run; none where one did not do its job."""
    runs = [run_once(program, tile, script_of(lines, tile), SECONDS) for _ in range(RUNS_OF_FEATURES)]
    return statistics.median(run.milliseconds for run in runs) if all(run.is_done for run in runs) else None


def features(walks):
    """What the lines take, and GDAL's one."""
    rows = [[each.tile.name, f"{each.lines:,}", each.job, shown(each.milliseconds, 1), shown(each.by_gdal, 1), shown(each.ratio, 2)]
            for each in walks]
    return table(["Tile", "Lines", "Each feature", "tileshell", "ogrinfo -al", "tileshell / ogrinfo"], rows)
