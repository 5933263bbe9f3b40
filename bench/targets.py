"""What tileshell should reach, and whether it does."""
from features import LISTED, LISTED_BY_ID, SET_BY_ID
from report import divided, exponent, grown, instructions, peak, shown, steepness, table, time

OURS = "tileshell"

EMPTY = "empty script"
JOB = "one rename"
MANY = "1,000 renames and undos"
KEPT = "one layer kept"
DROPPED = "one layer dropped"
IDS = "1,000 ids set"
ATTRIBUTES = "1,000 attributes set"
SHIFTS = "1,000 shifts"
EXCLUDED = "one key excluded"
UNTAGGED = "all attributes excluded"
COMPACTED = "one key excluded and compacted"

# Jobs whose change holds a field of each feature, or much of a layer.
HOLDING = [UNTAGGED, COMPACTED]

# Two measurements of the same growth differ by less.
NOISE = 0.05

# More memory is slower memory, so that what is linear in a tile of small parts grows a little faster than it.
SLOWER = 0.2


def session_targets(steps):
    """The same of sessions: memory goes with the steps and not with the tile, and an undo takes no longer than its command."""
    deep = [each for each in steps if each.depth == max(each.depth for each in steps)]
    small, large = deep[0], deep[-1]
    return [
        (f"{small.tile.name}, renames at depth {small.depth:,}: bytes for each step kept", small.bytes_a_step, 1024),
        (f"{small.tile.name} to {large.tile.name}, renames at depth {small.depth:,}: memory to memory",
         divided(large.kibibytes, small.kibibytes), 1.1),
        *((f"{each.tile.name}, depth {each.depth:,}: time of an undo or redo to that of a rename", each.ratio, 1)
          for each in steps),
    ]


def command_targets(commands):
    """The same of a line by a name or an ordinal: on the large map at most three times what it takes on the small one."""
    small, large = (list(group) for group in (commands[:len(commands) // 2], commands[len(commands) // 2:]))
    return [(f"{one.tile.name} to {other.tile.name}, {one.command}: time of a line", divided(other.microseconds, one.microseconds), 3)
            for one, other in zip(small, large)]


def walk_targets(walks):
    """The same of lines that go over many features: by ordinal as GDAL, which goes over them once, and by id in two seconds."""
    found = {each.job: each for each in walks}
    listed = found[LISTED]
    return [
        (f"{listed.tile.name}, {listed.lines:,} features {LISTED}: time to ogrinfo's", listed.ratio, 2),
        *((f"{each.tile.name}, {each.lines:,} features, {each.job}: seconds", divided(each.milliseconds, 1000), 2)
          for each in (found[LISTED_BY_ID], found[SET_BY_ID])),
    ]


def targets(results, lists, undos):
    """Each target, what was measured, and the most that it may be."""
    small, large = ends(results, "map", JOB)
    crumbs = ends(results, "crumbs", JOB)[1].tile
    few, many = ends(results, "empty tags", UNTAGGED)
    fewer, most = ends(results, "common key", EXCLUDED)
    thin, thick = ends(results, "tagged layers", EXCLUDED)
    less, more = [each for each in undos if each.tile.kind == "half-used pools"]
    counted = [each for each in results if each.tile.kind == "map" and each.job == JOB and not each.tile.is_large][-1]
    groups = next(each for each in results if each.tile.kind == "flat groups" and each.job == JOB)
    smaller = [each.tile for each in results if each.tile.kind == "crumbs" and each.job == MANY][-1]
    return [
        (f"{large.tile.name}, {JOB}: time to protozero's", time_to(large, "protozero"), 0.75),
        (f"{large.tile.name}, {JOB}: time to protobuf's", time_to(large, "protobuf"), 0.35),
        *((f"{large.tile.name}, {job}: time to protozero's", time_to(of_job(results, large.tile, job), "protozero"), 0.75)
          for job in (KEPT, DROPPED)),
        (f"{counted.tile.name}, {JOB}: time to protozero's", time_to(counted, "protozero"), 0.75),
        (f"{counted.tile.name}, {JOB}: instructions to protozero's",
         divided(counted.figure(OURS, instructions), counted.figure("protozero", instructions)), 0.6),
        (f"{smaller.name}, {MANY}: time to that of an {EMPTY}",
         divided(of_job(results, smaller, MANY).figure(OURS, time), of_job(results, smaller, EMPTY).figure(OURS, time)), 2),
        *((f"{each.tile.name}, {each.job}, and undone: time to that of an empty script", each.ratio, 2.5) for each in undos),
        (f"{less.tile.name} to {more.tile.name}, {more.job}, and undone: exponent of time",
         steepness(less.both, more.both, more.tile.size / less.tile.size), 1 + SLOWER),
        *((f"{each.tile.name}, {each.job}: time of its undo to its own", each.share, 1)
          for each in undos if each.tile == most.tile),
        (f"{large.tile.name}, in any job but {' or '.join(HOLDING)}: peak memory to the tile", highest_peak(results, large.tile), 3.3),
        (f"{groups.tile.name}, {JOB}: peak memory to the tile", divided(groups.figure(OURS, peak), groups.tile.size), 30),
        *((f"{result.tile.name}, {MANY}: time to protozero's", time_to(result, "protozero"), 1.2)
          for result in results if result.job == MANY and result.tile in [small.tile, *real(results)]),
        *((f"{small.tile.name}, {job}: time to protozero's", time_to(of_job(results, small.tile, job), "protozero"), most)
          for job, most in ((IDS, 1.2), (ATTRIBUTES, 1), (SHIFTS, 1))),
        (f"{small.tile.name} to {large.tile.name}, {JOB}: exponent of time",
         exponent(small, large, OURS, time), 1 + NOISE),
        *((f"{each.tile.name}, its largest layer listed: time to that of reading", each.ratio, 2)
          for each in lists if each.tile == large.tile),
        (f"{crumbs.name}, in any job but {' or '.join(HOLDING)}: peak memory to the tile", highest_peak(results, crumbs), 25),
        (f"{few.tile.name} to {many.tile.name}, {UNTAGGED}: exponent of time", exponent(few, many, OURS, time), 1 + SLOWER),
        *((f"{large.tile.name}, {job}: time to protozero's", time_to(of_job(results, large.tile, job), "protozero"), 1)
          for job in (UNTAGGED, EXCLUDED, COMPACTED)),
        *((f"{each.tile.name}, {each.job}: time to protozero's", time_to(each, "protozero"), 1)
          for each in results if each.tile.kind in ("tagged layers", "half-used pools")),
        (f"{fewer.tile.name} to {most.tile.name}, {EXCLUDED}: exponent of time", exponent(fewer, most, OURS, time), 1 + NOISE),
        (f"{thin.tile.name} to {thick.tile.name}, {EXCLUDED}: exponent of time", exponent(thin, thick, OURS, time), 1 + SLOWER),
        *((f"{tile.name}, {job}: memory to that of an {EMPTY}",
           divided(of_job(results, tile, job).figure(OURS, peak), of_job(results, tile, EMPTY).figure(OURS, peak)), 1.6)
          for tile, job in (*((large.tile, job) for job in HOLDING), (most.tile, EXCLUDED))),
    ]


def ends(results, kind, job):
    """The results of a job on the smallest and the largest tile of a kind."""
    group = next(group for group in grown(results) if group[0].tile.kind == kind and group[0].job == job)
    return group[0], group[-1]


def of_job(results, tile, job):
    return next(result for result in results if result.tile == tile and result.job == job)


def real(results):
    """The tiles that were not generated."""
    return {result.tile for result in results if result.tile.kind is None}


def time_to(result, peer):
    return divided(result.figure(OURS, time), result.figure(peer, time))


def highest_peak(results, tile):
    """That of all jobs but those of `HOLDING`. None where a job was not done."""
    multiples = [divided(result.figure(OURS, peak), tile.size)
                 for result in results if result.tile == tile and result.job not in HOLDING]
    return None if None in multiples else max(multiples)


def verdicts(all_targets):
    rows = []
    for name, measured, most in all_targets:
        holds = measured is not None and measured <= most
        rows.append([name, shown(measured, 2), shown(most, 2), "yes" if holds else "no"])
    return table(["Target", "Measured", "At most", "Holds"], rows)
