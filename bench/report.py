"""The results as tables of Markdown."""
import math
import re
from dataclasses import dataclass

from tiles import Tile

DASH = "–"


@dataclass(frozen=True)
class Result:
    """A job on a tile: the figures of each program that did it, and how the others ended."""
    tile: Tile
    job: str
    figures: dict
    endings: dict

    def figure(self, program, value):
        """None where there is none."""
        return value(self.figures[program]) if program in self.figures else None


@dataclass(frozen=True)
class Listed:
    """Milliseconds of reading a tile, and of reading it and listing one of its layers."""
    tile: Tile
    reading: float
    both: float

    @property
    def ratio(self):
        """How long listing takes, to reading."""
        return None if None in (self.reading, self.both) else (self.both - self.reading) / self.reading


@dataclass(frozen=True)
class Undone:
    """Milliseconds of an empty script, of one that does a job, and of one that undoes it then."""
    tile: Tile
    job: str
    empty: float
    done: float
    both: float

    @property
    def ratio(self):
        return divided(self.both, self.empty)

    @property
    def share(self):
        """How long the undo takes, to the job."""
        if None in (self.empty, self.done, self.both):
            return None
        return (self.both - self.done) / (self.done - self.empty)


@dataclass(frozen=True)
class Walked:
    """Milliseconds of a script that has a line for each of many features of a layer, and of GDAL, which lists them in one go."""
    tile: Tile
    # What a line does.
    job: str
    lines: int
    milliseconds: float
    # None where GDAL does something else, or is not there.
    by_gdal: float

    @property
    def ratio(self):
        return divided(self.milliseconds, self.by_gdal)


@dataclass(frozen=True)
class Stepped:
    """What an empty script took on a tile, what many renames, and what these with undos and redos over them."""
    tile: Tile
    # How many steps undo goes back at most.
    depth: int
    # How many renames there were, and how many undos and redos after them.
    renames: int
    moves: int
    # The figures of each; none where a run did not do its job.
    empty: object
    renamed: object
    moved: object

    @property
    def is_done(self):
        return None not in (self.empty, self.renamed, self.moved)

    @property
    def kibibytes(self):
        return (peak(self.moved) - peak(self.empty)) / 1024 if self.is_done else None

    @property
    def bytes_a_step(self):
        return 1024 * self.kibibytes / min(self.depth, self.renames) if self.is_done else None

    @property
    def rename_time(self):
        """In microseconds, as all of these."""
        return 1000 * (time(self.renamed) - time(self.empty)) / self.renames if self.is_done else None

    @property
    def move_time(self):
        return 1000 * (time(self.moved) - time(self.renamed)) / self.moves if self.is_done else None

    @property
    def ratio(self):
        return divided(self.move_time, self.rename_time)


@dataclass(frozen=True)
class Commanded:
    """What an empty script took on a tile, and one of many lines of one command."""
    tile: Tile
    command: str
    lines: int
    # The figures of each; none where a run did not do its job.
    empty: object
    done: object

    @property
    def microseconds(self):
        """Of one line."""
        return None if None in (self.empty, self.done) else 1000 * (time(self.done) - time(self.empty)) / self.lines


@dataclass(frozen=True)
class Phase:
    """What a part of a run took: milliseconds of the clock, of the program and of the system, and page faults."""
    name: str
    milliseconds: float
    user: float
    system: float
    faults: float

    @property
    def parts(self):
        return [self.milliseconds, self.user, self.system, self.faults]


def time(figures):
    return figures.milliseconds


def peak(figures):
    return figures.peak


def instructions(figures):
    return figures.instructions


def shown(number, digits):
    return DASH if number is None else f"{number:,.{digits}f}"


def divided(one, other):
    return None if one is None or other is None else one / other


def table(heads, rows):
    lines = [heads, ["---"] * len(heads), *rows]
    return "\n".join("| " + " | ".join(line) + " |" for line in lines)


def comparison(results, programs, value, unit):
    """The value for each program, and ours as a ratio to each other's."""
    ours, *others = programs
    rows = []
    for result in results:
        numbers = [divided(result.figure(program, value), unit) for program in programs]
        ratios = [divided(numbers[0], number) for number in numbers[1:]]
        rows.append([result.tile.name, result.job, *(shown(number, 1) for number in numbers),
                     *(shown(ratio, 2) for ratio in ratios)])
    return table(["Tile", "Job", *programs, *(f"{ours} / {other}" for other in others)], rows)


def memory(results, programs):
    """Peak memory as a multiple of the tile."""
    rows = []
    for result in results:
        peaks = [divided(result.figure(program, peak), result.tile.size) for program in programs]
        rows.append([result.tile.name, result.job, *(shown(multiple, 1) for multiple in peaks)])
    return table(["Tile", "Job", *programs], rows)


def exponent(small, large, program, value):
    """How a value grows with the tile: 1 is as the tile does."""
    return steepness(small.figure(program, value), large.figure(program, value), large.tile.size / small.tile.size)


def steepness(small, large, times):
    """The exponent of what grows from the one number to the other where the tile grows by the factor `times`."""
    growth = divided(large, small)
    return None if growth is None else math.log(growth) / math.log(times)


def grown(results):
    """Of each kind of tile that has several sizes and each job, the results from the smallest to the largest tile."""
    groups = {}
    for result in results:
        if result.tile.kind is not None:
            groups.setdefault((result.tile.kind, result.job), []).append(result)
    return [sorted(group, key=tile_size) for group in groups.values() if len(group) > 1]


def tile_size(result):
    return result.tile.size


def growth(results, programs):
    """How time grows, and beside it the instructions of ours, as far as they were counted."""
    ours = programs[0]
    rows = []
    for group in grown(results):
        small, large = group[0], group[-1]
        exponents = [exponent(small, large, program, time) for program in programs]
        counted = [result for result in group if result.figure(ours, instructions) is not None]
        exponents.append(exponent(counted[0], counted[-1], ours, instructions) if len(counted) > 1 else None)
        rows.append([f"{small.tile.name} to {large.tile.name}", large.job, *(shown(number, 2) for number in exponents)])
    return table(["Tiles", "Job", *programs, f"instructions of {ours}"], rows)


def endings(results):
    """What was not done, and how it ended: the jobs of a program on a tile that ended alike in one row."""
    jobs = {}
    for result in results:
        for program, ending in result.endings.items():
            jobs.setdefault((result.tile.name, program, ending), []).append(result.job)
    rows = [[tile, program, "; ".join(alike), ending] for (tile, program, ending), alike in jobs.items()]
    return table(["Tile", "Program", "Jobs", "How they ended"], rows) if rows else "Nothing."


def put_section(path, title, text):
    """Puts a section into the place of the one with its title, or at the end."""
    whole = path.read_text() if path.exists() else "# Results\n"
    sections = [section.strip() for section in re.split(r"^(?=## )", whole, flags=re.MULTILINE)]
    titles = [section.split("\n")[0] for section in sections]
    written = f"## {title}\n\n{text}"
    if f"## {title}" in titles:
        sections[titles.index(f"## {title}")] = written
    else:
        sections.append(written)
    path.write_text("\n\n".join(sections) + "\n")
