#!/usr/bin/env python3
"""Draws the plots of the last whole run by gnuplot, from the figures that it kept, and prints what RESULTS.md says of them."""
import itertools
import re
import subprocess
import sys
from dataclasses import dataclass

import peers
from figures import FIGURES, kept
from report import divided, peak, shown, tile_size, time
from targets import COMPACTED, EXCLUDED, JOB
from tiles import MEBIBYTE, SIZES

FOLDER = peers.HERE / "plots"
PACKAGE = "gnuplot-nox"

# A colour for each program, which it has in all plots, and gnuplot's number of a mark. Ours comes first.
LOOKS = [("#0072b2", 7), ("#d55e00", 5), ("#e69f00", 9), ("#009e73", 11), ("#7f7f7f", 13), ("#cc79a7", 4), ("#000000", 6)]

# What else is ours is paler; what helps to read a plot is faint.
OUR_COLOUR, OUR_PALE = LOOKS[0][0], "#99c7e0"
FAINT = "#aaaaaa"

# The programs that a caption holds ours against.
RIVALS = ["protozero", "protobuf"]

# The kinds of tiles and the jobs that are drawn.
TIMED = [("map", JOB), ("map", EXCLUDED), ("map", COMPACTED)]
WEIGHED = [("map", JOB), ("map", COMPACTED), ("crumbs", JOB)]

# In pixels, and then as parts of the width or the height, from the left and from below.
WIDTH, HEIGHT = 960, 420
LEFT, RIGHT, BETWEEN = 0.08, 0.985, 0.05
BOTTOM, TOP, KEY = 0.15, 0.8, 0.89

# What gnuplot writes and a picture does not need: groups of nothing, and how lines end where none says otherwise.
NEEDLESS = re.compile(r'<g [^>]*>\s*</g>\s*| stroke-linecap="butt" stroke-linejoin="miter"')


@dataclass(frozen=True)
class Plot:
    name: str
    heading: str
    caption: str
    # The lines that gnuplot reads after the head.
    script: list

    def file(self, title):
        """The name of its file: each section of RESULTS.md has its own."""
        return f"{re.sub('[^a-z0-9]+', '-', title.lower())}-{self.name}.svg"


@dataclass(frozen=True)
class Panel:
    """A job on the tiles of a kind."""
    kind: str
    job: str
    # Of each program that did it on some, the values from the smallest tile to the largest, each with its tile's MiB.
    lines: dict

    @property
    def values(self):
        return [value for line in self.lines.values() for _, value in measured(line)]


def measured(line):
    return [point for point in line if point[1] is not None]


def time_of(result, program):
    return result.figure(program, time)


def multiple_of(result, program):
    """Peak memory, as a multiple of the tile."""
    return divided(result.figure(program, peak), result.tile.size)


def panels_of(run, places, value):
    """A panel for each of these kinds and jobs; what was not measured is left out."""
    panels = []
    for place in places:
        results = sorted((each for each in run.results if (each.tile.kind, each.job) == place), key=tile_size)
        lines = {name: [(each.tile.size / MEBIBYTE, value(each, name)) for each in results] for name in run.programs}
        panels.append(Panel(*place, {name: line for name, line in lines.items() if measured(line)}))
    return [panel for panel in panels if panel.lines]


# ---- gnuplot's language

def quoted(text):
    return "'" + text.replace("'", "''") + "'"


def block(name, rows):
    """Data with a name. An empty row is a gap in a line."""
    return [f"${name} << END", *(" ".join(map(str, row)) for row in rows), "END"]


def plotted(elements):
    return "plot " + ", ".join(elements)


def head(name):
    return f"set terminal svg size {WIDTH},{HEIGHT} name {quoted(name)} font 'sans-serif,12' background 'white' noenhanced"


def sides(left, right):
    return [f"set lmargin at screen {left:.4f}", f"set rmargin at screen {right:.4f}"]


def multiplot(key, scale, panels):
    """The key above, and panels beside one another, of which the first has the label."""
    above = [*sides(0, 1), f"set bmargin at screen {KEY}", "set tmargin at screen 1", "unset border", "unset tics",
             "set key center center horizontal reverse Left samplen 3 width -2", plotted(["[0:1] [0:1] -1 notitle", *key])]
    frame = [f"set bmargin at screen {BOTTOM}", f"set tmargin at screen {TOP}", "set border 3", "set tics out scale 0.6", "set ytics nomirror",
             f"set grid ytics linetype 1 linewidth 0.5 linecolor '{FAINT}'", "unset key", *scale]
    width = (RIGHT - LEFT + BETWEEN) / len(panels)
    beside = []
    for turn, panel in enumerate(panels):
        left = LEFT + turn * width
        beside += [*sides(left, left + width - BETWEEN), *panel, "unset ylabel"]
    return ["set multiplot", *above, *frame, *beside, "unset multiplot"]


def look(looks, name):
    colour, mark = looks[name]
    return f"with linespoints linecolor '{colour}' linewidth 2 pointtype {mark} pointsize 0.8"


# ---- plots by the size of a tile

def by_size(run, panels, label, axis, others=lambda panel: [], extra_key=()):
    """The script of these panels. An axis is the lines that scale a panel's values; others are drawn behind its lines."""
    looks = dict(zip(run.programs, itertools.cycle(LOOKS)))
    data, parts = [], []
    for turn, panel in enumerate(panels):
        blocks = {name: f"panel{turn}program{place}" for place, name in enumerate(panel.lines)}
        data += itertools.chain(*(block(blocks[name], rows_of(line)) for name, line in panel.lines.items()))
        lines = [f"${blocks[name]} using 1:2 {look(looks, name)} notitle" for name in panel.lines]
        parts.append([f"set title {quoted(f'{panel.kind}, {panel.job}')}", *axis(panel), plotted([*others(panel), *lines])])
    scale = ["set logscale x 2", f"set xrange [{SIZES[0] / 1.3:.4g}:{SIZES[-1] * 1.3:.4g}]",
             f"set xtics nomirror ({', '.join(map(str, SIZES))})", "set xlabel 'tile in MiB'", f"set ylabel {quoted(label)}", "set samples 2"]
    key = [f"keyentry {look(looks, name)} title {quoted(name)}" for name in run.programs if any(name in panel.lines for panel in panels)]
    return [*data, *multiplot([*key, *extra_key], scale, parts)]


def rows_of(line):
    """A row of each value of a line, and an empty one where it was not measured."""
    return [[] if value is None else [f"{size:.4f}", f"{value:.4g}"] for size, value in line]


def time_plot(run):
    panels = panels_of(run, TIMED, time_of)
    if not panels:
        return None
    values = list(itertools.chain(*(panel.values for panel in panels)))

    def axis(panel):
        return ["set logscale y 10", "set format y '%g'", f"set yrange [{min(values) / 1.5:.4g}:{max(values) * 1.5:.4g}]"]

    dashes = f"with lines linecolor '{FAINT}' linewidth 1.5 dashtype 2"

    def linear(panel):
        line = measured(panel.lines.get(run.programs[0], []))
        return [f"{line[-1][1] / line[-1][0]:.4g} * x {dashes} notitle"] if line else []

    return Plot("time", "Time by the size of the tile", time_caption(run, panels),
                by_size(run, panels, "milliseconds", axis, linear, [f"keyentry {dashes} title 'as the tile'"]))


def time_caption(run, panels):
    ours = run.programs[0]
    found = [f"{shares(panel, ours)} for {panel.job}" for panel in panels]
    return (f"Both axes are logarithmic: what grows in proportion to the tile is as steep as the dashed line, which goes through {ours}'s "
            f"time on the largest tile. There {ours} takes these fractions of the time of {' and of '.join(RIVALS)}: {'; '.join(found)}.")


def shares(panel, ours):
    """Our value to that of each rival, on the largest tile."""
    last = {name: line[-1][1] for name, line in panel.lines.items()}
    return " and ".join(shown(divided(last.get(ours), last.get(rival)), 2) for rival in RIVALS)


def memory_plot(run):
    panels = panels_of(run, WEIGHED, multiple_of)
    if not panels:
        return None

    def axis(panel):
        most = max(value for other in panels if other.kind == panel.kind for value in other.values)
        return [f"set yrange [0:{most * 1.08:.4g}]"]

    return Plot("memory", "Peak memory by the size of the tile, as a multiple of it", memory_caption(run, panels),
                by_size(run, panels, "peak memory, as a multiple of the tile", axis))


def memory_caption(run, panels):
    found = [f"{panel.job} on {panel.kind}, {ends(panel, [run.programs[0], *RIVALS])}" for panel in panels]
    return f"From the smallest tile to the largest it goes as follows: for {'; for '.join(found)}."


def ends(panel, names):
    """The value of each of these programs on the smallest tile and on the largest that it did."""
    lines = {name: measured(panel.lines[name]) for name in names if name in panel.lines}
    return ", ".join(f"{name} from {line[0][1]:.1f} to {line[-1][1]:.1f}" for name, line in lines.items())


# ---- the plot of the sessions

# Of each bar its column in the data, how far it stands beside the middle, its colour, the form of its value and what it is.
BARS = [(2, -0.2, OUR_COLOUR, "%.1f", "a rename"), (3, 0.2, OUR_PALE, "%.2f", "an undo or redo")]


def undo_plot(run):
    steps = [each for each in run.steps if each.is_done]
    tiles = list(dict.fromkeys(each.tile for each in steps))
    if not steps:
        return None
    times = [value for each in steps for value in (each.rename_time, each.move_time)]
    scale = [f"set yrange [{min(0, *times) * 1.2:.4g}:{max(times) * 1.1:.4g}]", "set ylabel 'microseconds'", "set boxwidth 0.38",
             "set style fill solid", "set xzeroaxis linetype 1 linecolor 'black'", "set xlabel 'steps that undo goes back at most'"]
    data, parts = [], []
    for turn, tile in enumerate(tiles):
        group = [each for each in steps if each.tile == tile]
        tics = ", ".join(f"'{each.depth:,}' {place}" for place, each in enumerate(group))
        data += block(f"tile{turn}", [[place, f"{each.rename_time:.4g}", f"{each.move_time:.4g}"] for place, each in enumerate(group)])
        parts.append([f"set title {quoted(tile.name)}", f"set xrange [-0.6:{len(group) - 0.4}]", f"set xtics nomirror ({tics})",
                      plotted(bars(f"$tile{turn}"))])
    key = [f"keyentry with boxes fillstyle solid linecolor '{colour}' title {quoted(title)}" for _, _, colour, _, title in BARS]
    return Plot("undo", "An undo or redo compared with a rename, by depth", undo_caption(run, steps), [*data, *multiplot(key, scale, parts)])


def bars(data):
    """The bars at each place of the data, with their values above them."""
    boxes = [f"{data} using ($1{way:+}):{column} with boxes linecolor '{colour}' notitle" for column, way, colour, _, _ in BARS]
    labels = [f"{data} using ($1{way:+}):(${column} > 0 ? ${column} : 0):(sprintf('{form}', ${column})) with labels offset 0,0.6 notitle"
              for column, way, _, form, _ in BARS]
    return boxes + labels


def undo_caption(run, steps):
    ratios = [each.ratio for each in steps]
    return (f"{run.programs[0]} alone, the job `sessions`. An undo or redo takes {min(ratios):.2f} to {max(ratios):.2f} times as long as a rename. "
            "Its time is the difference between two runs, so if it takes next to nothing it may come out below 0.")


# ---- files

def plots_of(run):
    """The plots of which something was measured."""
    return [each for each in (time_plot(run), memory_plot(run), undo_plot(run)) if each]


def is_drawn(plot, title):
    """Draws a plot into its file, or says why gnuplot did not, and leaves the file as it is."""
    script = "\n".join([head(plot.name), *plot.script, ""])
    result = subprocess.run(["gnuplot", "-d", "-"], input=script, capture_output=True, text=True)
    if result.returncode == 0:
        FOLDER.mkdir(exist_ok=True)
        (FOLDER / plot.file(title)).write_text(NEEDLESS.sub("", result.stdout))
    else:
        print(f"bench: no plot {plot.name}: {result.stderr}", file=sys.stderr)
    return result.returncode == 0


def drawn(run):
    """Draws the plots; those that gnuplot could draw."""
    return [plot for plot in plots_of(run) if is_drawn(plot, run.title)]


def pictures(run, plots):
    """What RESULTS.md says of these plots, with links to their files."""
    parts = [f"![{plot.heading}]({FOLDER.name}/{plot.file(run.title)})\n\n{plot.heading}. {plot.caption}" for plot in plots]
    return "\n\n".join(["Each program has one colour in all plots, and what was not done is left out.", *parts]) if parts else ""


def main():
    if PACKAGE in peers.missing_optional():
        sys.exit(f"plots: a package of Debian is missing: apt-get install {PACKAGE}")
    if not FIGURES.exists():
        sys.exit("plots: there are no figures of a whole run: make bench")
    run = kept()
    plots = drawn(run)
    print(pictures(run, plots))
    return 1 if len(plots) < len(plots_of(run)) else 0


if __name__ == "__main__":
    sys.exit(main())
