"""Runs of a program on a tile: wall time, peak memory, instructions."""
import hashlib
import itertools
import math
import re
import signal
import statistics
import subprocess
from dataclasses import dataclass

from peers import BUILD
from tiles import LARGE

PROFILE = BUILD / "callgrind"

# The median is taken of `RUNS` runs, and of `FEWER_RUNS` where one run of each program takes longer in all than `LONG_TURN` seconds.
RUNS = 9
FEWER_RUNS = 5
LONG_TURN = 8

# A run that takes more processor time than this is stopped, and its job is left out.
# A large tile gets more, in proportion.
SECONDS = 5

# This number of replies shows enough of a run.
REPLIES = 3

# Instructions are counted of runs that take less, since a run takes about fifty times as long then.
COUNTED_MILLISECONDS = 700


@dataclass(frozen=True)
class Program:
    name: str
    # Its words before the tile and the file for the edited tile.
    words: tuple
    # Whether it copies the tile to standard output, and can do no more.
    only_copies: bool = False
    # Whether it writes fields in their order, as they were read.
    keeps_order: bool = True
    # The status of a run that does its job.
    status: int = 0

    @property
    def out(self):
        return BUILD / f"{self.name}.out"

    def command(self, tile):
        return [*self.words, tile] if self.only_copies else [*self.words, tile, self.out]

    @property
    def replies(self):
        return self.out if self.only_copies else BUILD / f"{self.name}.replies"


@dataclass(frozen=True)
class Run:
    milliseconds: float
    # In bytes.
    peak: int
    # Below 0 where a signal ended the run.
    status: int
    # Its error, or else its first replies.
    said: str
    is_done: bool

    @property
    def ending(self):
        if self.status == -signal.SIGXCPU:
            return "stopped: too much processor time"
        return f"status {self.status}: {self.said}" if self.status > 0 else f"signal {-self.status}"


@dataclass(frozen=True)
class Figures:
    milliseconds: float
    # In bytes.
    peak: int
    # None where they were not counted.
    instructions: int = None


def script_of(lines, tile):
    path = BUILD / "script"
    path.write_text(lines.format(layer=tile.layer))
    return path


def run_once(program, tile, script, seconds):
    # to empty the file of the run before would take a third of the time of a large tile: what is still to go to the disk is waited for
    program.out.unlink(missing_ok=True)
    words = [BUILD / "measure", seconds, script, program.replies, *program.command(tile.path)]
    result = subprocess.run([str(word) for word in words], capture_output=True, text=True, check=True)
    nanoseconds, kibibytes, status = map(int, result.stdout.split())
    said = result.stderr.strip() or first_replies(program)
    return Run(nanoseconds / 1e6, 1024 * kibibytes, status, said, status == program.status)


def first_replies(program):
    if program.only_copies:
        return ""
    with open(program.replies) as replies:
        return ", ".join(line.strip() for line in itertools.islice(replies, REPLIES))


def turns_of(first):
    """How often programs are run whose first runs are these."""
    return RUNS if sum(run.milliseconds for run in first) <= 1000 * LONG_TURN else FEWER_RUNS


def seconds_for(tile):
    return math.ceil(SECONDS * max(1, tile.size / LARGE))


def check_same(programs, tile):
    """Ends the benchmark where the programs wrote different tiles."""
    tiles = {program: respelled(program.out) for program in programs}
    lengths = {len(each) for each in tiles.values()}
    digests = {hashlib.sha256(each).digest() for program, each in tiles.items() if program.keeps_order}
    if len(lengths) > 1 or len(digests) > 1:
        raise SystemExit(f"bench: the programs wrote different tiles from {tile.name}")


def respelled(path):
    """The bytes of a tile with each length in its shortest spelling, or as they are where protozero reads none.

    A length that tileshell does not mean to change keeps the bytes that it was read in, though it needs fewer.
    """
    out = BUILD / "respelled"
    peer = subprocess.run([BUILD / "protozero_peer", path, out], stdin=subprocess.DEVNULL, capture_output=True)
    return (out if peer.returncode == 0 else path).read_bytes()


def measure(programs, tile, script):
    """The figures of each program that did the job each time, from runs in turns, and how the others ended."""
    def run(program):
        return run_once(program, tile, script, seconds_for(tile))

    first = {program: run(program) for program in programs}
    able = [program for program in programs if first[program].is_done]
    check_same([program for program in able if not program.only_copies], tile)
    runs = {program: [] for program in able}
    for _ in range(turns_of(first[program] for program in able)):
        for program in able:
            runs[program].append(run(program))
    figures = {program.name: medians(done) for program, done in runs.items() if all(each.is_done for each in done)}
    endings = {program.name: last_ending([first[program], *runs.get(program, [])])
               for program in programs if program.name not in figures}
    return figures, endings


def measure_in_turns(tile, jobs):
    """The medians of each job, a program with its lines, from runs in turns: what else the machine does meets all of them alike.

    None for one of which a run did not do its job.
    """
    return [done and medians(done) for done in run_in_turns(tile, jobs, RUNS)]


def run_in_turns(tile, jobs, turns):
    runs = [[] for _ in jobs]
    for _ in range(turns):
        for done, (program, lines) in zip(runs, jobs):
            done.append(run_once(program, tile, script_of(lines, tile), seconds_for(tile)))
    return [done if all(run.is_done for run in done) else None for done in runs]


def last_ending(runs):
    return [run.ending for run in runs if not run.is_done][-1]


def medians(runs):
    return Figures(statistics.median(run.milliseconds for run in runs), statistics.median(run.peak for run in runs))


def least(runs):
    return Figures(min(run.milliseconds for run in runs), min(run.peak for run in runs))


def profile(program, tile, script):
    """Runs the program under callgrind; the profile lies in the build folder."""
    words = ["valgrind", "--tool=callgrind", f"--callgrind-out-file={PROFILE}", *program.command(tile.path)]
    with open(script, "rb") as text:
        return subprocess.run(words, stdin=text, capture_output=True, text=True, check=True).stderr


def count_instructions(program, tile, script):
    return int(re.search(r"Collected : (\d+)", profile(program, tile, script)).group(1))


def costliest(program, tile, script):
    """The ten functions that take most instructions by themselves, each with its percentage."""
    profile(program, tile, script)
    listed = subprocess.run(["callgrind_annotate", PROFILE], capture_output=True, text=True, check=True).stdout
    found = re.findall(r"^ *[\d,]+ \( *([\d.]+%)\)  [^:\n]+:(\S+)", listed, flags=re.MULTILINE)
    return [(re.sub(r"::<#\w+>", "", name), share) for share, name in found[:10]]
