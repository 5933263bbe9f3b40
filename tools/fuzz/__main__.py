"""Runs the program on random tiles and scripts, and compares how it ends with how the model does.

    python3 tools/fuzz [--seconds N] [--runs N] [--seed S] [--first N] [PROGRAM]
    python3 tools/fuzz --self-test [PROGRAM]

PROGRAM is build/tileshell if it is not named. The seed is printed first; each trial is made from it and its own
place, so `--seed S --first N --runs 1` runs one again. A difference is made smaller, and printed as a row of
crates/row_tests is written, with how both end; the status is then 1, as it is if a request or a refusal never came.

With --self-test mistakes are planted in the model, one at a time: each must be found within the seconds.
"""
import argparse
import secrets
import sys
import tempfile
import time
from collections import Counter
from pathlib import Path

TOP = Path(__file__).resolve().parents[2]
sys.path.insert(1, str(TOP / "tools"))

import planting
import walks
from random_words import REQUESTS
from smaller import smaller
from trials import by_model, by_program, random_trial

PROGRAM = TOP / "build" / "tileshell"

# After this number of trials each request was accepted once, and each refusal given, except these, which say that memory was
# refused.
ENOUGH = 2000
NEVER = {54, 60}


class Counts:
    """How many trials there were, and how many answers of each kind."""

    def __init__(self):
        self.trials, self.tiles, self.lines = 0, 0, 0
        self.accepted, self.refused = Counter(), Counter()

    def add(self, trial, end):
        self.trials += 1
        self.tiles += end.status != 3
        if end.status == 3:
            return
        for request, answer in up_to_stop(trial):
            self.lines += 1
            if answer.refusal:
                self.refused[answer.refusal] += 1
            else:
                self.accepted[request] += 1

    def faults(self):
        """What should have come in these trials, and did not."""
        if self.trials < ENOUGH:
            return []
        return ([f"no {request} was accepted" for request in REQUESTS if not self.accepted[request]]
                + [f"no line was refused with {number}" for number in refusals() if not self.refused[number]])

    def shown(self):
        accepted = ", ".join(f"{self.accepted[request]} {request}" for request in REQUESTS)
        refused = ", ".join(f"{self.refused[number]} {walks.NAMES[number]}" for number in refusals())
        return (f"accepted: {accepted}\nrefused: {refused}\nfuzz: {self.trials} runs, {self.tiles} of them on tiles that open, {self.lines} lines"
                f" answered, {self.accepted.total()} of them accepted")


def refusals():
    return [number for number in walks.NAMES if number not in NEVER]


def up_to_stop(trial):
    """The answers of a trial, in a strict run up to the first refusal."""
    refused = [place for place, (_, answer) in enumerate(trial.answers) if answer.refusal]
    return trial.answers[:refused[0] + 1] if trial.strict and refused else trial.answers


def pieces(data):
    return " ".join(data[at:at + 32].hex() for at in range(0, len(data), 32))


def lines_shown(front, text):
    """The lines of a script or of replies, as a row has them."""
    for line in text.split(b"\n")[:-1] if text.endswith(b"\n") else text.split(b"\n"):
        is_plain = line.isascii() and line.decode().isprintable()
        yield f"{front} {line.decode()}" if is_plain else f"{front}{front} {(line + bytes([10])).hex()}"


def row_shown(trial):
    yield "row a difference"
    yield from [f"depth {int(trial.depth)}"] if trial.depth else []
    yield from ["strict"] if trial.strict else []
    yield f"tile {pieces(trial.tile)}"
    yield from lines_shown(">", trial.script)


def end_shown(name, end):
    yield f"{name}: status {end.status}{', ' + end.complaint.decode(errors='replace').strip() if end.complaint else ''}"
    yield from lines_shown("<", end.replies)
    yield f"OUT {pieces(end.tile)}"


def show_difference(trial, program_ends):
    """Prints the trial, made smaller, and how both end."""
    small = smaller(trial, lambda other: by_model(other) != program_ends(other))
    words = [*small.words(), *["--script FILE"] * small.is_file, *["with OUT the file TILE"] * small.is_in_place]
    print(*row_shown(small), "", sep="\n")
    print(*end_shown(" ".join(["the program", *words]), program_ends(small)), "", sep="\n")
    print(*end_shown("the model", by_model(small)), sep="\n")


def drawn(seed, place):
    """The trial of this place, and how the model ends; says which one it is if the model fails."""
    try:
        trial = random_trial(seed, place)
        return trial, by_model(trial)
    except Exception:
        print(f"fuzz: the model fails in run {place} of seed {seed}:", flush=True)
        raise


def run(arguments):
    """Runs trials up to the first difference, and returns the status."""
    counts, ends = Counts(), time.monotonic() + arguments.seconds
    print(f"fuzz: seed {arguments.seed}", flush=True)
    with tempfile.TemporaryDirectory(prefix="fuzz-") as name:
        place = arguments.first
        while time.monotonic() < ends and counts.trials != arguments.runs:
            trial, end = drawn(arguments.seed, place)
            counts.add(trial, end)
            if end != by_program(arguments.program, Path(name), trial):
                print(f"fuzz: run {place} of seed {arguments.seed} differs; smaller:", flush=True)
                show_difference(trial, lambda other: by_program(arguments.program, Path(name), other))
                print(f"fuzz: {counts.trials} runs, 1 difference")
                return 1
            place += 1
    faults = counts.faults()
    print(counts.shown() + ", 0 differences", *faults, sep="\n")
    return 1 if faults else 0


def read_arguments():
    parser = argparse.ArgumentParser(description=__doc__, formatter_class=argparse.RawDescriptionHelpFormatter)
    parser.add_argument("program", nargs="?", type=Path, default=PROGRAM)
    parser.add_argument("--seconds", type=float, default=60)
    parser.add_argument("--runs", type=int, help="at most so many")
    parser.add_argument("--seed", default=str(secrets.randbelow(10**9)))
    parser.add_argument("--first", type=int, default=0, help="the place of the first run")
    parser.add_argument("--self-test", action="store_true")
    return parser.parse_args()


def main():
    arguments = read_arguments()
    arguments.program = arguments.program.resolve()
    if not arguments.program.is_file():
        print(f"fuzz: there is no program {arguments.program}: `make` builds it")
        return 1
    return planting.self_test(TOP, arguments) if arguments.self_test else run(arguments)


if __name__ == "__main__":
    sys.exit(main())
