"""Copies of a crate with wrong bodies in them, and what the prover says of such a copy.

A wrong body is put into the place of what it turns, or beside it: after the function that it turns comes another one, which has the
same contract and the same proof files under a name of its own. What a function has to prove depends on the contracts of those that
it calls, and not on their proofs. So a copy can be lean: the other functions have no proof there, and the prover spends no time on
them. Whether a goal of a turned function is proved is the same in it, but it cannot say whether the function is proved.
"""
import contextlib
import functools
import re
import resource
import shutil
import subprocess
import threading
import time
from dataclasses import dataclass
from pathlib import Path

from functions import functions_of, inside

# A line that the prover prints when it is done with a function.
ENDED = re.compile(r"checked \w+::(\S+), \d+ of \d+")


def lines_of(folder, file):
    return Path(folder, file).read_text().split("\n")


def is_of_an_impl(lines, function):
    """Returns whether the function is in an impl with only methods, which one more can be put into."""
    head = next(at for at in range(function.first - 1, -1, -1) if re.match(r"\w", lines[at]))
    header = " ".join(lines[head:function.first]).partition("{")[0]
    return header.startswith("impl") and " for " not in header


@functools.cache
def texts_of(folder):
    """Returns the texts in which a crate names proofs, by their paths: its proof files and its code, the latter with the dots of a
    proof file."""
    proofs = {it: it.read_text() for it in Path(folder, "proofs").rglob("*.antt")}
    return proofs | {it: it.read_text().replace("::", ".") for it in Path(folder, "src").rglob("*.rt")}


def is_known_outside(folder, function, but=r"(?!Met\b)"):
    """Returns whether a lemma or the proof of another function names more of this one than that it meets its contract, or, without
    `but`, even that."""
    path = function.name.split("::")
    known = re.compile(rf"proofs\.{re.escape('.'.join(path))}\.{but}")
    return any(known.search(text) for it, text in texts_of(folder).items() if it.parent != Path(folder, "proofs", *path))


def is_of_no_trait(lines, function):
    return not lines[function.last - 1].startswith(" ") or is_of_an_impl(lines, function)


def can_go_unproved(folder, function):
    """Returns whether nothing else in the crate names the proof of a function, which is not of a trait and not in a cycle of
    calls."""
    lines = lines_of(folder, function.file)
    is_in_a_cycle = any("#[cycle" in it for it in lines[function.first - 1:function.last])
    return is_of_no_trait(lines, function) and not is_in_a_cycle and not is_known_outside(folder, function, but="")


def can_stand_beside(folder, edit):
    """Returns whether the edit turns lines of only one function, which can have one of another name beside it.

    Such a function is not of a trait, does not call itself, and has its goals proved by its own proof files alone: these hold of
    the other one as well.
    """
    if len(edit.functions) != 1:
        return False
    of = edit.functions[0]
    lines = lines_of(folder, of.file)
    is_within = all(file == of.file and of.first <= at <= of.last for file, at in edit.lines)
    word = of.name.split("::")[-1]
    calls_itself = len(re.findall(rf"\b{word}\(", "\n".join(lines[of.first - 1:of.last]))) > 1
    return is_within and not calls_itself and not is_known_outside(folder, of) and is_of_no_trait(lines, of)


@dataclass
class Turned:
    """The functions that an edit turns, as they are in a copy, and its lines there."""
    functions: list
    lines: set


class Copy:
    """A copy of a crate in a folder, with edits: `turned` has what each comes to there, by its name."""

    def __init__(self, crate, room, parts, beside, in_place, is_lean):
        self.crate, self.room, self.is_lean, self.turned, self.files, self.put = crate, room, is_lean, {}, {}, []
        for part in parts:
            if Path(crate.folder, part).is_dir():
                shutil.copytree(Path(crate.folder, part), Path(room, part))
        names = self.put_beside(beside)
        self.write()
        # in the place of what it turns, an edit may end a line as the layout does not
        self.functions = functions_of(room)
        by_name = {it.name: it for it in self.functions}
        for edit in beside:
            function = by_name[names[edit.name]]
            self.turned[edit.name] = Turned([function], {(file, at + function.first - edit.functions[0].first) for file, at in edit.lines})
        for edit in in_place:
            self.turned[edit.name] = Turned([by_name[it.name] for it in edit.functions], self.put_in_place(edit))
        if is_lean:
            self.leave_out_proofs()
        self.write()

    def write(self):
        for file, lines in self.files.items():
            Path(self.room, file).write_text("\n".join(lines))

    def leave_out_proofs(self):
        """Leaves the functions that no edit turns without a proof and without a body, where nothing else needs their proof."""
        turned = {it.name for of in self.turned.values() for it in of.functions}
        placed = {it.name: it for it in self.functions}
        for of in functions_of(self.crate.folder):
            if of.name not in turned and can_go_unproved(self.crate.folder, of):
                self.leave_out_body(placed[of.name])
                proof = Path(self.room, "proofs", *of.name.split("::"))
                for file in proof.glob("*.antt"):
                    file.unlink()
                proof.mkdir(parents=True, exist_ok=True)
                # the prover makes no proof of its own where there is this file
                proof.joinpath("Proof.antt").write_text("-- left out\n")

    def leave_out_body(self, function):
        """Puts a body that fits any signature into the place of a function's own. All lines stay where they are."""
        lines = self.lines(function.file)
        for at in (body := inside(lines, function)):
            lines[at - 1] = "unreachable!()" if at == body[0] else ""

    def lines(self, file):
        return self.files.setdefault(file, lines_of(self.crate.folder, file))

    def put_in_place(self, edit):
        """Puts an edit into the place of what it turns, and returns where its lines are, below those that were put in before them."""
        placed = {(file, at + sum(count for of, last, count in self.put if of == file and last < at)): new for (file, at), new in edit.lines.items()}
        for (file, at), new in placed.items():
            self.lines(file)[at - 1] = new
        return set(placed)

    def put_beside(self, edits):
        """Puts a function for each edit after the one that it turns, the last of a file first, and returns their names."""
        names = {}
        for number, edit in sorted(enumerate(edits, 1), key=lambda it: -it[1].functions[0].last):
            of = edit.functions[0]
            lines = self.lines(of.file)
            body = "\n".join(edit.lines.get((of.file, at), lines[at - 1]) for at in range(of.first, of.last + 1))
            *above, word = of.name.split("::")
            name = f"{word}_wrong_{number}"
            new = ["", *re.sub(rf"\bfn {word}\b", f"fn {name}", body, count=1).split("\n")]
            lines[of.last:of.last] = new
            self.put.append((of.file, of.last, len(new)))
            self.copy_proof([*above, word], [*above, name])
            names[edit.name] = "::".join([*above, name])
        return names

    def copy_proof(self, of, to):
        """Gives a function the proof files of another, which name no other function's goals."""
        folder = Path(self.room, "proofs", *of)
        for file in folder.glob("*.antt"):
            new = Path(self.room, "proofs", *to, file.name)
            new.parent.mkdir(exist_ok=True)
            new.write_text(file.read_text().replace(f"proofs.{'.'.join(of)}.", f"proofs.{'.'.join(to)}."))

    def check(self, rt, kept):
        """Makes the prover check the functions that the edits turn. Returns its status, what it printed, and the seconds that each
        function took."""
        only = sorted({it.name for turned in self.turned.values() for it in turned.functions})
        stages = Path(self.room, "stages")
        flags = ["--jobs", "1", "--progress", "--stage-times", str(stages), *(["--incremental", kept] if kept else [])]
        words = self.crate.words([*flags, *(word for it in only for word in ("--only", it))], keeps=False)
        how = {"cwd": self.room, "stdin": subprocess.DEVNULL, "stdout": subprocess.PIPE, "stderr": subprocess.STDOUT, "text": True, "errors": "replace"}
        printed, seconds, last = [], {}, time.time()
        with subprocess.Popen([*rt.rtlib.guarded(), rt.rtlib.RATTLE, "check", *words], **how) as ran:
            threading.Thread(target=leave_out_offers, args=(ran, stages), daemon=True).start()
            for line in ran.stdout:
                printed.append(line)
                if ended := ENDED.match(line):
                    seconds[ended[1]], last = time.time() - last, time.time()
        return ran.returncode, "".join(printed), seconds


def leave_out_offers(ran, stages):
    """Makes a check end once it knows what it will say: after that it would write proof files to offer, for a tenth of its time,
    which nobody reads.

    It finds no module for them when it cannot open any more files, says so in a note, and prints its lines.
    """
    while ran.poll() is None:
        if stages.exists() and "stage lines " in stages.read_text():
            with contextlib.suppress(ProcessLookupError):
                resource.prlimit(ran.pid, resource.RLIMIT_NOFILE, (0, 0))
            return
        time.sleep(0.05)
