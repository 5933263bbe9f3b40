"""Runs the program in a folder of its own, over and over, with a library that is loaded ahead of the C library."""
import os
import subprocess
import tempfile
from pathlib import Path

from runs import Ended
from toolchain import load

TOOLS = Path(__file__).resolve().parent
PROGRAM = TOOLS.parent / "build" / "tileshell"

# The seconds that a run may take.
LIMIT = 60


def clang():
    """The toolchain's own compiler."""
    return Path(load().KIT) / "toolchain" / "bin" / "clang"


def library(folder, source, *words):
    """Makes a library from a source next to this one."""
    made = Path(folder) / "-".join([*words, f"{source}.so"])
    how = ["-shared", "-fPIC", "-O1", "-nostdlib", "-fuse-ld=lld", *words, TOOLS / source, "-o", made]
    subprocess.run([clang(), *how], check=True)
    return made


def before(run):
    """What OUT holds before the run."""
    return run.tile if run.is_in_place else b"as it was"


class Room:
    """A folder in which programs are run with a library ahead."""

    def __init__(self, library, folder):
        self.library, self.folder = library, Path(tempfile.mkdtemp(dir=folder))

    def file(self, name, data=b""):
        """A file of these bytes."""
        path = self.folder / name
        path.write_bytes(data)
        return path

    def ended(self, program, run, given):
        """How the program ends with these variables given; its tile is what OUT then holds."""
        tile, script = self.file("tile", run.tile), self.file("script", run.script)
        out = tile if run.is_in_place else self.file("out", before(run))
        words = [tile, out, "--depth", str(run.depth), *["--strict"] * run.strict, *["--script", script] * run.is_file]
        return Ended(*self.printed([program, *words], given, os.devnull if run.is_file else script), out.read_bytes())

    def printed(self, words, given, typed=os.devnull):
        """The status of a program with this typed in, and what it prints on its outputs, which are files."""
        replies, complaint = self.file("replies"), self.file("complaint")
        with open(typed, "rb") as typed, replies.open("wb") as printed, complaint.open("wb") as complained:
            how = {"env": {"LD_PRELOAD": self.library, **given}, "stdin": typed, "stdout": printed, "stderr": complained}
            try:
                status = subprocess.run(words, **how, timeout=LIMIT).returncode
            except subprocess.TimeoutExpired:
                status = f"none in {LIMIT} seconds"
        return status, replies.read_bytes(), complaint.read_bytes()
