"""The Rattle toolchain's own command `rt`, as a module: what the tools of this repository ask of it is asked of the same code.

    python3 tools/toolchain.py WORD..      does what `rt WORD..` does, and computes the stamp of each crate once

A crate's stamp is a sum over its files and over the stamps of the crates below it. `rt` computes each anew along every path
from a crate to one below it, and there are a hundred thousand: that takes longer than many a proof.
"""
import importlib.machinery
import importlib.util
import os
import re
import shutil
import sys
from collections import Counter

# How many parts of a crate are proved at a time, at most, if nearly all of the others wait for it.
JOBS_OF_A_BASE = 4

# Where files are kept in memory, and how many bytes have to be free there.
MEMORY = "/dev/shm"
FREE_MEMORY = 4_000_000_000


def load():
    """Returns the module that the command `rt` is; its part `rtlib` knows the crates."""
    if "rt" in sys.modules:
        return sys.modules["rt"]
    command = shutil.which("rt")
    if not command:
        sys.exit("the command rt of the Rattle toolchain is not on the PATH")
    loader = importlib.machinery.SourceFileLoader("rt", os.path.realpath(command))
    made = importlib.util.module_from_spec(importlib.util.spec_from_loader("rt", loader))
    sys.modules["rt"] = made
    loader.exec_module(made)
    made.rtlib.Crate = made.Crate
    made.rtlib.guarded()
    remember_stamps(made.rtlib)
    share_bases(made)
    keep_files_in_memory(made.rtlib)
    return made


def remember_stamps(rtlib):
    """Causes each crate's stamp to be computed once."""
    computed, known = rtlib.Crate.stamp, {}

    def stamp(crate):
        if crate.folder not in known:
            known[crate.folder] = computed(crate)
        return known[crate.folder]

    rtlib.Crate.stamp = stamp


def share_bases(rt):
    """Causes a crate that nearly all of the others wait for to be proved in parts at a time, if memory holds them. `rt` gives
    the first crates a processor each, and once the small ones are proved the other processors are idle until the base of all
    is proved."""
    in_lanes = rt.in_lanes

    def shared(tasks):
        # (of each crate `rt ci` has a task for its proofs, one for its tests and one for its edits, and `tools/build` has one)
        waiting = Counter(base for base, _ in {(it, crate) for (crate, *_), (waits, *_) in tasks.items() for it in waits})
        crates = {crate for crate, *_ in tasks}
        jobs_of_a_base = min(JOBS_OF_A_BASE, rt.processors())

        def share(key, waits, lines, needs, call):
            # (`rt` too counts a further part as six tenths of the first)
            needs_shared = needs * (1 + 0.6 * (jobs_of_a_base - 1))
            if 5 * waiting[key] < 4 * len(crates) or needs_shared > 0.85 * rt.free():
                return waits, lines, needs, call
            return waits, lines, needs_shared, lambda given, jobs: call(given, max(jobs, jobs_of_a_base))

        return {key: share(key, *task) for key, task in tasks.items()}

    rt.in_lanes = lambda tasks: in_lanes(tasks if "RT_JOBS" in os.environ else shared(tasks))


def keep_files_in_memory(rtlib):
    """Causes the prover to make the files that are of one check alone in memory, if there is room. A check makes some two thousand,
    and removes them at its end: on a disk the system takes up to a twentieth of its time for them."""
    if "TMPDIR" in os.environ or not os.path.isdir(MEMORY):
        return
    for name in os.listdir(MEMORY):
        # what a check that was killed has left there
        of = re.match(r"rattle-[a-z-]+-locked-(\d+)-", name)
        if of and not os.path.exists(f"/proc/{of[1]}"):
            shutil.rmtree(f"{MEMORY}/{name}", ignore_errors=True)
    guarded = rtlib.guarded
    if shutil.disk_usage(MEMORY).free >= FREE_MEMORY:
        rtlib.guarded = lambda: [*guarded(), "env", f"TMPDIR={MEMORY}"]


def is_built(rt, library):
    """Returns whether a library is proved as it is: by its stamp, or as `rt ci` leaves it, newer than what it is made from."""
    if library.is_built():
        return True
    files = [file for it in [library, *library.below()] for file in rt.rtlib.files_of(it.folder)]
    return os.path.isdir(library.rlib) and os.path.getmtime(library.rlib) > max(map(os.path.getmtime, files))


def crates_of(rt, top, names=()):
    """Returns the crates of the repository, lowest first: all, or those that are named with everything that these stand
    on."""
    rt.Crate.allowed = rt.handles_of(str(top))
    crates = sorted(rt.rtlib.crates_below(str(top)), key=lambda it: len(it.below()))
    lacking = set(names) - {it.name for it in crates}
    if lacking:
        sys.exit(f"there is no crate {', '.join(sorted(lacking))}")
    named = [it for it in crates if it.name in names] or crates
    return [it for it in crates if it in named or any(it in other.below() for other in named)]


if __name__ == "__main__":
    sys.exit(load().main(sys.argv[1:]))
