"""Plants mistakes in the model, one at a time, and checks that each is found."""
import shutil
import subprocess
import sys
import tempfile
import time
from pathlib import Path

FOLDER = Path(__file__).resolve().parent / "planted"


def read_edit(path):
    """The file that an edit turns, the text that it takes out, and the text in its place."""
    lines = [line.partition(":")[::2] for line in path.read_text().splitlines()]
    file, = (rest.strip() for word, rest in lines if word == "file")
    return file, *("\n".join(rest[1:] for word, rest in lines if word == which) for which in ("old", "new"))


def planted(top, folder, path):
    """A copy of the tools in the folder, with the edit made."""
    shutil.copytree(top / "tools", folder / "tools", ignore=shutil.ignore_patterns("__pycache__"))
    shutil.copytree(top / "tests" / "data", folder / "tests" / "data")
    file, old, new = read_edit(path)
    text = (folder / "tools" / file).read_text()
    if text.count(old) != 1:
        raise ValueError(f"{path.name}: {file} has its old text {text.count(old)} times")
    (folder / "tools" / file).write_text(text.replace(old, new))
    return folder / "tools" / "fuzz"


def fault_of(path, top, arguments):
    """What is wrong if the mistake of the edit is not found as a difference, or None; prints what is found."""
    with tempfile.TemporaryDirectory(prefix="planted-") as name:
        words = [arguments.program, "--seconds", str(arguments.seconds), "--seed", arguments.seed]
        begun = time.monotonic()
        ran = subprocess.run([sys.executable, planted(top, Path(name), path), *words], capture_output=True, text=True)
    last = (ran.stdout + ran.stderr).strip().split("\n")[-1]
    if ran.returncode != 1 or "1 difference" not in last:
        return f"{path.stem}: NOT FOUND: {last}"
    print(f"{path.stem}: found and made smaller in {time.monotonic() - begun:.1f} seconds: {last}", flush=True)
    return None


def self_test(top, arguments):
    """Checks that each mistake is found, and returns the status."""
    print(f"fuzz: seed {arguments.seed}", flush=True)
    edits = sorted(FOLDER.glob("*.edit"))
    faults = [fault for path in edits if (fault := fault_of(path, top, arguments))]
    print(*faults, f"fuzz: {len(edits)} planted mistakes, {len(faults)} not found", sep="\n")
    return 1 if faults else 0
