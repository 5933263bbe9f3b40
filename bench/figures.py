"""The figures of the last whole run, which are kept in a file, so that its plots can be made again without one."""
import dataclasses
import json
from dataclasses import dataclass
from pathlib import Path

from measure import Figures
from peers import BUILD
from report import Commanded, Listed, Phase, Result, Stepped, Undone, Walked
from tiles import Tile

FIGURES = BUILD / "figures.json"


@dataclass(frozen=True)
class WholeRun:
    # The section of RESULTS.md that has the tables of these figures.
    title: str
    # The names of the programs, ours first.
    programs: list
    results: list
    lists: list
    undos: list
    steps: list
    walks: list
    commands: list
    phases: list


KEPT = [WholeRun, Result, Listed, Undone, Stepped, Walked, Commanded, Phase, Figures, Tile]


def keep(run, path=FIGURES):
    path.write_text(json.dumps(dataclasses.asdict(run), default=str, indent=1) + "\n")


def kept(path=FIGURES):
    """What was kept last."""
    return json.loads(path.read_text(), object_hook=restored)


def restored(entry):
    """An object of the file as what it was before it was kept."""
    kind = next((kind for kind in KEPT if entry.keys() == {field.name for field in dataclasses.fields(kind)}), dict)
    return kind(**{**entry, "path": Path(entry["path"])}) if kind is Tile else kind(**entry)
