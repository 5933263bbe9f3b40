"""The program of crates/row_tests, and its tables."""
from pathlib import Path

CRATE = Path(__file__).resolve().parent.parent / "crates" / "row_tests"
PROGRAM = CRATE / "out" / "row_tests"

# What the names of tables of runs and of single calls end in, by which the program knows them.
RUNS, CALLS = ".rows", ".calls"

# What the program says of a line of a table for which there was no memory.
UNREAD = "no line of a table: "

# What it says when it is out of memory itself.
NO_MEMORY = "row_tests: out of memory\n"


def texts(ending):
    """The texts of the tables whose names end like this, in their order."""
    return [(CRATE / "data" / file).read_text() for file in (CRATE / "args").read_text().split() if file.endswith(ending)]
