"""Runs of the program for trials in which something fails: together they accept each request."""
from pathlib import Path

from devices import Run

TOP = Path(__file__).resolve().parent.parent

SESSION = """\
# each request is accepted once
mark "as read"
list
list "a"
list #0 @1
size
insert "a" 1 polygon 3,6 8,12 20,34 / 1,1 4,1 4,4
insert "a" 2 line 2,2 2,10 10,10
list #0 1
move-feature "a" 2 0
set-id "a" 0 18446744073709551615
set "a" 0 "name" string "left \\"or\\" right"
set #0 @1 "k" double 000000000000f03f
rename-key "a" "name" "label"
list "a"
begin
set-geometry "a" 0 point 25,17
shift "a" 0 -30 3
undo
history
end
undo

frob
redo
clear-id "a" 0
unset "a" 0 "label"
exclude * "none"
compact-keys "a"
compact-values *
begin
drop-feature "a" 2
exclude-all *
list #0
cancel
compact #0
move-layer "b" 0
drop-layer #2
mark "later"
back "as read"
marks
redo
back "later"
unmark "as read"
keep "a" "b"
rename-layer "a" "roads\\x0a"
drop-feature "roads" 0
list "b"
shift "roads\\x0a" 5 1 1
size
history"""

T0 = (TOP / "crates/tileshell_program/data/t0.pbf").read_bytes()
TWO_MORE = b"\x1a\x03\x0a\x01b\x1a\x03\x0a\x01c"

# A layer of 600 features: its listing is longer than what is held back of a reply.
WIDE = b"\x1a\xe3\x12\x0a\x01w" + 600 * b"\x12\x02\x08\x05"

# A few bytes a call.
FEW = {"tile": 5, "input": 40, "script": 40, "replies": 20, "out": 4, "complaint": 10}

RUNS = {
    "a session": Run(T0 + TWO_MORE, SESSION.encode(), most=FEW),
    "a session of a file": Run(T0 + TWO_MORE, SESSION.encode() + b"\n", depth=3, is_file=True, is_in_place=True),
    "a strict session": Run(T0 + TWO_MORE, SESSION.encode(), strict=True, is_file=True, most=FEW),
    "a long listing": Run(WIDE, b"undo\nlist #0\nsize\n", most={"tile": 1000, "replies": 3000, "out": 1000}),
    "a tile cut short": Run(T0 + TWO_MORE[:-1], b"size\n", most=FEW),
    "nothing": Run(b"", b""),
}

# The first lines of the session, and one that is refused.
SHORT = Run(T0 + TWO_MORE, b"".join(line.encode() + b"\n" for line in [*SESSION.split("\n")[:13], "frob"]))
