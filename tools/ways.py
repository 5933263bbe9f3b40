"""A run as crates/row_tests makes it, as a call, over readers and writers and one byte a call; and what becomes of it when
a growth is refused."""
import re

from runs import ended
from tables import NO_MEMORY, UNREAD
from out_of_memory import PLAIN, RUN, Printed, Wrong, judged_script

# What becomes of a growth that is not one of the runs: the table is not read, or the result of a run is not compared.
ELSEWHERE = "elsewhere"

# A run as a call ends out of memory: this, and after how many lines of replies.
CUT = "cut after"

# What the program prints of a run that is not as its row has it.
DIFFERS = re.compile(r"is (.*), with the replies\n(.*)\nand (?:no tile|the tile ([0-9a-f]*))\nshould be .*"
                     r"differs, as (a call|streams|one byte a call): a run\n", re.DOTALL)


def table_of(run):
    """The run as a table of one row, with what results when there is memory."""
    end = ended(run.tile, run.script, run.depth, run.strict)
    lines = [("row", ["a run"]), ("depth", [run.depth]), ("tile", [run.tile.hex()]), (">", run.script.decode().split("\n")[:-1]),
             ("<", end.replies.decode().splitlines()), ("ends", [["Done", "SomeRefused"][end.status]]), ("gives", [end.tile.hex()])]
    return "".join(f"{word} {rest}\n" for word, each in lines for rest in each)


def count(replies):
    """How many lines there are, the last one whole or not."""
    return len(replies.splitlines())


def lost(run, said):
    """What is wrong with how much is replied by calls that end out of memory: the later the growth, the more, up to all."""
    found = [int(what.removeprefix(CUT)) for what in said if what.startswith(CUT)]
    most = count(ended(run.tile, run.script, run.depth, run.strict).replies)
    if found != sorted(found) or most not in found or not any(0 < lines < most for lines in found):
        yield f"the lines of replies of a call that ends out of memory, growth by growth, of {most}: {found}"


def judged(run, status, printed, complaint):
    """What the growth was refused to; None if what the program printed is not one of the known outputs."""
    if (status, printed, complaint) == (0, "1 rows, 0 differ\n", ""):
        return PLAIN
    if (status, printed, complaint) == (1, "", NO_MEMORY) or status == 1 and complaint.startswith(UNREAD):
        return ELSEWHERE
    found = DIFFERS.fullmatch(complaint)
    if not found or (status, printed) != (1, "1 rows, 1 differ\n"):
        return None
    outcome, replies, tile, way = found.groups()
    return judged_way(run, way, outcome, replies, None if tile is None else bytes.fromhex(tile))


def judged_way(run, way, outcome, replies, tile):
    """What the growth was refused to. If a reply has no room, or the tile, what came of it is a prefix."""
    plain = ended(run.tile, run.script, run.depth, run.strict)
    is_prefix = plain.replies.startswith(replies.encode())
    if way == "a call" and outcome == "NoMemory" and is_prefix and tile is None:
        return f"{CUT} {count(replies)}"
    if way != "a call" and outcome == "Device(Replies)" and is_prefix and tile is None:
        return RUN
    if way != "a call" and outcome == "Device(Out)" and replies.encode() == plain.replies and plain.tile.startswith(tile):
        return RUN
    if replies and not replies.endswith("\n"):
        raise Wrong(f"a reply is cut short: {replies}")
    script = run.script.decode().split("\n")
    return judged_script(Printed(outcome, run.depth, run.tile, script, replies.splitlines(), tile))
