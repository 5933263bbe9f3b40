"""Single calls, as the tables of crates/row_tests have them, and what becomes of one when a growth is refused."""
import re

from tables import CALLS, NO_MEMORY, UNREAD, texts

# Calls that read many tiles, and do not distinguish a tile that there was no memory to read from bytes that are not a
# tile.
UNDISTINGUISHED = ["wire cuts"]

# A piece repeated a thousand times or more: a row with one makes too many growths to refuse each.
MANY = re.compile(r"\b\d{4,}\*")

# What the program says of a row that cannot be tried, as its tile or what it is given cannot be read.
UNTRIED = ["the tile does not open, or lacks what is looked at", "the call cannot be given this"]

# How an answer begins if the call was refused memory, left all as it was, and was made again.
MADE_AGAIN = "NoMemory, then "

# What becomes of a row: it is answered as ever, or is out of memory, or is not reached.
ANSWERED, OUT_OF_MEMORY, NOT_COME_TO = "answered", "out of memory", "not come to"


def tables():
    """Tables of one row: for each call the first row of each kind of answer, which its first word says."""
    found, pieces = {}, {}
    for text in texts(CALLS):
        call, tile, given = "", "", ""
        for line in text.split("\n"):
            word, _, rest = line.partition(" ")
            if word == "piece":
                pieces[rest.split(" ")[0]] = line
            elif word == "call":
                call, tile = line, ""
            elif word == "tile":
                tile = line
            elif word in (">", ">>"):
                given = line
            elif word in ("<", "<<") and not MANY.search(f"{tile} {given} {line}"):
                kind = rest.partition(" ")[0].partition("(")[0]
                found.setdefault((call, kind), [call, tile, given, line])
    return {" ".join([*call.split()[1:], kind]): table_of(lines, pieces)
            for (call, kind), lines in found.items() if call.partition(" ")[2] not in UNDISTINGUISHED}


def table_of(lines, pieces):
    """The lines, with the pieces that they need before them."""
    needed = []
    words = {word.rpartition("*")[2] for line in lines for word in line.split(" ")[1:]}
    for name, piece in reversed(pieces.items()):
        if name in words:
            needed.insert(0, piece)
            words |= {word.rpartition("*")[2] for word in piece.split(" ")[3:]}
    return "\n".join([*needed, *filter(None, lines), ""])


def judged(status, printed, complaint):
    """What became of the row of a table, by what the program printed; None if it is not one of the known ends."""
    if (status, printed, complaint) == (0, "1 rows, 0 differ\n", ""):
        return ANSWERED
    lines = complaint.splitlines()
    if status != 1 or not lines:
        return None
    if printed == "" and complaint == NO_MEMORY or lines[0].startswith(UNREAD):
        return NOT_COME_TO
    if printed != "1 rows, 1 differ\n" or not lines[0].startswith("call "):
        return None
    if lines[-1] in UNTRIED:
        return NOT_COME_TO
    says = dict(line.split(": ", 1) for line in lines if ": " in line)
    is_so = lines[-1] == "out of memory" or says_so(says.get("answers", ""), says.get("should answer", ""))
    return OUT_OF_MEMORY if is_so else None


def says_so(answer, wanted):
    """Whether the answer is that there was no memory, and of a call that was made again what it should be after that."""
    if answer.startswith(MADE_AGAIN):
        return answer.removeprefix(MADE_AGAIN) == wanted
    return "NoMemory" in answer
