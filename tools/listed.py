"""What tileshell lists of a tile, read back: its layers, their features, and for each feature its id, its attributes and its
geometry."""
import re
import struct
import subprocess
import tempfile
from collections import Counter
from dataclasses import dataclass, field

WORD = re.compile(r'"(?:[^"\\]|\\.)*"|[^ \t\r]+')
ESCAPE = re.compile(r'\\(x[0-9a-fA-F]{2}|.)')

# What stands in place of a geometry that is not read.
UNREADABLE = "unreadable"


@dataclass
class Feature:
    # None if there is none.
    id: int
    # Pairs of a key and a value, each a text, a whole number or a float.
    attributes: Counter
    # A kind, and its parts as lists of points.
    kind: str
    parts: list


@dataclass
class Layer:
    name: str
    extent: int
    features: list
    # The kinds of its columns by their keys, if another program printed them.
    kinds: dict = field(default_factory=dict)


def run(tileshell, tile, lines, out, statuses=(0,)):
    """What is replied to a script, whose run ends with one of these statuses."""
    done = subprocess.run([tileshell, tile, out], input="".join(f"{line}\n" for line in lines), capture_output=True, text=True)
    if done.returncode not in statuses:
        raise SystemExit(f"{tile}: status {done.returncode}: {done.stderr}{done.stdout[-200:]}")
    return done.stdout


def replies(tileshell, tile, lines):
    """The lines before `ok` of the reply to each line of a script, none of which is refused."""
    with tempfile.NamedTemporaryFile() as out:
        printed = run(tileshell, tile, lines, out.name)
    reply = []
    for line in printed.split("\n"):
        if line == "ok":
            yield reply
            reply = []
        else:
            reply.append(line)


def text_of(word):
    if word.startswith("x:"):
        return bytes.fromhex(word[2:]).decode(errors="surrogateescape")
    return ESCAPE.sub(lambda found: chr(int(found[1][1:], 16)) if len(found[1]) > 1 else found[1], word[1:-1])


def value_of(words):
    """A text or a number. A truth is 0 or 1."""
    kind, *shown = words
    if kind == "string":
        return text_of(*shown)
    if kind == "bool":
        return int(shown == ["true"])
    if kind in ("float", "double"):
        return struct.unpack("<f" if kind == "float" else "<d", bytes.fromhex(*shown))[0]
    return " ".join(words) if kind == "raw" else int(*shown)


def parts_of(words):
    """The lists of points that these words say."""
    parts = [[]]
    for word in words:
        if word == "/":
            parts.append([])
        else:
            parts[-1].append(tuple(map(int, word.split(","))))
    return parts


def feature_listed(reply):
    id, kind = WORD.findall(reply[0])[3:5]
    attributes = Counter()
    for line in reply[1:-1]:
        word, key, *value = WORD.findall(line)
        if word == "attribute":
            attributes[text_of(key), value_of(value)] += 1
    points = reply[-1].split(" ")[1:]
    parts = [] if points == [UNREADABLE] else parts_of(points[1:])
    return Feature(None if id == "-" else int(id), attributes, kind, parts)


def heads_listed(tileshell, tile):
    """The words of the line of each layer."""
    first, *rest = next(iter(replies(tileshell, tile, ["list"])))
    heads = [WORD.findall(line) for line in rest]
    if first != f"layers {len(heads)}":
        raise SystemExit(f"{tile}: {first}, and then {len(heads)} of them")
    return heads


def has_name(head):
    return head[2] != "-"


def name_of(head):
    """The name of a layer by the words of its line."""
    return text_of(head[2]) if has_name(head) else ""


def extent_of(head):
    return int(head[6])


def count_of(head):
    """How many features it has."""
    return int(head[8])


def selected(heads):
    """The words that select each feature of a tile."""
    return [f"#{ordinal} {feature}" for ordinal, head in enumerate(heads) for feature in range(count_of(head))]


def layers_listed(tileshell, tile):
    heads = heads_listed(tileshell, tile)
    features = map(feature_listed, replies(tileshell, tile, [f"list {each}" for each in selected(heads)]))
    return [Layer(name_of(head), extent_of(head), [next(features) for _ in range(count_of(head))]) for head in heads]
