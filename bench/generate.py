#!/usr/bin/env python3
"""Makes tiles from a seed: 'map', as a basemap has; 'common key', a map whose features all have one key; 'crumbs', of the smallest fields; features of empty tags; two kinds of groups; layers of two names in turns; layers of one tagged feature; a layer of points; pools of which each second entry is used."""
import argparse
import random
from pathlib import Path

LAYERS = ["water", "landcover", "landuse", "roads", "buildings",
          "boundaries", "transit", "places", "addresses", "labels"]

# Room that a tile leaves below its size, so that a layer's name may grow.
SPARE = 64

POINT, LINE, POLYGON = 1, 2, 3

# The tags around a group of number 1.
GROUP, GROUP_END = b"\x0b", b"\x0c"

# How many groups may be open at one place.
MOST_OPEN = 100

# A key or a value of large pools, with its share of a feature that has `PAIRS` pairs, takes at most this number of bytes.
BYTES_OF_AN_ENTRY = 16
PAIRS = 8


def varint(number):
    spelling = bytearray()
    while number >= 128:
        spelling.append(number % 128 + 128)
        number //= 128
    spelling.append(number)
    return bytes(spelling)


def number_field(number, value):
    return varint(8 * number) + varint(value)


def bytes_field(number, content):
    return varint(8 * number + 2) + varint(len(content)) + content


def command(identifier, count):
    return varint(8 * count + identifier)


# Spellings to draw from: an index into a pool, a place in the tile, a step to the next point.
INDICES = [varint(index) for index in range(300)]
PLACES = [varint(place) for place in range(2 * 4096)]
STEPS = [varint(step) for step in range(180)]


def geometry(draw, kind):
    points = draw.randrange(32, 85)
    parts = [command(1, 1), *draw.choices(PLACES, k=2), command(2, points)]
    parts += draw.choices(STEPS, k=2 * points)
    if kind == POLYGON:
        parts.append(command(7, 1))
    return b"".join(parts)


def feature(draw, identifier, kind, is_keyed):
    first = INDICES[0] + draw.choice(INDICES) if is_keyed else b""
    tags = first + b"".join(draw.choices(INDICES, k=2 * draw.randrange(2, 9)))
    return bytes_field(2, number_field(1, identifier) + bytes_field(2, tags)
                       + number_field(3, kind) + bytes_field(4, geometry(draw, kind)))


def value(draw, place):
    """One of a layer's values: most are texts, some are numbers or flags."""
    kind = draw.randrange(8)
    if kind == 0:
        return number_field(5, draw.randrange(100_000))
    if kind == 1:
        return number_field(7, place % 2)
    return bytes_field(1, b"value %d of the layer" % place)


def pools(draw):
    keys = [bytes_field(3, b"key:%d" % place) for place in range(300)]
    values = [bytes_field(4, value(draw, place)) for place in range(300)]
    return b"".join(keys + values)


def layer(name, features, rest):
    return bytes_field(3, bytes_field(1, name.encode()) + features
                       + rest + number_field(5, 4096) + number_field(15, 2))


def map_layer(draw, name, size, is_keyed):
    """A layer of at most `size` bytes; of one that is keyed each feature has the first key."""
    kind = draw.choice([LINE, POLYGON])
    rest = pools(draw)
    room = size - len(layer(name, b"", rest)) - len(varint(size))
    features = []
    while True:
        last = feature(draw, len(features), kind, is_keyed)
        room -= len(last)
        if room < 0:
            return layer(name, b"".join(features), rest)
        features.append(last)


def map_tile(draw, size, is_keyed=False):
    return b"".join(map_layer(draw, name, size // len(LAYERS), is_keyed) for name in LAYERS)


def crumbs_tile(draw, size):
    """One layer of empty features, empty keys and unknown numbers, of two bytes each."""
    crumbs = [bytes_field(2, b""), bytes_field(3, b""), number_field(6, 1)]
    room = size - len(layer("crumbs", b"", b"")) - len(varint(size))
    return layer("crumbs", b"".join(draw.choices(crumbs, k=room // 2)), b"")


def empty_tags_tile(size):
    """One layer of features, each of which has a tags field of two bytes and no other field."""
    feature_bytes = bytes_field(2, bytes_field(2, b""))
    room = size - len(layer("tags", b"", b"")) - len(varint(size))
    return layer("tags", room // len(feature_bytes) * feature_bytes, b"")


def groups_tile(deep, size):
    """Groups that stand in one another, so deep, again and again; after them a small layer."""
    groups = deep * GROUP + deep * GROUP_END
    small = layer("groups", b"", b"")
    return (size - len(small)) // len(groups) * groups + small


def alternating_tile(size):
    """The smallest layers of two names, in turns."""
    pair = b"".join(bytes_field(3, bytes_field(1, name)) for name in [b"a", b"b"])
    return size // len(pair) * pair


def tagged_layers_tile(size):
    """Layers of one feature, each with the one key and the one value of its layer."""
    entries = bytes_field(3, b"key:0") + bytes_field(4, bytes_field(1, b"value"))
    tagged_layer = layer("a", tagged([0]), entries)
    return size // len(tagged_layer) * tagged_layer


def points_tile(draw, size):
    """One layer of points, each with an id, from 1 on, and a name of its own."""
    key = bytes_field(3, b"name")
    room = size - len(layer("points", b"", key)) - len(varint(size))
    features, values = [], []
    while True:
        place = len(features)
        last = bytes_field(2, number_field(1, place + 1) + bytes_field(2, varint(0) + varint(place)) + number_field(3, POINT)
                           + bytes_field(4, command(1, 1) + b"".join(draw.choices(PLACES, k=2))))
        name = bytes_field(4, bytes_field(1, b"place %d" % place))
        room -= len(last) + len(name)
        if room < 0:
            return layer("points", b"".join(features), key + b"".join(values))
        features.append(last)
        values.append(name)


def half_used_tile(size):
    """One layer of as many keys as values, and of features whose pairs name each second one of both."""
    places = range(size // BYTES_OF_AN_ENTRY // 2)
    keys = [bytes_field(3, b"key:%06d" % place) for place in places]
    values = [bytes_field(4, bytes_field(1, b"value %06d" % place)) for place in places]
    features = [tagged(places[first:first + 2 * PAIRS:2]) for first in places[::2 * PAIRS]]
    return layer("pools", b"".join(features), b"".join(keys + values))


def tagged(places):
    """A feature with a pair of the key and the value at each of these places."""
    return bytes_field(2, bytes_field(2, b"".join(2 * varint(place) for place in places)))


MAKERS = {
    "map": map_tile,
    "common key": lambda draw, size: map_tile(draw, size, is_keyed=True),
    "crumbs": crumbs_tile,
    "empty tags": lambda draw, size: empty_tags_tile(size),
    "nested groups": lambda draw, size: groups_tile(MOST_OPEN, size),
    "flat groups": lambda draw, size: groups_tile(1, size),
    "alternating layers": lambda draw, size: alternating_tile(size),
    "tagged layers": lambda draw, size: tagged_layers_tile(size),
    "points": points_tile,
    "half-used pools": lambda draw, size: half_used_tile(size),
}


def generate(kind, size, seed):
    """A tile of this kind, of nearly `size` bytes and no more."""
    return MAKERS[kind](random.Random(seed), size - SPARE)


def main():
    parser = argparse.ArgumentParser(description=__doc__)
    parser.add_argument("kind", choices=MAKERS)
    parser.add_argument("size", type=int, help="in bytes")
    parser.add_argument("out", type=Path)
    parser.add_argument("--seed", type=int, default=1)
    arguments = parser.parse_args()
    arguments.out.write_bytes(generate(arguments.kind, arguments.size, arguments.seed))


if __name__ == "__main__":
    main()
