#!/usr/bin/env python3
"""Compares what tileshell lists of a tile with what GDAL's ogrinfo says of it.

    compare/gdal.py TILESHELL TILE ..
    compare/gdal.py --shift DX DY TILESHELL TILE ..
    compare/gdal.py --script FILE TILESHELL TILE ..

Compared are the layers and their order, how many features each has, and the id, the attributes and the geometry of each
feature. With `--shift` tileshell shifts each feature, and what GDAL says of the tile before and after is compared: every
coordinate has to have moved by as much, and nothing else. With `--script` tileshell edits each tile by the script first.
What GDAL itself changes is mended first: see README.md beside this file. Each difference is printed, and the status is 1
where there is one.
"""
import argparse
import re
import shutil
import subprocess
import sys
import tempfile
from collections import Counter
from dataclasses import replace
from pathlib import Path

sys.path.insert(1, str(Path(__file__).resolve().parent.parent / "tools"))

from listed import Feature, Layer, extent_of, heads_listed, layers_listed, name_of, run, selected

# No more differences of a layer are printed.
SHOWN = 10


# ---- what GDAL says

ATTRIBUTE = re.compile(r"^  (.*?) \((\w+(?:\(\w+\))?)\) = (.*)$")
KINDS = {"POINT": "point", "MULTIPOINT": "point", "LINESTRING": "line", "MULTILINESTRING": "line",
         "POLYGON": "polygon", "MULTIPOLYGON": "polygon"}

# How many digits of a number GDAL writes in a column of these kinds. In the others it is whole.
DIGITS = {"Real": 15, "Real(Float32)": 8, "String": 16}


def parts_of(text, extent):
    """The lists of points between the innermost parentheses, with y counted from the top again."""
    lists = re.findall(r"\(([^()]+)\)", text)
    points = [[tuple(round(float(number)) for number in point.split()) for point in each.split(",")] for each in lists]
    return [[(x, extent - y) for x, y in part] for part in points]


def as_written(value, kind):
    """The value as it is written in a column of this kind, where a whole number has 64 bits and a sign."""
    if isinstance(value, int):
        value = (value + 2**63) % 2**64 - 2**63
    if isinstance(value, str) or kind not in DIGITS or isinstance(value, int) and kind == "String":
        return str(value)
    return f"{value:.{DIGITS[kind]}g}"


def plain(text, kind):
    """What GDAL wrote: a NaN without a sign, and 1 of a short float for 1.0."""
    return as_written(float(text), kind) if kind == "Real(Float32)" or text == "-nan" else text


def with_kinds(layer, kinds):
    """The layer with its values as they are written in columns of these kinds."""
    features = [replace(feature, attributes=Counter({(key, as_written(value, kinds.get(key))): count
                                                     for (key, value), count in feature.attributes.items()}))
                for feature in layer.features]
    return replace(layer, features=features)


def printed_by_gdal(tile):
    """What GDAL says of a tile, which it reads under a name that is no zoom, column and row."""
    with tempfile.TemporaryDirectory() as folder:
        plain = Path(folder) / "tile.pbf"
        shutil.copy(tile, plain)
        words = ["ogrinfo", "-ro", "-al", "-oo", "CLIP=NO", plain]
        return subprocess.run(words, capture_output=True, text=True, check=True).stdout


def layers_printed(tile, extents):
    printed = printed_by_gdal(tile)
    layers = []
    for line in printed.split("\n"):
        if line.startswith("Layer name: "):
            name = line.removeprefix("Layer name: ")
            layers.append(Layer(name, extents.get(name, 0), []))
        elif line.startswith("OGRFeature("):
            layers[-1].features.append(Feature(None, Counter(), None, []))
        elif layers and layers[-1].features:
            take_line(line, layers[-1])
    return layers


def take_line(line, layer):
    feature = layer.features[-1]
    attribute = ATTRIBUTE.match(line)
    if attribute:
        key, kind, value = attribute.groups()
        if key == "mvt_id":
            feature.id = int(value) % 2**64
        else:
            layer.kinds[key] = kind
            feature.attributes[key, plain(value, kind)] += 1
    elif line.startswith("  ") and line.split()[0] in KINDS:
        feature.kind = KINDS[line.split()[0]]
        feature.parts = parts_of(line, layer.extent)


# ---- the comparison

def ring(points):
    """A ring without its beginning and its direction, and without the repeated point that closes it."""
    if len(points) > 1 and points[0] == points[-1]:
        points = points[:-1]
    least = min(points)
    turned = [points[start:] + points[:start] for start, point in enumerate(points) if point == least]
    return tuple(min(way for start in turned for way in (start, start[:1] + start[:0:-1])))


def shape(feature):
    """What both say of a geometry."""
    if feature.kind == "polygon":
        return Counter(ring(part) for part in feature.parts)
    if feature.kind == "point":
        return Counter(point for part in feature.parts for point in part)
    return [tuple(part) for part in feature.parts]


def differences(ours, theirs, where):
    """The differences, of what is wanted and of what stands there in its place."""
    if [layer.name for layer in ours] != [layer.name for layer in theirs]:
        yield f"layers {[layer.name for layer in ours]}, and {where} {[layer.name for layer in theirs]}"
        return
    for our, their in zip(ours, theirs):
        if len(our.features) != len(their.features):
            yield f"{our.name}: {len(our.features)} features, and {where} {len(their.features)}"
        yield from list(features_apart(our, their, where))[:SHOWN]


def features_apart(our, their, where):
    for ordinal, (one, other) in enumerate(zip(our.features, their.features)):
        if one.id != other.id:
            yield f"{our.name} {ordinal}: id {one.id}, and {where} {other.id}"
        if one.attributes != other.attributes:
            apart = one.attributes - other.attributes, other.attributes - one.attributes
            yield f"{our.name} {ordinal}: attributes {apart[0]}, and {where} {apart[1]}"
        if one.kind != other.kind or shape(one) != shape(other):
            yield f"{our.name} {ordinal}: another geometry: {one.kind} of {len(one.parts)}, {other.kind} of {len(other.parts)}"


def is_same(tile, layers, found, done=""):
    """Prints the differences that were found, and returns whether there are none."""
    for line in found:
        print(f"{tile}: {line}")
    features = [feature for layer in layers for feature in layer.features]
    points = sum(len(part) for feature in features for part in feature.parts)
    print(f"{tile}: {len(layers)} layers, {len(features)} features, {points} points{done}, {len(found)} differences")
    return not found


def compare(tileshell, tile, read=None, done=""):
    """Compares the tile, or what stands in its place."""
    ours = layers_listed(tileshell, read or tile)
    theirs = layers_printed(read or tile, {layer.name: layer.extent for layer in ours})
    kinds = {layer.name: layer.kinds for layer in theirs}
    ours = [with_kinds(layer, kinds.get(layer.name, {})) for layer in ours]
    return is_same(tile, ours, list(differences(ours, theirs, "by GDAL")), done)


def compare_edited(tileshell, tile, script):
    """Compares what comes of the tile by the lines of a script. Those that are refused are counted."""
    with tempfile.NamedTemporaryFile() as out:
        replies = run(tileshell, tile, script.read_text().splitlines(), out.name, statuses=(0, 1))
        refused = len(re.findall("^line .* refused", replies, re.MULTILINE))
        return compare(tileshell, tile, out.name, f" edited, {refused} lines refused")


# ---- the same of a tile that is shifted

def moved(layer, dx, dy):
    """The layer with every point further by `dx` and `dy`."""
    further = [[[(x + dx, y + dy) for x, y in part] for part in feature.parts] for feature in layer.features]
    return replace(layer, features=[replace(feature, parts=parts) for feature, parts in zip(layer.features, further)])


def compare_shifted(tileshell, tile, dx, dy):
    heads = heads_listed(tileshell, tile)
    extents = {name_of(head): extent_of(head) for head in heads}
    before = layers_printed(tile, extents)
    with tempfile.NamedTemporaryFile() as out:
        run(tileshell, tile, [f"shift {each} {dx} {dy}" for each in selected(heads)], out.name)
        after = layers_printed(out.name, extents)
    found = list(differences([moved(layer, dx, dy) for layer in before], after, "shifted"))
    return is_same(tile, before, found, f" moved by {dx},{dy}")


def main():
    parser = argparse.ArgumentParser(description=__doc__.split("\n")[0])
    parser.add_argument("--shift", nargs=2, type=int, metavar=("DX", "DY"), help="each feature is shifted by so much")
    parser.add_argument("--script", type=Path, metavar="FILE", help="each tile is edited by this script first")
    parser.add_argument("tileshell", type=Path)
    parser.add_argument("tiles", nargs="+", metavar="tile")
    given = parser.parse_args()
    tileshell = given.tileshell.resolve()
    if given.shift:
        same = [compare_shifted(tileshell, tile, *given.shift) for tile in given.tiles]
    elif given.script:
        same = [compare_edited(tileshell, tile, given.script) for tile in given.tiles]
    else:
        same = [compare(tileshell, tile) for tile in given.tiles]
    return 0 if all(same) else 1


if __name__ == "__main__":
    sys.exit(main())
