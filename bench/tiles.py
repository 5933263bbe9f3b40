"""The tiles that are measured."""
import subprocess
from dataclasses import dataclass
from pathlib import Path

from generate import generate
from peers import BUILD, world_map

SEED = 1
MEBIBYTE = 1 << 20
SIZES = [1, 4, 16, 64]

# A tile of more bytes is large: it has fewer jobs.
LARGE = 16 * MEBIBYTE

# The kinds of tiles of groups, each at one size.
GROUPS = {"nested groups": 16, "flat groups": 64}

# The sizes of the map whose features all have one key.
COMMON_KEY = [1, 64]

# The sizes of the tile of empty tags, whose features are the smallest that have some.
EMPTY_TAGS = [1, 16]

# The sizes of the tile of tagged layers, of which the larger has half a million.
TAGGED_LAYERS = [1, 16]

# The tile of alternating layers has three million of them.
ALTERNATING = 15

# The sizes of the tile of half-used pools, which have 2^16 and 2^20 entries.
HALF_USED = [1, 16]

# The world's states at two places: zoom, column and row.
REAL_TILES = ["1/0/0", "2/2/1"]


@dataclass(frozen=True)
class Tile:
    name: str
    path: Path
    # The layer that the jobs name.
    layer: str
    # In bytes.
    size: int
    # What is generated at several sizes has a kind.
    kind: str = None

    @property
    def is_large(self):
        return self.size > LARGE

    @property
    def is_smallest_map(self):
        return self.kind == "map" and self.size <= SIZES[0] * MEBIBYTE


def generated(kind, mebibytes, layer):
    path = BUILD / f"{kind}-{mebibytes}.pbf"
    size = path.write_bytes(generate(kind, mebibytes * MEBIBYTE, SEED))
    return Tile(f"{kind} {mebibytes} MiB", path, layer, size, kind)


def smallest_map():
    return generated("map", SIZES[0], "roads")


def largest_map():
    return generated("map", SIZES[-1], "roads")


def smallest_maps():
    """The two of them."""
    return [generated("map", size, "roads") for size in SIZES[:2]]


def alternating_layers():
    return generated("alternating layers", ALTERNATING, "a")


def points():
    """Some 25,000 of them."""
    return generated("points", SIZES[0], "points")


def generated_tiles():
    tiles = [generated("map", size, "roads") for size in SIZES]
    tiles += [generated("crumbs", size, "crumbs") for size in SIZES]
    tiles += [generated("common key", size, "roads") for size in COMMON_KEY]
    tiles += [generated("empty tags", size, "tags") for size in EMPTY_TAGS]
    tiles += [generated("tagged layers", size, "a") for size in TAGGED_LAYERS]
    tiles += [generated("half-used pools", size, "pools") for size in HALF_USED]
    return tiles + [generated(kind, size, "groups") for kind, size in GROUPS.items()]


def real_tiles():
    """Tiles of the world map in qgis-common, cut by GDAL."""
    folder = BUILD / "world"
    if not folder.exists():
        cut_world(folder)
    paths = {place: folder / f"{place}.pbf" for place in REAL_TILES}
    return [Tile(f"states {place}", path, "countries", path.stat().st_size) for place, path in paths.items()]


def cut_world(folder):
    options = ["COMPRESS=NO", "FORMAT=DIRECTORY", "MINZOOM=0", "MAXZOOM=2",
               "MAX_SIZE=100000000", "MAX_FEATURES=10000000"]
    words = ["ogr2ogr", "-f", "MVT", folder, world_map(), "states_provinces", "countries", "disputed_borders"]
    for option in options:
        words += ["-dsco", option]
    subprocess.run(words, check=True, capture_output=True)
