"""What `list` prints of a tile, as docs/FORMATS.md has it."""
import tiles
from opening import fault_place
from tiles import (EXTENT, FEATURE, ID, KEY, KIND, KINDS, LAYER, NAME, VALUE, VERSION, integers_of, last, number_at, pairs_in,
                   places, quoted, read_items, unzigzag)


def listed(tile, *chosen):
    """The listing of the tile, of a layer of it, or of a feature of that layer."""
    if not chosen:
        found = places(tile, LAYER)
        return [f"layers {len(found)}", *(layer_line(tile, place) for place in found)]
    place = tiles.layer_place(tile, chosen[0])
    if len(chosen) == 1:
        return whole_layer(tile, place)
    return whole_feature(tile[place].content, tiles.feature_place(tile[place], chosen[1]))


def layer_line(tile, place):
    layer = tile[place].content
    name = last(layer, NAME)
    head = f"layer {ordinal(tile, place)} {'-' if name is None else quoted(name)}"
    numbers = f"version {last(layer, VERSION, 1)} extent {last(layer, EXTENT, 4096)}"
    counts = [f"{word} {len(places(layer, key))}" for word, key in [("features", FEATURE), ("keys", KEY), ("values", VALUE)]]
    return " ".join([head, numbers, *counts])


def feature_line(layer, place):
    fields = layer[place].content
    kind = last(fields, KIND, 0)
    shown = KINDS[kind] if kind < len(KINDS) else f"kind {kind}"
    return f"feature {ordinal(layer, place)} id {last(fields, ID, '-')} {shown}"


def ordinal(items, place):
    return places(items, items[place].key).index(place)


def whole_layer(tile, place):
    layer = tile[place].content
    return [layer_line(tile, place),
            *(f"key {index} {key}" for index, key in enumerate(map(quoted, pool(layer, KEY)))),
            *(f"value {index} {value}" for index, value in enumerate(map(value_of, pool(layer, VALUE)))),
            *(feature_line(layer, each) for each in places(layer, FEATURE))]


def pool(layer, key):
    return [layer[place].content for place in places(layer, key)]


def whole_feature(layer, place):
    fields = layer[place].content
    return [feature_line(layer, place), *attribute_lines(layer, fields), f"geometry {geometry_of(fields)}"]


def attribute_lines(layer, fields):
    keys, values = pool(layer, KEY), pool(layer, VALUE)
    try:
        return [f"attribute {quoted(keys[key])} {value_of(values[value])}" for key, value in pairs_in(layer, fields)]
    except ValueError:
        return ["attributes unreadable"]


def numbered(shown):
    """What a number is shown as, by its bytes."""
    return lambda content: shown(number_at(content, 0)[0])


# How the content of a value is shown, by the tag of its one field.
SHOWN = {
    1 << 3 | 2: ("string", quoted), 2 << 3 | 5: ("float", bytes.hex), 3 << 3 | 1: ("double", bytes.hex),
    4 << 3: ("int", numbered(lambda number: number - 2**64 if number >= 2**63 else number)), 5 << 3: ("uint", numbered(int)),
    6 << 3: ("sint", numbered(unzigzag)), 7 << 3: ("bool", numbered(lambda number: "true" if number else "false")),
}


def value_of(message):
    fields = read_items(message, {}) if fault_place(message, {}) is None else ()
    if len(fields) != 1 or fields[0].key not in SHOWN:
        return f"raw {message.hex()}" if message else "raw"
    kind, shown = SHOWN[fields[0].key]
    return f"{kind} {shown(fields[0].content)}"


def geometry_of(fields):
    try:
        numbers = integers_of(fields)
    except ValueError:
        return "unreadable"
    x, y, at, parts = 0, 0, 0, []
    while at < len(numbers):
        command, after = tiles.command_at(numbers, at)
        parts += [[]] if command == 1 else []
        for dx, dy in zip(numbers[at + 1:after:2], numbers[at + 2:after:2]):
            x, y = x + unzigzag(dx), y + unzigzag(dy)
            parts[-1].append(f"{x},{y}")
        at = after
    return " ".join([KINDS[last(fields, KIND)], " / ".join(map(" ".join, parts))])
