"""Random tiles: whole ones with everything that is odd but allowed, pieces of a real one, and broken ones."""
from dataclasses import replace
from itertools import zip_longest
from pathlib import Path

import tiles
from opening import fault_place
from tiles import (EXTENT, FEATURE, GEOMETRY, GROUP, ID, INTEGER, KEY, KIND, LAYER, LEN, NAME, SIZES, TAG, TAGS, VALUE, VERSION, Item,
                   bytes_of, number_at, places, read_tile, spelled)

REAL = Path(__file__).resolve().parents[2] / "tests" / "data" / "states.pbf"

# Few, so that layers, keys and values often share one. One of them makes a length need two bytes.
TEXTS = [b"a", b"b", b"k", b"roads", b"name", b"", "\u00e9\u4e16".encode(), b'q"\\', b"\x00\x7f\n", b"\xff\x80", b"x" * 126]
IDS = [0, 1, 2, 3, 17, 2**63, 2**64 - 1]
# Ids of a few kinds, whose ids are equal in their last four bytes.
ALIKE_IDS = [last | first << 32 for last in range(4) for first in range(12)]

NUMBERS = [0, 1, 2, 5, 127, 128, 300, 2**31, 2**32 - 1, 2**32, 2**63, 2**64 - 1]

# For fields of no meaning: numbers that a message has, and others.
FIELD_NUMBERS = [1, 2, 3, 4, 5, 6, 7, 15, 16, 100, 2**29 - 1]

# Bodies of numbers that are not whole spellings.
BROKEN_BODIES = [b"\x80", b"\x00\xff", b"\x80" * 10 + b"\x00", b"\xff" * 9 + b"\x02"]

# Bytes that are not fields: tags of no number or no type, or too great; groups that do not end or end as another, and
# an end alone; a length and a number too great, and bodies that are cut off.
BROKEN_FIELDS = [b"\x00\x00", b"\x0e\x00", b"\x0f\x00", spelled(2**32 + 8) + b"\x00", spelled(9 << 3, 10)[:-1] + b"\x80\x00\x00",
                 b"\x0b", b"\x0b\x14", b"\x0b\x13\x0c\x14", b"\x0b\x08\x01\x8c\x01", b"\x0c", b"\x4a" + spelled(2**64 - 1),
                 *(b"\x48" + body for body in BROKEN_BODIES), b"\x4a\x05\x00", b"\x4d\x00\x00\x00", b"\x49\x00"]

MAX = 2**31 - 1


def one_in(draw, count):
    return draw.randrange(count) == 0


def number(draw, value):
    """A spelling of the number; some are longer than they need to be."""
    return spelled(value, draw.randint(1, 10) if one_in(draw, 10) else 1)


def field(draw, key, content):
    length = number(draw, len(content)) if key & 7 == LEN else b""
    return number(draw, key) + length + content


def some_bytes(draw, most=6):
    return draw.randbytes(draw.randint(0, most))


def unknown(draw, deep=0):
    """A field that has no meaning, or sometimes one; never a layer or a feature, and seldom no field at all."""
    if one_in(draw, 60):
        return draw.choice(BROKEN_FIELDS)
    wire_type = draw.choice([0, 1, LEN, GROUP, 5])
    field_number = draw.choice(FIELD_NUMBERS)
    if wire_type == GROUP:
        inner = [unknown(draw, deep + 1) for _ in range(draw.randrange(3))] if deep < 3 else []
        return number(draw, field_number << 3 | GROUP) + b"".join(inner) + number(draw, field_number << 3 | tiles.END)
    if wire_type == LEN:
        return field(draw, (field_number if field_number not in (2, 3) else 9) << 3 | LEN, some_bytes(draw))
    content = draw.randbytes(SIZES[wire_type]) if wire_type else number(draw, draw.choice(NUMBERS))
    return field(draw, field_number << 3 | wire_type, content)


def value(draw):
    """The bytes of a value: of each type, or others."""
    some = draw.choice(NUMBERS)
    made = [field(draw, 1 << 3 | LEN, draw.choice(TEXTS)), field(draw, 2 << 3 | 5, draw.randbytes(4)),
            field(draw, 3 << 3 | 1, draw.randbytes(8)), *(field(draw, each << 3, number(draw, some)) for each in (4, 5, 6)),
            field(draw, 7 << 3, number(draw, draw.choice([0, 1, 1, 2])))]
    odd = [b"", some_bytes(draw), unknown(draw), made[0] + made[1], b"\x0b\x0c"]
    return draw.choice(odd if one_in(draw, 8) else made)


def fields_of_numbers(draw, numbers, single, packed):
    """Fields with these numbers, packed and not; with an empty field among them, or a broken one."""
    fields, rest = [], [number(draw, each) for each in numbers]
    while rest:
        count = draw.choice([1, 2, 3, len(rest), len(rest)])
        head, rest = rest[:count], rest[count:]
        fields += [field(draw, single, each) for each in head] if one_in(draw, 4) else [field(draw, packed, b"".join(head))]
    if one_in(draw, 8):
        fields.insert(draw.randint(0, len(fields)), field(draw, packed, b""))
    if one_in(draw, 20):
        fields.insert(draw.randint(0, len(fields)), field(draw, packed, draw.choice(BROKEN_BODIES)))
    return fields


def tags(draw, keys, values):
    """The numbers of a feature's tags, where the layer has `keys` keys and `values` values."""
    if keys and values and one_in(draw, 30):
        named = draw.choices(range(keys), k=draw.randint(33, 64))
    else:
        count = min(draw.choice([0, 1, 1, 2, 3, 4]), keys if values else 0)
        named = draw.choices(range(min(keys, 2)), k=count) if one_in(draw, 3) else draw.sample(range(keys), count)
    found = [each for key in named for each in (key, draw.randrange(values))]
    if one_in(draw, 15):
        found.insert(draw.randint(0, len(found)), draw.choice(NUMBERS))
    return found


def points(draw, count):
    return [(draw.randint(-70, 70), draw.choice([0, 1, 5, 64, 5000])) for _ in range(count)]


def parts(draw, kind):
    """The parts of a geometry of this kind, in points."""
    if kind == 1:
        return [[(draw.choice([MAX, -MAX]), 0)]] if one_in(draw, 12) else [points(draw, draw.randint(1, 3))]
    return [points(draw, draw.randint(kind, kind + 2)) for _ in range(draw.choice([1, 1, 2]))]


def geometry(draw, kind):
    """The numbers of a geometry of this kind, or nearly of one."""
    body = tiles.encoded(kind, parts(draw, kind))
    numbers = [number_at(each, 0)[0] for each in tiles.numbers_in(Item(spelled(GEOMETRY), 1, body), INTEGER, GEOMETRY)]
    if one_in(draw, 10):
        numbers[draw.randrange(len(numbers))] = draw.choice([*NUMBERS, 7, 9, 15, 17])
    if one_in(draw, 20):
        del numbers[draw.randrange(len(numbers)):]
    return numbers


def times(draw):
    """How often a field is there that should be there once."""
    return draw.choice([1] * 10 + [0, 2])


def feature(draw, keys, values, ids=IDS):
    kind = draw.randint(1, 3)
    shown = kind if not one_in(draw, 10) else draw.choice([0, 1, 2, 3, 4, 300])
    groups = [[field(draw, ID, number(draw, draw.choice(ids))) for _ in range(times(draw))],
              fields_of_numbers(draw, tags(draw, keys, values), TAG, TAGS),
              [field(draw, KIND, number(draw, shown)) for _ in range(times(draw))],
              fields_of_numbers(draw, geometry(draw, kind), INTEGER, GEOMETRY) if not one_in(draw, 10) else []]
    return field(draw, FEATURE, b"".join(mixed(draw, groups)))


def mixed(draw, groups):
    """The fields of the groups with some unknown ones, in this order, or in none."""
    fields = [each for group in groups for each in group]
    for _ in range(draw.choice([0, 0, 0, 1, 2])):
        fields.insert(draw.randint(0, len(fields)), unknown(draw))
    return draw.sample(fields, len(fields)) if one_in(draw, 4) else fields


def layer(draw):
    keys, values = (draw.choices(made, k=draw.randrange(5)) if one_in(draw, 3) else draw.sample(made, draw.randint(1, 4))
                    for made in (TEXTS, [value(draw) for _ in range(8)]))
    groups = [[field(draw, NAME, draw.choice(TEXTS)) for _ in range(times(draw))],
              [feature(draw, len(keys), len(values)) for _ in range(draw.choice([0, 1, 1, 1, 2, 2, 2, 3, 4]))],
              [field(draw, KEY, each) for each in keys], [field(draw, VALUE, each) for each in values],
              [field(draw, EXTENT, number(draw, draw.choice(NUMBERS))) for _ in range(draw.randrange(2))],
              [field(draw, VERSION, number(draw, draw.choice(NUMBERS))) for _ in range(draw.randrange(2))]]
    return field(draw, LAYER, b"".join(mixed(draw, groups)))


def in_turns(groups):
    """The fields of the groups, one of each at a time."""
    return [each for row in zip_longest(*groups) for each in row if each is not None]


def large_layer(draw):
    """A layer of about 32 features, the least number of items of which the program keeps where each kind stands."""
    ids = draw.sample(ALIKE_IDS, draw.randint(28, 40))
    keys, values = draw.choices(TEXTS, k=draw.choice([3, 20])), [value(draw) for _ in range(draw.choice([3, 20]))]
    groups = [[field(draw, NAME, draw.choice(TEXTS))],
              [feature(draw, len(keys), len(values), IDS if one_in(draw, 20) else [each]) for each in ids],
              [field(draw, KEY, each) for each in keys], [field(draw, VALUE, each) for each in values]]
    return field(draw, LAYER, b"".join(mixed(draw, [in_turns(groups)] if one_in(draw, 3) else groups)))


def made_tile(draw):
    return b"".join(mixed(draw, [[layer(draw) for _ in range(draw.choice([0, *[1] * 6, *[2] * 5, 3]))]]))


def large_tile(draw):
    return b"".join(mixed(draw, [[large_layer(draw), *(layer(draw) for _ in range(draw.randrange(2)))]]))


def deep_groups(draw):
    """As many groups in one another as may be, or one more."""
    deep = draw.choice([100, 101])
    return b"\x0b" * deep + b"\x0c" * deep


def piece_of_real_tile(draw):
    """The real tile with a few of its features, those of its keys and values that they use, and some more."""
    tile = read_tile(REAL.read_bytes())
    at = draw.randrange(len(tile))
    items = tile[at].content
    gone = set(places(items, FEATURE)) - set(draw.sample(places(items, FEATURE), draw.randint(1, 3)))
    small = tiles.compact((replace(tile[at], content=tiles.without(items, gone)),), None)
    spare = [draw.choice([item for item in items if item.key in (KEY, VALUE)]) for _ in range(draw.randrange(3))]
    return bytes_of((replace(small[0], content=(*small[0].content, *spare)),))


def leaves(items):
    """The paths to the fields within: the positions from the outermost item on."""
    for place, item in enumerate(items):
        inner = leaves(item.content) if isinstance(item.content, tuple) else [()]
        yield from ((place, *way) for way in inner)


def with_leaf(items, way, turned):
    """The items, where the content of the field to which the path leads is what `turned` makes of its content."""
    item, inner = items[way[0]], way[1:]
    content = with_leaf(item.content, inner, turned) if inner else turned(item.content)
    return tiles.put(items, way[0], replace(item, content=content))


def mutated(draw, data):
    """The bytes with a few turned, taken out, put in or given again."""
    at = draw.randint(0, len(data))
    end = min(len(data), at + draw.choice([1, 1, 2, 5, 20]))
    put = draw.choice([b"", bytes(byte ^ 1 << draw.randrange(8) for byte in data[at:end]), some_bytes(draw), data[at:end] * 2])
    return data[:at] if one_in(draw, 8) else data[:at] + put + data[draw.choice([at, end]):]


def mutated_within(draw, data):
    """The tile with the content of a LEN field mutated, whose length is again that of the content; anything that is not a tile
    as it is."""
    items = read_tile(data) if fault_place(data) is None else ()
    texts = [way for way in leaves(items) if key_at(items, way) & 7 == LEN]
    return bytes_of(with_leaf(items, draw.choice(texts), lambda content: mutated(draw, content))) if texts else data


def key_at(items, way):
    item = items[way[0]]
    return key_at(item.content, way[1:]) if way[1:] else item.key


def random_tile(draw):
    """A tile, or bytes that are not one."""
    kind = draw.randrange(400)
    tile = REAL.read_bytes() if kind == 0 else piece_of_real_tile(draw) if kind < 40 else (large_tile if kind < 56 else made_tile)(draw)
    tile += deep_groups(draw) if kind == 56 else b""
    for _ in range(draw.choice([0, 0, 0, 1, 2])):
        tile = mutated_within(draw, tile)
    return mutated(draw, tile) if one_in(draw, 8) else tile
