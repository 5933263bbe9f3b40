"""Tiles as docs/FORMATS.md has them, and the commands that edit them: whole tiles in, whole tiles out."""
from dataclasses import dataclass, replace
from functools import cached_property

# The tags of the messages that are read into.
LAYER, FEATURE = 3 << 3 | 2, 2 << 3 | 2

# The tags of single fields.
NAME, KEY, VALUE, EXTENT, VERSION = 1 << 3 | 2, 3 << 3 | 2, 4 << 3 | 2, 5 << 3, 15 << 3
ID, TAGS, TAG, KIND, GEOMETRY, INTEGER = 1 << 3, 2 << 3 | 2, 2 << 3, 3 << 3, 4 << 3 | 2, 4 << 3

LEN, GROUP, END = 2, 3, 4
SIZES = {1: 8, 5: 4}
KINDS = ["unknown", "point", "line", "polygon"]

# How far a delta goes at most, and how often a command is carried out at most.
MAX_DELTA, MAX_COUNT = 2**31 - 1, 2**29 - 1

# The commands of a part of each kind: which one, and how often at least and at most.
PATHS = {1: [(1, 1, MAX_COUNT)], 2: [(1, 1, 1), (2, 1, MAX_COUNT)], 3: [(1, 1, 1), (2, 2, MAX_COUNT), (7, 1, 1)]}


class Refused(Exception):
    """Why a line is refused: the number of the refusal."""

    def __init__(self, number, after_name=""):
        super().__init__(number)
        self.number = number
        # What a reply prints after the name of the refusal.
        self.after_name = after_name


@dataclass(frozen=True)
class Item:
    """A field as it is spelled, or a layer or a feature, whose content is its items."""
    tag: bytes
    # The width that a length was spelled in, if there is one, else 0.
    width: int
    content: object

    @cached_property
    def key(self):
        return number_at(self.tag, 0)[0]


def number_at(data, at):
    """The number that is spelled there, and where its spelling ends."""
    end = at
    while data[end] & 0x80:
        end += 1
    return sum((byte & 0x7F) << 7 * place for place, byte in enumerate(data[at:end + 1])), end + 1


def spelled(number, width=1):
    """The number in that many bytes, or in as few as it needs."""
    groups = []
    while number or len(groups) < width:
        groups.append(number & 0x7F)
        number >>= 7
    return bytes([group | 0x80 for group in groups[:-1]] + groups[-1:])


def bytes_of(items):
    return b"".join(bytes_of_item(item) for item in items)


def bytes_of_item(item):
    content = bytes_of(item.content) if isinstance(item.content, tuple) else item.content
    return item.tag + (spelled(len(content), item.width) if item.width else b"") + content


def read_tile(data):
    return read_items(data, {LAYER: {FEATURE: {}}})


def read_items(data, inner):
    """The items of these bytes. Those with the tags of `inner` are read into."""
    items, at = [], 0
    while at < len(data):
        key, after_tag = number_at(data, at)
        begin, end = bounds(data, after_tag, key & 7)
        content = data[begin:end]
        if key in inner:
            content = read_items(content, inner[key])
        items.append(Item(data[at:after_tag], begin - after_tag, content))
        at = end
    return tuple(items)


def bounds(data, at, wire_type):
    """Where the content of the field whose tag ends there begins, and where it ends."""
    if wire_type == LEN:
        length, begin = number_at(data, at)
        return begin, begin + length
    if wire_type == GROUP:
        return at, group_end(data, at)
    return at, at + SIZES[wire_type] if wire_type in SIZES else number_at(data, at)[1]


def group_end(data, at):
    """Where the end tag of the group whose first field begins there ends."""
    key, after = number_at(data, at)
    while key & 7 != END:
        key, after = number_at(data, bounds(data, after, key & 7)[1])
    return after


def places(items, key):
    """The positions of the items with the tag."""
    return [place for place, item in enumerate(items) if item.key == key]


def last(items, key, default=None):
    """The content of the last field with the tag: its bytes, or its number."""
    found = places(items, key)
    if not found:
        return default
    content = items[found[-1]].content
    return content if key & 7 == LEN else number_at(content, 0)[0]


def put(items, place, item):
    return (*items[:place], item, *items[place + 1:])


def inserted(items, place, item):
    return (*items[:place], item, *items[place:])


def without(items, gone):
    return tuple(item for place, item in enumerate(items) if place not in gone)


def put_last(items, key, content):
    """The last field with the tag gets the content, and if there is none, one is added at the end."""
    found = places(items, key)
    if not found:
        return (*items, Item(spelled(key), int(key & 7 == LEN), content))
    return put(items, found[-1], replace(items[found[-1]], content=content))


def layer_place(tile, chosen):
    """The position of the layer that an ordinal or a name selects."""
    layers = places(tile, LAYER)
    if isinstance(chosen, int):
        return layers[chosen] if chosen < len(layers) else refuse(20)
    named = [place for place in layers if last(tile[place].content, NAME) == chosen]
    return one_of(named, 20, 21)


def feature_place(layer, chosen):
    """The position of the feature that an ordinal, or the one item of a list as an id, selects."""
    features = places(layer.content, FEATURE)
    if isinstance(chosen, int):
        return features[chosen] if chosen < len(features) else refuse(22)
    with_id = [place for place in features if last(layer.content[place].content, ID) == chosen[0]]
    return one_of(with_id, 22, 25)


def one_of(found, none, several):
    return found[0] if len(found) == 1 else refuse(several if found else none)


def refuse(number, after_name=""):
    raise Refused(number, after_name)


def in_layer(tile, place, items):
    return put(tile, place, replace(tile[place], content=items))


def in_feature(tile, place, feature, fields):
    layer = tile[place].content
    return in_layer(tile, place, put(layer, feature, replace(layer[feature], content=fields)))


def moved(items, key, place, index):
    """The item moves to the ordinal among those with the tag."""
    found = places(items, key)
    if index >= len(found):
        refuse(24)
    target = found[index]
    return inserted(without(items, [place]), target, items[place])


def rename_layer(tile, chosen, name):
    place = layer_place(tile, chosen)
    if any(last(tile[other].content, NAME) == name for other in places(tile, LAYER) if other != place):
        refuse(40)
    return in_layer(tile, place, put_last(tile[place].content, NAME, name))


def move_layer(tile, chosen, index):
    return moved(tile, LAYER, layer_place(tile, chosen), index)


def drop_layer(tile, chosen):
    return without(tile, [layer_place(tile, chosen)])


def keep(tile, *names):
    layers = places(tile, LAYER)
    gone = [place for place in layers if last(tile[place].content, NAME) not in names]
    return refuse(20) if len(gone) == len(layers) else without(tile, gone)


def insert(tile, chosen, index, geometry):
    place = layer_place(tile, chosen)
    layer = tile[place].content
    features = places(layer, FEATURE)
    if index > len(features):
        refuse(24)
    kind, parts = geometry
    fields = put_last(put_last((), KIND, spelled(kind)), GEOMETRY, encoded(kind, parts))
    before = features[index] if index < len(features) else features[-1] + 1 if features else len(layer)
    return in_layer(tile, place, inserted(layer, before, Item(spelled(FEATURE), 1, fields)))


def encoded(kind, parts):
    """The numbers of a geometry, packed."""
    numbers, cursor = [], (0, 0)
    for part in parts:
        runs = [(1, part)] if kind == 1 else [(1, part[:1]), (2, part[1:])]
        for command, points in runs:
            numbers.append(command | len(points) << 3)
            for point in points:
                numbers += [zigzag(in_range(to - at)) for to, at in zip(point, cursor)]
                cursor = point
        numbers += [7 | 1 << 3] if kind == 3 else []
    return b"".join(map(spelled, numbers))


def zigzag(number):
    return 2 * number if number >= 0 else -2 * number - 1


def unzigzag(number):
    return number // 2 if number % 2 == 0 else -(number // 2) - 1


def in_range(delta):
    return delta if abs(delta) <= MAX_DELTA else refuse(42)


def move_feature(tile, chosen, feature, index):
    place = layer_place(tile, chosen)
    found = feature_place(tile[place], feature)
    return in_layer(tile, place, moved(tile[place].content, FEATURE, found, index))


def drop_feature(tile, chosen, feature):
    place = layer_place(tile, chosen)
    return in_layer(tile, place, without(tile[place].content, [feature_place(tile[place], feature)]))


def set_id(tile, chosen, feature, number):
    place = layer_place(tile, chosen)
    found = feature_place(tile[place], feature)
    fields = tile[place].content[found].content
    has_it = last(fields, ID) == number
    return tile if has_it else in_feature(tile, place, found, put_last(fields, ID, spelled(number)))


def clear_id(tile, chosen, feature):
    place = layer_place(tile, chosen)
    found = feature_place(tile[place], feature)
    fields = tile[place].content[found].content
    return in_feature(tile, place, found, without(fields, places(fields, ID)))


def layer_places(tile, chosen):
    """The positions of the selected layers: of all for None, else of the one that is named."""
    return places(tile, LAYER) if chosen is None else [layer_place(tile, chosen)]


def rename_key(tile, chosen, old, new):
    place = layer_place(tile, chosen)
    items = tile[place].content
    keys = [items[at].content for at in places(items, KEY)]
    if old not in keys:
        refuse(23)
    if new in keys and new != old:
        refuse(41)
    renamed = {at: replace(items[at], content=new) for at in places(items, KEY) if items[at].content == old}
    return in_layer(tile, place, tuple(renamed.get(at, item) for at, item in enumerate(items)))


def numbers_in(field, single=TAG, packed=TAGS):
    """The numbers of a tags field, or of one with these tags, each as it is spelled; none of any other.

    A body that is not such a sequence is refused.
    """
    if field.key == single:
        return [field.content]
    found, at = [], 0
    while field.key == packed and at < len(field.content):
        end = next((end for end in range(at, len(field.content)) if field.content[end] < 0x80), len(field.content))
        spelling = field.content[at:end + 1]
        if end == len(field.content) or len(spelling) > 10 or number_at(spelling, 0)[0] >= 2**64:
            raise ValueError
        found.append(spelling)
        at = end + 1
    return found


def pairs_in(layer, fields):
    """The pairs of a feature's tags."""
    numbers = [number_at(spelling, 0)[0] for field in fields for spelling in numbers_in(field)]
    pairs = list(zip(numbers[::2], numbers[1::2]))
    counts = len(places(layer, KEY)), len(places(layer, VALUE))
    if len(numbers) % 2 or any(key >= counts[0] or value >= counts[1] for key, value in pairs):
        raise ValueError
    return pairs


def readable(tile, place, feature):
    """The pairs of the feature at this position of the layer at that one, which is refused if there are none."""
    layer = tile[place].content
    try:
        return pairs_in(layer, layer[feature].content)
    except ValueError:
        return refuse(30, feature_shown(tile, place, feature))


def feature_shown(tile, place, feature):
    """What a reply prints of the feature at this position of the layer at that one: the ordinals of both."""
    at = places(tile, LAYER).index(place), places(tile[place].content, FEATURE).index(feature)
    return f" layer {at[0]} feature {at[1]}"


def without_key(tile, place, feature, key):
    """The tile, with no pair of the key in the feature."""
    layer = tile[place].content
    keys = [layer[at].content for at in places(layer, KEY)]
    stays = [keys[pair[0]] != key for pair in readable(tile, place, feature) for _ in pair]
    fields = []
    for field in layer[feature].content:
        numbers = numbers_in(field)
        left = [number for number, kept in zip(numbers, stays) if kept]
        stays = stays[len(numbers):]
        if left or not numbers:
            fields.append(replace(field, content=b"".join(left)) if numbers else field)
    return in_feature(tile, place, feature, tuple(fields))


def set_attribute(tile, chosen, feature, key, value):
    """The feature gets the value, which is its bytes, for the key."""
    place = layer_place(tile, chosen)
    found = feature_place(tile[place], feature)
    pairs = readable(tile, place, found)
    layer = tile[place].content
    (key_at, keys), (value_at, values) = entry(layer, KEY, key), entry(layer, VALUE, value)
    of_key = [layer[at].content == key for at in places(layer, KEY)]
    times = sum(of_key[pair[0]] for pair in pairs)
    if times > 1:
        refuse(31, feature_shown(tile, place, found))
    fields = layer[found].content
    if times:
        wanted = [number for pair in pairs for number in (pair[0], value_at if of_key[pair[0]] else pair[1])]
        fields = with_numbers(fields, wanted)
    else:
        fields = with_pair(fields, spelled(key_at) + spelled(value_at))
    changed = in_feature(tile, place, found, fields)
    return in_layer(changed, place, (*changed[place].content, *keys, *values))


def entry(layer, tag, content):
    """The ordinal of the first of a layer's keys or values that has the content, and what the layer lacks of it."""
    contents = [layer[at].content for at in places(layer, tag)]
    if content in contents:
        return contents.index(content), []
    return len(contents), [Item(spelled(tag), 1, content)]


def with_numbers(fields, wanted, *keys):
    """The fields of a feature, with these numbers of tags, or of the fields with these tags."""
    left, changed = iter(wanted), []
    for field in fields:
        numbers = numbers_in(field, *keys)
        new = [old if number_at(old, 0)[0] == number else spelled(number) for old, number in zip(numbers, left)] if numbers else []
        changed.append(replace(field, content=b"".join(new)) if numbers else field)
    return tuple(changed)


def with_pair(fields, pair):
    """The fields of a feature, with one more pair of tags, after those of the last field if that is packed."""
    tags = [place for place, field in enumerate(fields) if field.key in (TAG, TAGS)]
    if not tags or fields[tags[-1]].key == TAG:
        return (*fields, Item(spelled(TAGS), 1, pair))
    return put(fields, tags[-1], replace(fields[tags[-1]], content=fields[tags[-1]].content + pair))


def unset(tile, chosen, feature, key):
    place = layer_place(tile, chosen)
    found = feature_place(tile[place], feature)
    layer = tile[place].content
    if key not in [layer[at].content for at in places(layer, KEY)]:
        refuse(23)
    return without_key(tile, place, found, key)


def exclude(tile, chosen, key):
    found = [(place, feature) for place in layer_places(tile, chosen) for feature in places(tile[place].content, FEATURE)]
    for place, feature in found:
        readable(tile, place, feature)
    for place, feature in found:
        tile = without_key(tile, place, feature, key)
    return tile


def exclude_all(tile, chosen):
    for place in layer_places(tile, chosen):
        for feature in places(tile[place].content, FEATURE):
            fields = tile[place].content[feature].content
            tile = in_feature(tile, place, feature, without(fields, places(fields, TAGS) + places(fields, TAG)))
    return tile


def without_unused(tile, chosen, tag, at):
    """The tile without the entries with the tag that no pair uses; the first or the second number of a pair names one."""
    meant = layer_places(tile, chosen)
    for place in meant:
        for feature in places(tile[place].content, FEATURE):
            readable(tile, place, feature)
    for place in meant:
        items = tile[place].content
        pairs = {feature: pairs_in(items, items[feature].content) for feature in places(items, FEATURE)}
        used = {pair[at] for found in pairs.values() for pair in found}
        entries = places(items, tag)
        new = {old: ordinal for ordinal, old in enumerate(old for old in range(len(entries)) if old in used)}
        for feature, found in pairs.items():
            wanted = [new[number] if which == at else number for pair in found for which, number in enumerate(pair)]
            tile = in_feature(tile, place, feature, with_numbers(items[feature].content, wanted))
        tile = in_layer(tile, place, without(tile[place].content, [entries[old] for old in range(len(entries)) if old not in used]))
    return tile


def compact_keys(tile, chosen):
    return without_unused(tile, chosen, KEY, 0)


def compact_values(tile, chosen):
    return without_unused(tile, chosen, VALUE, 1)


def compact(tile, chosen):
    return compact_values(compact_keys(tile, chosen), chosen)


def command_at(numbers, at):
    """The command that is there, and where it ends with its parameters."""
    command, count = numbers[at] & 7, numbers[at] >> 3
    return command, at + 1 + (2 * count if command != 7 else 0)


def end_of_run(numbers, at, command, least, most):
    """Where the command that is carried out there, `least` to `most` times, ends with its parameters."""
    found, end = command_at(numbers, at) if at < len(numbers) else (None, 0)
    if found != command or not least <= numbers[at] >> 3 <= most or end > len(numbers):
        raise ValueError
    if max(numbers[at + 1:end], default=0) > zigzag(MAX_DELTA):
        raise ValueError
    return end


def integers_of(fields):
    """The integers of the geometry of a feature with these fields, which has one."""
    numbers = [number_at(spelling, 0)[0] for field in fields for spelling in numbers_in(field, INTEGER, GEOMETRY)]
    kind, at = last(fields, KIND, 0), 0
    if kind not in PATHS:
        raise ValueError
    while at == 0 or at < len(numbers) and kind != 1:
        for command in PATHS[kind]:
            at = end_of_run(numbers, at, *command)
    if at != len(numbers):
        raise ValueError
    return numbers


def shift(tile, chosen, feature, dx, dy):
    place = layer_place(tile, chosen)
    found = feature_place(tile[place], feature)
    fields = tile[place].content[found].content
    try:
        command, x, y, *more = integers_of(fields)
    except ValueError:
        refuse(32, feature_shown(tile, place, found))
    deltas = [in_range(unzigzag(x) + dx), in_range(unzigzag(y) + dy)]
    return in_feature(tile, place, found, with_numbers(fields, [command, *map(zigzag, deltas), *more], INTEGER, GEOMETRY))


def set_geometry(tile, chosen, feature, geometry):
    place = layer_place(tile, chosen)
    found = feature_place(tile[place], feature)
    kind, parts = geometry
    fields = tile[place].content[found].content
    drawn = Item(spelled(GEOMETRY), 1, encoded(kind, parts))
    if last(fields, KIND) != kind:
        fields = put_last(fields, KIND, spelled(kind))
    old = sorted(places(fields, GEOMETRY) + places(fields, INTEGER))
    fields = without(put(fields, old[0], drawn), old[1:]) if old else (*fields, drawn)
    return in_feature(tile, place, found, fields)


def quoted(text):
    """A text as it is printed."""
    try:
        letters = text.decode()
    except UnicodeDecodeError:
        return f"x:{text.hex()}"
    return f'"{"".join(map(escaped, letters))}"'


def escaped(letter):
    if letter in '"\\':
        return f"\\{letter}"
    return f"\\x{ord(letter):02x}" if letter < " " or letter == "\x7f" else letter
