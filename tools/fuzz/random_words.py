"""The words after each request, drawn so that the tile mostly has what they name."""
import tiles
from random_tiles import IDS, MAX, NUMBERS, TEXTS, one_in, parts
from tiles import FEATURE, ID, KEY, LAYER, NAME, last, places

LARGEST = 2**64 - 1


def quoted(draw, text):
    """A word that writes the text: quoted if it is UTF-8, or by its digits."""
    try:
        letters = text.decode()
    except UnicodeDecodeError:
        letters = None
    if letters is None or one_in(draw, 5):
        return "x:" + draw.choice([text.hex(), text.hex().upper()])
    return '"' + "".join(letter_of(draw, letter) for letter in letters) + '"'


def letter_of(draw, letter):
    """The letter of a quoted word, or an escape for it; some letters need one."""
    if letter in '"\\' and not one_in(draw, 3):
        return "\\" + letter
    code = draw.choice([f"{ord(letter):02x}", f"{ord(letter):02X}"])
    return f"\\x{code}" if letter in '\n"\\' or ord(letter) < 128 and one_in(draw, 8) else letter


def number(draw, value):
    return "0" * draw.choice([0, 0, 0, 0, 1, 30]) + str(value)


def text(draw):
    return quoted(draw, draw.choice(TEXTS))


def below(draw, count):
    """An ordinal below the count, or sometimes one above."""
    return number(draw, draw.choice([count, count + 1, LARGEST]) if not count or one_in(draw, 12) else draw.randrange(count))


def chosen_layer(draw, tile):
    """A word that selects a layer of the tile, mostly, and the items of that layer."""
    found = places(tile, LAYER)
    if not found or one_in(draw, 20):
        return draw.choice([text(draw), "#" + below(draw, len(found))]), ()
    ordinal = draw.randrange(len(found))
    items = tile[found[ordinal]].content
    name = last(items, NAME)
    return "#" + number(draw, ordinal) if name is None or one_in(draw, 2) else quoted(draw, name), items


def chosen_feature(draw, items):
    """A word that selects a feature of the layer with these items, mostly."""
    found = places(items, FEATURE)
    known = ids_in(items)
    if one_in(draw, 3):
        return "@" + number(draw, draw.choice(known if known and not one_in(draw, 8) else IDS))
    return below(draw, len(found))


def ids_in(items):
    """The ids of the features of the layer with these items."""
    found = (last(items[place].content, ID) for place in places(items, FEATURE))
    return [each for each in found if each is not None]


def chosen_key(draw, items):
    keys = [items[place].content for place in places(items, KEY)]
    return quoted(draw, draw.choice(keys)) if keys and not one_in(draw, 8) else text(draw)


def layers(draw, tile):
    word, items = chosen_layer(draw, tile)
    return ("*", next((tile[place].content for place in places(tile, LAYER)), ())) if one_in(draw, 3) else (word, items)


def delta(draw):
    return number(draw, draw.choice([0, 1, 5, 30, 4096, MAX - 70])) if one_in(draw, 2) else f"-{draw.choice([0, 1, 30, MAX])}"


def geometry(draw):
    kind = draw.randint(1, 3)
    drawn = [" ".join(f"{x},{y}" for x, y in part) for part in parts(draw, kind)]
    if one_in(draw, 30):
        drawn[0] = f"{MAX},0 {-MAX},0 {drawn[0]}"
    return [tiles.KINDS[kind], *" / ".join(drawn).split()]


def value(draw):
    if one_in(draw, 15):
        return draw.choice([["int", str(2**63)], ["sint", "--1"], ["float", "0" * 7], ["bool", '"true"'], ["string", "a"], ["raw", "00"]])
    integer = draw.choice([each - 2**63 for each in NUMBERS] + [0, 1, 5, -1, 300])
    return draw.choice([["string", text(draw)], ["float", draw.randbytes(4).hex()], ["double", draw.randbytes(8).hex().upper()],
                        ["int", str(integer)], ["sint", str(integer)], ["uint", number(draw, draw.choice(NUMBERS))],
                        ["bool", draw.choice(["true", "false"])]])


def of_layer(draw, tile):
    return [chosen_layer(draw, tile)[0]]


def of_layers(draw, tile):
    return [layers(draw, tile)[0]]


def of_feature(draw, tile):
    word, items = chosen_layer(draw, tile)
    return [word, chosen_feature(draw, items)]


def set_id(draw, tile):
    word, items = chosen_layer(draw, tile)
    return [word, chosen_feature(draw, items), number(draw, draw.choice([*ids_in(items), *ids_in(items), *IDS]))]


def of_key(draw, tile):
    word, items = chosen_layer(draw, tile)
    return [word, chosen_feature(draw, items), chosen_key(draw, items)]


def insert(draw, tile):
    word, items = chosen_layer(draw, tile)
    return [word, below(draw, len(places(items, FEATURE)) + 1), *geometry(draw)]


def move_feature(draw, tile):
    word, items = chosen_layer(draw, tile)
    return [word, chosen_feature(draw, items), below(draw, len(places(items, FEATURE)))]


def rename_key(draw, tile):
    word, items = chosen_layer(draw, tile)
    return [word, chosen_key(draw, items), text(draw)]


def exclude(draw, tile):
    word, items = layers(draw, tile)
    return [word, chosen_key(draw, items)]


def keep(draw, tile):
    names = [last(tile[place].content, NAME) for place in places(tile, LAYER)]
    known = [quoted(draw, name) for name in names if name is not None and not one_in(draw, 3)]
    return [*known, text(draw)]


def listing(draw, tile):
    return draw.choice([of_feature, of_feature, of_layer, lambda draw, tile: []])(draw, tile)


def nothing(draw, tile):
    return []


def name(draw, tile):
    """The name of a mark."""
    return [quoted(draw, draw.choice(TEXTS[:4]))]


# The words after each command.
COMMANDS = {
    "rename-layer": lambda draw, tile: [*of_layer(draw, tile), text(draw)],
    "move-layer": lambda draw, tile: [*of_layer(draw, tile), below(draw, len(places(tile, LAYER)))],
    "drop-layer": of_layer, "keep": keep, "insert": insert, "move-feature": move_feature, "drop-feature": of_feature,
    "set-id": set_id,
    "clear-id": of_feature,
    "set": lambda draw, tile: [*of_key(draw, tile), *value(draw)],
    "unset": of_key, "rename-key": rename_key, "exclude": exclude, "exclude-all": of_layers,
    "shift": lambda draw, tile: [*of_feature(draw, tile), delta(draw), delta(draw)],
    "set-geometry": lambda draw, tile: [*of_feature(draw, tile), *geometry(draw)],
    "compact-keys": of_layers, "compact-values": of_layers, "compact": of_layers,
}

# The words after each other request.
OTHERS = {"undo": nothing, "redo": nothing, "mark": name, "unmark": name, "back": name, "begin": nothing, "end": nothing,
          "cancel": nothing, "marks": nothing, "history": nothing, "size": nothing, "list": listing}

REQUESTS = {**COMMANDS, **OTHERS}
