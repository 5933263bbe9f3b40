"""Which bytes are a tile, as docs/FORMATS.md has it, and where other bytes stop being one."""
from tiles import END, FEATURE, GROUP, LAYER, LEN, SIZES, number_at

VARINT = 0

# The messages that are read into, by the tags of their fields.
TILE = {LAYER: {FEATURE: {}}}

LONGEST_NUMBER, MOST_OPEN = 10, 100


class Broken(Exception):
    """The bytes are not an item from this place on."""


def fault_place(data, inner=TILE):
    """The length of the longest prefix that is whole items, or None if all the bytes are."""
    at = 0
    while at < len(data):
        try:
            at = item_end(data, at, inner)
        except Broken:
            return at
    return None


def item_end(data, at, inner):
    """Where the item that begins there ends."""
    key, after = whole_tag(data, at)
    begin, end = whole_body(data, after, key, 0)
    if key in inner and fault_place(data[begin:end], inner[key]) is not None:
        raise Broken
    return end


def whole_number(data, at):
    """The number that is spelled there, and where its spelling ends."""
    spelling = data[at:at + LONGEST_NUMBER]
    if all(byte >= 0x80 for byte in spelling):
        raise Broken
    number, end = number_at(data, at)
    return (number, end) if number < 2**64 else broken()


def broken():
    raise Broken


def whole_tag(data, at):
    key, end = whole_number(data, at)
    return (key, end) if 8 <= key < 2**32 else broken()


def whole_body(data, at, key, opened):
    """Where the content of the field whose tag ends there begins, and where it ends; `opened` groups are open around it."""
    wire_type = key & 7
    if wire_type == VARINT:
        return at, whole_number(data, at)[1]
    if wire_type == GROUP:
        return at, whole_group(data, at, key, opened + 1)
    if wire_type == LEN:
        length, at = whole_number(data, at)
    else:
        length = SIZES[wire_type] if wire_type in SIZES else broken()
    return (at, at + length) if at + length <= len(data) else broken()


def whole_group(data, at, key, opened):
    """Where the end tag of the group with this tag whose first field begins there ends; `opened` groups are open, including this
    one."""
    if opened > MOST_OPEN:
        raise Broken
    inner, after = whole_tag(data, at)
    while inner & 7 != END:
        inner, after = whole_tag(data, whole_body(data, after, inner, opened)[1])
    return after if inner >> 3 == key >> 3 else broken()
