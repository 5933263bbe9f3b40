"""Makes a trial that something holds of smaller: fewer lines, fewer items and bytes, shorter spellings."""
import time
from dataclasses import replace

from opening import fault_place
from tiles import LEN, bytes_of, number_at, put, read_tile, spelled

# The seconds that it may take.
LIMIT = 60


def fewer(parts, holds):
    """As few of the parts as are found for which it still holds, in their order."""
    size = len(parts)
    while size:
        at = 0
        while at < len(parts):
            left = parts[:at] + parts[at + size:]
            if holds(left):
                parts = left
            else:
                at += size
        size //= 2
    return parts


def first_that_holds(others, parts, holds):
    return next((other for other in others if other != parts and holds(other)), parts)


def plainer(trial, holds):
    """The trial with as little in its command line as can be."""
    for plain in [{"is_in_place": False}, {"is_file": False}, {"strict": False}, {"depth": None}]:
        trial = first_that_holds([replace(trial, **plain)], trial, holds)
    return trial


def smaller_items(items, holds):
    """The items that are left, and what is left of each."""
    items = fewer(items, holds)
    for place in range(len(items)):
        items = with_smaller_item(items, place, holds)
    return items


def with_smaller_item(items, place, holds):
    item = items[place]

    def as_part(content):
        return put(items, place, replace(item, content=content))

    if isinstance(item.content, tuple):
        content = smaller_items(item.content, lambda content: holds(as_part(content)))
    elif item.key & 7 == LEN:
        content = fewer(item.content, lambda content: holds(as_part(content)))
    else:
        content = item.content
    items = as_part(content)
    left = items[place]
    short = replace(left, tag=spelled(item.key), width=min(item.width, 1), content=shorter(item, content))
    each = [short, replace(left, tag=short.tag), replace(left, width=short.width), replace(left, content=short.content)]
    return first_that_holds([put(items, place, other) for other in each], items, holds)


def shorter(item, content):
    return spelled(number_at(content, 0)[0]) if item.key & 7 == 0 else content


def smaller_tile(tile, holds):
    """The tile with as few items and bytes as are found; bytes that are not a tile, with as few bytes."""
    if fault_place(tile) is None:
        tile = bytes_of(smaller_items(read_tile(tile), lambda items: holds(bytes_of(items))))
    return fewer(tile, holds) if len(tile) < 2000 else tile


def smaller(trial, holds):
    """A smaller trial of which it holds, if it holds of this one."""
    ends = time.monotonic() + LIMIT

    def in_time(other):
        return time.monotonic() < ends and holds(other)

    def with_lines(lines):
        return replace(trial, script=b"\n".join(lines))

    trial = plainer(trial, in_time)
    for _ in range(2):
        trial = with_lines(fewer(trial.script.split(b"\n"), lambda lines: in_time(with_lines(lines))))
        trial = replace(trial, tile=smaller_tile(trial.tile, lambda tile: in_time(replace(trial, tile=tile))))
    return trial
