"""The walks that a script may take: what each of its lines may be answered, and the state that then stands.

A plain walk answers each line as docs/FORMATS.md says. If memory is refused, a line may be answered differently: one
that may need memory by 60, with nothing changed, and a `back` or `cancel` by 54 with as many steps or commands taken as it
says. A state is the tile at the start and the commands since: its tile is made anew from these.
"""
import re
import sys
from dataclasses import dataclass, field, replace
from functools import cached_property

import tiles
from listings import listed
from tiles import Refused, refuse

MAX_NUMBER = 2**64 - 1
MAX_COORDINATE = 2**31 - 1
MAX_MARKS = 256
MAX_LINE = 65_536

# Numbers may have any count of digits.
sys.set_int_max_str_digits(0)

NAMES = {
    10: "BadUtf8", 11: "BadWord", 12: "UnknownCommand", 13: "BadArguments", 14: "BadNumber", 15: "BadValue", 16: "BadGeometryText",
    17: "LineTooLong",
    20: "NoLayer", 21: "AmbiguousLayer", 22: "NoFeature", 23: "NoKey", 24: "BadPlace", 25: "AmbiguousFeature",
    30: "BadTags", 31: "RepeatedKey", 32: "BadGeometry", 40: "NameTaken", 41: "KeyTaken", 42: "OutOfRange",
    50: "NothingToUndo", 51: "NothingToRedo", 52: "NoMark", 53: "TooManyMarks", 54: "Stopped", 55: "GroupOpen",
    56: "NoGroup", 60: "NoMemory",
}

WORD = re.compile(r'[ \t\r]*(?:"((?:[^"\\]|\\["\\]|\\x[0-7][0-9a-fA-F])*)"|([^ \t\r"]+))(?=[ \t\r]|$)')


@dataclass(frozen=True)
class Word:
    text: str
    is_quoted: bool


@dataclass(frozen=True)
class State:
    """A history: its steps are lists of commands, and a command is a function of `tiles` with its arguments."""
    start: tuple
    depth: int
    steps: tuple = ()
    point: int = 0
    floor: int = 0
    marks: dict = field(default_factory=dict)
    # The commands of the open step, if one is open.
    opened: tuple = None

    def tile(self):
        return self.edited

    @cached_property
    def edited(self):
        tile = self.start
        for step in (*self.steps[:self.point], self.opened or ()):
            for command, arguments in step:
                tile = command(tile, *arguments)
        return tile


@dataclass(frozen=True)
class Answer:
    reply: str
    state: State
    # The number of the refusal, if the line is refused.
    refusal: int = None
    # How many steps or commands were taken, if it is 54.
    taken: int = None


def words_of(line):
    """The words of a line."""
    words, at = [], 0
    while line[at:].strip(" \t\r"):
        found = WORD.match(line, at) or refuse(11)
        quoted, bare = found.groups()
        words.append(Word(bare, False) if quoted is None else Word(unescaped(quoted), True))
        at = found.end()
    return words


def unescaped(quoted):
    return re.sub(r'\\(?:x(..)|(.))', lambda found: chr(int(found[1], 16)) if found[1] else found[2], quoted)


def text(word):
    if word.is_quoted:
        return word.text.encode()
    return bytes.fromhex(word.text[2:]) if re.fullmatch(r"x:([0-9a-fA-F]{2})*", word.text) else refuse(13)


def number(word):
    is_one = not word.is_quoted and re.fullmatch("[0-9]+", word.text) and int(word.text) <= MAX_NUMBER
    return int(word.text) if is_one else refuse(14)


def layer(word):
    is_ordinal = not word.is_quoted and word.text.startswith("#")
    return number(Word(word.text[1:], False)) if is_ordinal else text(word)


def layers(word):
    """None for all, else a layer."""
    return None if word == Word("*", False) else layer(word)


def feature(word):
    """An ordinal, or a list of one id."""
    is_id = not word.is_quoted and word.text.startswith("@")
    return [number(Word(word.text[1:], False))] if is_id else number(word)


# The types of values that a bare word says: what it looks like, and the bytes of the value.
VALUES = {
    "float": ("[0-9a-fA-F]{8}", lambda digits: b"\x15" + bytes.fromhex(digits)),
    "double": ("[0-9a-fA-F]{16}", lambda digits: b"\x19" + bytes.fromhex(digits)),
    "int": ("-?[0-9]+", lambda digits: b"\x20" + tiles.spelled(within(digits, -2**63, 2**63 - 1) % 2**64)),
    "uint": ("[0-9]+", lambda digits: b"\x28" + tiles.spelled(within(digits, 0, MAX_NUMBER))),
    "sint": ("-?[0-9]+", lambda digits: b"\x30" + tiles.spelled(tiles.zigzag(within(digits, -2**63, 2**63 - 1)))),
    "bool": ("true|false", lambda truth: b"\x38\x01" if truth == "true" else b"\x38\x00"),
}


def within(digits, least, most):
    return int(digits) if least <= int(digits) <= most else refuse(15)


def value(kind, word):
    """The bytes of the value that a word says, of the type that the word before it names."""
    if kind == Word("string", False):
        try:
            said = text(word)
        except Refused:
            refuse(15)
        return b"\x0a" + tiles.spelled(len(said)) + said
    if kind.is_quoted or word.is_quoted or kind.text not in VALUES:
        refuse(15)
    form, bytes_of = VALUES[kind.text]
    return bytes_of(word.text) if re.fullmatch(form, word.text) else refuse(15)


def geometry(words):
    """The kind, and the parts in points."""
    if any(word.is_quoted for word in words):
        refuse(16)
    first, *others = [word.text for word in words]
    kind = tiles.KINDS.index(first) if first in tiles.KINDS[1:] else refuse(16)
    parts = [[]]
    for word in others:
        if word == "/" and kind > 1:
            parts.append([])
        else:
            parts[-1].append(point(word))
    return (kind, parts) if all(len(part) >= kind for part in parts) else refuse(16)


def point(word):
    found = re.fullmatch("(-?[0-9]+),(-?[0-9]+)", word) or refuse(16)
    pair = tuple(map(int, found.groups()))
    return pair if max(map(abs, pair)) <= MAX_COORDINATE else refuse(16)


def distance(word):
    is_one = not word.is_quoted and re.fullmatch("-?[0-9]+", word.text) and abs(int(word.text)) <= MAX_COORDINATE
    return int(word.text) if is_one else refuse(14)


# The commands: what each argument is.
COMMANDS = {
    "rename-layer": (tiles.rename_layer, [layer, text]),
    "move-layer": (tiles.move_layer, [layer, number]),
    "drop-layer": (tiles.drop_layer, [layer]),
    "move-feature": (tiles.move_feature, [layer, feature, number]),
    "drop-feature": (tiles.drop_feature, [layer, feature]),
    "set-id": (tiles.set_id, [layer, feature, number]),
    "clear-id": (tiles.clear_id, [layer, feature]),
    "unset": (tiles.unset, [layer, feature, text]),
    "rename-key": (tiles.rename_key, [layer, text, text]),
    "exclude": (tiles.exclude, [layers, text]),
    "exclude-all": (tiles.exclude_all, [layers]),
    "shift": (tiles.shift, [layer, feature, distance, distance]),
    "compact-keys": (tiles.compact_keys, [layers]),
    "compact-values": (tiles.compact_values, [layers]),
    "compact": (tiles.compact, [layers]),
}


def command_of(request, words):
    """The command and its arguments; none if the request is not a command."""
    if request == "keep":
        return tiles.keep, [text(word) for word in words or refuse(13)]
    if request == "insert":
        place, index, *rest = words if len(words) > 2 else refuse(13)
        return tiles.insert, [layer(place), number(index), geometry(rest)]
    if request == "set":
        place, of, key, kind, said = words if len(words) == 5 else refuse(13)
        return tiles.set_attribute, [layer(place), feature(of), text(key), value(kind, said)]
    if request == "set-geometry":
        place, of, *rest = words if len(words) > 2 else refuse(13)
        return tiles.set_geometry, [layer(place), feature(of), geometry(rest)]
    if request not in COMMANDS:
        return None
    command, kinds = COMMANDS[request]
    return command, arguments(kinds, words)


def arguments(kinds, words):
    return [kind(word) for kind, word in zip(kinds, words)] if len(kinds) == len(words) else refuse(13)


def edit(state, command):
    """The state after a command that is accepted."""
    function, given = command
    function(state.tile(), *given)
    if state.opened is not None:
        return replace(state, opened=(*state.opened, command))
    return with_step(state, (command,))


def with_step(state, step):
    present, point = state.point, state.point + 1
    floor = max(state.floor, point - state.depth)
    marks = {name: at for name, at in state.marks.items() if floor <= at <= present}
    return replace(state, steps=(*state.steps[:present], step), point=point, floor=floor, marks=marks)


def closed(state):
    return state if state.opened is None else refuse(55)


def undo(state):
    at = closed(state).point
    return replace(state, point=at - 1) if at > state.floor else refuse(50)


def redo(state):
    at = closed(state).point
    return replace(state, point=at + 1) if at < len(state.steps) else refuse(51)


def mark(state, name):
    has_room = name in closed(state).marks or len(state.marks) < MAX_MARKS
    return replace(state, marks={**state.marks, name: state.point}) if has_room else refuse(53)


def unmark(state, name):
    marks = closed(state).marks
    left = {other: at for other, at in marks.items() if other != name}
    return replace(state, marks=left) if name in marks else refuse(52)


def back(state, name):
    marks = closed(state).marks
    return replace(state, point=marks[name]) if name in marks else refuse(52)


def begin(state):
    return replace(closed(state), opened=())


def end(state):
    step = refuse(56) if state.opened is None else state.opened
    ended = replace(state, opened=None)
    return with_step(ended, step) if step else ended


def cancel(state):
    return refuse(56) if state.opened is None else replace(state, opened=None)


# What changes the state and prints nothing.
MOVES = {"undo": (undo, []), "redo": (redo, []), "mark": (mark, [text]), "unmark": (unmark, [text]), "back": (back, [text]),
         "begin": (begin, []), "end": (end, []), "cancel": (cancel, [])}


def marks_printed(state):
    return [f"mark {tiles.quoted(name)} {at - state.point}" for name, at in sorted(state.marks.items())]


def history_printed(state):
    ways = f"undo {state.point - state.floor} redo {len(state.steps) - state.point} depth {state.depth}"
    return [ways] if state.opened is None else [ways, f"open {len(state.opened)}"]


def size_printed(state):
    return [f"size {len(tiles.bytes_of(state.tile()))}"]


# What prints something and changes nothing.
VIEWS = {"marks": marks_printed, "history": history_printed, "size": size_printed}


def carried_out(state, words):
    """The state after the request, and the lines that it prints."""
    request, rest = words[0].text, words[1:]
    if words[0].is_quoted:
        refuse(12)
    if request in MOVES:
        move, kinds = MOVES[request]
        return move(state, *arguments(kinds, rest)), []
    if request in VIEWS:
        arguments([], rest)
        return state, VIEWS[request](state)
    if request == "list":
        chosen = [kind(word) for kind, word in zip([layer, feature], rest)] if len(rest) <= 2 else refuse(13)
        return state, listed(state.tile(), *chosen)
    return edit(state, command_of(request, rest) or refuse(12)), []


def refusal(line, state, reason, taken=None, after_name=""):
    after_name = after_name if taken is None else f" taken {taken}"
    return Answer(f"line {line} refused {reason} {NAMES[reason]}{after_name}\n", state, reason, taken)


def plain(state, line, words):
    """How the line is answered if there is memory."""
    try:
        after, printed = carried_out(state, words)
    except Refused as refused:
        return refusal(line, state, refused.number, after_name=refused.after_name)
    return Answer("".join(f"{each}\n" for each in [*printed, "ok"]), after)


def stops(state, line, request, after):
    """How an accepted `back` or `cancel` that stops on its way is answered."""
    if request == "back":
        way = after.point - state.point
        for taken in range(abs(way)):
            yield refusal(line, replace(state, point=state.point + (taken if way > 0 else -taken)), 54, taken)
    if request == "cancel":
        for taken in range(len(state.opened)):
            yield refusal(line, replace(state, opened=state.opened[:len(state.opened) - taken]), 54, taken)


def answers(state, line, content):
    """Each answer that the line, which is bytes, may have; the first is the plain one. None if it asks for nothing."""
    if len(content) > MAX_LINE:
        return [refusal(line, state, 17)]
    try:
        return answers_to(state, line, content.decode())
    except UnicodeDecodeError:
        return [refusal(line, state, 10)]


def answers_to(state, line, content):
    if not content.strip(" \t\r") or content.lstrip(" \t\r").startswith("#"):
        return []
    try:
        words = words_of(content)
    except Refused as refused:
        return [refusal(line, state, refused.number)]
    first = plain(state, line, words)
    out_of_memory = [refusal(line, state, 60)] if may_run_out(state, words, first) else []
    stopped = [] if first.refusal else stops(state, line, words[0].text, first.state)
    return [first, *out_of_memory, *stopped]


def may_run_out(state, words, first):
    """Whether the line may be answered 60: to read several words takes memory, and to carry out what a word alone asks for."""
    if len(words) > 1:
        return True
    takes_none = {"begin", "cancel"}
    takes_none |= {"end"} if len(state.opened or ()) < 2 else set()
    takes_none |= set() if state.marks else {"marks"}
    return not first.refusal and words[0].text not in takes_none


def plain_walk(state, script):
    """The plain answers, one after the other."""
    found = []
    for line, content in enumerate(script, 1):
        for answer in answers(state, line, content)[:1]:
            found.append(answer)
            state = answer.state
    return found


def replies_of(answers):
    return "".join(answer.reply for answer in answers)


def walk(state, script, replies):
    """The walk of these replies: the answers, each with whether it is the plain one, and the state at the end."""
    found, rest = [], replies
    for line, content in enumerate(script, 1):
        allowed = answers(state, line, content)
        if not allowed:
            continue
        taken = next((answer for answer in allowed if rest.startswith(answer.reply)), None)
        if taken is None:
            raise ValueError(f"line {line} is answered as no walk answers it: {rest!r}")
        found.append((taken, taken is allowed[0]))
        rest, state = rest[len(taken.reply):], taken.state
    if rest:
        raise ValueError(f"{rest!r} comes after the last line")
    return found, state
