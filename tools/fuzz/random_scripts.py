"""Random scripts of all requests."""
from random_tiles import one_in
from random_words import LARGEST, REQUESTS
from tiles import LAYER
from walks import MAX_LINE, MAX_MARKS, answers

# Words that fit nowhere, or only in few places.
JUNK = ['"', '"a', 'a"', '"a"b', '"\\n"', '"\\x80"', '"\\x7F"', "x:f", "x:fF", "x:", "#", "@", "#0", "@1", "#x", "*", "/", '"*"', "-", "-1", "+1",
        "1.0", "00", str(LARGEST), str(LARGEST + 1), "9" * 5000, "int", "string", "true", "point", "1,1", "1,", "2147483648,0", "UNDO",
        "\u00e9", "\u00a0", '""']

BLANKS = [" ", "\t", "\r", " \t "]
COMMENTS = ["", " ", "\r", "# undo", " \t#", "#\u00e9"]

# A layer of more items takes the model a long time, and has few lines.
MANY_ITEMS = 100

# How often each is drawn: what puts an end to all the rest is drawn seldom, and undo and redo often.
WEIGHTS = {**dict.fromkeys(REQUESTS, 4), "drop-layer": 1, "keep": 1, "exclude-all": 1, "drop-feature": 2, "set": 8, "shift": 6,
           "undo": 14, "redo": 20, "list": 12, "end": 8, "mark": 6, "back": 8}


def spoiled(draw, words):
    """The words with one more, one less, or another one."""
    at = draw.randrange(len(words))
    return words[:at] + draw.choice([[], [draw.choice(JUNK)], [draw.choice(JUNK)], [words[at]] * 2]) + words[at + 1:]


def laid_out(draw, words):
    """The line of these words, in bytes."""
    blank = draw.choice(BLANKS) if one_in(draw, 10) else " "
    ends = [draw.choice(["", "", " ", "\t"]) for _ in range(2)] if one_in(draw, 10) else ["", ""]
    return (ends[0] + blank.join(words) + ends[1] + ("\r" if one_in(draw, 20) else "")).encode()


def long_line(draw):
    """A line that is as long as one may be, or longer by one byte."""
    front = draw.choice([b"#", b'mark "', b"undo "])
    return front + b" " * (MAX_LINE - len(front) + draw.randrange(2))


def weights(state):
    """How often each request is drawn in this state: seldom if it would be refused."""
    is_open = state.opened is not None
    fits = {"undo": state.point > state.floor, "redo": state.point < len(state.steps), "back": state.marks, "unmark": state.marks}
    fits = {request: fit and not is_open for request, fit in {**fits, "mark": True, "begin": True}.items()}
    fits |= {"end": is_open, "cancel": is_open}
    return [weight if fits.get(request, True) else 1 for request, weight in WEIGHTS.items()]


def random_line(draw, state):
    """A line, in bytes, and the request that it begins with."""
    request, = draw.choices(list(WEIGHTS), weights(state))
    words = [request, *REQUESTS[request](draw, state.tile())]
    kind = draw.randrange(200)
    if kind < 16:
        return laid_out(draw, spoiled(draw, words)), request
    if kind < 20:
        line = bytearray(laid_out(draw, words))
        line[draw.randrange(len(line))] = draw.randrange(256)
        return bytes(line).replace(b"\n", b" "), request
    if kind < 26:
        return draw.choice(COMMENTS).encode(), request
    return (long_line(draw) if kind == 26 and one_in(draw, 2) else laid_out(draw, words)), request


def many_marks(draw):
    """Lines of as many marks as may be, and one or two more."""
    return [b'mark "%d"' % place for place in range(MAX_MARKS + draw.randint(1, 2))]


def random_script(draw, state):
    """A script from this state on, in lines; and for each of them that is answered its request and its answer."""
    lines, found = [], []
    first = many_marks(draw) if one_in(draw, 60) else []
    items = sum(len(item.content) for item in state.start if item.key == LAYER)
    for place in range(len(first) + draw.choice([0, 3, 6, 10, 15, 20, 30] if items <= MANY_ITEMS else [1, 2])):
        line, request = (first[place], "mark") if place < len(first) else random_line(draw, state)
        lines.append(line)
        for answer in answers(state, len(lines), line)[:1]:
            found.append((request, answer))
            state = answer.state
    return lines, found
