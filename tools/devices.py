"""A run of the program over devices that fail, as docs/FORMATS.md has it: how it ends, and how often each call is made.

How many calls there are follows from how many bytes each gives or takes; the program is not asked.
"""
import errno
from collections import Counter
from dataclasses import dataclass, field
from functools import cache

from opening import fault_place
from runs import Ended
from tiles import bytes_of, read_tile
from walks import State, answers

# The devices and the calls, in the order of tools/fail.c. The input is standard input, which is the script if no file is
# named.
DEVICES = ["input", "replies", "complaint", "tile", "script", "out"]
CALLS = ["open", "read", "write", "seek", "close"]

# How often interrupted calls are made again, over all devices; and how many more writes than bytes a print on standard
# error takes at most.
MOST_RETRIES, MOST_REPRINTS = 1000, 64

# How many bytes of the tile and of the script are asked for at a time, and how many of a reply are held back at most.
TILE_PIECE, SCRIPT_PIECE, MOST_HELD = 16_384, 4096, 8192

INTERRUPTED = -errno.EINTR


@dataclass(frozen=True)
class Trouble:
    """What `count` calls of one kind on a device meet, from call `first` on, which is counted from 1."""
    device: str
    call: str
    first: int
    count: int
    # What they answer: a negative error; or of reads and writes 0, or how many bytes they give or take at most.
    answer: int

    def meets(self, device, call, made):
        return (self.device, self.call) == (device, call) and self.first <= made < self.first + self.count


@dataclass(frozen=True)
class Run:
    """What is run, and over which devices."""
    tile: bytes
    script: bytes
    depth: int = 100
    strict: bool = False
    # Whether the script is a file that the command line names, and whether OUT is the file TILE.
    is_file: bool = False
    is_in_place: bool = False
    # How many bytes each call on a device gives or takes at most, if that is not all.
    most: dict = field(default_factory=dict)

    @property
    def source(self):
        """The device that gives the script."""
        return "script" if self.is_file else "input"


class Failed(Exception):
    """A device is at fault."""

    def __init__(self, device):
        super().__init__(device)
        self.device = "script" if device == "input" else device


class Devices:
    """The devices of a run: how often each call was made, what is left of the inputs, and what the outputs took."""

    def __init__(self, run, troubles):
        self.most, self.troubles = run.most, troubles
        self.made, self.retries = Counter(), MOST_RETRIES
        self.opened = []
        self.left = {"tile": run.tile, run.source: run.script}
        self.taken = {"replies": b"", "complaint": b""}
        # What is held back of a reply.
        self.held = b""

    def call(self, device, call, size=0):
        """Makes a call, and returns how many of `size` bytes it gives or takes, or a negative error."""
        self.made[device, call] += 1
        met = [trouble.answer for trouble in self.troubles if trouble.meets(device, call, self.made[device, call])]
        return min(size, self.most.get(device, size), *met)

    def open(self, device):
        """A file is opened. That is tried again as often as it is interrupted."""
        while (answer := self.call(device, "open")) == INTERRUPTED:
            pass
        if answer < 0:
            raise Failed(device)
        self.opened.append(device)
        if device == "out":
            self.taken[device] = b""

    def close(self):
        """All files are closed. Whether that fails changes nothing."""
        for device in self.opened:
            self.call(device, "close")

    def again(self, device, answer):
        """Makes the call with this answer again, if it was interrupted."""
        if answer != INTERRUPTED or not self.retries:
            raise Failed(device)
        self.retries -= 1

    def read(self, device, size):
        """The bytes of a read; none at the end."""
        while (answer := self.call(device, "read", size)) < 0:
            self.again(device, answer)
        given, self.left[device] = self.left[device][:answer], self.left[device][answer:]
        return given

    def write_some(self, device, data):
        """Writes once. Returns what is left to write, and the answer."""
        answer = self.call(device, "write", len(data))
        taken = max(answer, 0)
        self.taken[device] += data[:taken]
        return data[taken:], answer

    def write(self, device, data, least=1):
        """Writes as long as `least` bytes are left, and returns those that are left then."""
        while len(data) >= least:
            data, answer = self.write_some(device, data)
            if answer <= 0:
                self.again(device, answer)
        return data

    def hold(self, data):
        """A part of a reply is held back, but anything longer than may be held is written."""
        if len(self.held) + len(data) > MOST_HELD or len(data) >= MOST_HELD:
            self.pass_on()
        self.held += self.write("replies", data, MOST_HELD)

    def pass_on(self):
        """What is held back is written. A write is tried again as often as it is interrupted."""
        while self.held:
            self.held, answer = self.write_some("replies", self.held)
            if answer <= 0 and answer != INTERRUPTED:
                raise Failed("replies")

    def drop(self):
        """What is still held back is tried once more as the program ends."""
        try:
            self.pass_on()
        except Failed:
            pass

    def complain(self, text):
        """Prints on standard error. Whether that fails changes nothing."""
        for _ in range(len(text) + MOST_REPRINTS):
            text, answer = self.write_some("complaint", text)
            if not text or answer <= 0 and answer != INTERRUPTED:
                break


class Point:
    """A point of a plain walk: the state there, and what each line that was next comes to."""

    def __init__(self, state, line=0):
        self.state, self.line, self.found = state, line, {}

    def next(self, content):
        """The answer to the line, None if it asks for nothing, and the point after it."""
        if content not in self.found:
            answer = next(iter(answers(self.state, self.line + 1, content)), None)
            self.found[content] = answer, Point(answer.state if answer else self.state, self.line + 1)
        return self.found[content]


@cache
def start(tile, depth):
    """The point at the start; how far the bytes are a tile, if they are not one."""
    place = fault_place(tile)
    return Point(State(read_tile(tile), depth)) if place is None else place


def ended_over(run, troubles=()):
    """How a run whose devices meet these troubles ends, and how often each call was made."""
    devices = Devices(run, troubles)
    try:
        status, complaint = carried_out(run, devices)
    except Failed as failed:
        status, complaint = 4, f"device fault: {failed.device}"
    devices.drop()
    devices.close()
    if complaint:
        devices.complain(f"tileshell: {complaint}\n".encode())
    taken = devices.taken
    return Ended(status, taken["replies"], taken["complaint"], taken.get("out")), devices.made


def carried_out(run, devices):
    """The status, and what is to be printed on standard error. First standard input is checked by a read of nothing."""
    devices.call("input", "seek")
    has_input = devices.call("input", "read") >= 0
    devices.open("tile")
    if run.is_file:
        devices.open("script")
    elif not has_input:
        raise Failed("script")
    else:
        devices.call("input", "seek")
    point = start(read_whole(devices, "tile"), run.depth)
    if not isinstance(point, Point):
        return 3, f"tile refused: 1 BadWire place {point}"
    any_refused = False
    for content in lines_of(devices, run.source):
        answer, point = point.next(content)
        if answer:
            reply(devices, answer)
            any_refused |= answer.refusal is not None
        if any_refused and run.strict:
            return 1, ""
    devices.open("out")
    devices.write("out", bytes_of(point.state.tile()))
    return int(any_refused), ""


def read_whole(devices, device):
    data = b""
    while piece := devices.read(device, TILE_PIECE):
        data += piece
    return data


def lines_of(devices, device):
    """The lines of the script, each as soon as it is read."""
    rest = b""
    while piece := devices.read(device, SCRIPT_PIECE):
        *lines, rest = (rest + piece).split(b"\n")
        yield from lines
    if rest:
        yield rest


def reply(devices, answer):
    text = answer.reply.encode()
    printed = 0 if answer.refusal else len(text) - len("ok\n")
    devices.hold(text[:printed])
    devices.hold(text[printed:])
    devices.pass_on()
