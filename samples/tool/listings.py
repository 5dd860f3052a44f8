"""Reading a listing of `poses`."""

import re
from typing import NamedTuple, Optional

from tool import Fault
from tool.numbers import double
from tool.poses import Pose

POSE_LINE = r"updates (\d+)((?: [\da-f]{16}){12}) (lifted|plain)"


class Frame(NamedTuple):
    """What is listed of a record: a refusal number, or poses and which is best."""

    number: int
    refusal: int
    best: int
    poses: list


class Listing(NamedTuple):
    """The frames, the number of a stop or 0, and for one that is not whole where it ends."""

    frames: list
    stop: int
    cut: Optional[str]


class EndsEarly(Exception):
    """A listing ends before its last line; the place."""


class Lines:
    """The lines of a listing, taken one by one."""

    def __init__(self, name, text):
        self.name, self.at = name, 0
        self.lines = text.split("\n")
        self.open_ended = self.lines[-1] != ""  # the last line may be a part of one
        if not self.open_ended:
            self.lines.pop()

    def fault(self, reason):
        return Fault(f"{self.name}, line {self.at}: {reason}: {self.lines[self.at - 1][:60]!r}")

    def take(self, *forms):
        """The place of the form that the next line has, and the match."""
        if self.at == len(self.lines):
            raise EndsEarly(f"it ends after line {self.at}")
        self.at += 1
        for place, form in enumerate(forms):
            if found := re.fullmatch(form, self.lines[self.at - 1], re.A):
                return place, found
        if self.open_ended and self.at == len(self.lines):
            raise EndsEarly(f"it ends within line {self.at}")
        raise self.fault("this is no line of a listing, or not the next one")


def read_pose(lines, number, place):
    _, found = lines.take(rf"{number}\.{place} {POSE_LINE}")
    words = [double(int(word, 16)) for word in found[2].split()]
    rows = [words[i:9:3] for i in range(3)]  # they are listed by columns
    return Pose(int(found[1]), rows, words[9:], found[3] == "lifted")


def read_frame(lines, number):
    """The frame that is listed next, or the refusal number of the stop or 0 of the end."""
    form, found = lines.take(
        f"end {number - 1}",
        f"stop ([79]) at {number}",
        f"{number} refused ([1238])",
        f"{number} poses ([1-4]) best ([0-4])",
    )
    if form < 2:
        return int(found[1]) if form else 0
    if form == 2:
        return Frame(number, int(found[1]), 0, [])
    count, best = int(found[1]), int(found[2])
    if best > count:
        raise lines.fault("the best pose is none of those listed")
    return Frame(number, 0, best, [read_pose(lines, number, i) for i in range(1, count + 1)])


def read(name, text):
    lines, frames = Lines(name, text), []
    try:
        lines.take("poses v1")
        while isinstance(found := read_frame(lines, len(frames) + 1), Frame):
            frames.append(found)
    except EndsEarly as place:
        return Listing(frames, 0, str(place))
    if lines.at < len(lines.lines):
        lines.at += 1
        raise lines.fault("a line after the last")
    return Listing(frames, found, None)
