"""A listing in decimals, each double in the shortest form that reads back to it."""

import math
from typing import NamedTuple

from tool import Fault
from tool.numbers import doubles
from tool.poses import best
from tool.words import CENTRE_WARNING, WORDS, paragraph, seen


class Wanted(NamedTuple):
    """What is asked for besides the poses: camera centres, holes, and the angle in degrees of the
    checking target above which there is no hole."""

    centre: bool
    holes: list
    limit: float


def row(label, vector):
    return f"    {label:<9}" + "".join(f"{x!r:>25}" for x in vector)


def checking(record):
    """The checking target and its bearing."""
    return [doubles(vector) for _, vector in record.vectors()[6:]]


def checking_lines(pose, record):
    """Where a pose puts the checking target, its score, and its angle to its bearing."""
    target, bearing = checking(record)
    score, angle = pose.score(target, bearing), pose.angle(target, bearing)
    score_words = "no score" if score is None else f"score {score!r}"
    angle_words = "no angle" if math.isnan(angle) else f"angle {angle:.6f} degrees"
    return [row("target", pose.camera_point(target)), f"    {score_words}, {angle_words}"]


def pose_lines(frame, place, record, centre):
    pose = frame.poses[place - 1]
    marks = ", best" * (place == frame.best) + ", lifted" * pose.lifted
    lines = [f"  pose {place}, {pose.updates} updates{marks}"]
    lines += [row(label, r) for label, r in zip(("R", "", ""), pose.rows)]
    lines.append(row("t", pose.translation))
    if centre:
        lines.append(row("centre", pose.centre()) + "  (not for holes)")
    return lines + (checking_lines(pose, record) if record else [])


def no_hole(frame, record, limit):
    """Why no hole may be taken from a frame, or None."""
    if not frame.best:
        return "no pose was chosen"
    if not record:
        return None
    angle = frame.poses[frame.best - 1].angle(*checking(record))
    if not angle <= limit:
        off = f"the checking target is {angle:.6f} degrees off its bearing"
        return f"{off}, above the limit of {limit!r}"
    return None


def hole_lines(frame, record, wanted):
    """Where the best pose puts plate points: R*x + t."""
    if not wanted.holes:
        return []
    if reason := no_hole(frame, record, wanted.limit):
        return [f"  no hole: {reason}"]
    lines = [] if record else ["  holes not checked: without the records there is no angle"]
    for hole in wanted.holes:
        lines.append("  hole " + " ".join(map(repr, hole)))
        lines.append(row("camera", frame.poses[frame.best - 1].camera_point(hole)))
    return lines


def counted(count, what):
    return f"{count} {what}{'s' * (count != 1)}"


def frame_lines(frame, record, wanted):
    if frame.refusal:
        found = seen(frame.refusal, record) if record and frame.refusal != 8 else []
        return [f"frame {frame.number}: refused {frame.refusal}"] + (
            paragraph(WORDS[frame.refusal]) + found
        )
    count = len(frame.poses)
    lines = [f"frame {frame.number}: {counted(count, 'pose')}, best {frame.best}"]
    if not frame.best:
        lines += paragraph(WORDS[10])
    for place in range(1, count + 1):
        lines += pose_lines(frame, place, record, wanted.centre)
    return lines + hole_lines(frame, record, wanted)


def head(with_records, centre):
    lines = ["Poses take the plate's points to the camera: camera = R*x + t, R by rows."]
    if with_records:
        lines.append(
            "target: the checking target's camera point; score, angle: how far off its bearing."
        )
    return lines + (paragraph(CENTRE_WARNING, "") if centre else [])


def last_lines(listing):
    if not listing.stop:
        return [f"end: {counted(len(listing.frames), 'frame')}, all of the input"]
    return [f"stop {listing.stop} at record {len(listing.frames) + 1}"] + paragraph(
        WORDS[listing.stop]
    )


def content_differences(frame, record):
    """What shows that a frame was listed of other numbers."""
    if (frame.refusal == 1) != bool(record.not_finite()):
        yield "its numbers that are not finite"
    vectors = [doubles(vector) for _, vector in record.vectors()]
    if not all(pose.fits(vectors[:3], vectors[3:6]) for pose in frame.poses):
        yield "a pose that does not put the plate's points on their bearings"
    if frame.poses and frame.best != best(frame.poses, *vectors[6:]):
        yield "its best pose"


def differences(frame, record):
    """What shows that a frame was listed of another record."""
    if (frame.refusal == 8) != (not record.patterns):
        yield "its version"
    elif frame.refusal != 8:
        yield from content_differences(frame, record)


def agree(listing, records, stop):
    """Whether a listing can be that of these records, by what both tell."""
    listed, whole = len(listing.frames), listing.cut is None
    if listed > len(records) or (whole and (listed, listing.stop) != (len(records), stop)):
        raise Fault(
            f"the listing is of other records: it has {listed} frames and stop {listing.stop}, "
            f"these are {len(records)} with stop {stop} (0 is the end)"
        )
    for frame, record in zip(listing.frames, records):
        if sign := next(differences(frame, record), None):
            raise Fault(f"frame {frame.number}: the listing is of another record, by {sign}")
