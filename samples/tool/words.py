"""What each refusal number asks the user to do, in words."""

import textwrap

from tool.numbers import doubles
from tool.poses import norm

WORDS = {
    1: "A number is not finite. Look for the target that was lost: a point or a bearing holds an "
    "infinity or a NaN.",
    2: "No ordering of the targets can be used: each edge of the plate has one and the same ratio "
    "to the sine of the angle under which it is seen. An equilateral plate seen squarely is such a "
    "case: move the camera aside, or use a plate with three unequal edges. Else look whether all "
    "targets are at one place, the coordinates far out of range, or the doubles little-endian: "
    "records are big-endian.",
    3: "No pose fits. Look first whether each bearing has unit length: normalise it in double, "
    "since a length that is off by 1e-6 is mostly refused. Then whether the three targets lie in a "
    "line or two at one place, whether targets were misread or exchanged, whether the plate's size "
    "is below 1e-30 or above 1e30, and whether the doubles are little-endian: records are "
    "big-endian. (Most exchanges are not refused: the angle of the checking target shows them.)",
    7: "The length of this record is not 193. The run stopped, since nobody knows where the next "
    "begins: look whether the program that wrote the records writes the length big-endian, or for "
    "bytes that were lost before here.",
    8: "The record has another version than 1. Write it again by a program that writes version 1; "
    "the records after it were read.",
    9: "The input ends within this record. The run stopped: write or copy the records again.",
    10: "The choice was refused (10): no pose has a finite score. The poses stand. A pose that puts "
    "the checking target behind the camera has no score: look whether its bearing is reversed. "
    "Look also whether the target and its bearing are finite and the bearing is not zero, or "
    "choose by another target.",
}
CENTRE_WARNING = (
    "The camera centre, -R^T t, is for a rough look. Do not use it for holes: at national grid "
    "offsets it loses tenths of a millimetre. For holes take R*x + t as it stands (--hole)."
)


def paragraph(text, indent="  "):
    return textwrap.wrap(text, 96, initial_indent=indent, subsequent_indent=indent)


def seen(refusal, record):
    """What is seen of a refusal's reason in the record itself."""
    if refusal == 1:
        return [f"  not finite: {', '.join(record.not_finite())}"]
    if refusal == 3:
        return [
            f"  length of the {label}: {norm(doubles(vector))!r}"
            for label, vector in record.vectors()[3:6]
        ]
    return []
