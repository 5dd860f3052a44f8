#!/usr/bin/env python3
"""Writes the control records of the program replay: crates/replay/data/control, records of which
some must be found to differ.

    python3 tests/replay/make.py           write the files
    python3 tests/replay/make.py --check   say whether the files are those that this script makes

Each is made of a stored record, the answer of exact arithmetic (data/exact) or the Rust's
(data/rust), by changing one bit of the answer, once of an argument, or by cutting it short:

    sqrt.bin          as it is stored; with the last bit of the root changed; without its last byte,
                      which is 0, as is what the program's array holds there before it reads
    frame.bin         as it is stored; with the last bit of one entry of slot 1 changed, the last of
                      its rotation; with the last bit of the refusal number changed; with the mark
                      of slot 1 changed
    about.bin         an answer as it is stored; with the last bit of the origin's z changed; a
                      refusal as it is stored; with the last bit of the origin's x changed, which
                      then is no zero
    choice_about.bin  a choice as it is stored; with the last bit of its place changed; of its
                      score; a refusal as it is stored; with the last bit of its number changed
    plate_scale.bin   a scaled plate as it is stored; with the last bit of the inverse's last entry
                      changed; with the word changed that says whether there is an inverse; with an
                      exponent 2^32 greater; a refusal as it is stored; with the last bit of the
                      first point's x changed in the plate that is given back
    plate_solve.bin   an answer as it is stored; with the last bit of slot 1's last word changed
    plate_preview.bin an answer as it is stored; with the last bit of the last edge changed; of slot
                      1's last word; a refused solve as it is stored; with plus zeros for its edges;
                      a refused replacement as it is stored; with a minus zero for its first edge"""

import os
import sys

DATA = os.path.join(
    os.path.dirname(os.path.abspath(__file__)), "..", "..", "crates", "replay", "data"
)
# where the words of a stored frame begin: the refusal number, the count, slot 1
REFUSAL, COUNT, SLOT_1 = 192, 200, 328
# and of an answer about the first target: the refusal number, the origin
ABOUT_REFUSAL, ORIGIN = 144, 160
# of a choice about a point: its number, place and score
CHOSEN = 464
# of a plate times a power of two: the exponent, the number, the plate after it; in a plate the
# inverse's last entry, and whether there is one
EXPONENT, SCALED = 176, 184
LAST_ENTRY, INVERTIBLE = 160, 168
# of a solve with a plate: the count, the last word of slot 1
PLATE_COUNT, PLATE_SLOT_1_END = 256, 480
# of a preview: the refusal number, the edges, the last word of slot 1
SHOWN, SHOWN_EDGES, SHOWN_SLOT_1_END = 280, 296, 424


def stored(name, size):
    content = open(os.path.join(DATA, name), "rb").read()
    return [content[i : i + size] for i in range(0, len(content), size)]


def word(record, at):
    return int.from_bytes(record[at : at + 8], "big")


def changed(record, at, bit=0):
    """The record with a bit of the word at a place, by default the last, the other way round."""
    return record[:at] + (word(record, at) ^ 1 << bit).to_bytes(8, "big") + record[at + 8 :]


def files():
    # the first root that ends in a zero byte and is not zero, and the first frame with two poses
    root = next(r for r in stored("exact/sqrt.bin", 16) if word(r, 8) and r[-1] == 0)
    frame = next(r for r in stored("rust/frame.bin", 664) if word(r, COUNT) == 2)
    mark, last_entry = SLOT_1 + 8, SLOT_1 + 16 + 8 * 8
    yield "sqrt.bin", root + changed(root, 8) + root[:-1]
    wrong = [changed(frame, at) for at in (last_entry, REFUSAL, mark)]
    yield "frame.bin", frame + b"".join(wrong)
    # the first answer about the first target, and the first refusal
    about = stored("rust/about.bin", 632)
    solved = next(r for r in about if word(r, ABOUT_REFUSAL) == 0)
    refused = next(r for r in about if word(r, ABOUT_REFUSAL) != 0)
    yield "about.bin", solved + changed(solved, ORIGIN + 16) + refused + changed(refused, ORIGIN)
    yield "choice_about.bin", b"".join(choices_about())
    yield "plate_scale.bin", b"".join(scaled_plates())
    # the first solve with a plate that has two poses
    solved = next(r for r in stored("rust/plate_solve.bin", 712) if word(r, PLATE_COUNT) == 2)
    yield "plate_solve.bin", solved + changed(solved, PLATE_SLOT_1_END)
    yield "plate_preview.bin", b"".join(previews())


def choices_about():
    # the first choice and the first refusal
    records = stored("rust/choice_about.bin", 488)
    chosen = next(r for r in records if word(r, CHOSEN) == 0)
    refused = next(r for r in records if word(r, CHOSEN) != 0)
    yield chosen
    yield changed(chosen, CHOSEN + 8)
    yield changed(chosen, CHOSEN + 16)
    yield refused
    yield changed(refused, CHOSEN)


def scaled_plates():
    # the first plate with an inverse, times two to a number above zero, and the first refusal
    records = stored("rust/plate_scale.bin", 368)
    plate = SCALED + 8
    scaled = next(
        r
        for r in records
        if word(r, SCALED) == 0 and word(r, plate + INVERTIBLE) and 0 < word(r, EXPONENT) < 65
    )
    refused = next(r for r in records if word(r, SCALED) != 0)
    yield scaled
    yield changed(scaled, plate + LAST_ENTRY)
    yield changed(scaled, plate + INVERTIBLE)
    yield changed(scaled, EXPONENT, 32)
    yield refused
    yield changed(refused, plate)


def previews():
    # the first answer, the first refused solve, and the first target that there is not
    records = stored("rust/plate_preview.bin", 768)
    solved, unsolved, refused = (
        next(r for r in records if word(r, SHOWN) == number) for number in (0, 3, 11)
    )
    yield solved
    yield changed(solved, SHOWN_EDGES + 16)
    yield changed(solved, SHOWN_SLOT_1_END)
    yield unsolved
    yield unsolved[:SHOWN_EDGES] + bytes(24) + unsolved[SHOWN_EDGES + 24 :]
    yield refused
    yield changed(refused, SHOWN_EDGES, 63)


def main(checking):
    folder = os.path.join(DATA, "control")
    for name, content in files():
        path = os.path.join(folder, name)
        print(f"{name} {len(content)} bytes")
        if not checking:
            os.makedirs(folder, exist_ok=True)
            open(path, "wb").write(content)
        elif open(path, "rb").read() != content:
            sys.exit(f"{name} differs from what this script makes")


if __name__ == "__main__":
    main(sys.argv[1:] == ["--check"])
