#!/usr/bin/env python3
"""Frame records and listings of `poses`, for people.

  record.py make [TEXT] > RECORDS          24 numbers a frame as text, made into records
  record.py show [RECORDS]                 records as text that `make` reads back
  record.py listing [RECORDS] LISTING      a listing in decimals, refusals in words

A frame is three plate points, three bearings, the checking target and its bearing, each x, y, z."""

import argparse
import math
import os
import sys

sys.dont_write_bytecode = True  # the tool leaves nothing behind in the tree

from tool import Fault, decimals, listings, numbers, records

NUMBERS_HELP = (
    "Numbers are parted by blanks or line ends; '#' starts a comment. Besides decimals there are "
    "inf, -inf, nan (in any case; infinity too), hex:0x1.8p-3 and bits:3fc8000000000000 (the "
    "double's bit pattern). A number too large for a double is an error and no infinity. On an "
    "error nothing is written."
)
LISTING_HELP = (
    "With the records of which the listing was made, each pose also has the camera point, score "
    "and angle of the checking target. It is then an error if a pose does not put the plate's "
    "points on their bearings, or another pose is the best, or refusal 1, 8 or a stop is not where "
    "the records have it. The exit status is 1 where the listing is not whole, or the run stopped "
    "before the input's end."
)


def content(path):
    """What a file holds, and its name in messages; - is standard input."""
    if path == "-":
        if sys.stdin is None:
            raise Fault("standard input is closed")
        return "standard input", sys.stdin.buffer.read()
    with open(path, "rb") as file:
        return path, file.read()


def text(path):
    """A file's text, whichever line ends it has."""
    name, data = content(path)
    found = data.decode("utf-8-sig", "replace")
    return name, found.replace("\r\n", "\n").replace("\r", "\n")


def read_records(path):
    """The records up to the end or a stop, and the stop or None."""
    try:
        return records.decode(*content(path)), None
    except records.Stop as stop:
        return stop.before, stop


def make(options):
    frames = numbers.groups(*text(options.text), records.NUMBERS, "frame")
    sys.stdout.buffer.write(b"".join(map(records.encode, frames)))


def show(options):
    found, stop = read_records(options.records)
    for record in found:
        print(*records.text_lines(record), sep="\n")
    if stop:
        sys.stdout.flush()
        raise stop


def holes_of(options):
    given = list(options.hole)
    if options.holes:
        given += numbers.groups(*text(options.holes), 3, "hole")
    holes = [numbers.doubles(hole) for hole in given]
    for hole in holes:
        if not all(map(math.isfinite, hole)):
            raise Fault(f"a hole has three finite numbers, not {' '.join(map(repr, hole))}")
    return holes


def cut_words(name, listed):
    return f"{name} is not whole: {listed.cut}, without `end` or `stop`"


def frames_of(name, listed, options):
    """Those that are asked for."""
    if options.frame is None:
        return listed.frames
    if not 1 <= options.frame <= len(listed.frames):
        cut = f"; {cut_words(name, listed)}" if listed.cut else ""
        raise Fault(f"the listing has no frame {options.frame}{cut}")
    return [listed.frames[options.frame - 1]]


def listing(options):
    if [options.records, options.listing, options.holes].count("-") > 1:
        raise Fault("only one of the files can be standard input")
    wanted = decimals.Wanted(options.centre, holes_of(options), options.limit)
    name, listed_text = text(options.listing)
    listed, found = listings.read(name, listed_text), []
    if options.records:
        found, stop = read_records(options.records)
        decimals.agree(listed, found, stop.refusal if stop else 0)
    asked = frames_of(name, listed, options)
    print(*decimals.head(found, wanted.centre), sep="\n")
    for frame in asked:
        record = found[frame.number - 1] if found else None
        print("", *decimals.frame_lines(frame, record, wanted), sep="\n")
    if listed.cut:
        sys.stdout.flush()
        raise Fault(cut_words(name, listed))
    print("", *decimals.last_lines(listed), sep="\n")
    return 1 if listed.stop else 0


def hole_number(word):
    try:
        return numbers.pattern(word.strip())
    except Fault as fault:
        raise argparse.ArgumentTypeError(f"a hole has three numbers: {fault}") from None


def degrees(word):
    value = float(word)
    if not 0 <= value <= 90:
        raise argparse.ArgumentTypeError(f"{word.strip()} is not from 0 to 90 degrees")
    return value


def listing_options(add):
    add("records", nargs="?", metavar="RECORDS", help="what the listing was made of")
    add("listing", metavar="LISTING", help="what `poses` wrote; - is standard input")
    add("--frame", type=int, metavar="N", help="this frame alone")
    add("--centre", action="store_true", help="the camera centre too; not to be used for holes")
    add(
        "--hole",
        nargs=3,
        action="append",
        type=hole_number,
        default=[],
        metavar=("X", "Y", "Z"),
        help="a plate point: where the best pose puts it (may be repeated)",
    )
    add("--holes", metavar="FILE", help="plate points of a file, three numbers each")
    add(
        "--limit",
        type=degrees,
        default=0.01,
        metavar="DEGREES",
        help="no hole where the checking target is farther off its bearing; 0.01 unless given",
    )


class HelpChecked(argparse.ArgumentParser):
    """With an error where the help cannot be written, which argparse itself may ignore."""

    def print_help(self, file=None):
        print(self.format_help(), end="", file=file)


def parser():
    plain = argparse.RawDescriptionHelpFormatter
    whole = HelpChecked(description=__doc__, formatter_class=plain)
    commands = whole.add_subparsers(required=True, metavar="make | show | listing")

    def command(run, summary, epilog=None):
        made = commands.add_parser(run.__name__, help=summary, description=summary, epilog=epilog)
        made.set_defaults(run=run)
        return made.add_argument

    given = {"nargs": "?", "default": "-", "help": "standard input unless given"}
    command(make, "24 numbers a frame as text, made into records", NUMBERS_HELP)(
        "text", metavar="TEXT", **given
    )
    command(show, "records as text that `make` reads back")("records", metavar="RECORDS", **given)
    listing_options(command(listing, "a listing in decimals, refusals in words", LISTING_HELP))
    return whole


def options_of(words):
    # argparse takes -1e-3 for an option, and with a blank before it for a number
    return parser().parse_args([f" {w}" if numbers.is_negative(w) else w for w in words])


def status_of(words):
    try:
        options = options_of(words)
    except SystemExit as done:  # help was asked for, or the words were wrong
        return done.code
    return options.run(options)


def main():
    if sys.stdout is None:
        sys.exit("record.py: standard output is closed")
    try:
        status = status_of(sys.argv[1:])
        sys.stdout.flush()
    except (Fault, OSError) as fault:
        if isinstance(fault, OSError):  # what could not be written is not tried again at the exit
            os.dup2(os.open(os.devnull, os.O_WRONLY), sys.stdout.fileno())
        if isinstance(fault, BrokenPipeError):  # nobody reads on, as in `record.py show | head`
            sys.exit(1)
        sys.exit(f"record.py: {fault}")
    sys.exit(status)


if __name__ == "__main__":
    main()
