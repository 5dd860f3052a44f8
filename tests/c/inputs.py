"""Runs of the examples that list records, include/records.c and bindings/rust/examples/records.rs:
of both the same is expected."""
import os
from typing import NamedTuple

ROOT = os.path.join(os.path.dirname(os.path.abspath(__file__)), "..", "..")
RECORD_SIZE = 195
# what is listed of the sample's first record, and where its checking bearing is reversed
LISTED = "poses 2, best 2, checking target 0.000000 degrees off its bearing\n"
LISTED_BEHIND = "poses 2, choice refused 10\n"
# what is listed of the stored run `lifted`
LIFTED = """\
1 poses 3, best 3, checking target 0.000000 degrees off its bearing
2 poses 3, best 2 (lifted), checking target 0.000000 degrees off its bearing
3 poses 3, best 2, checking target 0.000001 degrees off its bearing
"""
NO_READ = "records: cannot read the input: Is a directory\n"
NO_WRITE = "records: cannot write the listing: No space left on device\n"


class Run(NamedTuple):
    """A run on an input, or with a redirection of the shell's: what it prints on standard output
    and then on standard error, and its exit status."""

    name: str
    given: bytes
    printed: str
    status: int = 0
    redirected: str = ""


def read(path):
    with open(os.path.join(ROOT, path), "rb") as f:
        return f.read()


def behind(record):
    """A record with its checking bearing reversed: the target is behind the camera."""
    bearing = bytearray(record[-24:])
    for sign in (0, 8, 16):
        bearing[sign] ^= 0x80
    return record[:-24] + bytes(bearing)


def runs():
    sample = read("samples/frames.bin")
    good, doubles = sample[:RECORD_SIZE], sample[3:RECORD_SIZE]
    version, length = b"\x00\xc1\x02" + doubles, b"\x00\xc0\x01" + doubles
    first = "1 " + LISTED
    stopped = "2 refused 8\n3 refused 7\n"
    return [
        Run("the sample", sample, read("include/records.txt").decode()),
        Run("another version", good + version + good, first + "2 refused 8\n3 " + LISTED),
        Run("another length", good + version + length + good, first + stopped, 1),
        Run("cut short", good + good[:-1], first + "2 refused 9\n", 1),
        Run("a byte more", good + good[:1], first + "2 refused 9\n", 1),
        Run("behind the camera", good + behind(good), first + "2 " + LISTED_BEHIND),
        Run("a lifted pose", read("crates/poses_runs/data/lifted"), LIFTED),
        Run("a folder", b"", NO_READ, 1, "< /"),
        Run("a full output", sample, NO_WRITE, 1, "> /dev/full"),
    ]
