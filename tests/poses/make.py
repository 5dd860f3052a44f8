#!/usr/bin/env python3
"""Writes the stored runs of the listing: crates/poses_runs/data, a file for each run,
crates/poses_runs/args, the argument, and crates/poses_runs/stdout, what is expected.

    python3 tests/poses/make.py                 write the files
    python3 tests/poses/make.py --check         say whether the files are as this script makes them
    python3 tests/poses/make.py --all PROGRAM   have a program list every stored frame, and compare

The frames and their answers are the Rust's, of crates/replay/data/rust/frame.bin
(reference/README.md has its layout), and the listing is put together from these as document 01
says, "Frame records and their listing", with the last word of document 02, §8. PROGRAM is
crates/poses/out/poses. With --all it is given the frames by a file, and then by pipes that hand it
a few bytes at a time."""

import errno
import os
import subprocess
import sys
import tempfile
from typing import NamedTuple

sys.dont_write_bytecode = True
import replies

ROOT = os.path.join(os.path.dirname(os.path.abspath(__file__)), "..", "..")
FRAMES = os.path.join(ROOT, "crates", "replay", "data", "rust", "frame.bin")
# the frames that are stored by name
NAMED = os.path.join(ROOT, "reference", "inputs", "frames.txt")
RUNS = os.path.join(ROOT, "crates", "poses_runs")
LENGTH, VERSION, SIZE = 193, 1, 195
# the bytes of a stored frame with its answer
STORED = 664
# the word that a pose's line ends in, by its mark
MARKS = ["plain", "lifted"]
# the records that the program's buffer holds
BUFFER = 64


class Frame(NamedTuple):
    """A stored frame: its 24 words, and the Rust's answer."""

    words: list
    refusal: int
    count: int
    best: int
    slots: list

    def unseen(self):
        """The same with a checking bearing of zeros, along which every depth is zero: the choice is
        refused."""
        return self._replace(words=self.words[:21] + [0] * 3, best=0)

    def record(self, length=LENGTH, version=VERSION):
        return (
            length.to_bytes(2, "big")
            + bytes([version])
            + b"".join(word.to_bytes(8, "big") for word in self.words)
        )

    def lines(self, number):
        if self.refusal:
            return f"{number} refused {self.refusal}\n"
        poses = [
            f"{number}.{j + 1} updates {u}{''.join(f' {w:016x}' for w in pose)} {MARKS[mark]}\n"
            for j, (u, mark, *pose) in enumerate(self.slots)
        ]
        return f"{number} poses {self.count} best {self.best}\n" + "".join(poses[: self.count])


def stored_frame(stored):
    words = [int.from_bytes(stored[i : i + 8], "big") for i in range(0, len(stored), 8)]
    return Frame(words[:24], *words[24:27], [words[i : i + 14] for i in range(27, len(words), 14)])


def stored_frames():
    content = open(FRAMES, "rb").read()
    return [stored_frame(content[i : i + STORED]) for i in range(0, len(content), STORED)]


def named(frames, names):
    """The stored frames of these names."""
    lines = [line.split() for line in open(NAMED, encoding="utf-8") if not line.startswith("#")]
    words = {line[0]: [int(word, 16) for word in line[1:]] for line in lines}
    return [next(frame for frame in frames if frame.words == words[name]) for name in names]


def listing(frames, last=None):
    """The listing of frames, whole or with the line that a stop has for the last one."""
    lines = [frame.lines(i + 1) for i, frame in enumerate(frames)]
    return "poses v1\n" + "".join(lines) + (last or f"end {len(frames)}\n")


def whole(frames):
    return b"".join(frame.record() for frame in frames), listing(frames)


def stopped(frames, rest, refusal):
    """Frames, and then bytes at which the run stops."""
    return b"".join(frame.record() for frame in frames) + rest, listing(
        frames, f"stop {refusal} at {len(frames) + 1}\n"
    )


def runs(frames):
    """Each run's name, input and listing, in the order in which crates/poses_runs lists them."""
    first = {}
    for frame in frames:
        first.setdefault((frame.refusal, frame.count, frame.best), frame)
    for count in range(1, 5):
        first.setdefault((0, count, 0), first[0, count, 1].unseen())
    answers = [first[key] for key in sorted(first, key=lambda key: (key[0] == 0, key))]
    one, two = first[0, 1, 1], first[0, 2, 2]
    skipped = f"poses v1\n1 refused 8\n{one.lines(2)}end 2\n"
    filling = [frame for frame in frames if frame.refusal][:BUFFER]
    # the pose behind is passed over; with the bearing reversed it is taken; then all are behind
    behind = named(frames, ["hand-behind", "hand-behind-turned", "hand-behind-all"])
    # two poses come together, are one that stands twice, and have changed places
    cylinder = ["hand-cylinder-outside", "hand-cylinder", "hand-cylinder-inside"]
    lifted = named(frames, cylinder)
    return [
        ("empty", *whole([])),
        ("lone_byte", *stopped([], b"\0", 9)),
        ("two_bytes", *stopped([], LENGTH.to_bytes(2, "big"), 9)),
        ("length_192", *stopped([one], two.record(length=192) + one.record(), 7)),
        ("length_194", *stopped([one], two.record(length=194) + one.record(), 7)),
        ("length_194_alone", *stopped([], (194).to_bytes(2, "big"), 7)),
        ("truncated", *stopped([one, two], one.record()[:100], 9)),
        ("truncated_by_one", *stopped([one], two.record()[:-1], 9)),
        ("version_2", two.record(version=2) + one.record(), skipped),
        ("answers", *whole(answers)),
        ("behind", *whole(behind)),
        ("lifted", *whole(lifted)),
        ("buffer", *whole(filling)),
        ("buffer_and_byte", *stopped(filling, b"\0", 9)),
        ("thousand", *whole(frames[-1000:])),
        # a folder opens and cannot be read: a read that fails ends the run
        (".", None, "poses v1\n"),
    ]


# the replies in the order in which crates/poses_runs asks for them, and what is then on standard
# error: two usages, and why the folder's run ended
ARGUMENT = "--version\n"
REPLIES = replies.VERSION + listing([]) + replies.HELP + replies.VERSION
SAID = replies.USAGE * 2 + replies.cannot_read(errno.EISDIR)


def files(frames):
    """What is stored: a path in crates/poses_runs, and its content."""
    made = runs(frames)
    listings = "".join(f"{name}\n{text}" for name, _, text in made)
    yield "args", ARGUMENT.encode()
    yield "stdout", (REPLIES + listings + SAID).encode()
    for name, content, _ in made:
        if content is not None:
            yield os.path.join("data", name), content


def store(checking):
    total = 0
    for name, content in files(stored_frames()):
        path = os.path.join(RUNS, name)
        total += len(content)
        if not checking:
            os.makedirs(os.path.dirname(path), exist_ok=True)
            open(path, "wb").write(content)
        elif open(path, "rb").read() != content:
            sys.exit(f"{name} differs from what this script makes")
    print(f"{total} bytes")


def piped(program, content, part):
    """What a program writes that is given its input by so many bytes at a time."""
    with tempfile.TemporaryFile() as out:
        process = subprocess.Popen([program], stdin=subprocess.PIPE, stdout=out)
        for i in range(0, len(content), part):
            process.stdin.write(content[i : i + part])
            process.stdin.flush()
        process.stdin.close()
        process.wait()
        out.seek(0)
        return out.read()


def compare(program):
    frames = stored_frames()
    content, expected = whole(frames)
    with tempfile.TemporaryFile() as given:
        given.write(content)
        given.seek(0)
        listed = {"a file": subprocess.run([program], stdin=given, stdout=subprocess.PIPE).stdout}
    for part in (1, 97, SIZE, 1000):
        listed[f"a pipe, {part} bytes at a time"] = piped(program, content, part)
    for way, text in listed.items():
        if text != expected.encode():
            sys.exit(f"the listing of the frames from {way} differs from the Rust's answers")
        print(
            f"{len(frames)} frames from {way}: {len(text)} bytes, as the Rust's answers have them"
        )


if __name__ == "__main__":
    if len(sys.argv) == 3 and sys.argv[1] == "--all":
        compare(sys.argv[2])
    elif sys.argv[1:] in ([], ["--check"]):
        store(sys.argv[1:] == ["--check"])
    else:
        sys.exit(__doc__)
