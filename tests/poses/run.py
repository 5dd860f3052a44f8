#!/usr/bin/env python3
"""Runs the program `poses` where a stored run cannot: on an output that takes nothing, on an input
that cannot be read, and with arguments. Each run is held to what it writes, to what it says on
standard error, to its exit status, which is 0, and with arguments to leaving its input unread.

    python3 tests/poses/run.py PROGRAM          PROGRAM is crates/poses/out/poses

Stand-ins that are wrong in a known way are run too, and must be found wrong in the runs in which
they are."""
import errno
import os
import shlex
import subprocess
import sys
import tempfile
from typing import NamedTuple

sys.dont_write_bytecode = True
import replies
from make import stored_frames, whole

FRAMES = stored_frames()
# few fit a pipe; the listing of many is longer than the program's buffer
FEW, FEW_LISTED = whole(FRAMES[-3:])
MANY, MANY_LISTED = whole(FRAMES[-1000:])
PIPE = 4096
CLOSED, UNREAD, FULL = "closed", "unread", "/dev/full"
SECONDS = 60


class Case(NamedTuple):
    """A run: its arguments; its input, as bytes, a folder or closed; its output, which is read, or
    is full, closed or a pipe that nobody reads; and what it writes and says."""

    name: str
    words: list = []
    given: object = FEW
    out: str = "read"
    written: str = ""
    said: str = ""


NO_SPACE = replies.cannot_write(errno.ENOSPC)
CASES = [
    Case("few frames", written=FEW_LISTED),
    Case("many frames", given=MANY, written=MANY_LISTED),
    Case("a full output", out=FULL, said=NO_SPACE),
    Case("a full output, midway", given=MANY, out=FULL, said=NO_SPACE),
    Case("an output that nobody reads", out=UNREAD, said=replies.cannot_write(errno.EPIPE)),
    Case("no output", out=CLOSED, said=replies.cannot_write(errno.EBADF)),
    Case("a folder", [], "/", written="poses v1\n", said=replies.cannot_read(errno.EISDIR)),
    Case("no input", [], CLOSED, written="poses v1\n", said=replies.cannot_read(errno.EBADF)),
    Case("a file's name", ["frames.bin"], said=replies.USAGE),
    Case("an empty argument", [""], said=replies.USAGE),
    Case("less than an option", ["--hel"], said=replies.USAGE),
    Case("more than an option", ["--help" + "p" * 9999], said=replies.USAGE),
    Case("two options", ["--help", "--version"], said=replies.USAGE),
    Case("help", ["--help"], written=replies.HELP),
    Case("version", ["--version"], written=replies.VERSION),
    Case("help, a full output", ["--help"], out=FULL, said=replies.cannot_reply(errno.ENOSPC)),
]


class StandIn(NamedTuple):
    """A shell script in the program's place, and in which runs it is wrong."""

    name: str
    script: str
    wrong: object


READING = "test $# = 0 || cat > /dev/null; "
STAND_INS = [
    StandIn("does nothing", "", lambda case: True),
    StandIn("says nothing", '{} "$@" 2> /dev/null', lambda case: case.said != ""),
    StandIn("says more", '{} "$@"; echo more >&2', lambda case: True),
    StandIn("ends with 1", '{} "$@"; exit 1', lambda case: True),
    StandIn("reads first", READING + '{} "$@"', lambda case: case.words != []),
    StandIn("takes no arguments", "{}", lambda case: case.words != []),
]


def input_of(given):
    """A descriptor to read the input from: a pipe where it fits one."""
    if given == CLOSED:
        return os.open(os.devnull, os.O_RDONLY)
    if isinstance(given, str):
        return os.open(given, os.O_RDONLY)
    if len(given) <= PIPE:
        reader, writer = os.pipe()
        os.write(writer, given)
        os.close(writer)
        return reader
    fd = os.memfd_create("frames")
    os.write(fd, given)
    os.lseek(fd, 0, os.SEEK_SET)
    return fd


def output_of(out):
    if out == UNREAD:
        reader, writer = os.pipe()
        os.close(reader)
        return writer
    return os.open(out, os.O_WRONLY) if out == FULL else subprocess.PIPE


def difference(program, case):
    """In what a run is not as expected, or nothing."""
    closing = (" <&-" if case.given == CLOSED else "") + (" >&-" if case.out == CLOSED else "")
    given, out = input_of(case.given), output_of(case.out)
    # Signals are as a shell has them: a write that nobody reads ends a program that does not ignore
    # SIGPIPE, as one of Rattle does.
    run = subprocess.run(
        ["sh", "-c", f'exec "$0" "$@"{closing}', program, *case.words],
        stdin=given,
        stdout=out,
        stderr=subprocess.PIPE,
        timeout=SECONDS,
    )
    left = os.read(given, PIPE) if case.words else case.given
    os.close(given)
    if out != subprocess.PIPE:
        os.close(out)
    if (run.stdout or b"").decode() != case.written:
        return f"writes {run.stdout[:200]}"
    if run.stderr.decode() != case.said:
        return f"says {run.stderr[:200]}"
    if run.returncode != 0:
        return f"ends with {run.returncode}"
    return "" if left == case.given else "reads its input"


def check(program):
    wrong = [f"{case.name}: {d}" for case in CASES if (d := difference(program, case))]
    if wrong:
        sys.exit("\n".join(wrong))
    print(f"{len(CASES)} runs of {program}, as expected")


def check_stand_in(stand_in, program, path):
    with open(path, "w", encoding="utf-8") as f:
        f.write("#!/bin/sh\n" + stand_in.script.format(shlex.quote(program)) + "\n")
    os.chmod(path, 0o755)
    for case in CASES:
        if bool(difference(path, case)) != stand_in.wrong(case):
            sys.exit(f"a stand-in that {stand_in.name} is not found as it is: {case.name}")
    count = sum(map(stand_in.wrong, CASES))
    print(f"a stand-in that {stand_in.name}: found wrong in {count} of {len(CASES)} runs")


def main():
    if len(sys.argv) != 2:
        sys.exit(__doc__)
    program = os.path.abspath(sys.argv[1])
    check(program)
    with tempfile.TemporaryDirectory() as folder:
        for stand_in in STAND_INS:
            check_stand_in(stand_in, program, os.path.join(folder, "stand_in"))


if __name__ == "__main__":
    main()
