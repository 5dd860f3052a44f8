#!/usr/bin/env python3
"""The premise of the scaling rule beside runs of the Rust: `.regular` of the definition `solve`
against the exception flags that the processor raises in the Rust's solve of the same frame; or of
`solve_about`, against the solve about the first target.

  tests/premise/run.py SOURCES                 compare; any violation ends with status 1
  tests/premise/run.py SOURCES --must-notice   the same with each wrong reading of wrong.py in turn,
                                               which must give a violation
  .. --about                                   the solve about the first target in place of it
  .. --each=N                                  frames of each of the reference's kinds (200)

SOURCES is the folder of the Rust's originals (reference/README.md). Run it at the repository's
root, on x86-64, after reference/fetch-nalgebra.sh. README.md says what is compared."""
import os
import struct
import subprocess
import sys
import time
from collections import Counter
from concurrent.futures import ProcessPoolExecutor

import compare
import frames
import named
import natives
import wrong
from interpret import raised

ROOT = os.getcwd()
FOLDER = os.path.join(ROOT, "target", "premise")
DIRECTIONS = {
    "(a) raised, though regular": compare.raised_though_regular,
    "(b) not regular, and nothing raised": compare.silent_though_irregular,
    "other flags than the definition's operations raise": compare.other_flags,
    "another answer": lambda seen: not seen.same,
}


def brinks(frame):
    return list(frames.brinks(frame, compare.Definition(ROOT, compare.SOLVE).is_regular))


def flags_of(sources, listed, solver):
    """The lines of the reference's command `flags` or `flags-about` for these frames."""
    path = os.path.join(FOLDER, "frames.bin")
    with open(path, "wb") as file:
        file.writelines(struct.pack(">18Q", *frame) for _, frame in listed)
    command = [os.path.join(ROOT, "reference/run"), sources, solver.command, path]
    done = subprocess.run(command, check=True, stdout=subprocess.PIPE, text=True)
    return done.stdout.splitlines()


def see_all(work):
    """What is seen of some frames, by the definition with a wrong reading or None."""
    solver, reading, pairs = work
    definition = compare.Definition(ROOT, solver, reading and wrong.changed(ROOT, reading))
    return [compare.see(definition, frame, line) for frame, line in pairs]


def seen_of(pool, solver, listed, lines, reading=None):
    pairs = [(frame, line) for (_, frame), line in zip(listed, lines, strict=True)]
    works = [(solver, reading, pairs[i : i + 500]) for i in range(0, len(pairs), 500)]
    return [seen for part in pool.map(see_all, works) for seen in part]


def violations(seen):
    return {name: [i for i, s in enumerate(seen) if test(s)] for name, test in DIRECTIONS.items()}


def names_of(marks):
    return ", ".join(name for bit, name in raised.NAMES.items() if marks & bit) or "nothing"


def print_counts(listed, seen):
    sorts = Counter(sort for sort, _ in listed)
    regular = Counter(sort for (sort, _), s in zip(listed, seen) if s.regular)
    for sort, count in sorts.items():
        print(f"  {sort}: {count}, of which regular {regular[sort]}")
    irregular = [s for s in seen if not s.regular]
    print(f"{len(seen)} frames: {len(seen) - len(irregular)} regular, {len(irregular)} not")
    for bit in (raised.DIVISION, raised.OVERFLOW, raised.UNDERFLOW, raised.INVALID):
        print(f"  not regular, with {names_of(bit)}: {sum(1 for s in irregular if s.flags & bit)}")
    quiet = Counter(
        (names_of(s.marks), names_of(s.flags & raised.DENORMAL))
        for s in irregular
        if not s.flags & compare.TELLING
    )
    print(f"  not regular, with none of these: {sum(quiet.values())}")
    for (marks, flag), count in quiet.items():
        print(f"    by {marks}, raised: {flag}: {count}")
    roots = sum(1 for s in seen if s.marks & raised.NEGATIVE_ROOT)
    print(f"  with a negative number's square root: {roots}")


def print_violations(listed, found):
    for name, places in found.items():
        print(f"{name}: {len(places)}")
        for i in places[:3]:
            print(f"  {listed[i][0]}: {' '.join(f'{w:016x}' for w in listed[i][1])}")
    total = sum(len(places) for places in found.values())
    print(f"{total} violations")
    return total == 0


def must_notice(pool, solver, listed, lines):
    """Whether every wrong reading is noticed in one direction or the other: the first on all
    frames, the others on every fifth."""
    well = True
    readings = wrong.READINGS_ABOUT if solver == compare.ABOUT else wrong.READINGS
    for place, reading in enumerate(readings):
        step = 5 if place else 1
        found = violations(seen_of(pool, solver, listed[::step], lines[::step], reading))
        raised_only, silent_only, flags, _ = (len(places) for places in found.values())
        noticed = raised_only + silent_only > 0
        well &= noticed
        print(f"{'noticed' if noticed else 'NOT NOTICED'}: {reading}")
        print(f"  of {len(listed[::step])} frames (a) {raised_only}, (b) {silent_only}, "
              f"other flags {flags}", flush=True)  # fmt: skip
    return well


def natives_agree():
    asked, differ = natives.differences(ROOT)
    print(f"roots and fused multiply-add beside their text: {asked} asked, {len(differ)} differ")
    return not differ


def named_as_expected():
    other = named.unexpected(compare.Definition(ROOT, compare.SOLVE))
    print(f"named frames: {len(named.frames())}, of which other than expected {len(other)}")
    return not other


def main():
    words = [w for w in sys.argv[1:] if not w.startswith("--")]
    options = [w for w in sys.argv[1:] if w.startswith("--")]
    if len(words) != 1 or not os.path.exists("crates.txt"):
        sys.exit(__doc__)
    each = next((int(w[7:]) for w in options if w.startswith("--each=")), 200)
    solver = compare.ABOUT if "--about" in options else compare.SOLVE
    os.makedirs(FOLDER, exist_ok=True)
    started = time.monotonic()
    reference = os.path.join(ROOT, "reference/run")
    with ProcessPoolExecutor(os.cpu_count()) as pool:
        brinks_of = lambda plates: pool.map(brinks, plates)
        listed = frames.all_frames(ROOT, reference, words[0], FOLDER, each, brinks_of)
        if solver == compare.ABOUT:
            about = [frames.quieted(frame) for frame in frames.stored_about(ROOT)]
            listed += [("stored, about the first target", frame) for frame in about]
        lines = flags_of(words[0], listed, solver)
        if "--must-notice" in options:
            well = must_notice(pool, solver, listed, lines)
        else:
            seen = seen_of(pool, solver, listed, lines)
            print_counts(listed, seen)
            well = print_violations(listed, violations(seen))
            well &= natives_agree() & named_as_expected()
    print(f"{time.monotonic() - started:.0f} seconds", file=sys.stderr)
    sys.exit(0 if well else 1)


if __name__ == "__main__":
    main()
