#!/usr/bin/env python3
"""What a change costs: the check's processor time before and after, and lines added and removed.

    docs/changes/times.py BEFORE [AFTER]     commits; AFTER is HEAD unless it is given

Each commit is cloned into a temporary folder and proved there from nothing, one crate at a time
(`rt all verdict --jobs 1`), both at once: on a machine of two cores or more that does nothing else,
they meet the same conditions. It takes as long as the proofs of all crates on one core. The times
are seconds of the processor in user mode: of all crates; of those whose files are the same, whose
difference is chance, or what the change below costs them; and of each that has changed. What is
printed are the tables of a note (README.md beside this).

Needs rt, and commits that its toolchain proves: none before the port to today's (../PORT.md)."""
import collections
import concurrent.futures
import os
import re
import subprocess
import sys
import tempfile

TICKS = os.sysconf("SC_CLK_TCK")
# The first line of what rt says of a crate, once it has ended; behind the last comes a summary.
ENDED = re.compile(r"^== (?!summary$)(\w+)$")
PARTS = {"src": "code", "specs": "definitions", "proofs": "proofs", "must-fail": "edits"}


def git(*words):
    return subprocess.run(["git", *words], check=True, capture_output=True, text=True).stdout


def spent(pid):
    """Seconds in user mode that a process and those that it has waited for have taken."""
    with open(f"/proc/{pid}/stat", encoding="utf-8") as f:
        fields = f.read().rpartition(")")[2].split()
    return (int(fields[11]) + int(fields[13])) / TICKS


def times(commit):
    """The seconds of each crate."""
    found, repository = {}, git("rev-parse", "--show-toplevel").strip()
    with tempfile.TemporaryDirectory() as folder:
        git("clone", "--quiet", repository, folder)
        git("-C", folder, "checkout", "--quiet", commit)
        words = ["rt", "all", "verdict", "--jobs", "1"]
        with subprocess.Popen(words, cwd=folder, stdout=subprocess.PIPE, text=True) as rt:
            before, last = 0, ""
            for last in rt.stdout:
                if ended := ENDED.match(last):
                    now = spent(rt.pid)
                    found[ended[1]], before = now - before, now
    if rt.returncode != 0:
        sys.exit(f"{commit}: {last}")
    return found


def lines(before, after):
    """Lines of crates/ added and removed, by what they are, and the crates that changed."""
    count, crates = collections.defaultdict(lambda: [0, 0]), set()
    for row in git("diff", "--numstat", "--no-renames", before, after, "--", "crates").splitlines():
        added, removed, path = row.split("\t")
        _, crate, part = path.split("/")[:3]
        if part in PARTS:
            crates.add(crate)
            count[PARTS[part]][0] += int(added)
            count[PARTS[part]][1] += int(removed)
    return count, crates


def main():
    if len(sys.argv) not in (2, 3):
        sys.exit(__doc__)
    before, after = (git("rev-parse", each).strip() for each in (sys.argv[1:] + ["HEAD"])[:2])
    count, crates = lines(before, after)
    print("| lines of | added | removed |\n|---|---:|---:|")
    for part in PARTS.values():
        print(f"| {part} | {count[part][0]} | {count[part][1]} |")
    with concurrent.futures.ThreadPoolExecutor() as pool:
        columns = list(pool.map(times, (before, after)))
    print("\n| check | before, s | after, s |\n|---|---:|---:|")
    print_row("all crates", [sum(column.values()) for column in columns])
    same = [sum(column[each] for each in column.keys() - crates) for column in columns]
    print_row("those that have not changed", same)
    for crate in [each for each in {**columns[1], **columns[0]} if each in crates]:
        print_row(f"`{crate}`", [column.get(crate) for column in columns])


def print_row(name, seconds):
    """An empty cell for a crate that is not there."""
    cells = ["" if each is None else f"{each:.1f}" for each in seconds]
    print("|", name, "|", " | ".join(cells), "|")


main()
