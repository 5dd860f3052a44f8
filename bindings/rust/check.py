#!/usr/bin/env python3
"""Checks the crate: layout, lints, tests, documentation, examples, package and a missing library.

    bindings/rust/check.py LIBRARY       LIBRARY: the path of libp3p.a

The examples must print what is stored in include/, as those in C do (tests/c/inputs.py has the runs
of `records`). Another input, and a plate with another hole, must be found to differ. Needs cargo
with rustfmt and clippy, and no network."""
import os
import re
import shutil
import subprocess
import sys
import tarfile
import tempfile

CRATE = os.path.dirname(os.path.abspath(__file__))
sys.dont_write_bytecode = True
sys.path.insert(0, os.path.join(CRATE, "..", "..", "tests", "c"))
import inputs

ADVICE = "run rt lib in crates/p3p, or set P3P_LIBRARY"
# apart from the crate's own builds: cargo takes the packaged copy's for the crate's
PACKAGED = "target/packaged"
COMMANDS = [
    "fmt --check",
    "clippy --offline --all-targets -- -D warnings",
    "test --offline --quiet",
    "doc --offline --no-deps",
    f"package --offline --allow-dirty --target-dir {PACKAGED}",
]
EXAMPLE = "run --offline --quiet --example "
# Changes of plate.rs's numbers, and what the example says then.
CHANGES = [
    ("[0.0, 0.375, 0.0]", "[1.0, 0.0, 0.0]", "no pose was kept\n"),
    ("[0.075, 0.25, 2.4]", "[0.0, 0.25, 2.4]", "not confirmed\n"),
    # the checking bearing reversed
    ("[0.075, 0.25, 2.4]", "[-0.075, -0.25, -2.4]", "no pose has a finite score\n"),
]
OTHER_HOLES = {
    "plate": ("[0.25, -0.5, 0.0]", "[0.25, -0.5, 0.000001]"),
    "grid": ("5334000.0, 512.125]", "5334000.0, 512.125001]"),
    "one_plate": ("[0.25, -0.5, 0.0]", "[0.25, -0.5, 0.000001]"),
    "preview": ("[0.25, -0.5, 0.0]", "[0.25, -0.5, 0.000001]"),
}
PRINTED = {
    "plate": "include/example.txt",
    "grid": "include/grid.txt",
    "one_plate": "include/plate.txt",
    "preview": "include/preview.txt",
}


def cargo(command, library, given=b"", folder=CRATE):
    """Runs cargo by the shell, so that a command can have redirections."""
    env = {**os.environ, "P3P_LIBRARY": library, "RUSTDOCFLAGS": "-D warnings"}
    return subprocess.run(
        "cargo " + command, shell=True, cwd=folder, env=env, input=given, capture_output=True
    )


def printed(run):
    """What a run printed, on standard error last, in C's words."""
    return re.sub(r" \(os error \d+\)", "", (run.stdout + run.stderr).decode(errors="replace"))


def command_faults(library):
    for command in COMMANDS:
        run = cargo(command, library)
        if run.returncode != 0:
            yield f"cargo {command}:\n{printed(run)}"


def records_fault(library, given, expected):
    """What is wrong with a run of the example `records`, if anything is."""
    run = cargo(f"{EXAMPLE}records {expected.redirected}", library, given)
    same = (printed(run), run.returncode) == (expected.printed, expected.status)
    return None if same else f"example records, {expected.name}: {run.returncode}\n{printed(run)}"


def records_faults(library):
    runs = inputs.runs()
    for expected in runs:
        fault = records_fault(library, expected.given, expected)
        if fault:
            yield fault
    if not records_fault(library, runs[1].given, runs[0]):
        yield "example records: another input is not noticed"


def changed_example(name, folder, library, old="", new=""):
    """A run of an example with a change, in a copy of the crate."""
    with open(os.path.join(CRATE, "examples", name + ".rs"), encoding="utf-8") as f:
        text = f.read()
    with open(os.path.join(folder, "examples", name + ".rs"), "w", encoding="utf-8") as f:
        f.write(text.replace(old, new))
    return cargo(EXAMPLE + name, library, folder=folder)


def plate_faults(library, folder):
    for name, path in PRINTED.items():
        stored = inputs.read(path)
        run = changed_example(name, folder, library)
        if run.stdout != stored:
            yield f"example {name}:\n{printed(run)}"
        if changed_example(name, folder, library, *OTHER_HOLES[name]).stdout == stored:
            yield f"example {name}: another hole is not noticed"
    for old, new, said in CHANGES:
        run = changed_example("plate", folder, library, old, new)
        if run.returncode != 1 or run.stderr.decode() != said:
            yield f"example plate with {new}: {run.returncode}\n{printed(run)}"


def packaged_notice():
    """The NOTICE of the package that was made last."""
    with os.scandir(os.path.join(CRATE, PACKAGED, "package")) as entries:
        packages = [entry.path for entry in entries if entry.name.endswith(".crate")]
    with tarfile.open(max(packages, key=os.path.getmtime)) as archive:
        names = [name for name in archive.getnames() if name.endswith("/NOTICE")]
        return archive.extractfile(names[0]).read() if names else None


def says_what_is_missing(text, file):
    return f"error: {file}: " in text and ADVICE in text and "panicked" not in text


def missing_faults(folder):
    """What is wrong with the message for a missing library, in a copy of the crate that has none
    of its own: the file is named by its whole path."""
    own = os.path.join(folder, "../../crates/p3p/out/libp3p.a")
    named = {"": own, "/no/libp3p.a": "/no/libp3p.a", "no/p3p.a": os.path.join(folder, "no/p3p.a")}
    for library, file in named.items():
        run = cargo("build --offline", library, folder=folder)
        if run.returncode == 0 or not says_what_is_missing(printed(run), file):
            yield f"a missing library, '{library}':\n{printed(run)}"
    if says_what_is_missing(f"thread 'main' panicked: error: {own}: {ADVICE}", own):
        yield "a panic is taken for a message"


def main():
    if len(sys.argv) != 2:
        sys.exit(__doc__)
    library = os.path.abspath(sys.argv[1])
    faults = [*command_faults(library), *records_faults(library)]
    with tempfile.TemporaryDirectory() as root:
        folder = os.path.join(root, "bindings", "rust")
        shutil.copytree(CRATE, folder, ignore=shutil.ignore_patterns("target"))
        faults += [*plate_faults(library, folder), *missing_faults(folder)]
    if packaged_notice() != inputs.read("NOTICE"):
        faults.append("the package's NOTICE is not the repository's")
    print(*faults, f"bindings/rust: {len(faults)} faults", sep="\n")
    sys.exit(1 if faults else 0)


main()
