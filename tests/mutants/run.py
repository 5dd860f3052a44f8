#!/usr/bin/env python3
"""The strength of the contracts: changes an operator, an operand or a constant in the body of each
function of the library crates, and sees the prover refuse each change. Contracts, specs/ and
proofs/ stay as they are.

  tests/mutants/run.py CRATE...      try the mutants of these crates (default: all), write
                                     results/CRATE.tsv for each, and RESULT.md. A result of the same
                                     files is gone on with, and one of other files is begun anew
  .. --rounds=N                      stop after N checks of each crate
  tests/mutants/run.py --table       write RESULT.md from the results that are there
  tests/mutants/run.py --witness CRATE..  look again for inputs at which the mutants of its result
                                     differ (interpret/witness.py)
  tests/mutants/run.py --list CRATE  print the mutants and try none
  tests/mutants/run.py --edits       see that each must-fail edit changes an answer, at the input
                                     that its comment names, and that no two functions have one
                                     path (check/edits.py)
  tests/mutants/run.py --refusals    see that each was refused for a fact, by what was said of it:
                                     `rt must-fail > target/must-fail.txt` before it
                                     (check/refusals.py)

Run it at the repository's root, after `rt check` in the crates' folders, with whose work it begins
on the same machine. `RT` in the environment is the command for rt.

A change is of an operator (+ to -, < to <=, a `!` left out; of structs to one of the same types),
of an operand (another local or field of its type, another field before the `..` of a struct, two
arguments, a receiver and an argument or the two structs of an operator exchanged; a literal where
there is no other of the type), of a constant (the next number or double, another variant of the
same parts), and, when those are used up, of a called function (another of the same type). What is
chosen follows from SEED.

Functions go by the paths that `rt check` prints of them, of a trait's impl too
(`linalg::matrix3::Matrix3MulVector3::mul`). A check of the unchanged crate must speak of each.

Each function is proved against the contracts of those that it calls, so one check tries a mutant in
every function of a crate at once. A function that calls a refused one is not proved either; what
counts is whether its own proof has an error. A mutant that seems to be proved though a callee is
refused is tried again alone. Ten mutants a public function, or all that there are. A mutant counts
for the ten only if it is refused for a fact (a goal that is not proved, two values that are not
equal) or survives; one that changes which facts the proof file is asked for counts apart, under
shape, and is replaced by another while there are others (up to TRIES). A private function is given
three: what a public one returns rests on its contract too.

The crates are the libraries of crates.txt that have a function. Programs have no contracts that say
what they write, and are left out; so are eight functions that read or write (change/bodies.py).
reasons.txt says why a survivor is equivalent."""
# The other files are in folders, none of which uses a later one: syntax, change, interpret, check.
# The __init__.py of a folder says what it holds.
import os
import sys

from change.bodies import functions_of
from change.mutants import mutants_of
from check.crates import CRATES
from check.edits import try_edits
from check.refusals import read_refusals
from check.results import add_witness
from check.rounds import try_crate
from check.table import write_table
from syntax.world import World


def print_mutants(world, crate):
    for f in functions_of(world, crate):
        for m in mutants_of(f):
            print(
                f"{f.path}: {m.place.kind}{' (late)' if m.place.late else ''}: {m.old_line}  =>  {m.new_line}"
            )


def main():
    root, words = os.getcwd(), [w for w in sys.argv[1:] if not w.startswith("--")]
    rounds = next((int(w[9:]) for w in sys.argv if w.startswith("--rounds=")), -1)
    if not os.path.exists("crates.txt") or any(w not in CRATES for w in words):
        sys.exit(__doc__)
    if "--witness" in sys.argv:
        for crate in words:
            add_witness(crate, World(root, CRATES))
        write_table(root)
    elif "--edits" in sys.argv:
        sys.exit(0 if try_edits() else 1)
    elif "--refusals" in sys.argv:
        sys.exit(0 if read_refusals() else 1)
    elif "--table" in sys.argv:
        write_table(root)
    else:
        world = World(root, CRATES)
        for crate in words or CRATES:
            if "--list" in sys.argv:
                print_mutants(world, crate)
            else:
                try_crate(root, crate, world, rounds)
                write_table(root)


if __name__ == "__main__":
    main()
