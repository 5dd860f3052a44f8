"""The results of a crate, results/CRATE.tsv: written, read to go on with, and completed with
whether an input was found."""
import os
import subprocess

from change.bodies import functions_of
from change.mutants import SEED, mutants_of
from check.bench import RT
from check.crates import source_sum
from check.verdicts import why
from interpret import witness
from interpret.machine import Machine

HERE = os.path.dirname(os.path.dirname(os.path.abspath(__file__)))
RESULTS = os.path.join(HERE, "results")


def path_of(crate):
    return os.path.join(RESULTS, crate + ".tsv")


def lines_of(crate):
    """The lines of a crate's results; the first two are a head."""
    with open(path_of(crate), encoding="utf-8") as f:
        return f.read().splitlines()


def write_results(root, bench, functions, tried, state):
    crate = bench.crate
    os.makedirs(RESULTS, exist_ok=True)
    bench_sum = source_sum(bench.home, crate)
    version = subprocess.run(RT + ["version"], capture_output=True, text=True).stdout.strip()
    commit = subprocess.run(
        ["git", "log", "-1", "--format=%cs"], cwd=root, capture_output=True, text=True
    ).stdout.strip()
    with open(path_of(crate), "w", encoding="utf-8") as f:
        f.write(
            f"# toolchain {version}; seed {SEED}; commit of {commit}; sum of the crate's files {bench_sum}{state}\n"
        )
        f.write("# function\tplaces\tverdict\tkind\tfile:line\tbefore\tafter\twhy\tinput\n")
        for g in functions:
            f.write(f"{'pub ' if g.public else ''}{g.path}\t{len(g.places)}\n")
            for m in tried[g.path]:
                f.write(
                    "\t".join(
                        ["", "", m.verdict, m.place.kind, m.where, m.old_line, m.new_line, why(m)]
                    )
                    + "\n"
                )


def earlier(root, crate):
    """The verdicts of a result of the crate's files as they are."""
    if not os.path.exists(path_of(crate)):
        return {}
    lines, out = lines_of(crate), {}
    if source_sum(root, crate) in lines[0] and f"seed {SEED};" in lines[0]:
        for line in lines[2:]:
            parts = line.split("\t")
            if parts[0]:
                name = parts[0].removeprefix("pub ")
            else:
                out.setdefault((name, parts[3], *parts[5:7]), []).append((parts[2], parts[7]))
    return out


def add_witness(crate, world):
    """To each mutant of a crate's results, whether an input was found at which it answers
    otherwise."""
    lines, machine, known, out = lines_of(crate), Machine(world), {}, []
    for g in functions_of(world, crate):
        for m in mutants_of(g):
            known.setdefault(m.key, []).append(m)
    for line in lines:
        parts = line.split("\t")
        if parts[0]:
            name = parts[0].removeprefix("pub ")
        else:
            same = [m for m in known.get((name, parts[3], *parts[5:7]), []) if m.where == parts[4]]
            if same and parts[2] != "not compiled":
                m = same[0]
                found = witness.differs(machine, m.function, m.within(m.function.file.text))
                line = "\t".join(
                    parts[:8]
                    + [{True: "differs", False: "no input found", None: "not tried"}[found]]
                )
        out.append(line)
    with open(path_of(crate), "w", encoding="utf-8") as f:
        f.write("\n".join(out) + "\n")
