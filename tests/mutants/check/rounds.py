"""The rounds of a crate: one check tries a mutant in every function that wants another, and those
of which it does not tell are tried again."""
from change.bodies import functions_of
from change.mutants import mutants_of
from check.bench import Bench
from check.crates import CRATES, own_folder
from check.results import add_witness, earlier, write_results
from check.verdicts import front_errors, read
from syntax.world import World

# The mutants that a function is given: refused for a fact or proved, and at most tried.
WANTED = {"public": 10, "private": 3}
TRIES = {"public": 16, "private": 6}
VERDICTS = ("fact", "shape", "survived", "not compiled", "no verdict")


def settle(bench, mutants):
    """Tries the mutants together; those of which that does not tell are tried again in halves."""
    if not mutants:
        return
    said = bench.trial(mutants)
    if said is not None and "\nlogic=" in said:
        read(said, mutants)
    elif said is not None:
        for m in front_errors(said, mutants):
            m.verdict = "not compiled"
    left = [m for m in mutants if m.verdict is None]
    if not left:
        return
    if len(mutants) == 1:
        left[0].verdict, left[0].said = "no verdict", (said or "no verdict in time")[-300:]
    elif len(left) < len(mutants):
        settle(bench, left)
    else:
        settle(bench, left[::2])
        settle(bench, left[1::2])


class Queues:
    """The mutants of a crate's functions, by the functions' paths: those that were tried and those
    that wait."""

    def __init__(self, root, crate, world):
        self.root, self.crate, self.functions = root, crate, functions_of(world, crate)
        for f in self.functions:
            f.proof = own_folder(root, f)
        self.waiting = {f.path: mutants_of(f) for f in self.functions}
        self.tried = {f.path: [] for f in self.functions}

    def resume(self):
        """Takes over the verdicts of an earlier run."""
        before = earlier(self.root, self.crate)
        for f in self.functions:
            for m in list(self.waiting[f.path]):
                if before.get(m.key):
                    m.verdict, m.said = before[m.key].pop(0)
                    self.tried[f.path].append(m)
                    self.waiting[f.path].remove(m)

    def turn(self):
        """The next mutant of each function that wants another; of a cycle of calls, which has one
        proof, one at a time."""
        out = []
        for f in self.functions:
            if not any(m.function.proof == f.proof for m in out) and self.wants(f):
                m = self.waiting[f.path].pop(0)
                out.append(m)
                self.tried[f.path].append(m)
        return out

    def wants(self, f):
        done, kind = self.tried[f.path], "public" if f.public else "private"
        counted = sum(m.verdict in ("fact", "survived") for m in done)
        compiled = sum(m.verdict != "not compiled" for m in done)
        return counted < WANTED[kind] and compiled < TRIES[kind] and self.waiting[f.path]

    def count(self, verdict):
        return sum(m.verdict == verdict for ms in self.tried.values() for m in ms)

    def write(self, bench, state):
        write_results(self.root, bench, self.functions, self.tried, state)


def try_crate(root, crate, world, rounds):
    """Tries the mutants of a crate for so many rounds, or, from a negative number, until no
    function wants another."""
    queues = Queues(root, crate, world)
    queues.resume()
    bench = Bench(root, crate)
    bench.begin(queues.functions)
    while rounds:
        rounds -= 1
        turn = queues.turn()
        if not turn:
            queues.write(bench, "")
            break
        settle(bench, turn)
        print(
            f"{crate}: round of {len(turn)}: "
            + ", ".join(f"{queues.count(v)} {v}" for v in VERDICTS),
            flush=True,
        )
        queues.write(bench, "; NOT FINISHED")
    add_witness(crate, World(root, CRATES))
    bench.end()
