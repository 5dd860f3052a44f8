"""A copy of the repository in which a crate is changed and checked. It stands outside the tree,
since the gate refuses a crate's text in any other place of it."""
import os
import shutil
import subprocess
import sys
import tempfile

from check.crates import PARTS
from check.verdicts import states

RT = os.environ.get("RT", "rt").split()
TIME_LIMIT = 900


class Bench:
    def __init__(self, root, crate):
        self.crate, self.copy = crate, tempfile.TemporaryDirectory(prefix="mutants-")
        self.home = self.copy.name
        shutil.copy(os.path.join(root, "crates.txt"), self.home)
        for name in os.listdir(os.path.join(root, "crates")):
            for part in PARTS:
                folder = os.path.join("crates", name, part)
                if os.path.isdir(os.path.join(root, folder)):
                    shutil.copytree(os.path.join(root, folder), os.path.join(self.home, folder))
        self.folder = os.path.join(self.home, "crates", crate)
        self.cache = os.path.join(self.folder, "out", "incremental")
        self.clean = os.path.join(self.home, "clean")
        self.logs, self.rounds = os.path.join(root, "target", "mutants", crate), 0
        shutil.rmtree(self.logs, ignore_errors=True)
        os.makedirs(self.logs)

    def check(self, limit):
        """What the checker says, or None where it says nothing in time."""
        try:
            run = subprocess.run(
                RT + ["check", "--jobs", "1"],
                cwd=self.folder,
                capture_output=True,
                text=True,
                timeout=limit,
            )
        except subprocess.TimeoutExpired:
            return None
        return run.stdout + run.stderr

    def begin(self, functions):
        """The check of the unchanged crate, behind those below it where they are not proved yet;
        what it leaves is kept for the others to begin with. It must speak of each function, or no
        mutant of that could be called survived."""
        text = self.check(None)
        if "\nlogic=proved" not in text:
            sys.exit(f"{self.crate} is not proved as it stands:\n{text[-3000:]}")
        said = states(text)
        missing = [f.path for f in functions if said.get(f.path) != "proved"]
        if missing:
            sys.exit(f"{self.crate}: the check does not say that it proved {', '.join(missing)}")
        shutil.copytree(self.cache, self.clean)

    def trial(self, mutants):
        """What the checker says of the crate with these mutants, at most one in a function."""
        shutil.rmtree(self.cache, ignore_errors=True)
        shutil.copytree(self.clean, self.cache)
        files = {}
        for m in mutants:
            files.setdefault(m.function.file, []).append(m)
        for file, ms in files.items():
            text = file.text
            for m in sorted(ms, key=lambda m: -m.place.start):
                text = m.within(text)
            self.write(file, text)
        said = self.check(TIME_LIMIT)
        for file in files:
            self.write(file, file.text)
        self.rounds += 1
        with open(os.path.join(self.logs, f"round{self.rounds}.log"), "w", encoding="utf-8") as f:
            f.write(said or "no verdict in time")
        return said

    def write(self, file, text):
        with open(os.path.join(self.folder, file.short), "w", encoding="utf-8") as f:
            f.write(text)

    def end(self):
        self.copy.cleanup()
