"""The repository's files as the checks read them, with some contents replaced."""
import os

ROOT = os.path.join(os.path.dirname(os.path.abspath(__file__)), "..", "..")
# built or fetched, and no part of the tree
SKIPPED = {".git", "target", "out", "vendor", "__pycache__"}


class Tree:
    """Paths are from the root, with slashes. `changes` has texts that stand in place of files'."""

    def __init__(self, changes=None):
        self.changes = changes or {}

    def read(self, path):
        if path in self.changes:
            return self.changes[path]
        with open(os.path.join(ROOT, path), encoding="utf-8") as f:
            return f.read()

    def exists(self, path):
        return path in self.changes or os.path.exists(os.path.join(ROOT, path))

    def paths(self):
        """Every file, in order."""
        for folder, folders, files in os.walk(ROOT):
            folders[:] = sorted(set(folders) - SKIPPED)
            for name in sorted(files):
                yield os.path.relpath(os.path.join(folder, name), ROOT)

    def with_suffix(self, *suffixes):
        return [path for path in self.paths() if path.endswith(suffixes)]

    def changed(self, path, text):
        return Tree({**self.changes, path: text})
