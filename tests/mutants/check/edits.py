"""The must-fail edits, crates/CRATE/must-fail/*.edit: whether each changes an answer. A refused
edit shows that a contract rules something out only where the changed program is wrong, and its
comment names an input at which it is:

  # at CALL: ANSWER, here ANSWER

The call is of a function of the edited file, or of another by its module (and crate), in the
notation of interpret/notation.py. An answer may go on with what is left in a lent parameter: `0
with best = 1`. Both answers are computed by the interpreter. Of an edit that changes no body, but a
definition or a contract, the right answer is computed, and the other is worked by hand:

  # at CALL: ANSWER, by hand ANSWER

An edit of which nothing can be run (a statement; a crate that reads and writes) is worked by hand
whole: `# by hand: ..`. A comment goes on in lines that are indented.

With the edits it is seen that no two functions have one path, by which their mutants are kept."""
import copy
import os
import re

from check.crates import CRATES
from interpret.machine import Machine
from interpret.notation import Notation, agrees
from interpret.values import Outside, Trap
from syntax.world import World


class Edit:
    """An edit's file: its comment, and what it replaces (file, old text, new text)."""

    def __init__(self, folder, name):
        self.crate = os.path.basename(os.path.dirname(folder))
        self.name, self.comment, self.changes = f"{self.crate}/{name[:-5]}", "", []
        with open(os.path.join(folder, name), encoding="utf-8") as f:
            for line in f.read().splitlines():
                word, _, rest = line.partition(" ")
                if word == "#":
                    self.comment += " " + rest.strip() if rest[:1] == " " else "\n" + rest
                elif word == "file:":
                    file = rest
                elif word == "old:":
                    old = rest
                elif word == "new:":
                    self.changes.append((file, old, rest))
        self.by_hand = re.search(r"^by hand: .", self.comment, re.M) is not None


def edits():
    with open("crates.txt", encoding="utf-8") as f:
        crates = re.findall(r"^(\w+)(?: staticlib)?:", f.read(), re.M)
    folders = [os.path.join("crates", c, "must-fail") for c in crates]
    return [Edit(d, n) for d in folders if os.path.isdir(d) for n in sorted(os.listdir(d))]


def reads_or_writes(world, crate):
    return any("use std::io" in file.text for file in world.files if file.crate == crate)


class Wrong(Exception):
    """An edit that does not show what it says."""


class Trial:
    """An edit at its input. texts: of the functions whose bodies it changes, the changed text of
    the file; edited: those bodies."""

    def __init__(self, world, edit):
        self.world, self.edit = world, edit
        self.texts, self.edited = changed_texts(world, edit), {}

    def run(self):
        if self.edit.by_hand:
            if self.texts and not reads_or_writes(self.world, self.edit.crate):
                raise Wrong("is worked by hand, and could be run")
            return
        machine = Machine(self.world)
        self.edited = {f: machine.parse(f, text) for f, text in self.texts.items()}
        stated = re.search(r"^at (.*?\)): (.*), (here|by hand) (.*)$", self.edit.comment, re.M)
        if stated is None:
            raise Wrong("names no input")
        call, right, how, wrong = stated.groups()
        if (how == "here") != bool(self.edited):
            raise Wrong("changes a body" if self.edited else "changes no body")
        f, args = self.call(call)
        right, wrong = self.answer(right, f), self.answer(wrong, f)
        found = self.outcome(f, args, {})
        if not same(right, found):
            raise Wrong(f"the right answer is {shown(found)}")
        if same(wrong, found):
            raise Wrong("the two answers do not differ")
        changed = self.outcome(f, args, self.edited)
        if self.edited and same(right, changed):
            raise Wrong("changes nothing at this input")
        if self.edited and not same(wrong, changed):
            raise Wrong(f"the changed answer is {shown(changed)}")

    def call(self, text):
        """The function that a call names, and its arguments."""
        path, rest = text.split("(", 1)
        for f in self.named(path):
            try:
                return f, self.arguments(f, rest)
            except (SyntaxError, ValueError):  # an operator's name may be of two functions
                wrong = f"{path} takes no such arguments"
        raise Wrong(wrong)

    def arguments(self, f, text):
        notation, args = Notation(self.world, text), []
        for _, kind in f.params:
            args.append(notation.value(kind))
            notation.passes(",")
        notation.expect(")")
        return args

    def named(self, path):
        """The functions of a name in the edited file, or with its module, or its crate too; an
        array's stands as in `<[Pose; 4]>::read`."""
        path = re.sub("[<> ]", "", path)
        crate, module = self.edit.crate, os.path.basename(self.edit.changes[0][0]).split(".")[0]
        above, _, name = path.rpartition("::")
        for key in (
            (crate, "" if module == "lib" else module, path),
            (crate, above, name),
            (*above.split("::"), name),
        ):
            if key in self.world.overloads:
                return self.world.overloads[key]
        raise Wrong(f"no function {path}")

    def answer(self, text, f):
        """What a call gives, and what it leaves in a lent parameter."""
        if text == "trap":
            return text
        result, _, lent = text.partition(" with ")
        out = {None: Notation(self.world, result).whole(f.result)}
        if lent:
            name, _, value = lent.partition(" = ")
            out[name] = Notation(self.world, value).whole(dict(f.params)[name])
        return out

    def outcome(self, f, args, bodies):
        """What a call gives and leaves in what is lent to it, with some bodies changed."""
        machine, args = Machine(self.world), copy.deepcopy(args)
        machine.bodies.update(bodies)
        try:
            out = {None: machine.call(f, args)}
        except Outside:
            raise Wrong("leaves the repository's crates") from None
        except (Trap, RecursionError):
            return "trap"
        out.update({n: v for (n, kind), v in zip(f.params, args) if kind[0] == "ref"})
        return out


def changed_texts(world, edit):
    """The functions whose bodies an edit changes, each with the changed text of its file."""
    texts = {}
    for name, old, new in edit.changes:
        for file in world.files:
            if (file.crate, file.short) == (edit.crate, name):
                at = file.text.index(old)
                for f, body, _ in file.bodies:
                    if file.tokens[body][2] <= at < f.end:
                        texts[f] = texts.get(f, file.text).replace(old, new)
    return texts


def same(stated, found):
    if "trap" in (stated, found):
        return stated == found
    return all(agrees(value, found[name]) for name, value in stated.items())


def shown(found):
    """An answer in words, cut short."""
    if found == "trap":
        return found
    return ", ".join(words(v) if k is None else f"{k} = {words(v)}" for k, v in found.items())[:400]


def words(v):
    if hasattr(v, "value"):
        return words(v.value)
    if hasattr(v, "parts"):
        parts = v.parts.values() if isinstance(v.parts, dict) else v.parts
        return v.name + "(" + ", ".join(map(words, parts)) + ")"
    if hasattr(v, "fields"):
        return "{" + ", ".join(f"{k}: {words(x)}" for k, x in v.fields.items()) + "}"
    if isinstance(v, list):
        return "[" + ", ".join(map(words, v)) + "]"
    return repr(v)


def try_edits():
    """Whether every edit changes an answer as it says, and every function has a path of its own;
    prints those that do not."""
    world, found, wrong = World(".", CRATES), edits(), 0
    for edit in found:
        try:
            Trial(world, edit).run()
        except (Wrong, SyntaxError, KeyError, ValueError) as e:
            wrong += 1
            print(f"{edit.name}: {e}")
    by_hand = sum(edit.by_hand for edit in found)
    print(f"{len(found)} edits, {len(found) - wrong} differ ({by_hand} of them worked by hand)")
    shared = world.shared_paths()
    if shared:
        print(f"more than one function has the path {', '.join(shared)}")
    return wrong == 0 and not shared
