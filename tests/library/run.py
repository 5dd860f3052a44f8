#!/usr/bin/env python3
"""What the library asks of others: the functions that it links, and no division of whole numbers
(docs/changes/03-cube-root-start.md).

    tests/library/run.py LIBRARY     LIBRARY: the path of libp3p.a

- It links memset alone (nm).
- No instruction of it divides whole numbers (objdump).
- In the programs that are compiled, the crates below p3p by crates.txt as their libraries hold them
  (out/rlib of each: toolchain/mir.json), each divisor of whole numbers is a power of two, so that
  the compiler makes a shift or a mask of it. Each crate of the repository of which LIBRARY has a
  function by name is among them.
- The code of p3p itself, which is in no such library, has no / and no %.

Of the language's crates that the library holds, byteorder below records, the out folders have no
compiled program: of these the instructions alone are looked at.

Each of the four must find fault with something: with a function of C that divides numbers of 128
bits, with one that divides words, with the first division of crate ieee754_parts made one by ten,
there alone among all that are below p3p, whose line of crates.txt does not name it, and with the
code of listing.

Run it at the repository's root, after `rt lib` in crates/p3p and `rt check` in crates/poses. Needs
cc, nm and objdump."""
import json
import os
import re
import subprocess
import sys
import tempfile

LINKED = {"memset"}
FAR = "ieee754_parts"  # a crate that p3p rests on by others
TEN = {"Int": {"width": 64, "value": 10}}
DIVIDING = """
unsigned __int128 wide(unsigned __int128 a, unsigned __int128 b) { return a / b; }
unsigned long word(unsigned long a, unsigned long b) { return a / b; }
"""


def output(*command):
    run = subprocess.run(command, capture_output=True, text=True)
    if run.returncode != 0:
        sys.exit(f"{command}:\n{run.stderr}")
    return run.stdout


def linked(path):
    """The names that an object file or a library leaves to others."""
    return set(re.findall(r"^ +U (\S+)$", output("nm", path), re.M))


def dividing_instructions(path):
    return re.findall(r"^.*\sidiv.*$|^.*\sdiv[bwlq]?\s.*$", output("objdump", "-d", path), re.M)


def named(path):
    """The crates of which a library has a function by name."""
    return set(re.findall(r" (\w+)::", output("nm", path)))


def lines():
    """What crates.txt says that each crate uses."""
    with open("crates.txt", encoding="utf-8") as f:
        rows = re.findall(r"^(\w+)(?: staticlib)?:(.*)$", f.read(), re.M)
    return {name: row.split() for name, row in rows}


def below(crate):
    """The repository's libraries that a crate rests on, by crates.txt."""
    uses, found, rest = lines(), set(), [crate]
    while rest:
        new = [each for each in uses.get(rest.pop(), []) if each in uses and each not in found]
        found.update(new)
        rest += new
    return sorted(found)


def program(crate):
    """What is compiled of a crate, as its library holds it."""
    path = f"crates/{crate}/out/rlib/{crate}.rlib/toolchain/mir.json"
    with open(path, encoding="utf-8") as f:
        return json.load(f)


def divisions(tree, crate):
    """Each division of whole numbers in what is compiled of a crate, with its function."""
    rest = [(tree, crate)]
    while rest:
        node, function = rest.pop()
        if isinstance(node, list):
            if node and isinstance(node[0], str) and "::" in node[0]:
                function = node[0]
            rest += [(part, function) for part in node]
        elif isinstance(node, dict):
            kind = node.get("Op2", [None])[0]
            if isinstance(kind, dict) and {*kind} & {"Div", "Rem"}:
                yield function, node["Op2"]
            rest += [(part, function) for part in node.values()]


def is_power_of_two(divisor):
    """Of a constant, {"Int": {"width": .., "value": ..}}."""
    return "Int" in divisor and int(divisor["Int"]["value"]).bit_count() == 1


def other_divisors(trees):
    """The divisors that are no powers of two, by crate's name and what is compiled of it."""
    found = [each for crate, tree in trees.items() for each in divisions(tree, crate)]
    return [(function, parts[2]) for function, parts in found if not is_power_of_two(parts[2])]


def planted(trees):
    """The divisors that are found with the first division of FAR, if it is among these, made one by
    ten, where that is all that is found."""
    for _, parts in divisions(trees.get(FAR, []), FAR):
        parts[2] = TEN
        break
    found = other_divisors(trees)
    is_all = len(found) == 1 and found[0][0].startswith(FAR + "::")
    return found if is_all and FAR not in lines()["p3p"] else []


def own_divisions(crate):
    """The lines of a crate's own code that divide."""
    folder, found = f"crates/{crate}/src", []
    for name in sorted(os.listdir(folder)):
        with open(os.path.join(folder, name), encoding="utf-8") as f:
            code = [re.sub(r"//.*", "", line) for line in f]
        found += [(name, line.strip()) for line in code if re.search(r"[/%]", line)]
    return found


def compiled(source, folder):
    """The path of the object file that is compiled of a text in C."""
    path = os.path.join(folder, "dividing")
    with open(path + ".c", "w", encoding="utf-8") as f:
        f.write(source)
    output("cc", "-O2", "-c", path + ".c", "-o", path + ".o")
    return path + ".o"


def main():
    if len(sys.argv) != 2:
        sys.exit(__doc__)
    library = sys.argv[1]
    with tempfile.TemporaryDirectory() as folder:
        dividing = compiled(DIVIDING, folder)
        trees = {crate: program(crate) for crate in below("p3p")}
        unread = (named(library) & {*lines()}) - {*trees, "p3p"}
        # what each finds in the library, and what it must find elsewhere
        looks = {
            "nm": (linked(library) - LINKED, linked(dividing) - LINKED),
            "objdump": (dividing_instructions(library), dividing_instructions(dividing)),
            "mir.json": (other_divisors(trees) + sorted(unread), planted(trees)),
            "src": (own_divisions("p3p"), own_divisions("listing")),
        }
    faults = [f"{tool}: {each}" for tool, (found, _) in looks.items() for each in found]
    faults += [f"{tool}: no fault was found" for tool, (_, control) in looks.items() if not control]
    print(*faults, f"{2 * len(looks)} looked at, {len(faults)} wrong", sep="\n")
    return 1 if faults else 0


sys.exit(main())
