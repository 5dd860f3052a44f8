#!/usr/bin/env python3
"""The library from C, C++ and Python: the examples of include/ and every refusal.

    tests/c/run.py LIBRARY             LIBRARY: the path of libp3p.a
    tests/c/run.py LIBRARY --store     rewrite the examples' outputs in include/

The examples are compiled as C99 and as C++ with all warnings as errors, and must print what is
stored in include/; of the sample they must list what samples/listing.txt does. inputs.py beside
this has more runs of records.c. The commands of include/README.md are run as they stand there.
tests/c/refusals.c calls for every refusal number, and for previews. Examples with another number,
and refusals.c with other expectations, must be found wrong.

Needs cc and c++."""
import ast
import os
import re
import subprocess
import sys
import tempfile

sys.dont_write_bytecode = True
import inputs

WARNINGS = ["-Wall", "-Wextra", "-pedantic", "-Werror"]
LANGUAGES = {"c": ["cc", "-std=c99"], "c++": ["c++", "-std=c++11"]}
# records.c, which reads records, has runs of its own
EXAMPLES = ("example", "grid", "plate", "preview")
STORED = {name: f"include/{name}.txt" for name in (*EXAMPLES, "records")}
SAMPLE, LISTING = inputs.read("samples/frames.bin"), "samples/listing.txt"


def read(path):
    return inputs.read(path).decode()


def output(command, given=b"", status=0):
    """What a command prints, on standard error last; it must end with the status."""
    run = subprocess.run(command, cwd=inputs.ROOT, input=given, capture_output=True)
    text = (run.stdout + run.stderr).decode(errors="replace")
    if run.returncode != status:
        sys.exit(f"{command}: status {run.returncode} in place of {status}\n{text}")
    return text


def build(source, language, folder, library):
    """The path of the program that is compiled of a source."""
    name = os.path.join(folder, os.path.basename(source) + "." + language)
    compiler = LANGUAGES[language] + WARNINGS + ["-O2", "-Iinclude", "-x", language]
    output(compiler + [source, "-x", "none", library, "-lm", "-o", name])
    return name


class Comparison:
    """Counts what was compared and what differed."""

    def __init__(self):
        self.count, self.faults = 0, []

    def equal(self, name, found, expected):
        self.count += 1
        if found != expected:
            self.faults.append(f"{name}:\n{found}in place of\n{expected}")

    def different(self, name, found, expected):
        """A control: the two must not be equal."""
        self.count += 1
        if found == expected:
            self.faults.append(f"{name}: not noticed")


def run_examples(folder, language, library):
    """What the examples print, by name; the last lists the sample."""
    programs = {name: build(f"include/{name}.c", language, folder, library) for name in STORED}
    return {name: output([program], SAMPLE) for name, program in programs.items()}, programs


def compare_examples(compared, folder, language, library):
    printed, programs = run_examples(folder, language, library)
    for name in EXAMPLES:
        compared.equal(f"{name} ({language})", printed[name], read(STORED[name]))
    for run in inputs.runs():
        command = ["sh", "-c", f'exec "$0" {run.redirected}', programs["records"]]
        found = output(command, run.given, run.status)
        compared.equal(f"records ({language}), {run.name}", found, run.printed)


THREE = "{-0.25, -0.125, 2.0}, {0.15, -0.125, 2.3}, {-0.25, 0.25, 2.0}"
# Changes of example.c's numbers, and the beginning of the last line that it prints then.
CHANGES = [
    ("{-0.25, -0.125, 2.0}", "{0.0, 0.0, 0.0}", "solve refused 1: a number is an infinity"),
    (THREE, "{0.0, 0.0, 1.0}, {0.0, 0.0, 1.0}, {0.0, 0.0, 1.0}", "solve refused 2: an equilateral"),
    ("{0.0, 0.375, 0.0}", "{1.0, 0.0, 0.0}", "solve refused 3: no pose fits"),
    ("{0.075, 0.25, 2.4}", "{0.0, 0.0, 0.0}", "choose refused 10: no pose has a finite"),
    ("{0.075, 0.25, 2.4}", "{0.1, 0.25, 2.4}", "not confirmed"),
    # the checking bearing reversed
    ("{0.075, 0.25, 2.4}", "{-0.075, -0.25, -2.4}", "choose refused 10: no pose has a finite"),
]
# Changes of the hole by a thousandth of a millimetre.
OTHER_HOLES = {
    "example": ("{0.25, -0.5, 0.0}", "{0.25, -0.5, 0.000001}"),
    "grid": ("5334000.0, 512.125}", "5334000.0, 512.125001}"),
    "plate": ("{0.25, -0.5, 0.0}", "{0.25, -0.5, 0.000001}"),
    "preview": ("{0.25, -0.5, 0.0}", "{0.25, -0.5, 0.000001}"),
}
# Changes of the numbers of grid.c, plate.c and preview.c, and the last line that they print then.
REFUSED = [
    ("grid", "{691000.75, 5334000.5, 512.125}", "{INFINITY, 0.0, 0.0}", "refused 1"),
    ("grid", "{0.075, 0.25, 2.4}", "{0.0, 0.0, 0.0}", "refused 10"),
    ("plate", "{0.0, 0.0, 0.0, 0.5,", "{0.0, 0.0, INFINITY, 0.5,", "refused 1"),
    ("plate", "0.0, 0.375, 0.0}", "1.0, 0.0, 0.0}", "refused 3"),
    ("plate", "{0.0, 0.376, 0.001}", "{0.0, NAN, 0.001}", "refused 1"),
    # seen in the fourth frame alone, by the plate that was brought back
    ("plate", "{0.0, 0.376, 0.001}", "{1.0, 0.0, 0.0}", "refused 3"),
    ("preview", "{0.0, 0.0, 0.0, 0.5,", "{0.0, 0.0, INFINITY, 0.5,", "refused 1"),
]
# Of what refusals.c expects of previews, the parts that it can change.
PREVIEW_PARTS = ["edges", "poses", "given"]


def build_changed(old, new, language, folder, library, name="example"):
    source = os.path.join(folder, "changed.c")
    with open(source, "w", encoding="utf-8") as f:
        f.write(read(f"include/{name}.c").replace(old, new))
    return build(source, language, folder, library)


def compare_changes(compared, folder, language, library):
    """What the examples say where there is no answer, or none that is confirmed."""
    for old, new, begin in CHANGES:
        program = build_changed(old, new, language, folder, library)
        last = output([program], b"", 1).splitlines()[-1]
        compared.equal(f"example with {new}", last[: len(begin)] + "\n", begin + "\n")
    for name, old, new, said in REFUSED:
        program = build_changed(old, new, language, folder, library, name)
        last = output([program], b"", 1).splitlines()[-1]
        compared.equal(f"{name} with {new}", last + "\n", said + "\n")
    for name, change in OTHER_HOLES.items():
        other = output([build_changed(*change, language, folder, library, name)])
        compared.different(f"{name} ({language}), another hole", other, read(STORED[name]))


def compare_refusals(compared, folder, language, library):
    program = build("tests/c/refusals.c", language, folder, library)
    found = output([program])
    counts = re.fullmatch(r"0 of (\d+) calls wrong; previews: (\d+)\n", found)
    calls, previews = map(int, counts.groups()) if counts else (0, 0)
    compared.equal(f"refusals ({language})", previews > 0, True)
    for change, wrong in (("number", calls), *((part, previews) for part in PREVIEW_PARTS)):
        expected = f"{wrong} of {calls} calls wrong; previews: {previews}\n"
        found = output([program, change], b"", 1)
        compared.equal(f"refusals ({language}), another {change}", found, expected)


def compare_listing(compared):
    """The counts and choices of the sample, as the program poses lists them."""
    words = re.findall(r"^(\d+) (?:poses (\d+) best (\d+)|refused (\d+))$", read(LISTING), re.M)
    lines = re.findall(
        r"^(\d+) (?:poses (\d+), best (\d+).*|refused (\d+))$",
        read(STORED["records"]).replace("choice refused 10", "best 0"),
        re.M,
    )
    compared.equal("the sample's listing", lines, words)


def page_commands(folder, library):
    """The commands of include/README.md as one script, with this library and folder."""
    blocks = re.findall(r"^<!-- shell -->\n((?:    .*\n)+)", read("include/README.md"), re.M)
    toolchain = ("    (cd crates/p3p && rt ", "    mkdir ")
    lines = [line for line in "".join(blocks).splitlines(True) if not line.startswith(toolchain)]
    built = r"(crates/p3p/out/libp3p\.a)|target/"
    return re.sub(built, lambda m: library if m[1] else folder + "/", "".join(lines))


def compare_page(compared, folder, library):
    example = read(STORED["example"])
    # example.py solves the same plate, and prints less
    python = example[example.index("best") :]
    others = "".join(read(path) for name, path in STORED.items() if name != "example")
    expected = example + others + python
    found = output(["sh", "-e", "-c", page_commands(folder, library)])
    compared.equal("include/README.md's commands", found, expected)


def compare_python(compared, folder):
    """What example.py says where there is no answer, or none that is confirmed. The shared library
    is the page's."""
    first, last = SAMPLE[: inputs.RECORD_SIZE], SAMPLE[-inputs.RECORD_SIZE :]
    library = os.path.join(folder, "libp3p.so")
    usage = ast.get_docstring(ast.parse(read("include/example.py")), clean=False) + "\n"
    unconfirmed = "best 1\nchecking target 3.761142 degrees off its bearing\nnot confirmed\n"
    for words, given, expected in (
        ([library], first[:-1], "p3p_read_record refused 9\n"),
        ([library], last, unconfirmed),
        ([library], inputs.behind(first), "p3p_choose refused 10\n"),
        (["--help"], first, usage),
        ([], first, usage),
    ):
        found = output([sys.executable, "include/example.py", *words], given, 1)
        compared.equal("example.py", found, expected)


def store(folder, library):
    printed, _ = run_examples(folder, "c", library)
    for name, path in STORED.items():
        with open(os.path.join(inputs.ROOT, path), "w", encoding="utf-8") as f:
            f.write(printed[name])


def main():
    if len(sys.argv) < 2 or sys.argv[2:] not in ([], ["--store"]):
        sys.exit(__doc__)
    library, compared = os.path.abspath(sys.argv[1]), Comparison()
    with tempfile.TemporaryDirectory() as folder:
        if sys.argv[2:]:
            return store(folder, library)
        for language in LANGUAGES:
            compare_examples(compared, folder, language, library)
            compare_changes(compared, folder, language, library)
            compare_refusals(compared, folder, language, library)
        compare_listing(compared)
        compare_page(compared, folder, library)
        compare_python(compared, folder)
    print(*compared.faults, f"{compared.count} compared, {len(compared.faults)} wrong", sep="\n")
    return 1 if compared.faults else 0


sys.exit(main())
