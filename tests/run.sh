#!/usr/bin/env bash
# Every test beside the gate that needs no other sources: the program, the library from C and Rust
# and what it links, the sample and its tool, the documents, the edits' inputs. Two minutes after
# what it builds.
#   tests/run.sh
# Needs cc, c++, cargo, git, binutils and python3; the first two commands prove what is not proved
# yet.
set -euo pipefail
cd "$(dirname "$0")/.."
(cd crates/poses && rt run </dev/null 2>&1 >/dev/null) | tail -1
(cd crates/p3p && rt lib 2>&1) | tail -1
mkdir -p target
program=crates/poses/out/poses
library=crates/p3p/out/libp3p.a

run() {
    echo "== $*"
    python3 -B "$@" | tail -1
}

run tests/poses/make.py --check
run tests/poses/make.py --all "$program"
run tests/poses/run.py "$program"
run tests/samples/run.py --program "$program"
run tests/c/run.py "$library"
run tests/library/run.py "$library"
run bindings/rust/check.py "$library"
run docs/picture.py --check
run docs/grid.py --check
run docs/lines.py --check
run tests/documents/run.py
run tests/documents/run.py --must-notice
run tests/documents/shell.py "$library" "$program"
run tests/mutants/run.py --edits
run tests/ieee754/make.py --check
run tests/replay/make.py --check
echo "all passed"
