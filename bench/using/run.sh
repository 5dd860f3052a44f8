#!/usr/bin/env bash
# The figures of docs/USING.md: what bearings off unit length do, how far the hole is off by three
# ways from a pose to it, and against the job's distance from zero, how far truing can move it, what
# scores the checking target has, what mistakes look like, what a camera near the danger cylinder
# brings, and what flush-to-zero and denormals-are-zero change.
# Seeds are fixed: the figures are the same each time; those of `grid` must be docs/grid.tsv.
#   bench/using/run.sh [LIBRARY]     LIBRARY: libp3p.a, if not that of crates/p3p/out
# Needs a C compiler (cc) on x86-64.
set -euo pipefail
library=$(realpath -m "${1:-$(dirname "$0")/../../crates/p3p/out/libp3p.a}")
cd "$(dirname "$0")/../.."
if [ ! -f "$library" ]; then
    echo "run.sh: no $library; rt lib in crates/p3p writes it" >&2
    exit 1
fi
out=target/bench/using
mkdir -p "$out"

# build SOURCE PROGRAM [OPTION OF THE LINKING]..
build() {
    local source=$1 program=$2
    shift 2
    cc -O2 -Wall -Wextra -c -o "$out/$program.o" "bench/using/$source.c"
    cc "$@" -o "$out/$program" "$out/$program.o" "$library" -lm
}

for name in bearings holes grid strays scores mistakes cylinder; do
    printf '## %s\n\n' "$name"
    build "$name" "$name"
    "$out/$name" | tee "$out/$name.txt"
    echo
done
cmp "$out/grid.txt" docs/grid.tsv

frames=crates/replay/data/rust/frame.bin
build flush flush
build flush flush-fast-math -ffast-math
printf '## flush, linked as usual\n\n'
"$out/flush" "$frames"
printf '\n## flush, linked with -ffast-math\n\n'
"$out/flush-fast-math" "$frames" | grep started
