#!/usr/bin/env bash
# Compares the single operations, and the third of a word, with C's and with exact arithmetic, then
# times the operations and the fast cube root. Needs gcc.
#   bench/ieee754/run.sh          10^6 arguments of each operation
#   bench/ieee754/run.sh long     10^7
#   P3P_BEFORE=LIBRARY ..         times those of an earlier libp3p.a too, before the present ones
set -eu
cd "$(dirname "$0")/../.."
count=1000000
[ "${1-}" = long ] && count=10000000
for library in p3p ieee754_single; do (cd "crates/$library" && rt lib) | tail -1; done
out=target/bench/ieee754
mkdir -p "$out"
build() { # PROGRAM SOURCE LIBRARY..
    program=$1 source=$2
    shift 2
    gcc -O2 -fno-math-errno -ffp-contract=off -Wall -Wextra -o "$out/$program" \
        "bench/ieee754/$source" "$@" -lm
}
build compare compare.c crates/p3p/out/libp3p.a crates/ieee754_single/out/libieee754_single.a
build wrong compare.c bench/ieee754/wrong.c
build timing timing.c crates/p3p/out/libp3p.a
if "$out/wrong" >"$out/wrong.out" || grep -q ", 0 differ" "$out/wrong.out"; then
    echo "the comparison finds no fault with a wrong function"
    exit 1
fi
"$out/compare" "$count"
if [ -n "${P3P_BEFORE:-}" ]; then
    build timing-before timing.c "$P3P_BEFORE"
    echo "before, $P3P_BEFORE"
    "$out/timing-before"
    echo "now"
fi
"$out/timing"
