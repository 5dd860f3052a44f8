#!/usr/bin/env bash
# All figures of a solve in one run: the library's size, the stack that a solve and the other
# functions take, the times beside the Rust's and, where target/peers is (bench/peers/fetch.sh),
# other solvers'; a solve with a plate and a preview beside one without; the records a second of the
# program poses; and, where perf is installed, what the time goes into.
#   bench/solve/run.sh SOURCES     SOURCES: the Rust's original sources (reference/README.md), its
#                                  path from the repository's root or from /
# Needs gcc, python3, GNU time and what reference/README.md names; for other solvers g++.
set -euo pipefail
cd "$(dirname "$0")/../.."
: "${1:?usage: run.sh SOURCES}"
library=crates/p3p/out/libp3p.a
frames=crates/replay/data/rust/frame.bin
peers=target/peers
out=target/bench/solve
mkdir -p "$out"

(cd crates/p3p && rt lib) | tail -1
(cd crates/poses && rt run </dev/null) >/dev/null
# Bound at the start (now): else the loader, which looks a function of the C library up when it is
# first called, can add stack of its own to the first frame's.
for program in stack repeat plates; do
    gcc -O2 -Wall -Wextra -Wl,-z,now -o "$out/$program" "bench/solve/$program.c" "$library" \
        -lpthread -lm
done
if [ -d "$peers" ]; then
    # Of OpenCV's static library only what a solve calls is kept, which needs no other library.
    libraries=$PWD/$peers/usr/lib/x86_64-linux-gnu
    g++ -O2 -Wall -Wextra -fPIC -shared -isystem "$peers/usr/include/eigen3" \
        -isystem "$peers/usr/include" -o "$out/libpeers.so" bench/peers/peers.cpp \
        -L"$libraries" -Wl,-rpath,"$libraries" -Wl,--gc-sections -Wl,-z,defs \
        -l:libopencv_calib3d.a -lopengv
    export P3P_PEERS=$out/libpeers.so
fi

echo
echo "## Size and stack"
size "$library"
"$out/stack" "$frames"

echo
echo "## Times"
P3P_PORT=$library reference/run "$1" bench

echo
echo "## With a plate"
"$out/plates"

echo
echo "## The program poses"
# The stored frames that have poses, as records.
PYTHONPATH=tests/poses python3 -B - >"$out/frames" <<'END'
import sys
from make import stored_frames
records = [frame.record() for frame in stored_frames() if frame.refusal == 0]
sys.stdout.buffer.write(b"".join(records) * 600)
END
/usr/bin/time -o "$out/time" -f "%U %S %M" crates/poses/out/poses <"$out/frames" >/dev/null
awk -v records=$(($(stat -c %s "$out/frames") / 195)) '{
    printf "%d records in %.2f s of processor time, %.0f a second; peak memory %d KiB\n",
        records, $1 + $2, records / ($1 + $2), $3 }' "$out/time"
rm "$out/frames"

command -v perf >/dev/null || exit 0
echo
echo "## What the time goes into"
# By the processor's time, since a virtual machine may have no counters. A function that the
# compiler put into another is counted there.
perf record -q -e cpu-clock -o "$out/perf.data" "$out/repeat" "$frames" 2000 >/dev/null
printf '| what | share |\n|---|---:|\n'
perf report -q -i "$out/perf.data" --stdio -F overhead,sym 2>/dev/null | awk '
    function group(name) {
        if (name ~ /^ieee754(_roots|::sqrt)/) return "square root"
        if (name ~ /^ieee754(_parts|::fma)/) return "fused multiply-add"
        if (name ~ /^(polynomial::cubic|cubic_parts|ieee754::cbrt)/) return "root of the cubic"
        if (name ~ /^polynomial::quadratic/) return "roots of the quadratic"
        if (name ~ /^eigen/) return "eigenvectors"
        if (name ~ /^(depths|refinement)/) return "charts and depths"
        if (name ~ /^(lambdatwist|orderings|p3p_)/) return "the solve itself"
        if (name ~ /mem(cpy|move|set)/) return "memcpy, memset"
        return "other"
    }
    NF { share[group($3)] += $1 }
    END { for (name in share) printf "| %s | %.1f%% |\n", name, share[name] }' |
    sort -t'|' -k3 -rn
