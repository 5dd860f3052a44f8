#!/usr/bin/env bash
# Tries the comparison itself, the second copy standing in for the port: stub.sh SOURCES
# A right stand-in must show no difference. One that is wrong in a last bit of a pose, of a score or
# of a fast cube root now and then must, one that scores a target behind the camera, one that takes
# a discriminant of zero for a lifted one, and one that marks a pose because it stands twice. Of the
# solve about the first target must: differences from the second, the second carried as the origin,
# a translation moved back to the world, and a checking target that is not moved. Of plates must:
# the stored inverse used in another ordering, or made where it is lacking; stored edges not
# permuted, or those of the points in other orderings; a limit of number 13 by the rounded product;
# questions in another order; only that worked out anew which an operation changes; a refusal that
# writes. Of the preview of a moved target must: plus zeros for edges where only the solve refuses;
# the old plate's edges, always or where the replacement is refused; the old inverse; lent edges
# left by a refusal; a plate that is written to.
set -euo pipefail
here=$(cd "$(dirname "$0")" && pwd)
sources=$(realpath "${1:?usage: stub.sh SOURCES}")
build() {
  (
    cd "$here"
    export P3P_SOURCES=$sources
    cargo build --quiet --release --offline -p stub --target-dir target/stub ${2:-}
    mkdir -p "target/$1"
    cp target/stub/release/libstub.a "target/$1/"
  )
}
compare() { # STAND-IN COMMAND..
  P3P_PORT=$here/target/$1/libstub.a "$here/run" "$sources" "${@:2}"
}
must_find() { # STAND-IN COMMAND..
  difference=$here/target/$1/difference
  if compare "$@" >/dev/null 2>"$difference"; then
    echo "the stand-in $1 was not found out by $2" >&2
    exit 1
  fi
  if ! grep -qi "the port" "$difference"; then
    echo "$2 failed otherwise: $(head -n 1 "$difference")" >&2
    exit 1
  fi
  echo "The stand-in $1, by $2: $(head -n 1 "$difference") ($(sed -n '2s/ .*//p' "$difference"))"
}
build right
compare right beside 50000 | tail -n 1
compare right pieces 50000 fast_cbrt | tail -n 1
compare right check "$here/inputs/cbrt.txt" | tail -n 1
compare right pieces 50000 about choice_about | tail -n 1
plates="plate_make plate_replace plate_exchange plate_scale plate_solve plate_preview"
compare right pieces 50000 $plates | tail -n 1
compare right plates 200000 | tail -n 1
for wrong in pose score behind root kind mark about origin target world \
  inverse lack permuted edges limit order changed writes \
  zeros old held stale unset stores; do
  build wrong-$wrong --features=wrong-$wrong
done
must_find wrong-pose beside 50000
must_find wrong-score beside 50000
must_find wrong-behind beside 50000
must_find wrong-behind pieces 50000 choice
must_find wrong-root pieces 50000 fast_cbrt
must_find wrong-root check "$here/inputs/cbrt.txt"
must_find wrong-kind pieces 50000 quadratic
must_find wrong-mark beside 1000000
must_find wrong-about beside 50000
must_find wrong-about pieces 50000 about
must_find wrong-origin beside 50000
must_find wrong-origin pieces 50000 about
must_find wrong-world beside 50000
must_find wrong-world pieces 50000 about
must_find wrong-target beside 50000
must_find wrong-target pieces 50000 choice_about
for wrong in inverse lack permuted edges limit order changed writes; do
  must_find wrong-$wrong plates 200000
done
for wrong in inverse lack permuted edges; do
  must_find wrong-$wrong pieces 50000 plate_solve
done
for wrong in limit order changed writes; do
  must_find wrong-$wrong pieces 50000 plate_scale
done
must_find wrong-order pieces 50000 plate_replace
must_find wrong-changed pieces 50000 plate_replace
must_find wrong-changed pieces 50000 plate_exchange
must_find wrong-writes pieces 50000 plate_make
for wrong in zeros old held stale unset stores; do
  must_find wrong-$wrong plates 200000
done
for wrong in zeros old held stale unset stores order changed writes; do
  must_find wrong-$wrong pieces 50000 plate_preview
done
