#!/usr/bin/env bash
# Fetches the libraries of other solvers out of Debian's packages into target/peers: OpenGV,
# OpenCV's calib3d (headers and static library) and Eigen.
#
#   bench/peers/fetch.sh
#
# Nothing is installed; needed are curl and dpkg. The mirror is the one of this machine's apt
# configuration. Every package is checked against the SHA-256 below, which were read from an index
# that bore Debian's signature. They are bookworm's (amd64) and need its libc and libstdc++ or later
# ones.
set -euo pipefail
cd "$(dirname "$0")/../.."

pins='
pool/main/o/opengv/libopengv-dev_1.0+1git91f4b1-7+b1_amd64.deb 47f54d93cc68339e5c95b239148589210302c59d98025745c200051ba340c079
pool/main/o/opengv/libopengv1_1.0+1git91f4b1-7+b1_amd64.deb 2b1e73239ea7afd4cb789959c07eb64936b5679cc1ee69b0fef835906be8f0e2
pool/main/o/opencv/libopencv-calib3d-dev_4.6.0+dfsg-12_amd64.deb c12d630430da947b985e70f989572cc5aec37aa1daef80a899fadd7099baac38
pool/main/e/eigen3/libeigen3-dev_3.4.0-4_all.deb 1a167bb381acb90c1d8450a8f3e66a09d216dbc64b33ac8a082a0912513ef939
'
uri=$(reference/mirror.sh)
work=$(mktemp -d)
trap 'rm -rf "$work"' EXIT
while read -r file sum; do
    [ -n "$file" ] || continue
    curl -sSf --retry 3 -o "$work/p.deb" "$uri/$file"
    echo "$sum  $work/p.deb" | sha256sum -c --quiet ||
        { echo "${file##*/}: wrong sum" >&2; exit 1; }
    dpkg -x "$work/p.deb" "$work/unpacked"
done <<<"$pins"
rm -rf target/peers
mkdir -p target
cp -r "$work/unpacked" target/peers
echo "target/peers: $(sed -nE 's|.*/([^/]+)_[a-z0-9]+\.deb .*|\1|p' <<<"$pins" | tr '\n' ' ')"
