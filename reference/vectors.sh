#!/usr/bin/env bash
# Makes the stored vectors, byte for byte the same each time: vectors.sh SOURCES FOLDER
# Also writes FOLDER/kinds.md (what is in them) and FOLDER/coverage.md (which branches they reach).
set -euo pipefail
here=$(cd "$(dirname "$0")" && pwd)
sources=${1:?usage: vectors.sh SOURCES FOLDER}
folder=${2:?usage: vectors.sh SOURCES FOLDER}
mkdir -p "$folder"
"$here/run" "$sources" vectors "$folder" >"$folder/kinds.md"
"$here/run" "$sources" coverage "$folder" >"$folder/coverage.md"
grep "^- seed" "$folder/kinds.md"
tail -n 1 "$folder/coverage.md"
