#!/usr/bin/env bash
# before.sh COMMIT: builds the archive of the crate `native` as it was at a commit, its C names beginning with `before_`, for
# tools/timing.sh, and prints its folder, so that a landing is timed beside what stood before in one run:
#     BEFORE_DIR=$(tools/before.sh COMMIT) tools/timing.sh
set -eu
cd "$(dirname "$0")/.."
commit=$(git rev-parse --short "$1")
before=${TMPDIR:-/tmp}/modechart-before/$commit
if [ ! -f "$before/lib/libbefore.a" ]; then
    rm -rf "$before"
    git clone -q . "$before/main"
    git -C "$before/main" checkout -q "$commit"
    (cd "$before/main/crates/native" && rt lib) > "$before/built" 2>&1
    mkdir "$before/lib"
    objcopy --redefine-syms=<(nm "$before/main/crates/native/out/libnative.a" | awk '$2 == "T" { print $3, "before_" $3 }') \
        "$before/main/crates/native/out/libnative.a" "$before/lib/libbefore.a"
    tools/align.sh "$before/lib/libbefore.a"
fi
echo "$before/lib"
