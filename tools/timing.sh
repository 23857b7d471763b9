#!/usr/bin/env bash
# timing.sh [SECONDS] [large | sizes]: proves and builds the crate `native` as an archive, and times compile, table run and sheet run beside
# the Rust version of shared/peer; with BEFORE_DIR set, also beside our own of an earlier commit (tools/before.sh makes that); with
# MODEL_DIR set, the sheet run also beside the unproved model (tools/model.sh makes that).
# Each function of all archives is placed at a multiple of 64 bytes: where a loop falls in a cache line is worth up to a sixth.
set -eu
cd "$(dirname "$0")/.."
export NATIVE_DIR=$PWD/target/timing CARGO_TARGET_DIR=$PWD/target/cargo
mkdir -p "$NATIVE_DIR"
(cd crates/native && rt lib) > target/timing/lib.log 2>&1 || { cat target/timing/lib.log; exit 1; }
cp crates/native/out/libnative.a "$NATIVE_DIR"
tools/align.sh "$NATIVE_DIR/libnative.a"
cd tools/timing
exec cargo run --quiet --offline --release -- "${1:-1}" ${2:-}
