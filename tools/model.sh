#!/usr/bin/env bash
# model.sh: builds the unproved model of shared/patterns/code as an archive for tools/timing.sh, and prints its folder:
#     MODEL_DIR=$(tools/model.sh) tools/timing.sh
set -eu
cd "$(dirname "$0")/.."
model=${TMPDIR:-/tmp}/modechart-model
rm -rf "$model"
cp -r ../shared/patterns/code "$model"
ROOT=$model "$model/tools/native_lib.sh" "$model/lib" > "$model/built" 2>&1
tools/align.sh "$model/lib/libmc.a"
echo "$model/lib"
