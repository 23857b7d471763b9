#!/usr/bin/env bash
# Runs the bench program (crates/bench/out/bench, as `rt ci` builds it) on a few texts and compares what it prints.
set -eu
cd "$(dirname "$0")/.."
sheet="24 3 1 2 1 0 1 0 0 0 0 0 0 16 4 20 4 1 2 1 0 2 1 0 2"
header="tick entered exited active taken_low taken_high"
failed=0

# Of a text, by its name: the lines that are to be printed.
expect() {
    local name=$1 text=$2 lines=$3
    if [[ "$(printf "$text" | crates/bench/out/bench; echo .)" != "$lines"$'\n'. ]]; then
        echo "bench_texts: $name: not what is to be printed"
        failed=1
    fi
}

expect "the document's example" "$sheet 5 0 1 0 0 1\n" "$header
0 3 0 3 0 0
1 4 2 7 1 0
2 0 0 5 0 0
3 2 4 7 2 0
4 4 2 7 1 0"
expect "no line feed at the end" "$sheet 2 0 1" "$header
0 3 0 3 0 0
1 4 2 7 1 0"
expect "a semicolon, which is no text of decimals" "$sheet 0;$sheet 0" "refused 0"
expect "an empty text" "" "refused 0"
expect "a refused sheet" "3 0 0 0 1 0\n" "refused 1"
exit $failed
