#!/usr/bin/env bash
# align.sh ARCHIVE: places each function of an archive at a multiple of 64 bytes.
set -eu
sections=$(objdump -h "$1" | grep -o '\.text\.[^ ]*' | sort -u)
flags=()
while read -r section; do
    flags+=(--set-section-alignment "$section=64")
done <<< "$sections"
objcopy "${flags[@]}" "$1"
