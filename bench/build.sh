#!/usr/bin/env bash
# Times `uefihost build` over large texts that it makes itself, up to the limit of 4 MiB. It measures and judges
# nothing; figures seen are in docs/speed.md.
set -euo pipefail

top=$(cd "$(dirname "${BASH_SOURCE[0]}")/.." && pwd)
"$top/uefihost" --version >/dev/null
program=$top/crates/uefihost/out/uefihost
work=$(mktemp -d)
trap 'rm -rf "$work"' EXIT

# the user time of a build, and its answer: the image's size, or the refusal
build() {
    local status=0
    TIMEFORMAT="$1: %U s"
    time "$program" build "$work/$1" >"$work/image" 2>"$work/refusal" || status=$?
    if [ "$status" = 0 ]; then
        echo "    $(wc -l <"$work/$1") lines, $(wc -c <"$work/$1") bytes: an image of $(wc -c <"$work/image") bytes"
    else
        echo "    $(wc -l <"$work/$1") lines, $(wc -c <"$work/$1") bytes: refused as $(cut -d' ' -f2,4- "$work/refusal")"
    fi
} 2>&1

awk 'BEGIN { print "start: ret"; for (i = 0; i < 400000; i++) print "l" i ":" }' >"$work/labels"
awk 'BEGIN { print "start: ret"; for (i = 0; i < 4194000; i++) print "" }' >"$work/empty_lines"
awk 'BEGIN { print "start: ret"; for (i = 0; i < 460000; i++) print ".byte 1" }' >"$work/bytes"
awk 'BEGIN { print "start: ret"; for (i = 0; i < 250000; i++) print "add a0, a0, a1" }' >"$work/instructions"
awk 'BEGIN { print "start: ret\n.data"; for (i = 0; i < 200000; i++) print ".dword start" }' >"$work/sites_past_the_size"
awk 'BEGIN { print "start: ret\n.data"; for (i = 0; i < 60000; i++) print ".dword start"; print ".text"; for (i = 0; i < 90000; i++) print "ret" }' >"$work/sites_and_instructions"
# each 32 bytes of instructions move the sites of .data
(echo .alignment 32 && cat "$work/sites_and_instructions") >"$work/sites_that_move"

for text in labels empty_lines bytes instructions sites_past_the_size sites_and_instructions sites_that_move; do
    build "$text"
done
