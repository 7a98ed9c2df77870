#!/usr/bin/env bash
# Counts the host instructions that `uefihost flat` takes per guest step, for loops that it makes itself, and times
# 50,000,000 steps beside bench/plain.c, an interpreter that checks nothing, and a start. It measures and judges
# nothing; figures seen are in docs/speed.md.
set -euo pipefail

top=$(cd "$(dirname "${BASH_SOURCE[0]}")/.." && pwd)
if ! command -v valgrind >/dev/null; then
    echo 'skipped: valgrind is not installed'
    exit 0
fi
"$top/uefihost" --version >/dev/null
program=$top/crates/uefihost/out/uefihost
work=$(mktemp -d)
trap 'rm -rf "$work"' EXIT

# auipc t0, 0; addi a0, a0, 1; addi a1, a1, 2; addi a2, a2, 3; jalr zero, 4(t0)
printf '\x97\x02\x00\x00\x13\x05\x15\x00\x93\x85\x25\x00\x13\x06\x36\x00\x67\x80\x42\x00' >"$work/addi_jalr"
# auipc t0, 0; ld a0, 256(t0); sd a0, 264(t0); jalr zero, 4(t0)
printf '\x97\x02\x00\x00\x03\xb5\x02\x10\x23\xb4\xa2\x10\x67\x80\x42\x00' >"$work/ld_sd"
# addi, xor, slli, add, sltu, srai, addiw, and, j
printf '\x13\x05\x15\x00\xb3\xc5\xa5\x00\x13\x16\x35\x00\xb3\x06\xb6\x00\x33\xb7\xc6\x00\x93\xd7\x26\x40\x1b\x88\x77\x00\xb3\x78\xd8\x00\x6f\xf0\x1f\xfe' >"$work/register_work"
# ld, sd, lw, sb, lhu, sw, lb, sh of one page, j
printf '\x17\x04\x00\x00\x13\x04\x04\x40\x03\x35\x04\x00\x23\x34\xa4\x00\x83\x25\x44\x00\xa3\x08\xb4\x00\x03\x56\x24\x00\x23\x2a\xc4\x00\x83\x06\x14\x00\x23\x1d\xd4\x00\x6f\xf0\x1f\xfe' >"$work/loads_stores"
# mul, div, rem, mulhu, divuw, mulw, mulh, remu, j
printf '\x37\x35\x00\x00\x1b\x05\x95\x03\x93\x05\x90\xff\x33\x06\xb5\x02\xb3\x46\xb6\x02\x33\x67\xa6\x02\xb3\x37\xa6\x02\x3b\x58\xa6\x02\xbb\x08\xf6\x02\xb3\x12\xf6\x02\x33\x73\xb6\x02\x6f\xf0\x1f\xfe' >"$work/mul_div"
# a call, a return, branches and work in between, mostly in 16 bits
printf '\x01\x44\xef\x00\x20\x01\x05\x04\x93\x75\x34\x00\x91\xc1\x22\x85\x6d\xf8\xc5\xbf\x05\x05\x2a\x96\x11\x8d\x05\x81\x82\x80' >"$work/calls_branches"

# nine additions and a jump to nine more that lie 8 KiB behind them, whose jump leads back
additions='\x13\x05\x15\x00\x93\x85\x15\x00\x13\x06\x16\x00\x93\x86\x16\x00\x13\x07\x17\x00\x93\x87\x17\x00\x13\x08\x18\x00\x93\x88\x18\x00\x13\x09\x19\x00'
{
    printf "$additions\x6f\x10\xd0\x7d"
    head -c 8152 /dev/zero
    printf "$additions\x6f\xd0\xdf\xfd"
} >"$work/far_apart"

# the host instructions of a run of so many steps
instructions() {
    # a run that ends at its bound has status 1
    { valgrind --tool=callgrind --callgrind-out-file=/dev/null "$program" flat "$1" "$2" 2>&1 >/dev/null || true; } |
        sed -n 's/.*Collected *: *//p'
}

# the user time of 50,000,000 steps, of the program and of the plain interpreter, which print the same line
compare() {
    local TIMEFORMAT='%U' ours theirs
    ours=$({ time "$program" flat "$work/$1" 50000000 >"$work/line" || true; } 2>&1)
    theirs=$({ time "$work/plain" "$work/$1" 50000000 >"$work/plain_line" || true; } 2>&1)
    echo "$1: 50,000,000 steps in $ours s, by the plain interpreter in $theirs s"
    cmp "$work/line" "$work/plain_line"
}

for loop in addi_jalr ld_sd register_work loads_stores mul_div calls_branches far_apart; do
    few=$(instructions "$work/$loop" 1000)
    many=$(instructions "$work/$loop" 1001000)
    echo "$loop: $(((many - few) / 1000000)) host instructions a step"
done

cc -O2 -o "$work/plain" "$top/bench/plain.c"
for loop in addi_jalr ld_sd register_work loads_stores mul_div calls_branches far_apart; do
    compare "$loop"
done

printf '\x73\x00\x10\x00' >"$work/ebreak"
begin=$(date +%s%N)
for _ in 1 2 3 4 5 6 7 8 9 10; do
    "$program" flat "$work/ebreak" 1 >/dev/null
done
end=$(date +%s%N)
echo "start: $(((end - begin) / 10000000)) ms"
