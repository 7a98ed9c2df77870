#!/usr/bin/env bash
# Counts the host instructions that `uefihost run` takes for each guest step of a loaded image, for loops that it
# writes as assembly texts itself. It measures and judges nothing; figures seen are in docs/speed.md.
set -euo pipefail

top=$(cd "$(dirname "${BASH_SOURCE[0]}")/.." && pwd)
if ! command -v valgrind >/dev/null; then
    echo 'skipped: valgrind is not installed'
    exit 0
fi
"$top/uefihost" --version >/dev/null
program=$top/crates/uefihost/out/uefihost
work=$(mktemp -d)
trap 'rm -rf "$work"' EXIT

# the host instructions of a run of the image's text $1 with the bound $2
instructions() {
    {
        printf '[[image]]\nname = "loop"\ntext = """\n%s\n"""\n' "$(cat "$work/$1")"
        printf '[[step]]\ndo = "load"\nimage = "loop"\n[[step]]\ndo = "start"\nimage = "loop"\nbound = %s\n' "$2"
    } >"$work/script"
    # a run that ends at its bound has status 1
    { valgrind --tool=callgrind --callgrind-out-file=/dev/null "$program" run "$work/script" 2>&1 >/dev/null || true; } |
        sed -n 's/.*Collected *: *//p'
}

cat >"$work/register_work" <<'TEXT'
start: addi a0, a0, 1
       xor  a1, a1, a0
       slli a2, a0, 3
       add  a3, a2, a1
       sltu a4, a3, a2
       srai a5, a3, 2
       addiw a6, a5, 7
       and  a7, a6, a3
       j start
TEXT
cat >"$work/loads_stores" <<'TEXT'
start: la  s0, page
next:  ld  a0, 0(s0)
       sd  a0, 8(s0)
       lw  a1, 4(s0)
       sb  a1, 17(s0)
       lhu a2, 2(s0)
       sw  a2, 20(s0)
       lb  a3, 1(s0)
       sh  a3, 26(s0)
       j next
.data
page:  .zero 64
TEXT
cat >"$work/addi_jalr" <<'TEXT'
start: auipc t0, 0
       addi a0, a0, 1
       addi a1, a1, 2
       addi a2, a2, 3
       jalr zero, 4(t0)
TEXT
cat >"$work/ld_sd" <<'TEXT'
start: la t1, cell
       auipc t0, 0
       ld a0, 0(t1)
       sd a0, 8(t1)
       jalr zero, 4(t0)
.data
cell:  .zero 16
TEXT
# eight stores over the end of a page, to one instruction
cat >"$work/stores_over_an_edge" <<'TEXT'
start: la  s0, page
       lui t0, 1
       addi t0, t0, -4
       add s0, s0, t0
next:  sd  a0, 0(s0)
       sd  a0, 0(s0)
       sd  a0, 0(s0)
       sd  a0, 0(s0)
       sd  a0, 0(s0)
       sd  a0, 0(s0)
       sd  a0, 0(s0)
       sd  a0, 0(s0)
       j next
.data
page:  .zero 8192
TEXT
# two of three turns are instructions
cat >"$work/unbuilt_service" <<'TEXT'
start: ld s0, 96(a1)
       ld s0, 184(s0)
next:  jalr ra, 0(s0)
       j next
TEXT
# one of six turns writes a line of twelve characters
cat >"$work/console_line" <<'TEXT'
start: ld s0, 64(a1)
       ld s1, 8(s0)
next:  mv a0, s0
       la a1, text
       jalr ra, 0(s1)
       j next
.data
text:  .ascii16 "twelve chars"
TEXT

for loop in register_work loads_stores addi_jalr ld_sd stores_over_an_edge unbuilt_service console_line; do
    few=$(instructions "$loop" 1000)
    many=$(instructions "$loop" 201000)
    echo "$loop: $(((many - few) / 200000)) host instructions a step"
done
