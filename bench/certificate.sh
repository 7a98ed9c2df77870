#!/usr/bin/env bash
# Times `read_cert` over certificates that it makes itself, by a program that it makes and proves itself over the crates
# as they stand. It measures and judges nothing; figures seen are in docs/speed.md.
set -euo pipefail

top=$(cd "$(dirname "${BASH_SOURCE[0]}")/.." && pwd)
work=$(mktemp -d)
trap 'rm -rf "$work"' EXIT

cp "$top/HANDLES" "$work"
for crate in uh_base rv_decode rv_step prov_types prov_cert; do
    grep "^$crate:" "$top/crates.txt" >>"$work/crates.txt"
    mkdir -p "$work/crates/$crate"
    cp -r "$top/crates/$crate/"{src,specs,proofs} "$work/crates/$crate"
done
echo 'cert_times: prov_cert' >>"$work/crates.txt"

program=$work/crates/cert_times
mkdir -p "$program/src"
: >"$program/stdin"
: >"$program/stdout"
cat >"$program/src/main.rt" <<'PROGRAM'
//! Reads the certificate of a file, once for each word behind the file's name.
#![tactic(auto)]

use prov_cert::read_cert;
use std::env;
use std::fs;
use std::io;

/// Reads a certificate, and says how.
fn read_once(rt: &HostRuntime, bytes: &[u8]) -> io::Result<()> {
    match read_cert(rt.alloc(), bytes) {
        Ok(cert) => println!(rt; "{} nodes", cert.nodes.len()),
        Err(fault) => println!(rt; "{fault:?}"),
    }
}

fn main(rt: HostRuntime) -> io::Result<()> {
    let mut words = env::args(&rt)?;
    words.next();
    if let Some(name) = words.next() {
        let bytes = fs::read(&rt, name.as_str())?;
        for _ in words {
            read_once(&rt, bytes.as_slice())?;
        }
    }
    Ok(())
}
PROGRAM

# `rt run` ends with a failure where the output is not the one that a crate's stdout names
(cd "$program" && rt run >"$work/built" 2>&1) || cat "$work/built"

# a certificate with no spans and one entry, of the nodes that awk writes, a text a line
certificate() {
    printf 'regions = []\nspans = []\nentries = ["count 0; a0 n"]\nnotify = []\nnodes = [\n'
    awk "BEGIN { $1 }" | sed 's/.*/"&",/'
    echo ']'
}

# a node of 300,000 parts at the offsets that an expression of i gives
parts() {
    certificate "printf \"0; ; \"; for (i = 0; i < 300000; i++) printf \"%s%d 8 n\", i ? \", \" : \"\", $1; print \"; ; \""
}

# the user time of five readings without what a start and the file take, for one of them
measure() {
    local TIMEFORMAT='%U' none five
    none=$({ time "$program/out/cert_times" "$work/$1" >/dev/null; } 2>&1)
    five=$({ time "$program/out/cert_times" "$work/$1" 1 2 3 4 5 >"$work/answers"; } 2>&1)
    awk -v none="$none" -v five="$five" -v name="$1" -v bytes="$(wc -c <"$work/$1")" -v answer="$(tail -n 1 "$work/answers")" \
        'BEGIN { printf "%s, %d bytes: %s in %.0f ms\n", name, bytes, answer, (five - none) * 200 }'
}

certificate 'for (i = 0; i < 4096; i++) printf "%d; ra p 3 0, sp p 1 65520, t0 p 0 0x2000, t1 n 0 4096 8, a0 n; 65520 8 n, 65528 8 p 5 1072; %d; \n", 4 * i, (i + 1) % 4096' >"$work/nodes"
parts '8 * i' >"$work/rising_parts"
parts '8 * (300000 - i)' >"$work/falling_parts"
parts '8 * (i * 7919 % 300000)' >"$work/mixed_parts"
parts '8 * (i * 7919 % 299999)' >"$work/first_part_twice"
awk 'BEGIN { for (i = 0; i < 300000; i++) print "key_" i " = 1" }' >"$work/unknown_keys"

for name in nodes rising_parts falling_parts mixed_parts first_part_twice unknown_keys; do
    measure "$name"
done
