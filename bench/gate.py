#!/usr/bin/env python3
"""Runs the gate, `rt ci` with the words given, and prints the processor seconds that it took, crate by crate: of its proof, of the proof of its
tests, and of its must-fail edits with the check that they begin with. It reads /proc each second, so it needs Linux, and a process that lives
shorter counts nothing. What earlier runs on the machine kept isn't done again: `bench/gate.py --anew` does all."""
import os
import subprocess
import sys
import time

TICKS = os.sysconf("SC_CLK_TCK")
TOP = os.path.dirname(os.path.dirname(os.path.abspath(__file__)))


def processes():
    """Gives of each process its parent, its start, its seconds and its words, if it can be read."""
    for number in filter(str.isdigit, os.listdir("/proc")):
        try:
            with open(f"/proc/{number}/stat", encoding="utf-8", errors="replace") as file:
                fields = file.read().rsplit(")", 1)[1].split()
            with open(f"/proc/{number}/cmdline", "rb") as file:
                words = file.read().decode(errors="replace").split("\0")
            folder = os.readlink(f"/proc/{number}/cwd")
        except (OSError, IndexError):
            continue
        yield int(number), int(fields[1]), int(fields[19]), (int(fields[11]) + int(fields[12])) / TICKS, words, folder


def part_of(words, folder):
    """Says of which crate and part of the gate a process of the prover is, or None."""
    if not words[0].endswith("/rattle") or "--crate-name" not in words:
        return None
    crate = words[words.index("--crate-name") + 1]
    if os.path.basename(folder).startswith("rt-edit-"):
        return crate, "edits"
    return crate, "tests" if "--test" in words else "proof"


def sample(root, seconds):
    """Notes the seconds of the prover's processes below a process."""
    found = list(processes())
    parents = {number: parent for number, parent, *_ in found}
    for number, _, start, took, words, folder in found:
        above = number
        while above in parents and above != root:
            above = parents[above]
        part = part_of(words, folder) if above == root else None
        if part:
            seconds[number, start] = part, took


def main():
    seconds, begun = {}, time.time()
    gate = subprocess.Popen(["rt", "ci", *sys.argv[1:]], cwd=TOP)
    while gate.poll() is None:
        sample(gate.pid, seconds)
        time.sleep(1)
    table = {}
    for (crate, part), took in seconds.values():
        row = table.setdefault(crate, {"proof": 0, "tests": 0, "edits": 0})
        row[part] += took
    print(f"{'crate':20} {'proof':>8} {'tests':>8} {'edits':>8}")
    for crate, row in sorted(table.items(), key=lambda it: -sum(it[1].values())):
        print(f"{crate:20} {row['proof']:8.0f} {row['tests']:8.0f} {row['edits']:8.0f}")
    total = [sum(row[part] for row in table.values()) for part in ("proof", "tests", "edits")]
    print(f"{'all':20} {total[0]:8.0f} {total[1]:8.0f} {total[2]:8.0f}, {time.time() - begun:.0f} s in all")
    return gate.returncode


sys.exit(main())
