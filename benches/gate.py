#!/usr/bin/env python3
"""The processor seconds of a gate, by crate: of its proof, of its tests and of its must-fail edits.

Run beside `.ci/run`: benches/gate.py PID, with the process number of `rt ci`; it prints the table when that has ended.
The processes of the prover are looked at every two seconds, so each figure is short by up to that.
"""
import os
import sys
import time

TICKS = os.sysconf("SC_CLK_TCK")
KINDS = ("proof", "tests", "edits")


def read(path):
    try:
        with open(path, "rb") as file:
            return file.read()
    except OSError:
        return b""


def descendants(top):
    parents = {}
    for name in filter(str.isdigit, os.listdir("/proc")):
        fields = read(f"/proc/{name}/stat").rpartition(b")")[2].split()
        if fields:
            parents[int(name)] = int(fields[1])
    found = {top}
    while True:
        more = {pid for pid, parent in parents.items() if parent in found} - found
        if not more:
            return found
        found |= more


def look(pid, seen):
    words = read(f"/proc/{pid}/cmdline").split(b"\0")
    if len(words) < 2 or not words[0].endswith(b"/rattle") or words[1] not in (b"check", b"build") or b"--crate-name" not in words:
        return
    crate = words[words.index(b"--crate-name") + 1].decode()
    kind = "edits" if "rt-edit" in os.readlink(f"/proc/{pid}/cwd") else "tests" if b"--test" in words else "proof"
    fields = read(f"/proc/{pid}/stat").rpartition(b")")[2].split()
    if fields:
        seen[pid] = (crate, kind, sum(map(int, fields[11:15])) / TICKS)


def main():
    top, seen = int(sys.argv[1]), {}
    begun = time.time()
    while os.path.exists(f"/proc/{top}"):
        for pid in descendants(top):
            try:
                look(pid, seen)
            except OSError:
                pass
        time.sleep(2)
    table = {}
    for crate, kind, seconds in seen.values():
        table.setdefault(crate, dict.fromkeys(KINDS, 0.0))[kind] += seconds
    print("| crate | proof | tests | edits |\n|---|---|---|---|")
    for crate, row in sorted(table.items()):
        print("| `%s` | %s |" % (crate, " | ".join("%.0f" % row[kind] for kind in KINDS)))
    sums = [sum(row[kind] for row in table.values()) for kind in KINDS]
    print("| all | %s |" % " | ".join("%.0f" % value for value in sums))
    print("\n%.0f processor minutes, %.0f minutes by the clock" % (sum(sums) / 60, (time.time() - begun) / 60))


main()
