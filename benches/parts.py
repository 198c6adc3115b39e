#!/usr/bin/env python3
"""Where the instructions of a run go: of each system of run_families.py, or of those whose name has a word, the share of
the whole that reading the problem takes, the share of both runs, and the share of the allocator (in which the others
have parts), by valgrind's callgrind. The program is built by runs.sh.
Run by hand: benches/parts.py [WORD]."""
import os
import re
import subprocess
import sys
import tempfile

HERE = os.path.dirname(os.path.abspath(__file__))
sys.path.append(HERE)
from run_families import systems

PROGRAM = os.path.join(HERE, "..", "crates", "ore_run_speed", "out", "ore_run_speed")
PARTS = {
    "reading": ["ore_problem::rows::rows"],
    "runs": ["ore_run_speed::count::print_run"],
    "allocator": ["rattle_alloc", "rattle_realloc", "rattle_dealloc"],
}


def inclusive(text):
    """The instructions of the whole, and those of each function with what it calls, by the function's name."""
    with tempfile.TemporaryDirectory() as folder:
        out = os.path.join(folder, "out")
        subprocess.run(
            ["valgrind", "--tool=callgrind", "--callgrind-out-file=" + out, PROGRAM], input=text, capture_output=True, check=True
        )
        lines = subprocess.run(
            ["callgrind_annotate", "--inclusive=yes", "--threshold=100", out], capture_output=True, text=True, check=True
        ).stdout.splitlines()
    found = {}
    for line in lines:
        parts = re.match(r"\s*([\d,]+) \([^)]*\)\s+(?:[^:\s]*:)?(.+?)(?: \[.*)?$", line)
        if parts:
            found.setdefault(parts.group(2), int(parts.group(1).replace(",", "")))
    return found


def main():
    word = sys.argv[1] if len(sys.argv) > 1 else ""
    for name, text in systems():
        if word in name:
            found = inclusive(text)
            whole = found["PROGRAM TOTALS"]
            shares = ", ".join("%s %d%%" % (part, 100 * sum(found.get(f, 0) for f in names) // whole) for part, names in PARTS.items())
            print("%s: %s instructions; %s" % (name, format(whole, ","), shares), flush=True)


main()
