#!/bin/sh
# The work of runs with the live chooser on families of systems (run_families.py), of each the rows, and then those of
# the transposed adjoint: instructions of the whole program, where `perf` or `valgrind` counts them, else its seconds;
# and the numbers of the runs. With a word, the systems whose name has it.
# Run by hand: benches/runs.sh. Where the program isn't built, or a source is newer, it is proved first.
set -u
here=$(cd "$(dirname "$0")/.." && pwd)
crate=$here/crates/ore_run_speed
program=$crate/out/ore_run_speed

is_built() {
  [ -x "$program" ] &&
    [ -z "$(find "$here/crates.txt" "$here"/crates/*/src "$here"/crates/*/specs "$here"/crates/*/proofs \
      -type f -newer "$program" | head -n 1)" ]
}

if ! is_built; then
  echo "runs.sh: the crates are proved before this run, which takes some minutes" >&2
  mkdir -p "$crate/out"
  (cd "$crate" && rt run <stdin >"$crate/out/runs.log" 2>&1)
  if ! is_built; then
    echo "runs.sh: the program isn't built; the report is in $crate/out/runs.log" >&2
    exit 12
  fi
fi
exec python3 - "$program" "$here/benches" "${1:-}" <<'PY'
import subprocess, sys, time

PROGRAM, _, WORD = sys.argv[1:]
sys.path.append(sys.argv[2])
from measure import LIMIT, instructions
from run_families import systems


def cost(text, seconds):
    """How many instructions the program takes on a text, or else its seconds."""
    found = instructions([PROGRAM], text)
    return format(found, ",") + " instructions" if found else "%.2f seconds" % seconds


def numbers(text):
    """What the program prints, and its seconds."""
    begun = time.time()
    try:
        printed = subprocess.run([PROGRAM], input=text, capture_output=True, timeout=LIMIT).stdout.decode()
    except subprocess.TimeoutExpired:
        printed = "not done in %d seconds\n" % LIMIT
    return printed, time.time() - begun


for name, text in systems():
    if WORD in name:
        printed, seconds = numbers(text)
        print("%s: %s" % (name, cost(text, seconds)))
        print("".join("  " + line + "\n" for line in printed.splitlines()), end="", flush=True)
PY
