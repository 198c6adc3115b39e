#!/bin/sh
# The processor time and the memory of the built program on valid certificates of 1, 4 and 16 MiB of several kinds.
# Run by hand: benches/certificates.sh
set -u
here=$(cd "$(dirname "$0")/.." && pwd)
"$here/orebench" check <"$here/examples/differential.txt" >/dev/null || exit 1
program=$here/crates/ore_bench/out/ore_bench
input=$(mktemp)
trap 'rm -f "$input"' EXIT

# The longest text of a kind of at most so many bytes.
text() {
  python3 - "$1" "$2" <<'PY'
import sys

DERIVATIVE = b"ore 1\norder degrevlex\ncoordinate t\ndifferential d t\nmatrix 1 1\nrow d\nend\n"
ELEMENT = b"certificate 1\nautonomous-element\nmatrix element 1 1\nrow 1\noperator d\nmatrix cofactor 1 1\nrow 1\n"
REST = b"matrix rest 1 1\nrow 1\nend\n"


def entries(count, first):
    """A row whose first entry is given, and whose others are zeros."""
    return b"row " + first + b", 0" * (count - 1) + b"\n"


def generators(count):
    """The kernel of two equal rows, by so many equal generators."""
    return (
        b"ore 1\norder degrevlex\nmatrix 2 1\nrow 1\nrow 1\nend\ncertificate 1\nkernel left\nmatrix L %d 2\n" % count
        + b"row 1, -1\n" * count
        + b"block exact\nmatrix basis 2 1\nrow 1\nrow 1\nmatrix from 2 2\nrow 1, 0\nrow 0, 1\nmatrix to 2 2\nrow 1, 0\nrow 0, 1\n"
        + b"pairs 1\npair 1 2 0\nmatrix inside 3 %d\n" % count
        + entries(count, b"0") * 2
        + entries(count, b"1")
        + b"end\n"
    )


def steps(count):
    """An element, from which steps are taken that undo each other."""
    return (
        DERIVATIVE + ELEMENT + b"block outside\nmatrix basis 1 1\nrow d\nmatrix from 1 1\nrow 1\npairs 0\nsteps %d\n" % (2 * count)
        + b"step 1 t\nstep 1 -t\n" * count
        + REST
    )


def listed(count, entry):
    """The same element by a basis of so many equal rows, with these entries for the pairs of rows behind the first."""
    first = b"".join(b"pair 1 %d 0\n" % j for j in range(2, count + 1))
    others = b"".join(entry % (i, j) for i in range(2, count + 1) for j in range(i + 1, count + 1))
    return (
        DERIVATIVE + ELEMENT + b"block outside\nmatrix basis %d 1\n" % count + b"row d\n" * count
        + b"matrix from 1 %d\n" % count + entries(count, b"1")
        + b"pairs %d\n" % (count * (count - 1) // 2) + first + others + b"steps 0\n" + REST
    )


KINDS = {
    "generators": generators,
    "steps": steps,
    "pairs": lambda count: listed(count, b"pair %d %d 0\n"),
    "skips": lambda count: listed(count, b"skip %d %d 1\n"),
}

make, size = KINDS[sys.argv[1]], int(sys.argv[2])
low, high = 2, 4
while len(make(high)) <= size:
    low, high = high, 2 * high
while high - low > 1:
    middle = (low + high) // 2
    if len(make(middle)) <= size:
        low = middle
    else:
        high = middle
sys.stdout.buffer.write(make(low))
PY
}

# The answer, the seconds and the memory, measured in a process that holds little itself.
figures() {
  python3 - "$program" "$input" <<'PY'
import os, subprocess, sys
with open(sys.argv[2], "rb") as text:
    child = subprocess.Popen([sys.argv[1], "check"], stdin=text, stdout=subprocess.PIPE)
answer = child.stdout.read().decode().strip()
used = os.wait4(child.pid, 0)[2]
child.returncode = 0
print("%-28s %8.3f %12d" % (answer, used.ru_utime + used.ru_stime, used.ru_maxrss))
PY
}

printf '%-10s  %10s  %-28s %8s %12s\n' kind bytes answer seconds 'memory kB'
for kind in generators steps pairs skips; do
  for size in 1048576 4194304 16777216; do
    text "$kind" "$size" >"$input"
    printf '%-10s  %10s  %s\n' "$kind" "$(wc -c <"$input" | tr -d ' ')" "$(figures)"
  done
done
