#!/bin/sh
# The time and the memory of the built program on inputs of bytes `#`, up to the greatest length and one byte past it.
# Run by hand: benches/limit.sh
set -u
here=$(cd "$(dirname "$0")/.." && pwd)
"$here/orebench" check <"$here/examples/differential.txt" >/dev/null || exit 1
program=$here/crates/ore_bench/out/ore_bench
input=$(mktemp)
trap 'rm -f "$input"' EXIT
printf '%10s  %-22s %8s %12s\n' bytes answer seconds 'memory kB'
for length in 1048576 16777216 33554432 33554433; do
  head -c "$length" /dev/zero | tr '\0' '#' >"$input"
  figures=$(python3 - "$program" "$input" <<'PY'
import resource, subprocess, sys
with open(sys.argv[2], "rb") as text:
    run = subprocess.run([sys.argv[1], "check"], stdin=text, capture_output=True)
used = resource.getrusage(resource.RUSAGE_CHILDREN)
print("%-22s %8.3f %12d" % (run.stdout.decode().strip(), used.ru_utime + used.ru_stime, used.ru_maxrss))
PY
)
  printf '%10s  %s\n' "$length" "$figures"
done
