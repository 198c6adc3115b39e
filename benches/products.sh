#!/bin/sh
# The time of products of dense operators in 1, 3 and 6 variables, of 10, 100 and 1,000 terms each side.
# Run by hand: benches/products.sh. Where the program isn't built, or a source is newer, it is proved first.
set -u
here=$(cd "$(dirname "$0")/.." && pwd)
crate=$here/crates/ore_speed
program=$crate/out/ore_speed

is_built() {
  [ -x "$program" ] &&
    [ -z "$(find "$here/crates.txt" "$here"/crates/*/src "$here"/crates/*/specs "$here"/crates/*/proofs \
      -type f -newer "$program" | head -n 1)" ]
}

if ! is_built; then
  echo "products.sh: the crates are proved before this run, which takes some minutes" >&2
  mkdir -p "$crate/out"
  (cd "$crate" && rt run </dev/null >"$crate/out/products.log" 2>&1)
  if ! is_built; then
    echo "products.sh: the program isn't built; the report is in $crate/out/products.log" >&2
    exit 12
  fi
fi
exec "$program" all
