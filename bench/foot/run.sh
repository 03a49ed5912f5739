#!/usr/bin/env bash
# The cost of a footprint, and of the test that its shape is valid: `check` and `foot` of the proved crates against the same
# work in plain Rust, for discs and for rings of eight corners, of several sizes, on a grid of 128 rows with a side of 128
# units. Prints a line for each: microseconds a footprint in Rattle and in Rust, and their ratio, of which at most 1.2 is
# wanted. Ends with an error where the checksums differ. Time is processor time, the least of five runs; the two programs
# run in turns.
set -euo pipefail
here="$(cd "$(dirname "$0")" && pwd)"
top="$(cd "$here/../.." && pwd)"
work="$(mktemp -d)"
trap 'rm -rf "$work"' EXIT

rustc -O --edition 2021 -o "$work/plain" "$here/plain.rs"

mkdir -p "$work/crates/foot_bench/src"
for name in drm_outside drm_num drm_arm drm_shape drm_grid drm_foot; do
  mkdir "$work/crates/$name"
  cp -r "$top/crates/$name/src" "$top/crates/$name/specs" "$top/crates/$name/proofs" "$work/crates/$name/"
  grep "^$name:" "$top/crates.txt" >> "$work/crates.txt"
done
echo 'foot_bench: drm_foot drm_grid drm_shape' >> "$work/crates.txt"
cp "$here/main.rt.txt" "$work/crates/foot_bench/src/main.rt"
(cd "$work/crates/foot_bench" && rt run -- disc 64 1 > "$work/build.log" 2>&1) || { cat "$work/build.log"; exit 1; }

cost() { # cost KIND SIZE CALLS: the line of one kind and size
  python3 "$here/../cost.py" 5 /dev/null "$work/crates/foot_bench/out/foot_bench" "$@" -- "$work/plain" "$@" > "$work/times"
  { read -r rattle; read -r rust; } < "$work/times"
  awk -v name="$1 $2" -v calls="$3" -v rattle="$rattle" -v rust="$rust" \
    'BEGIN { printf "%-10s rattle %.3f us  rust %.3f us  ratio %.2f\n", name, rattle / calls, rust / calls, rattle / rust }'
}
for kind in disc ring; do
  cost $kind 64 1000000
  cost $kind 512 300000
  cost $kind 4096 30000
done
