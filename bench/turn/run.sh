#!/usr/bin/env bash
# The cost of a call of `turn` and of `mul_add2`: the proved crates against the same arithmetic in plain Rust.
# Prints a line for each: nanoseconds a call in Rattle and in Rust, and their ratio. At most 1.2 is wanted. Ends with an
# error where the checksums differ. Time is processor time, the least of five runs; the two programs run in turns.
set -euo pipefail
here="$(cd "$(dirname "$0")" && pwd)"
top="$(cd "$here/../.." && pwd)"
work="$(mktemp -d)"
trap 'rm -rf "$work"' EXIT

rustc -O --edition 2021 -o "$work/plain" "$here/plain.rs"

mkdir -p "$work/crates/turn_bench/src"
for name in drm_num drm_half; do
  mkdir "$work/crates/$name"
  cp -r "$top/crates/$name/src" "$top/crates/$name/specs" "$top/crates/$name/proofs" "$work/crates/$name/"
done
printf 'drm_num:\ndrm_half: drm_num\nturn_bench: drm_half drm_num\n' > "$work/crates.txt"
cp "$here/main.rt.txt" "$work/crates/turn_bench/src/main.rt"
(cd "$work/crates/turn_bench" && rt run -- turn 1 > "$work/build.log" 2>&1) || { cat "$work/build.log"; exit 1; }

cost() { # cost NAME CALLS: the line of one function
  python3 "$here/../cost.py" 5 /dev/null "$work/crates/turn_bench/out/turn_bench" "$1" "$2" -- "$work/plain" "$1" "$2" > "$work/times"
  { read -r rattle; read -r rust; } < "$work/times"
  awk -v name="$1" -v calls="$2" -v rattle="$rattle" -v rust="$rust" \
    'BEGIN { printf "%-9s rattle %.1f ns  rust %.1f ns  ratio %.2f\n", name, rattle * 1000 / calls, rust * 1000 / calls, rattle / rust }'
}
cost mul_add2 50000000
cost turn 5000000
