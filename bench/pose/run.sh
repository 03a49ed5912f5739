#!/usr/bin/env bash
# Prints the cost of `enclose` for arms of 1, 3 and 6 links, in nanoseconds a pose, and its ratio to the same
# arithmetic in plain Rust (rustc -O). Ends with an error where the two programs' checksums differ. Time is processor
# time, the least of five runs; the two programs run in turns. A word after the script's name is the number of poses.
set -euo pipefail
here=$(cd "$(dirname "$0")" && pwd)
top=$(cd "$here/../.." && pwd)
work=$(mktemp -d)
trap 'rm -rf "$work"' EXIT
rounds=${1:-300000}

mkdir -p "$work/crates"
for name in drm_num drm_half drm_arm drm_pose; do
    mkdir "$work/crates/$name"
    cp -r "$top/crates/$name/src" "$top/crates/$name/specs" "$top/crates/$name/proofs" "$work/crates/$name/"
    grep "^$name:" "$top/crates.txt" >> "$work/crates.txt"
done
mkdir -p "$work/crates/pose_cost/src"
cp "$here/main.rt.txt" "$work/crates/pose_cost/src/main.rt"
echo "pose_cost: drm_arm drm_pose" >> "$work/crates.txt"
cp "$top/HANDLES" "$work/"

(cd "$work/crates/pose_cost" && rt run -- 1 1 > "$work/log" 2>&1) || { tail -n 20 "$work/log"; exit 1; }
rustc -O --edition 2021 -A dead_code -o "$work/plain" "$here/plain.rs"

for links in 1 3 6; do
    python3 "$here/../cost.py" 5 /dev/null "$work/crates/pose_cost/out/pose_cost" "$links" "$rounds" -- \
        "$work/plain" "$links" "$rounds" > "$work/times"
    { read -r proved; read -r plain; } < "$work/times"
    awk -v links="$links" -v proved="$proved" -v plain="$plain" -v rounds="$rounds" \
        'BEGIN { printf "links %d: %.0f ns a pose, plain Rust %.0f ns, ratio %.2f\n", links, proved * 1000 / rounds, plain * 1000 / rounds, proved / plain }'
done
