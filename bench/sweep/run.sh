#!/usr/bin/env bash
# Prints the cost of `sweep` for arms of 1, 3 and 6 links on grids of 16, 64 and 128 rows, for long motions (each joint
# goes up to 4,096 of 1,024 a quarter turn), short ones (up to 100) and single poses (`sweep_pose`), with pads of none,
# a quarter and a half of a cell's side, in microseconds a sweep, and its ratio to a plain Rust version of the definition
# (rustc -O): every leaf, every piece, each cell of the rows and columns that its box reaches. Ends with an error where
# the two programs' checksums of the swept cells differ. Time is processor time, the least of five runs; the two
# programs run in turns. A word after the script's name is the number of runs in place of five.
set -euo pipefail
here=$(cd "$(dirname "$0")" && pwd)
top=$(cd "$here/../.." && pwd)
work=$(mktemp -d)
trap 'rm -rf "$work"' EXIT
rounds=${1:-5}

mkdir -p "$work/crates"
for name in drm_outside drm_num drm_half drm_arm drm_pose drm_grid drm_sweep; do
    mkdir "$work/crates/$name"
    cp -r "$top/crates/$name/src" "$top/crates/$name/specs" "$work/crates/$name/"
    if [ -d "$top/crates/$name/proofs" ]; then cp -r "$top/crates/$name/proofs" "$work/crates/$name/"; fi
    grep "^$name:" "$top/crates.txt" >> "$work/crates.txt"
done
mkdir -p "$work/crates/sweep_cost/src"
cp "$here/main.rt.txt" "$work/crates/sweep_cost/src/main.rt"
echo "sweep_cost: drm_arm drm_grid drm_outside drm_sweep" >> "$work/crates.txt"
cp "$top/HANDLES" "$work/"

(cd "$work/crates/sweep_cost" && rt run -- 1 16 0 0 1 > "$work/log" 2>&1) || { tail -n 20 "$work/log"; exit 1; }
rustc -O -o "$work/plain" "$here/plain.rs"

printf '%-6s %5s %5s %4s %12s %12s %6s\n' motion links rows pad 'sweep us' 'plain us' ratio
for case in "long 4096 1 16 400" "long 4096 1 64 40" "long 4096 1 128 20" "long 4096 3 16 160" "long 4096 3 64 10" \
    "long 4096 3 128 6" "long 4096 6 16 60" "long 4096 6 64 4" "long 4096 6 128 2" "short 100 1 16 4000" \
    "short 100 1 64 300" "short 100 1 128 300" "short 100 3 16 2000" "short 100 3 64 160" "short 100 3 128 100" \
    "short 100 6 16 600" "short 100 6 64 50" "short 100 6 128 40" "pose 0 1 16 20000" "pose 0 1 64 8000" \
    "pose 0 1 128 6000" "pose 0 3 16 20000" "pose 0 3 64 8000" "pose 0 3 128 6000" "pose 0 6 16 20000" \
    "pose 0 6 64 8000" "pose 0 6 128 6000"; do
    read -r motion far links rows count <<< "$case"
    for pad in 0 32 64; do
        python3 "$here/../cost.py" "$rounds" /dev/null "$work/crates/sweep_cost/out/sweep_cost" "$links" "$rows" "$far" "$pad" "$count" -- \
            "$work/plain" "$links" "$rows" "$far" "$pad" "$count" > "$work/times"
        { read -r proved; read -r plain; } < "$work/times"
        awk -v motion="$motion" -v links="$links" -v rows="$rows" -v pad="$pad" -v proved="$proved" -v plain="$plain" -v count="$count" \
            'BEGIN { printf "%-6s %5d %5d %4d %12.1f %12.1f %6.2f\n", motion, links, rows, pad, proved / count, plain / count, proved / plain }'
    done
done
