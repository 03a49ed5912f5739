#!/usr/bin/env bash
# Asks over the maps of two robots, with none, few and many boxes: prints the median, the 95th of a hundred and the greatest
# time of an ask in milliseconds, those of a plain Rust version of the definition (rustc -O), which sweeps each joining
# motion and each edge of the route in whole, and the ratios. Ends with an error where an answer differs. The small robot
# has three links on a grid of 16 rows (150 draws, 6 near nodes), the large one six links on a grid of 128 rows (500 draws,
# 8 near nodes). Boxes have sides of 64 to 256 and leave the base free; ends are drawn evenly, so that some asks have an end
# that is not joined. Time is that of the clock, the least of ROUNDS runs for each ask. The word is ROUNDS, 3 if none is given.
set -euo pipefail
here=$(cd "$(dirname "$0")" && pwd)
top=$(cd "$here/../.." && pwd)
work=$(mktemp -d)
trap 'rm -rf "$work"' EXIT
rounds=${1:-3}

mkdir -p "$work/crates"
for name in drm_outside drm_num drm_half drm_arm drm_pose drm_shape drm_grid drm_foot drm_talk drm_sweep drm_road drm_robot \
    drm_cellmap drm_after drm_route drm_cert drm_attach drm_build drm_plan; do
    mkdir "$work/crates/$name"
    cp -r "$top/crates/$name/src" "$work/crates/$name/"
    for part in specs proofs; do
        if [ -d "$top/crates/$name/$part" ]; then cp -r "$top/crates/$name/$part" "$work/crates/$name/"; fi
    done
    grep "^$name:" "$top/crates.txt" >> "$work/crates.txt"
done
mkdir -p "$work/crates/ask_cost/src"
cp "$here/main.rt.txt" "$work/crates/ask_cost/src/main.rt"
echo "ask_cost: drm_arm drm_build drm_cellmap drm_foot drm_grid drm_outside drm_plan drm_robot drm_shape drm_talk" >> "$work/crates.txt"
cp "$top/HANDLES" "$work/"

(cd "$work/crates/ask_cost" && rt run -- 0 0 1 > "$work/log" 2>&1) || { tail -n 20 "$work/log"; exit 1; }
rustc -O --edition 2021 -A dead_code -o "$work/plain" "$here/plain.rs"

for case in "0 0 512" "0 3 512" "0 12 512" "1 0 16" "1 12 16" "1 24 16"; do
    python3 "$here/times.py" "$rounds" "$work/crates/ask_cost/out/ask_cost" "$work/plain" $case
done
