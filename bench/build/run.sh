#!/usr/bin/env bash
# Builds the maps of two robots and prints for each the milliseconds that the program takes on four processors and on
# one, the ratio to plain Rust (rustc -O) of the same algorithm with four threads, and the peak of resident memory;
# then what one build takes in a program that makes many, on four processors and on one, how many times as fast four
# are, and what four copies of the program on one processor each take, which is as much as four processors can give;
# then what one check of all stored sweeps takes in processor time, and its ratio to plain Rust, which sweeps each
# element with both pads by the definition. The small robot has three links on a grid of 16 rows, 150 draws and 6 near
# nodes; the large one six links on a grid of 128 rows, 500 draws and 8 near nodes. Ends with an error where the maps
# of the programs differ. Times are those of the clock, the least of five runs, so the machine should have nothing
# else to do; the programs run in turns. Needs rt, rustc, python3 and taskset, and four processors. Words after the
# script's name: the robots (0 is the small one, 1 the large one, both where none is given), and the number of runs in
# place of five.
set -euo pipefail
here=$(cd "$(dirname "$0")" && pwd)
top=$(cd "$here/../.." && pwd)
work=$(mktemp -d)
trap 'rm -rf "$work"' EXIT
robots=${1:-0 1}
rounds=${2:-5}

mkdir -p "$work/crates"
for name in drm_outside drm_num drm_half drm_arm drm_pose drm_shape drm_grid drm_talk drm_sweep drm_road drm_robot drm_cellmap drm_build drm_mapfile; do
    mkdir "$work/crates/$name"
    cp -r "$top/crates/$name/src" "$work/crates/$name/"
    for part in specs proofs; do
        if [ -d "$top/crates/$name/$part" ]; then cp -r "$top/crates/$name/$part" "$work/crates/$name/"; fi
    done
    grep "^$name:" "$top/crates.txt" >> "$work/crates.txt"
done
mkdir -p "$work/crates/build_cost/src"
cp "$here/main.rt.txt" "$work/crates/build_cost/src/main.rt"
echo "build_cost: drm_arm drm_build drm_cellmap drm_grid drm_mapfile drm_road drm_robot drm_talk" >> "$work/crates.txt"
cp "$top/HANDLES" "$work/"

(cd "$work/crates/build_cost" && rt run -- 0 1 > "$work/log" 2>&1) || { tail -n 20 "$work/log"; exit 1; }
rustc -O --edition 2021 -o "$work/plain" "$here/plain.rs"
built=$work/crates/build_cost/out/build_cost

for robot in $robots; do
    python3 "$here/wall.py" "$rounds" taskset -c 0-3 "$built" "$robot" 0 -- taskset -c 0 "$built" "$robot" 0 -- \
        taskset -c 0-3 "$work/plain" "$robot" 4 0 > "$work/times"
    { read -r four held; read -r one _; read -r plain plain_held; } < "$work/times"
    "$work/plain" "$robot" 4 0
    awk -v robot="$robot" -v four="$four" -v one="$one" -v plain="$plain" -v held="$held" -v plain_held="$plain_held" \
        'BEGIN { printf "robot %d: %d ms on four processors, %d ms on one, plain Rust %d ms (ratio %.2f); peak memory %d MB, plain Rust %d MB\n", robot, four, one, plain, four / plain, held, plain_held }'
    more=$((robot == 0 ? 40 : 1))
    python3 "$here/wall.py" "$rounds" taskset -c 0-3 "$built" "$robot" 0 "$more" -- taskset -c 0 "$built" "$robot" 0 "$more" > "$work/times"
    { read -r many_four _; read -r many_one _; } < "$work/times"
    awk -v robot="$robot" -v more="$more" -v four="$four" -v one="$one" -v many_four="$many_four" -v many_one="$many_one" \
        'BEGIN { printf "robot %d: a build takes %.1f ms on four processors, %.1f ms on one (%.2f times as fast)\n", robot, (many_four - four) / more, (many_one - one) / more, (many_one - one) / (many_four - four) }'
    python3 "$here/side.py" "$rounds" 4 "$built" "$robot" 0 "$more" > "$work/side"
    awk -v robot="$robot" '{ printf "robot %d: the same program on one processor takes %d ms alone, and %d ms beside three others, so that four processors are %.2f times as fast as one at most\n", robot, $1, $2, 4 * $1 / $2 }' "$work/side"
    python3 "$here/../cost.py" "$rounds" /dev/null "$built" "$robot" 0 -- "$work/plain" "$robot" 4 0 > "$work/unchecked"
    python3 "$here/../cost.py" "$rounds" /dev/null "$built" "$robot" 1 -- "$work/plain" "$robot" 4 1 > "$work/checked"
    paste "$work/checked" "$work/unchecked" | awk -v robot="$robot" '{ taken[NR] = ($1 - $2) / 1000 }
        END { printf "robot %d: a check takes %.1f ms, plain Rust %.1f ms (ratio %.3f)\n", robot, taken[1], taken[2], taken[1] / taken[2] }'
done
