#!/usr/bin/env bash
# Prints the cost of drawing 2,048 nodes of six joints, of joining each to the 16 nearest, and of making a roadmap of
# them, in microseconds each, and the ratio to the same in plain Rust (rustc -O). Ends with status 1 where the two
# programs' checksums differ.
set -euo pipefail
here=$(cd "$(dirname "$0")" && pwd)
top=$(cd "$here/../.." && pwd)
work=$(mktemp -d)
trap 'rm -rf "$work"' EXIT
rounds=${1:-20}

mkdir -p "$work/crates"
for name in drm_outside drm_num drm_arm drm_shape drm_talk drm_road; do
    mkdir "$work/crates/$name"
    cp -r "$top/crates/$name/src" "$top/crates/$name/specs" "$work/crates/$name/"
    if [ -d "$top/crates/$name/proofs" ]; then cp -r "$top/crates/$name/proofs" "$work/crates/$name/"; fi
    grep "^$name:" "$top/crates.txt" >> "$work/crates.txt"
done
mkdir -p "$work/crates/road_cost/src"
cp "$here/main.rt.txt" "$work/crates/road_cost/src/main.rt"
echo "road_cost: drm_arm drm_outside drm_road" >> "$work/crates.txt"
cp "$top/HANDLES" "$work/"

(cd "$work/crates/road_cost" && rt run -- 0 1 > "$work/log" 2>&1) || { tail -n 20 "$work/log"; exit 1; }
rustc -O -o "$work/plain" "$here/plain.rs"

# The nanoseconds that a program takes, the least of five runs.
nanoseconds() {
    local least=0 start taken
    for _ in 1 2 3 4 5; do
        start=$(date +%s%N)
        "$@" > "$work/answer"
        taken=$(($(date +%s%N) - start))
        if [ "$least" -eq 0 ] || [ "$taken" -lt "$least" ]; then least=$taken; fi
    done
    echo "$least"
}

kinds=("nodes" "nodes and edges" "nodes and roadmap")
for kind in 0 1 2; do
    proved=$(nanoseconds "$work/crates/road_cost/out/road_cost" "$kind" "$rounds")
    sum=$(cat "$work/answer")
    plain=$(nanoseconds "$work/plain" "$kind" "$rounds")
    if [ "$sum" != "$(cat "$work/answer")" ]; then
        echo "${kinds[$kind]}: the checksums differ"
        exit 1
    fi
    awk -v kind="${kinds[$kind]}" -v proved="$proved" -v plain="$plain" -v rounds="$rounds" -v sum="$sum" \
        'BEGIN { printf "%s: %.0f us, plain Rust %.0f us, ratio %.2f, checksum %s\n", kind, proved / rounds / 1000, plain / rounds / 1000, proved / plain, sum }'
done
