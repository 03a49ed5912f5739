#!/usr/bin/env bash
# Counts of 1, 2 and 4 readers beside one writer that moves a box to and fro: of a planner that callers share, whose readers
# take no lock, against one state behind a lock; then the edits of 1 to 8 callers of a planner. Prints both tables, in
# thousands a second by the clock on the wall, of five runs together; the two forms run in turns. A word after the
# script's name is the number of edits of a run, at most 65,536, in place of 60,000. Figures mean little where other
# programs have the processors.
set -euo pipefail
here=$(cd "$(dirname "$0")" && pwd)
top=$(cd "$here/../.." && pwd)
work=$(mktemp -d)
trap 'rm -rf "$work"' EXIT
edits=${1:-60000}

mkdir -p "$work/crates"
while read -r name _; do
    name=${name%:}
    mkdir "$work/crates/$name"
    for part in src specs proofs; do
        if [ -d "$top/crates/$name/$part" ]; then cp -r "$top/crates/$name/$part" "$work/crates/$name/"; fi
    done
done < <(grep -v '^#' "$top/crates.txt")
cost=$work/crates/share_cost
mkdir -p "$cost/src" "$cost/proofs/share"
cp "$here/main.rt.txt" "$cost/src/main.rt"
cp "$here/names.antt.txt" "$cost/proofs/share/Invariants.antt"
cp "$top/crates.txt" "$top/HANDLES" "$work/"
echo "share_cost: drm_cellmap drm_foot drm_grid drm_outside drm_shape drm_share drm_state drm_talk" >> "$work/crates.txt"

(cd "$cost" && rt run -- 0 1 1 10 > "$work/log" 2>&1) || { tail -n 20 "$work/log"; exit 1; }

# Thousands a second of counts and of edits, of runs that made so many edits each.
rates() {
    awk -v each="$1" '{ micros += $1; counts += $2 } END { printf "%.0f %.0f\n", counts * 1000 / micros, NR * each * 1000 / micros }' "$2"
}

printf '%-8s %16s %16s %8s %16s %16s\n' readers 'planner counts' 'lock counts' ratio 'planner edits' 'lock edits'
for readers in 1 2 4; do
    : > "$work/planner"
    : > "$work/lock"
    for _ in 1 2 3 4 5; do
        "$cost/out/share_cost" 0 1 "$readers" "$edits" >> "$work/planner"
        "$cost/out/share_cost" 1 1 "$readers" "$edits" >> "$work/lock"
    done
    read -r planner_counts planner_edits < <(rates "$edits" "$work/planner")
    read -r lock_counts lock_edits < <(rates "$edits" "$work/lock")
    awk -v r="$readers" -v pc="$planner_counts" -v pe="$planner_edits" -v lc="$lock_counts" -v le="$lock_edits" \
        'BEGIN { printf "%-8d %16d %16d %8.1f %16d %16d\n", r, pc, lc, lc ? pc / lc : 0, pe, le }'
done

printf '\n%-8s %16s\n' callers 'planner edits'
for callers in 1 2 3 4 5 6 7 8; do
    : > "$work/planner"
    for _ in 1 2 3 4 5; do
        "$cost/out/share_cost" 0 "$callers" 0 $((edits / callers)) >> "$work/planner"
    done
    read -r _ made < <(rates $((edits / callers * callers)) "$work/planner")
    printf '%-8d %16d\n' "$callers" "$made"
done
