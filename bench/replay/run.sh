#!/usr/bin/env bash
# Replays logs on `drm_tool` and on a plain loop in C, compares their reports, and prints the lines per second of each
# and the ratio of the times. Time is processor time, the least of five runs; the two programs run in turns. Needs rt,
# a C compiler and python3. A word after the script's name is the number of runs in place of five.
set -euo pipefail
here=$(cd "$(dirname "$0")" && pwd)
crates=$here/../../crates
tool=$crates/drm_tool/out/drm_tool
work=$(mktemp -d)
trap 'rm -rf "$work"' EXIT
rounds=${1:-5}

# The program is built anew where it is older than a source that it may be made of.
if [ ! -x "$tool" ] || [ -n "$(find "$crates" "$here/../../crates.txt" -path '*/out' -prune -o -name '*.rt' -newer "$tool" -print -o -name '*.antt' -newer "$tool" -print -o -name crates.txt -newer "$tool" -print)" ]; then
  (cd "$crates/drm_tool" && rt run -- replay sample brief </dev/null >"$work/build" 2>&1) || { tail -n 20 "$work/build"; exit 1; }
  touch "$tool"
fi
cc -O2 -o "$work/plain" "$here/plain.c"
python3 "$here/logs.py" "$work"

printf '%-12s %9s %14s %14s %8s\n' log lines 'drm_tool/s' 'plain C/s' ratio
for log in counts puts mixed busy beside; do
  lines=$(wc -l <"$work/$log.log")
  python3 "$here/../cost.py" "$rounds" "$work/$log.log" "$tool" replay sample brief -- "$work/plain" >"$work/times"
  { read -r ours; read -r plain; } <"$work/times"
  awk -v name="$log" -v lines="$lines" -v ours="$ours" -v plain="$plain" \
    'BEGIN { printf "%-12s %9d %14.0f %14.0f %8.2f\n", name, lines, lines * 1e6 / ours, lines * 1e6 / plain, ours / plain }'
done
