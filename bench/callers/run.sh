#!/usr/bin/env bash
# Replays logs of eight callers, and the same lines as one caller's, over the map of the robot in examples/: prints the
# least clock time in milliseconds of ROUNDS runs on one, two and four processors, and how much faster four are than one.
# Reading the log and printing the report are in it, which one thread does. Needs rt and python3, and four processors. The
# word is ROUNDS, 5 if none is given.
set -euo pipefail
here=$(cd "$(dirname "$0")" && pwd)
top=$(cd "$here/../.." && pwd)
tool=$top/crates/drm_tool/out/drm_tool
work=$(mktemp -d)
trap 'rm -rf "$work"' EXIT
rounds=${1:-5}

# The program is built anew where it is older than a source that it may be made of.
if [ ! -x "$tool" ] || [ -n "$(find "$top/crates" "$top/crates.txt" -path '*/out' -prune -o -name '*.rt' -newer "$tool" -print -o -name '*.antt' -newer "$tool" -print -o -name crates.txt -newer "$tool" -print)" ]; then
  (cd "$top/crates/drm_tool" && rt run -- replay sample brief </dev/null >"$work/build" 2>&1) || { tail -n 20 "$work/build"; exit 1; }
  touch "$tool"
fi
python3 "$here/logs.py" "$work"
"$tool" build "$top/examples/robot.json" "$work/map" >/dev/null

printf '%-8s %8s %10s %10s %10s %10s %8s\n' log lines 'one, 1' 'eight, 1' 'eight, 2' 'eight, 4' '1 to 4'
for log in counts edits asks; do
  python3 "$here/times.py" "$rounds" "$work" "$log" "$tool" replay "$work/map" brief
done
