#!/usr/bin/env bash
# How far a controller leaves the certified motions where it goes straight in the angles of the joints, and not in T: over the
# routes of asks between ends that are drawn evenly, of the robot in examples/ with limits of 1,024 (90 degrees) and of 4,096
# (152 degrees) at each joint. Needs rt and python3.
set -euo pipefail
here=$(cd "$(dirname "$0")" && pwd)
top=$(cd "$here/../.." && pwd)
tool=$top/crates/drm_tool/out/drm_tool
work=$(mktemp -d)
trap 'rm -rf "$work"' EXIT
[ -x "$tool" ] || (cd "$top/crates/drm_tool" && rt run -- replay sample brief </dev/null >/dev/null)

for limit in 1024 4096; do
  sed "s/-1024/-$limit/g; s/:1024/:$limit/g" "$top/examples/robot.json" >"$work/robot.json"
  python3 - "$limit" >"$work/log" <<'ASKS'
import random
import sys

limit = int(sys.argv[1])
random.seed(5)
for _ in range(122):
    print("0 ask", *(random.randint(-limit, limit) for _ in range(6)))
ASKS
  "$tool" build "$work/robot.json" "$work/map" >/dev/null
  "$tool" replay "$work/map" full <"$work/log" >"$work/report"
  printf 'limits of %s: ' "$limit"
  python3 "$here/follow.py" "$work/map" "$work/report"
done
