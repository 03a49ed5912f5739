#!/usr/bin/env bash
# How fast a log of 16 MiB is read, and the full text of a report of 4,096 asks, each with 2,048 nodes and labels, is
# printed and read. Prints for each the megabytes a second, and the greatest memory in use. Processor time; the time of
# no round is taken off.
set -euo pipefail
here="$(cd "$(dirname "$0")" && pwd)"
top="$(cd "$here/../.." && pwd)"
work="$(mktemp -d)"
trap 'rm -rf "$work"' EXIT

mkdir -p "$work/crates/script_bench/src"
names="drm_outside drm_num drm_shape drm_talk drm_script"
for name in $names; do
  mkdir "$work/crates/$name"
  cp -r "$top/crates/$name/src" "$top/crates/$name/specs" "$top/crates/$name/proofs" "$work/crates/$name/" 2> "$work/copy.log" || true
  grep "^$name:" "$top/crates.txt" >> "$work/crates.txt"
done
echo 'script_bench: drm_outside drm_script drm_talk' >> "$work/crates.txt"
cp "$here/main.rt.txt" "$work/crates/script_bench/src/main.rt"
(cd "$work/crates/script_bench" && rt run -- 1 0 > "$work/build.log" 2>&1) || { cat "$work/build.log"; exit 1; }

python3 - "$work/crates/script_bench/out/script_bench" <<'PY'
import os
import sys


def run(what, rounds):
    reader, writer = os.pipe()
    child = os.fork()
    if child == 0:
        os.dup2(writer, 1)
        os.execv(sys.argv[1], [sys.argv[1], str(what), str(rounds)])
    os.close(writer)
    with os.fdopen(reader) as output:
        size = int(output.read())
    _, status, usage = os.wait4(child, 0)
    assert status == 0
    return usage.ru_utime + usage.ru_stime, size, usage.ru_maxrss * 1024


print(f"{'what':<16} {'MB':>7} {'MB/s':>7} {'peak MB':>8}")
for name, what, rounds in [("reading a log", 1, 10), ("printing a report", 2, 1), ("reading a report", 3, 1)]:
    idle = min(run(what, 0)[0] for _ in range(3))
    busy, size, peak = min(run(what, rounds) for _ in range(3))
    print(f"{name:<16} {size / rounds / 1e6:7.1f} {size / (busy - idle) / 1e6:7.0f} {peak / 1e6:8.0f}")
PY
