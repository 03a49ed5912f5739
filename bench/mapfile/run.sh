#!/usr/bin/env bash
# How fast a map file of about 30 MB is read and written: the program makes the file in memory, and reads and writes it
# N times. Prints the megabytes a second of reading and writing together (the file's bytes count twice a round), and the
# greatest memory in use against the file's size. Processor time; the time of no round is taken off.
set -euo pipefail
here="$(cd "$(dirname "$0")" && pwd)"
top="$(cd "$here/../.." && pwd)"
work="$(mktemp -d)"
trap 'rm -rf "$work"' EXIT

mkdir -p "$work/crates/mapfile_bench/src"
names="drm_outside drm_num drm_half drm_arm drm_pose drm_shape drm_grid drm_talk drm_sweep drm_road drm_cellmap drm_mapfile"
for name in $names; do
  mkdir "$work/crates/$name"
  cp -r "$top/crates/$name/src" "$top/crates/$name/specs" "$top/crates/$name/proofs" "$work/crates/$name/" 2> "$work/copy.log" || true
  grep "^$name:" "$top/crates.txt" >> "$work/crates.txt"
done
echo 'mapfile_bench: drm_mapfile' >> "$work/crates.txt"
cp "$here/main.rt.txt" "$work/crates/mapfile_bench/src/main.rt"
(cd "$work/crates/mapfile_bench" && rt run -- 0 > "$work/build.log" 2>&1) || { cat "$work/build.log"; exit 1; }

python3 - "$work/crates/mapfile_bench/out/mapfile_bench" <<'PY'
import resource
import subprocess
import sys

ROUNDS = 10


def seconds(rounds):
    before = resource.getrusage(resource.RUSAGE_CHILDREN)
    output = subprocess.run([sys.argv[1], str(rounds)], stdout=subprocess.PIPE, check=True).stdout
    after = resource.getrusage(resource.RUSAGE_CHILDREN)
    return after.ru_utime + after.ru_stime - before.ru_utime - before.ru_stime, int(output)


idle = min(seconds(0)[0] for _ in range(3))
busy, written = min(seconds(ROUNDS) for _ in range(3))
size = written / ROUNDS
rate = 2 * size * ROUNDS / (busy - idle) / 1e6
peak = resource.getrusage(resource.RUSAGE_CHILDREN).ru_maxrss * 1024
print(f"file {size / 1e6:.1f} MB  reading and writing {rate:.0f} MB/s  peak memory {peak / size:.1f} times the file")
PY
