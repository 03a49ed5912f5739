#!/usr/bin/env bash
# Runs the built `drm_tool` on standard streams that fail, on arguments that are no text, on files that cannot be loaded
# or saved and with memory short, and compares its status, its output and its note on standard error with the wanted ones;
# ends with killed.sh, which kills it while it saves. Needs rt and a shell with `ulimit -v`.
set -u
here=$(cd "$(dirname "$0")" && pwd)
tool=$here/../../crates/drm_tool/out/drm_tool
work=$(mktemp -d)
trap 'umount "$work/small" 2>/dev/null; rm -rf "$work"' EXIT
[ -x "$tool" ] || (cd "$here/../../crates/drm_tool" && rt run -- replay sample brief </dev/null >/dev/null) || exit 1
log=$work/log
printf '0 put 5 box 140 140 150 150\n0 count edge 0\n' >"$log"
report='put 1
count 1 1
end 1 0 1'
failed=0

run() { # runs the program, with its note kept for the next `expect`
  "$tool" "$@" 2>"$work/note"
}

expect() { # expect NAME STATUS WANTED-STATUS OUTPUT WANTED-OUTPUT [WANTED-NOTE]
  local note
  note=$(cat "$work/note")
  : >"$work/note"
  if [ "$2" = "$3" ] && [ "$4" = "$5" ] && [ "$note" = "${6-}" ]; then
    printf 'ok    %s\n' "$1"
  else
    printf 'WRONG %s: status %s, wanted %s; output "%s", wanted "%s"; note "%s", wanted "%s"\n' \
      "$1" "$2" "$3" "$4" "$5" "$note" "${6-}"
    failed=1
  fi
}
: >"$work/note"
usage='drm_tool: the words are none of these commands:
drm_tool: build ROBOT MAP    builds the map of the robot in the file ROBOT, and saves it as MAP
drm_tool: check MAP          judges the sweeps that are stored in the map
drm_tool: replay MAP brief   replays the log on standard input over the map
drm_tool: replay MAP full    the same, with the certificates of answers'
unread='drm_tool: the log could not be read from standard input'
unwritten='drm_tool: standard output could not be written'
short='drm_tool: there was not enough memory'

out=$(run replay sample brief <"$log")
expect 'a log from a file' $? 0 "$out" "$report"
out=$(cat "$log" | run replay sample brief)
expect 'a log from a pipe' $? 0 "$out" "$report"
out=$(run replay sample brief </dev/null)
expect 'an empty log' $? 0 "$out" 'end 0 0 0'
out=$(printf '0 ask 0 2048\n' | run replay sample full)
expect 'an ask' $? 0 "$out" 'ask 0 path 0 0 3 0 2048 3 0 1 3 4 0 1024 1024 2048
end 0 0 0'
out=$(printf '0 ask 3000 3000\n' | run replay sample brief)
expect 'an ask out of limits' $? 0 "$out" 'limits start 0
end 0 0 0'
out=$(printf '0 ask 0 0\n1 ask 0 0\n' | run replay sample brief)
expect 'asks of two callers' $? 0 "$out" 'ask 0 path 0 0 0
ask 0 path 0 0 0
end 0 0 0'
out=$(printf '0 ask 0 0\n1 tick\n' | run replay sample brief)
expect 'a line that is not served' $? 4 "$out" 'log 2' 'drm_tool: line 2 of the log is not served'
out=$(printf '0 put 5 box\377' | run replay sample brief)
expect 'a log that is no text' $? 4 "$out" 'log 1' 'drm_tool: line 1 of the log is not in the grammar'
out=$(run <"$log")
expect 'no words' $? 1 "$out" 'words' "$usage"
out=$(run replay sample $'brief\377' <"$log")
expect 'an argument that is no text' $? 1 "$out" 'words' "$usage"

out=$(run replay sample brief <"$work")
expect 'standard input that is a directory' $? 5 "$out" '' "$unread"
out=$(run replay sample brief <&-)
expect 'standard input that is closed' $? 5 "$out" '' "$unread"

run replay sample brief <"$log" >/dev/full
expect 'standard output that is full' $? 6 '' '' "$unwritten"
run replay sample brief <"$log" >&-
expect 'standard output that is closed' $? 6 '' '' "$unwritten"
run words >/dev/full </dev/null
expect 'a refusal on standard output that is full' $? 6 '' '' "$unwritten"
mkfifo "$work/pipe"
{ sleep 0.2; run replay sample brief <"$log"; echo $? >"$work/status"; } >"$work/pipe" &
: <"$work/pipe"
wait
expect 'a pipe that its reader closed' "$(cat "$work/status")" 6 '' '' "$unwritten"

# Too long by one byte, and of the greatest length: the status of the grammar shows that all of it was read.
out=$(head -c 16777217 /dev/zero | run replay sample brief)
expect 'a log of one byte over the limit' $? 9 "$out" 'too long log 16777216' 'drm_tool: the log has more bytes than a log may have, 16777216'
out=$(head -c 16777216 /dev/zero | run replay sample brief)
expect 'bytes up to the limit' $? 4 "$out" 'log 1' 'drm_tool: line 1 of the log is not in the grammar'

# Files: a robot, its map, and names that cannot be loaded or saved. /proc is a folder in which nobody makes files.
robot=$work/robot.json
cp "$here/../../examples/robot.json" "$robot"
map=$work/arm.map
out=$(run build "$robot" "$map")
expect 'a robot is built' $? 0 "$out" "$(cat "$here/../../examples/robot.built")"
expect 'no part is left' 0 0 "$(ls "$work" | grep -c part)" 0
out=$(run check "$map")
expect 'its map is checked' $? 0 "$out" "$(cat "$here/../../examples/robot.checked")"
out=$(run replay "$map" brief <"$here/../../examples/robot.log")
expect 'a log over its map' $? 0 "$out" "$(cat "$here/../../examples/robot.report")"
out=$(run replay "$map" brief <"$here/../../examples/asks.log")
expect 'asks over its map' $? 0 "$out" "$(cat "$here/../../examples/asks.report")"
out=$(run replay "$map" full <"$here/../../examples/asks.log")
expect 'asks over its map, in full' $? 0 "$out" "$(cat "$here/../../examples/asks.full")"
out=$(run check sample)
expect 'the sample map is checked' $? 0 "$out" 'passed'
out=$(run check "$work/none.map")
expect 'a map that is missing' $? 7 "$out" '' "drm_tool: \"$work/none.map\" could not be loaded"
out=$(run replay "$work/none.map" brief <"$work")
expect 'a map that is missing, and an input that fails' $? 7 "$out" '' "drm_tool: \"$work/none.map\" could not be loaded"
out=$(run build "$work/none.json" "$map")
expect 'a robot that is missing' $? 7 "$out" '' "drm_tool: \"$work/none.json\" could not be loaded"
out=$(run check "$work")
expect 'a map that is a folder' $? 7 "$out" '' "drm_tool: \"$work\" could not be loaded"
mkdir "$work/folder"
out=$(run build "$robot" "$work/folder")
expect 'a folder in place of the map' $? 7 "$out" '' "drm_tool: \"$work/folder\" could not be saved"
expect 'no part beside the folder' 0 0 "$(ls "$work" | grep -c part)" 0
out=$(run build "$robot" "$work/nowhere/arm.map")
expect 'a folder that is missing' $? 7 "$out" '' "drm_tool: \"$work/nowhere/arm.map\" could not be saved"
out=$(run build "$robot" /proc/arm.map)
expect 'a folder that takes no file' $? 7 "$out" '' 'drm_tool: "/proc/arm.map" could not be saved'
mkdir "$work/small"
if mount -t tmpfs -o size=16k tmpfs "$work/small" 2>/dev/null; then
  printf old >"$work/small/arm.map"
  out=$(run build "$robot" "$work/small/arm.map")
  expect 'a device that is full' $? 7 "$out" '' "drm_tool: \"$work/small/arm.map\" could not be saved"
  expect 'the old file stands there alone' 0 0 "$(ls "$work/small") $(cat "$work/small/arm.map")" 'arm.map old'
else
  printf 'left out: a device that is full, since none can be mounted here\n'
fi
cp "$map" "$work/before.map"
run build "$robot" "$map" >/dev/full
expect 'a build on standard output that is full' $? 6 '' '' "$unwritten"
expect 'its map stands' 0 0 "$(cmp "$map" "$work/before.map")" ''
printf '[1]' >"$work/list.json"
out=$(run build "$work/list.json" "$map")
expect 'a robot that is none' $? 2 "$out" 'robot json' "drm_tool: \"$work/list.json\" is no robot: the bytes are no JSON object"
expect 'the old map stands' 0 0 "$(cmp "$map" "$work/before.map")" ''
head -c 159 "$map" >"$work/short.map"
out=$(run check "$work/short.map")
expect 'a map that is cut off' $? 3 "$out" 'map short 159' "drm_tool: \"$work/short.map\" is no map file: the file ends at byte 159, within a field"
# The last cell of the last sweep is replaced by a corner of the grid, which no arm sweeps.
cell=$(tail -c 1 "$map" | od -An -tu1 | tr -d ' ')
head -c -1 "$map" >"$work/lacks.map"
printf '\377' >>"$work/lacks.map"
out=$(run check "$work/lacks.map")
expect 'a map whose last sweep lacks a cell' $? 10 "$out" "lacks edge 542 $cell" "drm_tool: the sweep of edge 542 in \"$work/lacks.map\" lacks cell $cell"
truncate -s 1048577 "$work/long.json"
out=$(run build "$work/long.json" "$map")
expect 'a robot of one byte over the limit' $? 9 "$out" 'too long robot 1048576' "drm_tool: \"$work/long.json\" has more bytes than a robot may have, 1048576"
truncate -s 268435457 "$work/long.map"
out=$(run check "$work/long.map")
expect 'a map of one byte over the limit' $? 9 "$out" 'too long map 268435456' "drm_tool: \"$work/long.map\" has more bytes than a map file may have, 268435456"
truncate -s 268435456 "$work/long.map"
out=$(run check "$work/long.map")
expect 'a map of the greatest length' $? 3 "$out" 'map magic' "drm_tool: \"$work/long.map\" is no map file: the mark DRMP does not stand in front"
rm "$work/long.map" "$work/long.json"

# With memory short the program does not start (127), finds no memory (8), or does all. It never says anything else.
wrong=
for kib in $(seq 2000 8 3200) $(seq 4000 1000 13000) $(seq 14000 4 14300) $(seq 15000 1000 18000); do
  out=$( (ulimit -v "$kib"; exec "$tool" replay sample brief) <"$log" 2>"$work/note")
  status=$?
  note=$(cat "$work/note")
  case $status in
  127) ;;
  8) [ -z "$out" ] && [ "$note" = "$short" ] || wrong="$wrong $kib:$status:$out" ;;
  0) [ "$out" = "$report" ] && [ -z "$note" ] || wrong="$wrong $kib:$status:$out" ;;
  *) wrong="$wrong $kib:$status:$out" ;;
  esac
done
expect 'memory short' "$status" 0 "$wrong" ''

# An ask that finds no memory is answered `memory`, and the log goes on.
asked='put 1
ask 1 cut 0 1
end 1 0 1'
unanswered='put 1
memory
end 1 0 1'
printf '0 put 5 box 140 140 150 150\n0 ask 0 1024\n' >"$log"
wrong=
for kib in $(seq 2000 8 3200) $(seq 4000 1000 13000) $(seq 14000 4 14300) $(seq 15000 1000 18000); do
  out=$( (ulimit -v "$kib"; exec "$tool" replay sample brief) <"$log" 2>"$work/note")
  status=$?
  note=$(cat "$work/note")
  case $status in
  127) ;;
  8) [ -z "$out" ] && [ "$note" = "$short" ] || wrong="$wrong $kib:$status:$out" ;;
  0) [ "$out" = "$asked" ] || [ "$out" = "$unanswered" ] || wrong="$wrong $kib:$status:$out" ;;
  *) wrong="$wrong $kib:$status:$out" ;;
  esac
done
expect 'memory short for an ask' "$status" 0 "$wrong" ''

"$here/killed.sh" || failed=1
exit "$failed"
