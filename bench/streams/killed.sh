#!/usr/bin/env bash
# Kills the built `drm_tool` with SIGKILL while it saves a map, many times, and looks at what is left: the name holds the
# old map or the whole new one, parts of killed saves stand in no later build's way, and two builds of one name at once
# leave one whole map. Needs rt. A word after the script's name: the number of kills in place of 30.
set -u
here=$(cd "$(dirname "$0")" && pwd)
tool=$here/../../crates/drm_tool/out/drm_tool
work=$(mktemp -d)
trap 'rm -rf "$work"' EXIT
[ -x "$tool" ] || (cd "$here/../../crates/drm_tool" && rt run -- replay sample brief </dev/null >/dev/null) || exit 1
kills=${1:-30}
map=$work/maps/arm.map
failed=0

expect() { # expect NAME FOUND WANTED
  if [ "$2" = "$3" ]; then
    printf 'ok    %s\n' "$1"
  else
    printf 'WRONG %s: found "%s", wanted "%s"\n' "$1" "$2" "$3"
    failed=1
  fi
}

robot() { # robot SEED: an arm of six links, whose map takes a while to save
  local link=',"radius":40,"lo":-1024,"hi":1024}'
  printf '{"links":[{"len":683%s,{"len":683%s,{"len":683%s,{"len":683%s,{"len":682%s,{"len":682%s],\n' \
    "$link" "$link" "$link" "$link" "$link" "$link"
  printf ' "side":128,"cells":128,"seed":%s,"draws":500,"near":8}\n' "$1"
}

parts() { # parts: sets `count` to the number of parts beside the map
  local names=("$map".part*)
  count=${#names[@]}
}

held() { # held: says which of the two maps the name holds
  if cmp -s "$map" "$work/7.map"; then echo 7; elif cmp -s "$map" "$work/8.map"; then echo 8; else echo neither; fi
}

shopt -s nullglob
mkdir "$work/maps"
for seed in 7 8; do
  robot "$seed" >"$work/$seed.json"
  "$tool" build "$work/$seed.json" "$work/$seed.map" >/dev/null
  expect "the map of seed $seed is built" $? 0
done
cp "$work/7.map" "$map"
old=7
wrong=
for kill in $(seq "$kills"); do
  new=$((15 - old))
  parts
  left=$count
  "$tool" build "$work/$new.json" "$map" >/dev/null 2>&1 &
  build=$!
  until [ "$count" -gt "$left" ] || ! kill -0 "$build" 2>/dev/null; do parts; done
  [ $((kill % 3)) = 0 ] || sleep "0.00$((kill % 10))"
  kill -KILL "$build" 2>/dev/null
  wait "$build" 2>/dev/null
  status=$?
  now=$(held)
  case $status:$now in
  137:"$old" | 137:"$new" | 0:"$new") old=$now ;;
  *) wrong="$wrong $kill:$status:$now"; old=7; cp "$work/7.map" "$map" ;;
  esac
done
expect "the name holds the old map or the whole new one after each of $kills kills" "$wrong" ''
parts
left=$count
expect 'some saves were cut off' $((left > 0)) 1

wrong=
for new in 7 8; do
  "$tool" build "$work/$new.json" "$map" >/dev/null
  [ "$?:$(held)" = "0:$new" ] || wrong="$wrong $new"
done
expect "builds beside $left parts that were left replace the map" "$wrong" ''

wrong=
for turn in $(seq 5); do
  "$tool" build "$work/7.json" "$map" >/dev/null &
  first=$!
  "$tool" build "$work/8.json" "$map" >/dev/null &
  second=$!
  wait "$first" && wait "$second" || wrong="$wrong $turn:status"
  [ "$(held)" != neither ] || wrong="$wrong $turn:neither"
done
expect 'two builds at once leave one whole map' "$wrong" ''
expect 'it passes the check' "$("$tool" check "$map")" 'passed'
parts
expect 'builds that end leave no part of their own' "$count" "$left"
rm -f "$map".part*
"$tool" build "$work/7.json" "$map" >/dev/null
expect 'parts that are removed are missed by nothing' "$?:$(held)" 0:7
exit "$failed"
