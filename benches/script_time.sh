#!/bin/sh
# Measures how a script's time grows: the best of nine runs of its first tenth, of all but its last tenth, and of the whole. Give the
# program, which `rt run` leaves in crates/bridge_server/out, and the number of messages (60000 where none is given).
#
#     benches/script_time.sh crates/bridge_server/out/bridge_server
set -e
program=$1
messages=${2:-60000}
here=$(dirname "$0")
work=$(mktemp -d)
trap 'rm -rf "$work"' EXIT

# the least milliseconds that the program takes for so many messages
least() {
  "$here/script_input.sh" "$1" > "$work/input"
  best=
  for run in 1 2 3 4 5 6 7 8 9; do
    start=$(date +%s%N)
    "$program" script < "$work/input" > "$work/output"
    took=$(( ($(date +%s%N) - start) / 1000 ))
    if [ -z "$best" ] || [ "$took" -lt "$best" ]; then best=$took; fi
  done
  test "$(wc -l < "$work/output")" -eq "$1"
  echo "$best"
}

none=$(least 0)
first=$(( $(least $((messages / 10))) - none ))
most=$(( $(least $((messages - messages / 10))) - none ))
whole=$(( $(least "$messages") - none ))
awk -v n="$messages" -v first="$first" -v most="$most" -v whole="$whole" 'BEGIN {
  last = whole - most
  printf "%d messages: %.1f ms; the first tenth %.1f ms, the last tenth %.1f ms, %.2f times the first\n", n, whole / 1000, first / 1000, last / 1000, last / first
}'
