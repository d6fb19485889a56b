#!/bin/sh
# Measures how long the program takes for session objects of each kind that benches/session_texts.py writes, of 256 KiB and of nearly
# 1 MiB: the best of five runs each. Give the program, which `rt run` leaves in crates/bridge_server/out.
#
#     benches/session_time.sh crates/bridge_server/out/bridge_server
set -e
program=$1
here=$(dirname "$0")
work=$(mktemp -d)
trap 'rm -rf "$work"' EXIT

# the least microseconds for so many bytes of a kind
least() {
  "$here/session_texts.py" "$1" "$2" > "$work/text"
  best=
  for run in 1 2 3 4 5; do
    start=$(date +%s%N)
    "$program" script < "$work/text" > "$work/output" 2> "$work/fault" || true
    took=$(( ($(date +%s%N) - start) / 1000 ))
    if [ -z "$best" ] || [ "$took" -lt "$best" ]; then best=$took; fi
  done
  echo "$best"
}

for kind in users roles rows twice names names_down brackets braces name digits fraction text escapes blanks comment; do
  few=$(least "$kind" 262144)
  many=$(least "$kind" 1048000)
  echo "$kind: 256 KiB $few us, 1 MiB $many us, $(( 100 * many / few )) / 100 times: $(cat "$work/fault")"
done
