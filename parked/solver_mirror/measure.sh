#!/bin/bash
# measure.sh MIRROR DEALS [NUMBERS]: compiles a mirror that strip.py made, solves the deals of a file (make.py's lines), and prints
# visits and user time; with a file of another mirror's numbers, whether they are the same and how the visits differ. What it
# prints of each deal is left in MIRROR/numbers. With INSTRUCTIONS=1 it counts instructions by valgrind, some fifty times slower.
set -e
mirror=$1 deals=$2 numbers=$3
rustc --edition 2021 -O -C target-cpu=x86-64-v2 -C panic=abort -o "$mirror/m" "$mirror/src/main.rs" 2> /dev/null
if [ -n "$INSTRUCTIONS" ]; then
  valgrind --tool=callgrind --callgrind-out-file="$mirror/callgrind" "$mirror/m" < "$deals" > "$mirror/numbers" 2> "$mirror/said"
  awk -F'\t' -v all="$(awk '/^summary:/ { print $2 }' "$mirror/callgrind")" '{ v += $3 } END { printf "%.1f instructions a visit\n", all / v }' "$mirror/numbers"
else
  TIMEFORMAT=%U
  spent=$( { time "$mirror/m" < "$deals" > "$mirror/numbers"; } 2>&1 )
  awk -F'\t' -v t="$spent" '{ v += $3 } END { printf "%.4f million visits a deal, %.1f ns of user time a visit\n", v / NR / 1e6, t * 1e9 / v }' "$mirror/numbers"
fi
if [ -n "$numbers" ]; then
  cmp <(cut -f1,2 "$mirror/numbers") <(cut -f1,2 "$numbers") && echo "the numbers are the same"
  paste <(cut -f1-3 "$mirror/numbers") <(cut -f1-3 "$numbers") | awk -F'\t' '{ a += $3; b += $6; l += log($3 / $6) }
    END { printf "visits %+.2f %% of all, %+.2f %% a deal by the mean of logarithms\n", 100 * (a / b - 1), 100 * (exp(l / NR) - 1) }'
fi
