#!/bin/bash
# Times deal_tables beside DDS on the same random deals (100 where no number is given), one thread each, and prints the means, the 90th
# percentiles and their ratios. The two take turns, deal by deal, and what counts is processor time, so other work on the machine
# slows both; what each takes to begin is left out. It needs libdds-dev and g++, and the program that `rt run` leaves in
# crates/deal_tables/out.
#
#     benches/deal_tables.sh crates/deal_tables/out/deal_tables 100
set -e
program=$1
deals=${2:-100}
figures=$(dirname "$0")/../crates/deal_tables/figures
work=$(mktemp -d)
trap 'rm -rf "$work"' EXIT
g++ -O2 -o "$work/dds" "$figures/dds_tables.cpp" -ldds
python3 "$figures/make.py" "$deals" 2026 | split -l 1 -a 4 - "$work/deal."

# adds the seconds of processor time that a command takes on a deal to a file
spent() {
  ( TIMEFORMAT=%U; time "$1" < "$2" >> "$3" 2> "$work/said" ) 2>> "$4"
}

for one in "$work"/deal.*; do
  spent "$program" "$one" "$work/ours" "$work/our_time"
  spent "$work/dds" "$one" "$work/theirs" "$work/their_time"
done
for turn in 1 2 3 4 5; do
  spent "$program" /dev/null "$work/nothing" "$work/our_start"
  spent "$work/dds" /dev/null "$work/nothing" "$work/their_start"
done

# the mean and the 90th percentile of the times in a file, in milliseconds, without the least time of a start
figures_of() {
  sort -n "$1" | awk -v start="$(sort -n "$2" | head -1)" '
    { time[NR] = 1000 * ($1 - start); all += time[NR] }
    END { print all / NR, time[int(NR * 0.9) + (NR < 10 ? 1 : 0)] }'
}
cut -f1,2 "$work/ours" > "$work/a"
cut -f1,2 "$work/theirs" > "$work/b"
cmp "$work/a" "$work/b" && echo "the numbers are the same"
echo "$(figures_of "$work/our_time" "$work/our_start") $(figures_of "$work/their_time" "$work/their_start")" | awk '{
  printf "a table: %.0f ms here, %.0f ms by DDS, ratio %.2f\n", $1, $3, $1 / $3
  printf "at the 90th percentile: %.0f ms here, %.0f ms by DDS, ratio %.2f\n", $2, $4, $2 / $4 }'
awk -F'\t' '{ visits += $3 } END { printf "%.0f visits a table\n", visits / NR }' "$work/ours"
echo "load over the last 1, 5 and 15 minutes: $(cut -d' ' -f1-3 /proc/loadavg)"
