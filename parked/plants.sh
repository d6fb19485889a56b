#!/bin/sh
# `rt plant` over crates of a clone, one after another, at the lowest priority: parked/plants.sh CLONE LOGS CRATE..
here=$(cd "$(dirname "$0")" && pwd) clone=$1 logs=$2
shift 2
export PLANT_SECONDS=1500 PLANT_BATCH=${PLANT_BATCH:-60}
for crate in "$@"; do
    [ -s "$logs/$crate.done" ] && continue
    cd "$clone/crates/$crate" || continue
    nice -n 19 python3 "$here/plant_run.py" --minutes "${PLANT_MINUTES:-12}" --jobs 1 --all > "$logs/$crate.log" 2> "$logs/$crate.err"
    echo "status $?" > "$logs/$crate.done"
done
