#!/bin/bash
# Times the steps of a controller (README.md).
set -eu
source "$(dirname "$0")/../scratch.sh"
build controller_bench ikl_base yang_values ikeless_tree hist_acts hist_controller ctl_tunnels ctl_core

# timed MODE FEW MANY STEPS: the processor time of a step, in microseconds, of the turns from FEW to MANY with so many steps each.
timed() {
    local few many
    few=$(seconds ./out/controller_bench "$1" "$2")
    many=$(seconds ./out/controller_bench "$1" "$3")
    awk -v mode="$1" -v few="$few" -v many="$many" -v from="$2" -v to="$3" -v steps="$4" 'BEGIN {
        printf "%s: %.2f us a step, turns %d to %d\n", mode, (many - few) * 1e6 / (to - from) / steps, from, to }'
}

for turn in 1 2 3; do
    timed rekey 0 9000 11
    timed hear 0 100000 1
    timed lose 0 3000 3
    timed keys 0 1048576 1
done
timed rekey 82000 91000 11
./out/controller_bench keys 1048577 &
program=$!
most=0
while kill -0 "$program" 2> /dev/null; do
    now=$(awk '/^VmHWM/ { print $2 }' "/proc/$program/status" 2> /dev/null || true)
    most=${now:-$most}
    sleep 0.02
done
wait "$program"
echo "1,048,576 keys: $most KiB resident at most"
