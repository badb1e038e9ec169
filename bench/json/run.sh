#!/bin/bash
# Times reading and writing of JSON (README.md).
set -eu
source "$(dirname "$0")/../scratch.sh"
proofs=$scratch/crates/json_bench/proofs
mkdir -p "$proofs/rows"
cp "$here/passing.antt.txt" "$proofs/Passing.antt"
cp "$here/invariants.antt.txt" "$proofs/rows/Invariants.antt"
cp "$here/answers.antt.txt" "$proofs/rows/Answers.antt"
echo 'mod Passing' > "$proofs/Lib.antt"
build json_bench ikl_base yang_values ikeless_tree json_values json_tree json_codec
for turn in 1 2 3 4 5; do
    reading=$(seconds ./out/json_bench)
    writing=$(seconds ./out/json_bench write)
    awk -v r="$reading" -v w="$writing" 'BEGIN {
        printf "%.2f ms to read 256 policies, %.2f ms to write 4,096 associations\n", r * 1000 / 200, w * 1000 / 20 }'
done
