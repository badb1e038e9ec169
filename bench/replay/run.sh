#!/usr/bin/env bash
# Times ./ikeless replay over the longest scripts of small packets and over drawn lines (README.md).
set -eu
here=$(cd "$(dirname "$0")" && pwd)
root=$(cd "$here/../.." && pwd)
scratch=${1:-$(mktemp -d)}
"$root/ikeless" replay < /dev/null > /dev/null 2>&1 || true
for kind in clear tunnel 'drill 1' 'drill 1 10' 'reading 0' 'reading 20'; do
    script="$scratch/${kind// /-}.script"
    python3 "$here/scripts.py" $kind > "$script"
    for turn in 1 2 3; do
        printf '%s: ' "$kind"
        python3 "$here/timed.py" "$root/crates/ikeless/out/ikeless" "$script"
    done
done
