#!/usr/bin/env bash
# Times a gateway beside a relay that makes the same calls (README.md). PROGRAM names another program than the one of this repository.
set -eu
here=$(cd "$(dirname "$0")" && pwd)
root=$(cd "$here/../.." && pwd)
scratch=${1:-$(mktemp -d)}
mkdir -p "$scratch"
for part in relay load; do
    cc -O2 -Wall -Wextra -o "$scratch/$part" "$here/$part.c" -lcrypto
done
python3 "$here/measure.py" "${PROGRAM:-$root/crates/ikeless/out/ikeless}" "$scratch"
