#!/usr/bin/env bash
# Times 1,024 tunnels between two gateways (README.md). PROGRAM names another program than the one of this repository.
set -eu
here=$(cd "$(dirname "$0")" && pwd)
root=$(cd "$here/../.." && pwd)
scratch=${1:-$(mktemp -d)}
mkdir -p "$scratch"
python3 "$here/measure.py" "${PROGRAM:-$root/crates/ikeless/out/ikeless}" "$scratch"
