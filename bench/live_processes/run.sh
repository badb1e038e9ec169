#!/usr/bin/env bash
# Tries gateways, their controller and its client as processes (README.md). Without words it takes the program of this repository.
set -eu
here=$(cd "$(dirname "$0")" && pwd)
root=$(cd "$here/../.." && pwd)
scratch=${2:-$(mktemp -d)}
mkdir -p "$scratch"
python3 "$here/trial.py" "${1:-$root/crates/ikeless/out/ikeless}" "$scratch"
