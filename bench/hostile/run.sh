#!/usr/bin/env bash
# Tries live nodes with what breaks off, is too long or is no HTTP (README.md). Without words it takes the program of this repository.
set -eu
here=$(cd "$(dirname "$0")" && pwd)
root=$(cd "$here/../.." && pwd)
scratch=${2:-$(mktemp -d)}
mkdir -p "$scratch"
timeout 150 python3 "$here/trial.py" "${1:-$root/crates/ikeless/out/ikeless}" "$scratch"
