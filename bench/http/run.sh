#!/bin/bash
# Times the reading of requests from pieces (README.md).
set -eu
source "$(dirname "$0")/../scratch.sh"
build http_bench ikl_base rc_http
for turn in 1 2 3 4 5; do
    echo "$(seconds ./out/http_bench) $(seconds ./out/http_bench medium) $(seconds ./out/http_bench small)"
done | awk '{
    printf "%.2f ms a request of 1 MiB, %.3f ms one of 64 KiB, %d small requests a second\n",
        1000 * $1 / 100, 1000 * $2 / 1600, 1000000 / $3 }'
