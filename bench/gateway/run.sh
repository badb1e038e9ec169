#!/bin/bash
# Times a gateway's steps beside AES-GCM alone (README.md).
set -eu
source "$(dirname "$0")/../scratch.sh"
build gateway_bench ikl_base yang_values gf_poly aes_block gcm_seal esp_frame ip_packet replay_win ikeless_tree reply_table json_values json_tree json_codec rc_http rc_request rc_answer rc_resource spd_match life_count sad_store hist_acts hist_halves hist_gateway gw_tables gw_packets gw_requests gw_core

# timed MODE HALVES SIZE FEW MANY POLICIES: microseconds of processor time of one turn, of the turns from FEW to MANY.
timed() {
    local few many
    few=$(seconds ./out/gateway_bench "$1" "$4" "$2" "$3" "${6:-1}")
    many=$(seconds ./out/gateway_bench "$1" "$5" "$2" "$3" "${6:-1}")
    awk -v few="$few" -v many="$many" -v from="$4" -v to="$5" 'BEGIN { printf "%.3f", (many - few) * 1e6 / (to - from) }'
}

# less A B: the first without the second
less() { awk -v a="$1" -v b="$2" 'BEGIN { printf "%.3f", a - b }'; }
over() { awk -v a="$1" -v b="$2" 'BEGIN { printf "%.2f", a / b }'; }

for turn in 1 2 3; do
    for size in 1400 64; do
        seal=$(timed seal 1 "$size" 0 200000)
        both=$(timed open 1 "$size" 0 200000)
        open=$(less "$both" "$seal")
        for halves in 1 4096; do
            let_one=$(timed let "$halves" "$size" 1 200001)
            sent=$(timed let 1 "$size" 1 200001)
            arrive=$(less "$(timed arrive "$halves" "$size" 1 200001)" "$sent")
            echo "$size octets, $halves halves: let $let_one us, $(over "$let_one" "$seal") of sealing ($seal us); arrive $arrive us, $(over "$arrive" "$open") of opening ($open us)"
        done
        echo "$size octets: let under 4 policies $(timed let 1 "$size" 1 200001 4) us, under 256 $(timed let 1 "$size" 1 200001 256) us"
    done
    echo "a reading of the clock over 4,096 halves: $(timed clock 4096 64 1 2001) us"
done
