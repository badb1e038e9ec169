#!/bin/bash
# Times the sealing of this repository beside openssl without AES-NI and PCLMULQDQ (README.md).
set -eu
source "$(dirname "$0")/../scratch.sh"
build seal_bench gf_poly aes_block gcm_seal

# variant BITS LENGTH TEXTS: the program for keys of so many bits and so many texts of this length
variant() {
    sed -e "s/of_128(&\[7; 16\])/of_$1(\&[7; $(($1 / 8))])/" -e "s/= 1400;/= $2;/" -e "s/= 240_000;/= $3;/" "$here/main.rt.txt" > src/main.rt
    rt run > run.log 2>&1 || { tail -20 run.log; exit 1; }
    cp out/seal_bench "seal_$1_$2"
}

# by_turns BITS LENGTH TEXTS: eight turns of both, in 10^6 octets a second
by_turns() {
    for _ in 1 2 3 4 5 6 7 8; do
        ours=$(seconds "./seal_$1_$2")
        theirs=$(OPENSSL_ia32cap="~0x200000200000000" openssl speed -evp "aes-$1-gcm" -bytes "$2" -seconds 2 2> /dev/null |
            awk -v "name=AES-$1-GCM" '$1 == name { sub("k", "", $2); printf "%d", $2 / 1000 }')
        echo "$ours $theirs"
    done | awk -v "texts=$3" -v "length_=$2" -v "bits=$1" '
        { a[NR] = texts * length_ / $1 / 1000000; b[NR] = $2; s += a[NR]; t += b[NR]
          if (a[NR] > x) x = a[NR]
          if (b[NR] > y) y = b[NR]
          printf "%d bits, %d octets: seal_in_place %d, openssl masked %d, ratio %.2f\n", bits, length_, a[NR], b[NR], a[NR] / b[NR] }
        END { printf "mean of %d turns: %d and %d, ratio %.2f; best %d and %d, ratio %.2f\n", NR, s / NR, t / NR, s / t, x, y, x / y }'
}

variant 128 1400 240000
variant 256 1400 240000
variant 128 64 2000000
by_turns 128 1400 240000
by_turns 256 1400 240000
by_turns 128 64 2000000
