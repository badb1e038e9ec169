#!/usr/bin/env bash
# Tries ./ikeless replay at the limits of a line and of a script (README.md).
set -u
here=$(cd "$(dirname "$0")" && pwd)
root=$(cd "$here/../.." && pwd)
scratch=$(mktemp -d)
failed=0
header='world seq-last 1 ab=192.0.2.1'

zeros() { head -c "$1" /dev/zero | tr '\0' '0'; }
# A `let` line of this many octets with its LF.
line() { printf 'let ab '; zeros $(($1 - 8)); printf '\n'; }
expect() {
    "$root/ikeless" replay < "$scratch/script" > "$scratch/out" 2> "$scratch/err"
    local got="$? $(tail -n 1 "$scratch/err")"
    if [ "$got" = "$2" ]; then echo "ok: $1"; else echo "FAILED: $1: $got, not $2"; failed=1; fi
}

"$root/ikeless" replay < /dev/null > /dev/null 2>&1
{ echo "$header"; line 1048574; } > "$scratch/script"; expect 'a line of 1 MiB less two octets' '0 '
{ echo "$header"; line 1048576; } > "$scratch/script"; expect 'a line of 1 MiB' '0 '
{ echo "$header"; line 1048577; } > "$scratch/script"; expect 'a line of 1 MiB and one octet' '3 Line 2 long'
{ echo "$header"; zeros 1048576; } > "$scratch/script"; expect 'a last line of 1 MiB without LF' '3 Line 2 end'
{ echo "$header"; zeros 1048577; } > "$scratch/script"; expect 'a last line of 1 MiB and one octet' '3 Line 2 long'
{ echo "$header"; for _ in $(seq 63); do line 1048576; done; line 1048546; } > "$scratch/script"
[ "$(wc -c < "$scratch/script")" = 67108864 ] || echo 'the longest script has another length'
expect 'a script of 64 MiB' '0 '
printf 'x' >> "$scratch/script"; expect 'a script of 64 MiB and one octet' '8 TooLong'
head -c 67108863 "$scratch/script" > "$scratch/less"; mv "$scratch/less" "$scratch/script"
expect 'a script of 64 MiB less its last LF' '3 Line 65 end'
rm -rf "$scratch"
exit "$failed"
