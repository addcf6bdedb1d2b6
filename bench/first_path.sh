#!/usr/bin/env bash
# Prints how long asn1x takes to convert a 1 MiB OCTET STRING from hexadecimal text, as a ratio to
# `xxd -r -p` on the same file: medians of five runs each, after one that warms up.
#
#     bench/first_path.sh [PROGRAM]
#
# PROGRAM is crates/asn1x/out/asn1x unless given, which `rt run` in crates/asn1x builds.
set -euo pipefail
shopt -s inherit_errexit

readonly contents=1048571
readonly runs=5

# shellcheck source=bench/built.sh
. "$(dirname "${BASH_SOURCE[0]}")/built.sh"
command -v xxd >/dev/null || fail 'xxd is missing'

# 04 83 0F FF FB and 1,048,571 octets 00: 1,048,576 octets, the most that one encoding may have.
{
    printf '04830ffffb'
    head -c $((2 * contents)) /dev/zero | tr '\0' 0
    echo
} >"$work/in.hex"

convert_text() {
    "$program" convert @builtin 'OCTET STRING' "$work/in.hex" --hex --to der >"$work/out.hex"
}

reverse_text() {
    xxd -r -p "$work/in.hex" >"$work/out"
}

# The median time of the runs of one command, in microseconds.
median() {
    local start
    "$@"
    for ((i = 0; i < runs; i++)); do
        start=${EPOCHREALTIME/[.,]/}
        "$@"
        echo $((${EPOCHREALTIME/[.,]/} - start))
    done | sort -n | sed -n "$((runs / 2 + 1))p"
}

ours=$(median convert_text)
theirs=$(median reverse_text)
cmp "$work/in.hex" "$work/out.hex"
echo "asn1x $ours us, xxd -r -p $theirs us, ratio $((ours / theirs)).$(printf '%02d' $((100 * ours / theirs % 100)))"
