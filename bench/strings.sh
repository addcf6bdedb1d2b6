#!/usr/bin/env bash
# Prints what strings in segments cost asn1x, as ratios of user time, and holds them to bounds.
#
#     bench/strings.sh [PROGRAM]
#
# PROGRAM is crates/asn1x/out/asn1x unless given, which `rt run` in crates/asn1x builds. The inputs are
# hexadecimal texts of OCTET STRING, but for the smaller ones of about 1,048,576 octets, the most that one
# encoding may have:
#
#     primitive     one primitive encoding
#     one_segment   24 80, one primitive segment, 00 00                       to primitive, at most 1.20
#     segments      24 80, segments of 4,096 octets, 00 00                    to primitive, at most 1.50
#     nested        24 80 sixty times, segments of one octet, 00 00 as often  to half as many, at most 2.50
#     levels        24 80 to the end, refused with 10                         to primitive, at most 1.00
#
# A time is the median of five sums over twenty runs, less that of a value of three octets. Each run makes
# octets of the whole text first, that of `levels` too: its ratio says that it does little else.
set -euo pipefail
shopt -s inherit_errexit

readonly most=1048576
readonly rounds=5
readonly runs=20

# shellcheck source=bench/built.sh
. "$(dirname "${BASH_SOURCE[0]}")/built.sh"

# Some digits, $1 times over.
repeated() {
    awk -v count="$1" -v digits="$2" 'BEGIN { while (count-- > 0) printf "%s", digits }'
}

# $1 octets in primitive encodings of $2 contents octets, the last perhaps of fewer.
primitives() {
    awk -v octets="$1" -v size="$2" 'BEGIN {
        for (at = 0; at < octets; at++) {
            if (at % size == 0) {
                count = octets - at < size ? octets - at : size
                head = count < 128 ? "04%02x" : count < 256 ? "0481%02x" : \
                    count < 65536 ? "0482%04x" : "0483%06x"
                printf head, count
            }
            printf "%02x", at % 251
        }
    }'
}

# Makes the input of the row $1 and what it becomes: $3 octets in segments of $4, in $2 levels.
row() {
    {
        repeated "$2" 2480
        primitives "$3" "$4"
        repeated "$2" 0000
        echo
    } >"$work/$1.hex"
    {
        primitives "$3" "$3"
        echo
    } >"$work/$1.want"
}

# A segment of 4,096 octets has 4 more. The last one fills the rest.
readonly full=$(((most - 4) / 4100))
readonly rest=$(((most - 4) % 4100 - 4))
readonly singles=$(((most - 240) / 3))
row three_octets 0 1 1
row primitive 0 $((most - 5)) "$most"
row one_segment 1 $((most - 9)) "$most"
row segments 1 $((4096 * full + rest)) 4096
row nested 60 "$singles" 1
row half 60 $((singles / 2)) 1
{
    repeated $((most / 2)) 2480
    echo
} >"$work/levels.hex"
: >"$work/levels.want"

# Converts the input of the row $1.
convert() {
    status=0
    "$program" convert @builtin 'OCTET STRING' "$work/$1.hex" --hex --to der \
        >"$work/out" 2>"$work/said" || status=$?
}

# Stops unless the row $1 ends with the status $2, the line $3 and its output.
check() {
    convert "$1"
    if [[ $status != "$2" || $(<"$work/said") != "$3" ]]; then
        fail "$1: status $status; $(<"$work/said")"
    fi
    cmp "$work/$1.want" "$work/out" || fail "$1: another output"
}

for name in three_octets primitive one_segment segments nested half; do
    check "$name" 0 ''
done
check levels 1 'asn1x: refused 10 TooDeep after 0 values'

# The user time of the runs of the row $1, in milliseconds.
user_time() {
    local i TIMEFORMAT=%3U
    { time for ((i = 0; i < runs; i++)); do convert "$1"; done; } 2>&1 | tr -d .,
}

for ((round = 0; round < rounds; round++)); do
    for name in three_octets primitive one_segment segments nested half levels; do
        user_time "$name" >>"$work/$name.times"
    done
done

median() {
    echo $((10#$(sort -n "$work/$1.times" | sed -n "$((rounds / 2 + 1))p")))
}

least=$(median three_octets)
readonly least
passed=0

# Prints the time of the row $1 as a ratio to that of $2, of at most $3 hundredths.
compare() {
    local ours theirs
    ours=$(($(median "$1") - least))
    theirs=$(($(median "$2") - least))
    ((theirs > 0)) || fail "$2: too fast to be timed"
    printf '%s %d ms, %s %d ms, ratio %d.%02d, at most %d.%02d\n' "$1" "$ours" "$2" "$theirs" \
        $((ours / theirs)) $((100 * ours / theirs % 100)) $(($3 / 100)) $(($3 % 100))
    if ((100 * ours > $3 * theirs)); then
        echo "strings: $1 passes its bound" >&2
        passed=1
    fi
}

echo "user time of $runs runs, less $least ms for a value of three octets"
compare one_segment primitive 120
compare segments primitive 150
compare nested half 250
compare levels primitive 100
exit "$passed"
