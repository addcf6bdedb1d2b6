#!/usr/bin/env bash
# Prints what asn1x takes beside a converter written by hand in C, bench/floor.c, and holds it to bounds.
#
#     bench/throughput.sh [PROGRAM]
#
# PROGRAM is crates/asn1x/out/asn1x unless given, which `rt run` in crates/asn1x builds. The inputs are made
# anew, about 16 MB each, and both must write the same octets. From BER to DER asn1x may take, of what
# floor takes:
#
#     records           200,000 SEQUENCEs of a dozen components, indefinite lengths                    2.5
#     loose_records     the same with a string in segments, and lengths in more octets than needed     3
#     segments_of_1000  OCTET STRINGs of about 1 MiB in segments of 1,000 octets                       1.5
#     segments_of_1     the same in segments of one octet                                              1
#     sets              SET OF INTEGER, a thousand items each in no order                              1.5
#     random_sets, equal_sets, descending_sets
#                       the same with as many items of four contents octets as a value can have        1.5, 1.5, 1.2
#     sets_of_fronts    the same of sixteen contents octets, of which the last four differ             0.6
#     choices           SEQUENCE OF a CHOICE of 256 INTEGERs, 150,000 items                            2
#     disordered_choices
#                       the same with alternatives in no order                                         2
#     members           a SET of 256 INTEGERs in descending order                                      1.4
#     chains            an INTEGER within sixty explicit tags                                          3
#     chains_around_lists
#                       a SEQUENCE OF INTEGER of about 1 MiB within fifty-nine                         3
#     branches          SEQUENCEs of two, each within an explicit tag, eight deep                      3
#     certificates      those of examples/certificates.hex, over and over, in DER                      2.5
#     indefinite_certificates
#                       the same with indefinite lengths                                               3
#     booleans          2,000,000 BOOLEANs                                                             1
#
# A list of a CHOICE of 256 may take 1.5 times what one of two takes. Half of what lists of a CHOICE take is memory: an
# item is a slot of 48 octets and a box of 64, and in lists of a thousand items one takes half the time.
#
# Not held on every machine are lists of a CHOICE (a median of five runs of this script: 2.1 on one), members (1.44) and
# fronts (0.63). A BOOLEAN takes 123 instructions where floor.c takes 89, 63 of them in `Canon::put`, which is a call
# there. By the least of fifteen runs beside floor.c, three times, it took 0.92 to 1.28 of its time, and chains to CER
# once 1.07 of the time that they take to DER (least of nine).
#
# What is written is converted and checked again. From DER to DER, and from CER to CER, records may take 3 times what
# floor takes and 1.1 times the time that the same octets take from BER, of which most are copied too; so may `check`.
#
# Of each, CER may take 1.5 times the time that DER takes, `check` no more than it, and `show` 3 times it, or what floor
# takes where that is more.
# A run over one NULL may take 1.5 ms. At most 3 MiB may be resident over values of at most 4 KiB, and 30 MiB over
# a string, a SEQUENCE OF NULL, a SET OF INTEGER or, from BER and from DER, a SEQUENCE OF a CHOICE of 1 MiB; a list of
# values that have parts takes more.
#
# A time is processor time, the least of fifteen runs, and of a hundred over one NULL. The programs of a row are run in
# turn, so that a machine that gets slower for a while does so for all of them. The last line names the bounds that are
# not held.
set -euo pipefail
shopt -s inherit_errexit

readonly runs=15

# shellcheck source=bench/built.sh
. "$(dirname "${BASH_SOURCE[0]}")/built.sh"
command -v cc >/dev/null || fail 'cc is missing'

readonly floor=$work/floor
cc -O2 -Wall -o "$floor" "$top/bench/floor.c"

work_now=
declare -a broken=()

# Prints a line on what is measured: $1, at most $2, of $3 over $4 in hundredths.
hold() {
    local ratio=$((100 * $3 / ($4 > 0 ? $4 : 1))) verdict=held
    if ((ratio > $2)); then
        verdict='NOT HELD'
        broken+=("$work_now: ${1#  }")
    fi
    printf '%-32s %9d / %9d = %3d.%02d, at most %d.%02d  %s\n' "$1" "$3" "$4" \
        $((ratio / 100)) $((ratio % 100)) $(($2 / 100)) $(($2 % 100)) "$verdict"
}

# Sets `took` and `resident` to what each command of these words needs, which are run in turn and stand between `--`.
measure() {
    local time memory
    took=() resident=()
    while read -r time memory; do
        took+=("$time") resident+=("$memory")
    done < <("$floor" measure "$@")
}

# Makes the input of a work, sets `input` to it and its type, and compares what the two programs write.
prepare() {
    "$floor" make "$1" <"$top/examples/certificates.hex" >"$work/$1.ber"
    if [[ $1 == *certificates ]]; then
        input=("$top/examples/certificates.asn" Certificate "$work/$1.ber")
    else
        "$floor" module "$1" >"$work/$1.asn"
        input=("$work/$1.asn" Value "$work/$1.ber")
    fi
    "$floor" convert "$1" "$work/$1.ber" >"$work/want"
    "$program" convert "${input[@]}" --to der >"$work/out"
    cmp "$work/want" "$work/out" || fail "$1: other octets"
    rm "$work/want" "$work/out"
}

# Measures a work, which may take $2 hundredths of what floor takes.
row() {
    work_now=$1
    prepare "$1"
    measure $runs "$floor" convert "$1" "$work/$1.ber" -- "$program" convert "${input[@]}" --to der \
        -- "$program" convert "${input[@]}" --to cer -- "$program" check "${input[@]}" -- "$program" show "${input[@]}"
    residents[$1]=${resident[1]}
    hold "$1" "$2" "${took[1]}" "${took[0]}"
    hold "  to CER over to DER" 150 "${took[2]}" "${took[1]}"
    hold "  check over convert" 100 "${took[3]}" "${took[1]}"
    hold "  show over convert, or floor" 300 "${took[4]}" $((took[1] > took[0] ? took[1] : took[0]))
}

# Measures the strict reader of a rule on what the last work becomes under it, beside floor and the reader of BER.
strict_row() {
    local rule=$1
    "$program" convert "${input[@]}" --to "$rule" >"$work/strict"
    local -a again=("${input[@]:0:2}" "$work/strict") by_rule=(--from "$rule")
    measure $runs "$floor" convert "$work_now" "$work/strict" \
        -- "$program" convert "${again[@]}" --to "$rule" -- "$program" convert "${again[@]}" "${by_rule[@]}" --to "$rule" \
        -- "$program" check "${again[@]}" -- "$program" check "${again[@]}" "${by_rule[@]}"
    hold "  from $rule to it over floor" 300 "${took[2]}" "${took[0]}"
    hold "  from $rule to it over from BER" 110 "${took[2]}" "${took[1]}"
    hold "  check from $rule over from BER" 110 "${took[4]}" "${took[3]}"
    rm "$work/strict"
}

declare -a input=() took=() resident=()
declare -A residents=()
echo 'microseconds:'
row records 250
strict_row der
strict_row cer
row loose_records 300
row segments_of_1000 150
row segments_of_1 100
row sets 150
row random_sets 150
row equal_sets 150
row descending_sets 120
row sets_of_fronts 60
row choices_of_two 200
row choices 200
"$program" convert "${input[@]}" --to der >"$work/strict"
measure 1 "$program" convert "${input[@]:0:2}" "$work/strict" --from der --to der
residents[choices_from_der]=${resident[0]}
rm "$work/strict"
measure $runs "$program" convert "$work/choices_of_two.asn" Value "$work/choices_of_two.ber" --to der \
    -- "$program" convert "${input[@]}" --to der
hold '  a CHOICE of 256 over one of two' 150 "${took[1]}" "${took[0]}"
row disordered_choices 200
row members 140
row chains 300
row chains_around_lists 300
row branches 300
row certificates 250
row indefinite_certificates 300
row booleans 100

work_now='start and memory'
printf '\5\0' >"$work/null"
measure 100 "$program" convert @builtin NULL "$work/null" --to der
hold 'one NULL, over 1 ms' 150 "${took[0]}" 1000

echo 'KiB resident:'
echo "one NULL                         ${resident[0]}"
hold 'records, over 1 MiB' 300 "${residents[records]}" 1024
hold 'chains, over 1 MiB' 300 "${residents[chains]}" 1024
hold 'certificates, over 1 MiB' 300 "${residents[certificates]}" 1024
hold 'booleans, over 1 MiB' 300 "${residents[booleans]}" 1024
hold 'segments_of_1000, over 1 MiB' 3000 "${residents[segments_of_1000]}" 1024
hold 'segments_of_1, over 1 MiB' 3000 "${residents[segments_of_1]}" 1024
hold 'random_sets, over 1 MiB' 3000 "${residents[random_sets]}" 1024
hold 'choices, over 1 MiB' 3000 "${residents[choices]}" 1024
hold 'choices from DER, over 1 MiB' 3000 "${residents[choices_from_der]}" 1024
prepare nulls
measure 1 "$program" convert "${input[@]}" --to der
hold 'SEQUENCE OF NULL, over 1 MiB' 3000 "${resident[0]}" 1024

((${#broken[@]})) || broken=(none)
(
    IFS=';'
    echo "not held: ${broken[*]}"
)
[[ ${broken[0]} == none ]]
