#!/usr/bin/env bash
# Has each growth of some runs of asn1x refused in turn.
#
#     bench/refused_growths.sh [PROGRAM]
#
# PROGRAM is crates/asn1x/out/asn1x unless given, which `rt run` in crates/asn1x builds. It shows, checks and
# converts two values of a module that has each kind of type, and bench/refuse.c, loaded before the C library,
# refuses the growth. Such a run must end with status 4, and
#
#     nothing on standard error, where the program's words are not yet known;
#     the line of the module's fault 33, where its type is not yet known;
#     the line of refusal 17, and on standard output what stands for the values that it counts;
#
# or it can do without the growth, and does just what it does with ample memory. Anything else is a failure.
# A line is printed for each command: it takes a few seconds.
set -euo pipefail
shopt -s inherit_errexit

# shellcheck source=bench/built.sh
. "$(dirname "${BASH_SOURCE[0]}")/built.sh"
command -v cc >/dev/null || fail 'cc is missing'
cc -O2 -Wall -shared -fPIC -o "$work/refuse.so" "$top/bench/refuse.c"
cd "$work"

cat >kinds.asn <<'MODULE'
Kinds DEFINITIONS EXPLICIT TAGS ::= BEGIN
  Kinds ::= SEQUENCE {
    truth BOOLEAN,
    number INTEGER,
    wide INTEGER,
    item ENUMERATED { low (1), high (2) },
    none NULL,
    name OBJECT IDENTIFIER,
    path RELATIVE-OID,
    bits BIT STRING,
    flags BIT STRING { low (0), high (9) },
    octets OCTET STRING,
    text UTF8String,
    time UTCTime,
    parts SET { first [0] IMPLICIT INTEGER, second [1] IMPLICIT BOOLEAN DEFAULT TRUE },
    list SEQUENCE OF INTEGER,
    bag SET OF INTEGER,
    either CHOICE { nothing [2] NULL, some [3] INTEGER },
    within [4] OCTET STRING
  }
END
MODULE

# A value whose OCTET STRING has a segment of $1 octets.
value() {
    printf '%s' 3080 010101 020107 02110080000000000000000000000000000000 0a0102 0500 06032a0304 0d020304
    printf '%s' 2380 030200a5 030204f0 0000
    printf '%s' 2380 03020080 03020000 0000
    printf '2480 24800402010200000482%04x' "$1"
    printf '41%.0s' $(seq "$1")
    printf '%s' 0000
    printf '%s' 2c80 04026162 040163 0000 170d3236303330313039333031355a
    printf '%s' 3180 810100 800105 0000
    printf '%s' 3080 020101 020102 0000
    printf '%s' 3180 020109 020103 02020100 0000
    printf '%s' a380 020104 0000 a480 2480 040141 0000 0000 0000
}

# The second value does not end in the octets that are read with the first one.
value 3 >first.hex
{
    value 3
    value 60000
} >both.hex

# Runs a command with the growth of this number refused, and sets `status`.
run() {
    local refused=$1
    shift
    status=0
    REFUSED=$refused GROWTHS=growths LD_PRELOAD=$work/refuse.so "$program" "$@" \
        >out 2>err </dev/null || status=$?
}

# Whether the run says that memory ran out, no earlier than in the phase that was reached.
is_refusal() {
    local line
    line=$(<err)
    case $line in
        '')
            ((phase == 0)) && [[ ! -s out ]]
            ;;
        'asn1x: module refused 33 NoMemory at '*)
            ((phase <= 1)) && [[ ! -s out ]] || return 1
            phase=1
            ;;
        'asn1x: refused 17 NoMemory after 0 values')
            phase=2
            [[ ! -s out ]]
            ;;
        'asn1x: refused 17 NoMemory after 1 values')
            phase=2
            cmp -s out first
            ;;
        *) return 1 ;;
    esac
}

# Has each growth of a command refused. The first words are what it does, the others its options.
each_growth() {
    local verb=$1 growths growth refusals=0 phase=0
    shift
    run 0 "$verb" kinds.asn Kinds first.hex --hex "$@"
    ((status == 0)) || fail "$verb $*: status $status; $(<err)"
    # A command that counts prints nothing for a value alone.
    if [[ $verb == check ]]; then : >first; else mv out first; fi
    run 0 "$verb" kinds.asn Kinds both.hex --hex "$@"
    ((status == 0)) || fail "$verb $*: status $status; $(<err)"
    mv out ample
    growths=$(<growths)
    for ((growth = 1; growth <= growths; growth++)); do
        run "$growth" "$verb" kinds.asn Kinds both.hex --hex "$@"
        if ((status == 4)) && is_refusal; then
            refusals=$((refusals + 1))
        elif ((status != 0)) || [[ -s err ]] || ! cmp -s out ample; then
            fail "$verb $*: growth $growth: status $status; $(head -c 200 out); $(<err)"
        fi
    done
    ((phase == 2)) || fail "$verb $*: no growth was refused as 17"
    echo "$verb $*: $growths growths, $refusals of them refused, $((growths - refusals)) not needed"
}

each_growth show
each_growth check
each_growth convert --to der
each_growth convert --to cer
