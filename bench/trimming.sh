#!/usr/bin/env bash
# Prints what asn1x-trim takes for files of 16 MiB, most of which are no modules: processor time, which may be 2 s, and
# the memory that is resident at most, which may be 100 MiB.
#
#     bench/trimming.sh [PROGRAM]
#
# PROGRAM is crates/asn1x_trim/out/asn1x_trim unless given, which `rt run` in crates/asn1x_trim builds. Needs `cc`, for
# bench/floor.c, which measures. A line is printed for each text. The status is 1 where one takes more.
set -euo pipefail
shopt -s inherit_errexit

crate=asn1x_trim
# shellcheck source=bench/built.sh
. "$(dirname "${BASH_SOURCE[0]}")/built.sh"
command -v cc >/dev/null || fail 'cc is missing'
cc -O2 -o "$work/floor" "$top/bench/floor.c"
status=0

# Trims T of the text on standard input, cut at 16 MiB, with these options; $1 is what it is called.
measure() {
    local name=$1 took resident
    shift
    head -c 16777216 >"$work/in.asn"
    [ -s "$work/in.asn" ] || { echo "trimming: there is no text of $name" >&2; status=1; }
    # shellcheck disable=SC2016
    read -r took resident < <("$work/floor" measure 1 /bin/sh -c '"$@" 2>/dev/null; [ $? -le 1 ]' sh \
        "$program" "$work/in.asn" M.T "$@")
    printf '%-28s %5d ms  %7d KiB  %9d octets\n' "$name" $((took / 1000)) "$resident" "$(wc -c <"$work/in.asn")"
    if ((took > 2000000 || resident > 102400)); then
        echo "trimming: $name takes more than 2,000 ms or 102,400 KiB" >&2
        status=1
    fi
}

# The line over and over, behind the head of a module or not.
repeat() {
    yes -- "$1" 2>/dev/null || :
}
behind() {
    echo "M DEFINITIONS $1 ::= BEGIN"
    repeat "$2"
}

measure 'prose' < <(repeat 'Text of which no part is a module, however long it is: see 4.2.')
measure 'one word' < <(repeat 'a' | tr -d '\n')
measure 'heads' < <(repeat 'M DEFINITIONS ::= BEGIN')
measure 'heads with braces' < <(repeat 'M { a b c')
measure 'modules' < <(repeat 'M DEFINITIONS ::= BEGIN T ::= NULL END')
measure 'modules of many names' < <(awk 'BEGIN { for (;;) print "M" ++i " DEFINITIONS ::= BEGIN T ::= NULL END" }' || :)
measure 'quotation marks' < <(repeat '"')
measure 'apostrophes' < <(repeat "'")
measure 'comments that do not end' < <(repeat '/*')
measure 'hyphens' < <(repeat '--- -')
measure 'pages' < <(repeat $'\f')
measure 'strings' < <(behind '' 'v T ::= "a')
measure 'gaps' < <(behind '' '   -- a comment that says nothing')
measure 'assignments' < <(behind '' 'T ::= NULL')
measure 'parts' < <(behind 'AUTOMATIC TAGS' 'a T OPTIONAL,' | sed '2i\T ::= SEQUENCE {')
measure 'brackets' < <(behind '' '( [ { [[')
measure 'levels' < <(behind '' 'SEQUENCE { a' | sed '2i\T ::=')
measure 'faults' < <(behind '' 'T ::= SEQUENCE { $ }')
measure 'imports' < <(behind '' 'A, B {C},' | sed '2i\IMPORTS')
measure 'a macro' < <(behind '' 'X MACRO ::= BEGIN')
measure 'constraints' < <(behind '' '(0..5)' | sed '2i\T ::= INTEGER')
measure 'names of numbers' < <(behind '' 'a(1),' | sed '2i\T ::= INTEGER {')
measure 'types that refer to themselves' --narrow --unroll 60 < <(awk 'BEGIN {
    print "M DEFINITIONS ::= BEGIN"
    for (i = 1; i < 20000; i++) printf "%s ::= SET { a T%d OPTIONAL, b T OPTIONAL }\n", (i == 1 ? "T" : "T" i), i + 1
    print "T20000 ::= NULL END" }')
measure 'COMPONENTS OF' < <(awk 'BEGIN {
    print "M DEFINITIONS ::= BEGIN"
    for (i = 1; i < 20000; i++) printf "%s ::= SEQUENCE { COMPONENTS OF T%d, COMPONENTS OF T%d, a NULL }\n", \
        (i == 1 ? "T" : "T" i), i + 1, i + 2
    print "T20000 ::= SEQUENCE { b NULL } T20001 ::= SEQUENCE { c NULL } END" }')
measure 'defaults by name' < <(awk 'BEGIN {
    print "M DEFINITIONS ::= BEGIN T ::= SEQUENCE {"
    for (i = 1; i <= 256; i++) printf "a%d E DEFAULT v%d%s\n", i, i, (i < 256 ? "," : "}")
    for (i = 1; i <= 256; i++) printf "v%d E ::= %s\n", i, (i < 256 ? "v" (i + 1) : "e")
    printf "E ::= ENUMERATED { e"
    for (i = 1; i < 100000; i++) printf ", e%d", i
    print "} END" }')
exit $status
