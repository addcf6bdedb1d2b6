#!/bin/sh
# Runs asn1x over the values of this folder, and compares what it prints with what expected/ has; then the same of the
# programs of c/, rust/ and python/, which call the library.
#
#     examples/run.sh [PROGRAM]
#
# PROGRAM is crates/asn1x/out/asn1x unless given; where that is not built, the asn1x on the path, or else what
# `make try` has built. The others are built of crates/asn1x_c/out/libasn1x_c.a by `cc`, `rustc` and `python3`, where
# these are there. A line is printed for each file of `rows`, which names what is as expected:
#
#     check     counts as many values as NAME.txt has lines
#     show      prints NAME.txt
#     to der    writes NAME.hex
#     from der  reads NAME.hex by the strict rule, and writes it again
#     by cer    writes CER, reads that by the strict rule, and writes NAME.hex
#     json      asn1x-view prints JSON that jq reads, with the names and the values of NAME.txt (json.jq)
#     each to   writes NAME.hex and NAME.txt, a line for each value as it completes: the programs that call the library
#
# VIEW names asn1x-view; where it is not set, the one that is built, or on the path. Where it or jq is missing, a line
# says so, and json is left out.
#
# expected.sh makes those files, by other tools. A program that calls the library is held to asn1x itself too, over a
# module, values and text that are refused, a file that is missing and, by the status alone, wrong words. The status is 1 where anything differs, and 2 where something is missing.
set -eu

folder=$(cd "$(dirname "$0")" && pwd)
out=$folder/../crates/asn1x/out
program=${1-}
for it in "$out/asn1x" asn1x "$out/unproved"; do
    [ -n "$program" ] || program=$(command -v "$it") || :
done
[ -n "$program" ] || {
    echo 'examples: asn1x is not built and not on the path: "make install" proves it and puts it there,' >&2
    echo '"make try" does so without a proof' >&2
    exit 2
}
command -v "$program" >/dev/null || { echo "examples: $program is missing" >&2; exit 2; }
program=$(realpath "$(command -v "$program")")
asn1x=$program
for tool in diff mktemp; do
    command -v "$tool" >/dev/null || { echo "examples: $tool is missing" >&2; exit 2; }
done

view=${VIEW-}
for it in "$folder/../crates/asn1x_view/out/asn1x_view" asn1x-view; do
    [ -n "$view" ] || view=$(command -v "$it") || :
done
if ! command -v jq >/dev/null; then
    echo 'examples: jq is missing, so json is left out'
    view=
elif [ -z "$view" ]; then
    echo 'examples: asn1x-view is not built and not on the path, so json is left out'
fi
[ -z "$view" ] || view=$(realpath "$(command -v "$view")")

work=$(mktemp -d)
trap 'rm -rf "$work"' EXIT
cd "$folder"
status=0

# Compares what the program said with the file $2, and says that $1 is as expected, or how it differs.
compare() {
    if diff "$work/said" "$2" >"$work/differs" 2>&1; then
        passed="$passed $1,"
    else
        echo "$name: $1 differs (< as printed, > as expected):" >&2
        cut -c 1-240 "$work/differs" | head -n 8 >&2
        status=1
    fi
}

# Runs the program, and keeps what it says, and its status where that is not 0.
run() {
    "$program" "$@" >"$work/said" 2>&1 || echo "status $?" >>"$work/said"
}

# Goes over the files of `rows`.
over_rows() {
    echo "examples: $program"
    while read -r name module type file; do
        for it in "$file" "expected/$name.hex" "expected/$name.txt"; do
            [ -f "$it" ] || { echo "examples: $it is missing" >&2; exit 2; }
        done
        passed=
        echo "ok $(wc -l <"expected/$name.txt")" >"$work/count"
        { tr -d '\n' <"expected/$name.hex"; echo; } >"$work/der"
        run check "$module" "$type" "$file" --hex
        compare check "$work/count"
        run show "$module" "$type" "$file" --hex
        compare show "expected/$name.txt"
        run convert "$module" "$type" "$file" --hex --to der
        compare 'to der' "$work/der"
        run convert "$module" "$type" "$work/der" --hex --from der --to der
        compare 'from der' "$work/der"
        run convert "$module" "$type" "$file" --hex --to cer
        mv "$work/said" "$work/cer"
        run convert "$module" "$type" "$work/cer" --hex --from cer --to der
        compare 'by cer' "$work/der"
        if [ "$program" != "$asn1x" ]; then
            run each "$module" "$type" "$file" --hex --to der
            compare 'each to der' "expected/$name.hex"
            run each "$module" "$type" "$file" --hex --to text
            compare 'each to text' "expected/$name.txt"
        fi
        if [ -n "$view" ]; then
            "$view" json "$module" "$type" "$file" --hex >"$work/json" 2>&1 || echo "status $?" >>"$work/json"
            jq -s -r --rawfile texts "expected/$name.txt" -f json.jq "$work/json" >"$work/said" 2>&1 || :
            compare json "$work/count"
        fi
        printf '%-14s %2d of %-16s %s\n' "$name" "$(wc -l <"expected/$name.txt")" "$type" "${passed%,}"
    done <rows
}

# Compares what the program says of these words with what asn1x says of them; $1 is what they are.
as_asn1x() {
    what_is=$1
    shift
    "$asn1x" "$@" >"$work/wanted" 2>&1 || echo "status $?" >>"$work/wanted"
    run "$@"
    compare "$what_is" "$work/wanted"
}

# Compares what the program says of what is refused, a line of refused.rows each, with what asn1x says.
over_refused() {
    name=refused passed=
    while read -r what type octets words; do
        echo "$octets" | tr _ ' ' >"$work/octets"
        for task in check show convert; do
            [ $task != convert ] || words="$words --to der"
            # shellcheck disable=SC2086
            as_asn1x "$what to $task" $task refused.asn "$type" "$work/octets" --hex $words
            [ $task = show ] || continue
            # shellcheck disable=SC2086
            run each refused.asn "$type" "$work/octets" --hex $words --to text
            compare "$what to each" "$work/wanted"
        done
    done <refused.rows
    as_asn1x 'missing to check' check refused.asn Flags "$work/missing" --hex
    echo 'status 64' >"$work/wanted"
    run convert refused.asn Flags "$work/octets" --hex --to xer
    tail -n 1 "$work/said" >"$work/last" && mv "$work/last" "$work/said"
    compare 'wrong words' "$work/wanted"
    printf '%-14s %s\n' "$name" "${passed%,}"
}

# Says that a tool is there, or that what it builds is left out.
has() {
    command -v "$1" >/dev/null || { echo "examples: $2 is left out, since $1 is missing"; return 1; }
}

over_rows
view=
if [ ! -f ../crates/asn1x_c/out/libasn1x_c.a ]; then
    echo 'examples: the library is left out, since it is not built: "make install" proves and builds it'
elif has cc 'the library'; then
    ../install/library.sh "$work"
    cc -std=c99 -O2 -I ../include -o "$work/values_c" c/values.c "$work/libasn1x.a"
    program=$work/values_c
    over_rows
    over_refused
    if has rustc rust/; then
        rustc --edition 2021 -O -L native="$work" -l static=asn1x -o "$work/values_rust" rust/values.rs
        program=$work/values_rust
        over_rows
        over_refused
    fi
    if has python3 python/; then
        export ASN1X_LIBRARY="$work/libasn1x.so" PYTHONDONTWRITEBYTECODE=1
        program=python/values.py
        over_rows
        over_refused
    fi
fi

[ $status = 0 ] && echo 'examples: all as expected'
exit $status
