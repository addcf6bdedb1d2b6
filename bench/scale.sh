#!/usr/bin/env bash
# Prints what running over a thousand files takes, one after another and on all cores.
#
#     bench/scale.sh [PROGRAM]
#
# PROGRAM is crates/asn1x/out/asn1x unless given. It needs parallel, basenc and a quiet machine. The files are the
# certificates of examples/certificates.hex over and over, of some 16 KB, 1 MB and 10 MB; a thousand names lead to one
# file of each. Each file is checked, and what is said of it goes to a file of its own:
#
#     loop      by a loop of the shell, one after another
#     parallel  by `parallel`, a run for each file
#     grouped   by `parallel -n 50`, a run for fifty files, which `cat` puts one behind another
#     xargs     by `xargs -P`, a run for each file, by a shell that names the output
#
# A row has the milliseconds on the clock, and of the last three how often the first has room for them.
set -euo pipefail
shopt -s inherit_errexit

# shellcheck source=bench/built.sh
. "$(dirname "${BASH_SOURCE[0]}")/built.sh"
module=$top/examples/certificates.asn
export program module
for tool in parallel basenc; do
    command -v $tool >/dev/null || fail "$tool is missing"
done

cd "$work"
export PARALLEL_HOME=$work
tr -d ' \n' <"$top/examples/certificates.hex" | tr a-f A-F | basenc --base16 -d >four

# Makes the files in/0001.ber to in/1000.ber, each with the four certificates $1 times.
make_files() {
    local at
    rm -rf in
    mkdir in
    for ((at = 0; at < $1; at++)); do cat four; done >many
    for at in {0001..1000}; do ln -s ../many "in/$at.ber"; done
}

by_loop() {
    for file in in/*.ber; do
        "$program" check "$module" Certificate "$file" --from der >"out/${file##*/}"
    done
}

by_parallel() {
    parallel '"$program" check "$module" Certificate {} --from der >out/{/}' ::: in/*.ber
}

grouped() {
    parallel -n 50 'cat {} | "$program" check "$module" Certificate /dev/stdin --from der >out/{#}' \
        ::: in/*.ber
}

by_xargs() {
    printf '%s\0' in/*.ber | xargs -0 -n 1 -P "$(nproc)" \
        sh -c '"$program" check "$module" Certificate "$1" --from der >"out/${1##*/}"' sh
}

# Sets `took` to the milliseconds of a way, all of whose counts must be $2.
measure() {
    local begun count
    rm -rf out
    mkdir out
    begun=$(date +%s%N)
    "$1"
    took=$((($(date +%s%N) - begun) / 1000000))
    count=$(cat out/* | awk '{ count += $2 } END { print count }')
    ((count == $2)) || fail "$1: $count certificates, and not $2"
}

# Prints the row of files with the certificates so many times.
row() {
    local loop way
    make_files "$2"
    measure by_loop $((4000 * $2))
    loop=$took
    printf '%-8s %8d' "$1" "$loop"
    for way in by_parallel grouped by_xargs; do
        measure $way $((4000 * $2))
        printf ' %8d %3d.%02d' "$took" $((loop / took)) $((100 * loop / took % 100))
    done
    echo
}

echo "a thousand files on $(nproc) cores:"
printf '%-8s %8s %15s %15s %15s\n' '' loop parallel grouped xargs
row '16 KB' 6
row '1 MB' 376
row '10 MB' 3757
