#!/usr/bin/env bash
# Prints what resolving a name costs, on modules that are made in code, and how much memory was resident at
# most, which may be 122,880 KiB. Needs `cc`, for bench/floor.c, which measures.
#
#     bench/resolving.sh
#
# The program is bench/resolving/main.txt, which `rt run` proves and builds in a folder of its own beside
# copies of the libraries that it calls. A first run takes some minutes, since these are proved again
# unless their `out` folders are there.
set -euo pipefail
shopt -s inherit_errexit

# shellcheck source=bench/over_libraries.sh
. "$(dirname "${BASH_SOURCE[0]}")/over_libraries.sh"
command -v cc >/dev/null || { echo 'resolving: cc is missing' >&2; exit 1; }
run_over resolving 'notation types'
cc -O2 -o "$work/floor" "$top/bench/floor.c"
read -r _ resident < <("$work/floor" measure 1 "$work/crates/resolving/out/resolving")
readonly resident
echo "$resident KiB resident at most"
if ((resident > 122880)); then
    echo 'resolving: more than 122,880 KiB are resident' >&2
    exit 1
fi
