# shellcheck shell=bash
# Sourced by the scripts that run a program as `rt run` builds it. Sets `top`, the folder of the repository; `program`,
# which is $1 or that of the crate `crate`, asn1x unless set; and `work`, a folder that goes when the script ends.

top=$(cd "$(dirname "${BASH_SOURCE[0]}")/.." && pwd)
readonly top
crate=${crate-asn1x}
program=$(realpath -m "${1-$top/crates/$crate/out/$crate}")
readonly program

# Ends the script, for this reason.
fail() {
    echo "$(basename "$0" .sh): $1" >&2
    exit 1
}

[[ -x $program ]] || fail "$program is missing: run 'rt run' in crates/$crate"

work=$(mktemp -d)
readonly work
trap 'rm -rf "$work"' EXIT
