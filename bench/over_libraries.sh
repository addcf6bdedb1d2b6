# shellcheck shell=bash
# Sourced by the scripts that run a program of bench/ over libraries alone. Sets `top`, the folder of the repository, and
# `work`, a folder that goes when the script ends.

command -v rt >/dev/null || { echo "$(basename "$0" .sh): rt is missing: install the kit" >&2; exit 1; }

top=$(cd "$(dirname "${BASH_SOURCE[0]}")/.." && pwd)
readonly top
work=$(mktemp -d)
readonly work
trap 'rm -rf "$work"' EXIT

# Proves, builds and runs bench/$1/main.txt, which calls the crates $2, beside copies of those and of all below them.
run_over() {
    local name=$1 needed=" $2 " crate deps
    mkdir -p "$work/crates/$name/src"
    cp "$top/bench/$name/main.txt" "$work/crates/$name/src/main.rt"
    # In crates.txt a crate stands behind those below it.
    while IFS=: read -r crate deps; do
        [[ $needed == *" $crate "* ]] || continue
        needed+="$deps "
        cp -r "$top/crates/$crate" "$work/crates"
        echo "$crate:$deps"
    done < <(tac "$top/crates.txt") | tac >"$work/crates.txt"
    echo "$name: $2" >>"$work/crates.txt"
    cd "$work/crates/$name" || exit
    rt run
}
