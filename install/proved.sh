#!/bin/sh
# Proves programs and each library that they stand on, the lowest first and several side by side, and builds them as
# crates/NAME/out/NAME, a static library as crates/NAME/out/libNAME.a.
#
#     install/proved.sh NAME..
#
# It needs rt and make. A line is printed where the proof of a crate begins, and one where it has ended: how many have,
# what it took, and about how long the rest will take, by the times so far and the minutes of processor time in
# docs/CONTRIBUTING.md, with a minute for each program.
# What an earlier check or install on this machine proved of the same files is used again, and takes a second or two. What
# `rt ci` proved is not: it keeps programs for itself.
# Nothing is built where a proof fails.
set -eu

[ $# -gt 0 ] || { echo 'usage: install/proved.sh NAME..' >&2; exit 2; }

cd "$(dirname "$0")/.."
command -v rt >/dev/null || { echo "proved: rt is missing: put the kit's bin folder on the path" >&2; exit 2; }

# Crates and the libraries that they stand on, as crates.txt lists them, the lowest first.
with_libraries() {
    tac crates.txt | awk -F ':' -v wanted=" $* " '
        { sub(" staticlib", "", $1) }
        index(wanted, " " $1 " ") || needed[$1] { split($2, names, " "); for (i in names) needed[names[i]] = 1; print $1 }' |
        tac
}

# Makes a repository at $1 of a crate, $2, and the libraries that it stands on, by links to their files but the edits.
make_repository() {
    mkdir -p "$1/crates"
    cp HANDLES "$1"
    with_libraries "$2" | while read -r crate; do
        grep -E "^$crate( staticlib)?:" crates.txt
        mkdir "$1/crates/$crate"
        for it in "crates/$crate"/*; do
            case $it in
            */must-fail) ;;
            *) cp -al "$it" "$1/crates/$crate" ;;
            esac
        done
    done >"$1/crates.txt"
}

# Seconds as words.
words() {
    if [ "$1" -lt 100 ]; then echo "$1 s"; else echo "$((($1 + 30) / 60)) min"; fi
}

# Proves a crate, in a repository of its own, since a run of rt waits for any other that works on one of its crates.
prove() {
    make_repository "$work/$1" "$1" &&
        (
            cd "$work/$1/crates/$1" &&
                if [ -f src/main.rt ]; then rt run --jobs "$jobs" -- --help >/dev/null; else rt lib --jobs "$jobs" >&2; fi
        ) &&
        rm -rf "crates/$1/out" &&
        mv "$work/$1/crates/$1/out" "crates/$1" &&
        rm -rf "${work:?}/$1"
}

# Proves a crate, once those that it stands on are proved, and says so. `work` has what is known of all. What took a few
# seconds was proved before, and tells nothing of what the rest will take.
if [ "$1" = --one ]; then
    since=$(date +%s)
    printf '          %-16s begins\n' "$2"
    prove "$2" 2>"$work/said-$2" || { printf '          %-16s NOT PROVED\n' "$2"; cat "$work/said-$2" >&2; exit 1; }
    now=$(date +%s)
    echo "$2 $((now - since))" >>"$work/proved"
    awk -v crate="$2" -v took=$((now - $(cat "$work/begun"))) '
        NR == FNR { minutes[$1] = $2; left += $2; count++; next }
        { left -= minutes[$1] } $2 > 15 { timed += minutes[$1] }
        $1 == crate { print FNR, count, timed ? int(took * left / timed) : -1; exit }' \
        "$work/crates" "$work/proved" | {
        read -r number count left
        printf '%2d of %d  %-16s proved  %6s' "$number" "$count" "$2" "$(words $((now - since)))"
        if [ "$left" -gt 0 ]; then echo "  about $(words "$left") left"; else echo; fi
    }
    exit
fi

work=$(mktemp -d "$PWD/.install.XXXXXX")
trap 'rm -rf "$work"' EXIT
trap 'exit 130' INT TERM

# The minutes of processor time that the proof of a crate takes, where that was timed.
minutes_of() {
    awk -F '|' -v name="\`$1\`" '{ gsub(" ", "") } $2 == name { print $3 + 0 }' docs/CONTRIBUTING.md
}

# A rule for each crate: it is proved behind those of its own line.
rules() {
    awk -F ':' 'NR == FNR { split($0, words, " "); here[words[1]] = 1; next }
        { sub(" staticlib", "", $1) }
        here[$1] {
            printf "%s:", $1
            count = split($2, names, " ")
            for (i = 1; i <= count; i++) if (here[names[i]]) printf " %s", names[i]
            printf "\n\t@install/proved.sh --one %s\n.PHONY: %s\n", $1, $1
        }' "$work/crates" crates.txt
}

for crate in $(with_libraries "$@"); do
    echo "$crate $(minutes_of "$crate")"
done | awk '{ print $1, ($2 > 0 ? $2 : 1) }' >"$work/crates"

# A proof takes up to 5 GiB. Where few can go on, each has a second processor.
processors=$(nproc)
jobs=$((processors < 4 ? 1 : 2))
lanes=$(awk -v lanes="$processors" '
    /MemAvailable/ { room = int($2 / 1048576 / 5) } END { print room < 1 ? 1 : room < lanes ? room : lanes }' /proc/meminfo)
export work jobs

echo "proving $(wc -l <"$work/crates") crates, $lanes side by side: minutes from nothing, and seconds for each library that was proved here before"
date +%s >"$work/begun"
rules >"$work/rules"
env -u MAKEFLAGS -u MFLAGS -u MAKELEVEL make --no-print-directory -s -j "$lanes" -f "$work/rules" "$@"
