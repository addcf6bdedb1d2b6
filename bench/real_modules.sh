#!/bin/sh
# Tries asn1x-trim over modules as they are published, where some are installed: the texts of RFCs (Debian's packages
# doc-rfc-*), and the modules in the sources of erlang (erlang-src) and of wireshark. None of them is part of asn1x.
#
#     bench/real_modules.sh [PROGRAM] [FOLDER..]
#
# PROGRAM is crates/asn1x_trim/out/asn1x_trim unless given, which `rt run` in crates/asn1x_trim builds. The folders are
# looked through for modules; without any, those in which the packages have theirs. Each type of each file is asked
# for, or each EVERYth where EVERY is set in the environment, with the other files of its folder behind unless it is an
# RFC, as it stands, with --narrow, and with --narrow and --unroll 1. Printed are the numbers of files, modules and
# types, how many came through, and for the others how often each first reason came.
#
# bench/real_messages.sh, which this runs at the end, converts messages by modules that are trimmed from these texts.
# The status is 1 where that fails, or has no texts, or where there are no modules.
set -u

top=$(cd "$(dirname "$0")/.." && pwd) || exit 1
program=${1-$top/crates/asn1x_trim/out/asn1x_trim}
[ $# -gt 0 ] && shift
[ -x "$program" ] || { echo "real_modules: $program is missing: run 'rt run' in crates/asn1x_trim" >&2; exit 1; }
[ $# -gt 0 ] || set -- /usr/share/doc/RFC /usr/lib/erlang/lib /usr/src/wireshark

work=$(mktemp -d) || exit 1
trap 'rm -rf "$work"' EXIT
mkdir "$work/rfc"
export program work

# The files. Debian packs the texts of RFCs; all of these texts stand in one folder, for real_messages.sh.
for folder; do
    [ -d "$folder" ] || continue
    folder=$(realpath "$folder")
    find "$folder/" -type f \( -name '*.asn' -o -name '*.asn1' \)
    find "$folder/" -type f \( -name 'rfc*.txt' -o -name 'rfc*.txt.gz' \) | while read -r file; do
        text=$work/rfc/$(basename "$file" .gz)
        case $file in
        *.gz) gzip -dc "$file" >"$text" ;;
        *) ln -sf "$file" "$text" ;;
        esac && echo "$text"
    done
done >"$work/all"
xargs -r -d '\n' grep -lE '(^|[^A-Za-z-])DEFINITIONS([^A-Za-z-]|$)' <"$work/all" | sort -u >"$work/files"
[ -s "$work/files" ] || { echo "real_modules: no modules in $*" >&2; exit 1; }

# The names of types that a file assigns, module names in front.
types_of() {
    awk '
        { sub(/--.*/, "") }
        !open {
            head = head " " $0
            if (length(head) > 800) head = substr(head, length(head) - 600)
            if (head ~ /DEFINITIONS.*::=.*BEGIN/) {
                sub(/DEFINITIONS.*/, "", head)
                gsub(/[{][^}]*[}]/, "", head)
                count = split(head, words, /[ \t]+/)
                while (count > 0 && words[count] == "") count--
                name = words[count]
                open = 1
                head = ""
            }
            next
        }
        match($0, /^[ \t]*[A-Z][A-Za-z0-9-]*[ \t]*::=/) { type = $1; sub(/::=.*/, "", type); print name "." type }
        /^[ \t]*END[ \t]*$/ { open = 0 }
    ' "$1" | sort -u
}

# A line for each type: its number, its file, and its name.
while read -r file; do
    types_of "$file" | sed "s|^|$file |"
done <"$work/files" | grep -E ' [A-Z][A-Za-z0-9-]*\.[A-Z]' | awk -v every="${EVERY:-1}" 'NR % every == 0' |
    nl -ba -s ' ' >"$work/types"
[ -s "$work/types" ] || { echo "real_modules: no types in these files" >&2; exit 1; }
asked=$(wc -l <"$work/types")
files=$(awk '{ print $2 }' "$work/types" | sort -u | wc -l)
modules=$(awk '{ sub(/[.].*/, "", $3); print $2, $3 }' "$work/types" | sort -u | wc -l)

# Asks for one type with the options in the first word, and prints 'written' or the first reason why it is not.
cat >"$work/ask" <<'END'
options=$1 file=$3 type=$4 others=
case $file in
*/rfc*.txt) ;;
*) others=$(grep -F "$(dirname "$file")/" "$work/files" | grep -vxF "$file" | tr '\n' ' ') ;;
esac
if said=$("$program" "$file" $others "$type" $options 2>&1 >/dev/null); then
    echo written
else
    printf '%s\n' "$said" | grep ' refused: ' | head -n 1 | sed 's/.* refused: //; s/ at [A-Z].*//; s/;.*//'
fi
END

# Asks for each type with these options, and counts.
try() {
    label=$1
    shift
    xargs -P "$(nproc)" -L 1 sh "$work/ask" "$*" <"$work/types" >"$work/reasons"
    echo "$label: $files files, $modules modules, $asked types, $(grep -cx written "$work/reasons") written"
    grep -vx written "$work/reasons" | sort | uniq -c | sort -rn | head -n 12
}

try 'as they stand'
try 'with --narrow' --narrow
try 'with --narrow --unroll 1' --narrow --unroll 1

"$top/bench/real_messages.sh" "$program" "$work/rfc"
