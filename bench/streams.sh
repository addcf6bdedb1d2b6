#!/bin/sh
# Shows what asn1x does with streams that only a process of its own can have: pipes, full and closed ones,
# directories and files that are not there.
#
#     bench/streams.sh [PROGRAM]
#
# PROGRAM is crates/asn1x/out/asn1x unless given, which `rt run` in crates/asn1x builds. A line is printed for
# each case: `ok` where the standard output, the standard error and the status are those that docs/REFUSALS.md
# says, else what was found. The status is 1 where a case failed.
# shellcheck disable=SC2002
set -u

top=$(cd "$(dirname "$0")/.." && pwd) || exit 1
program=${1-$top/crates/asn1x/out/asn1x}
case $program in
    /*) ;;
    *) program=$PWD/$program ;;
esac
[ -x "$program" ] || { echo "streams: $program is missing: run 'rt run' in crates/asn1x" >&2; exit 1; }

work=$(mktemp -d) || exit 1
trap 'rm -rf "$work"' EXIT
cd "$work" || exit 1

status=0
failed=0

# The case of this name: its status, standard output and standard error, whose lines are in the files out and err.
told() {
    out=$(cat out)
    err=$(cat err)
    if [ "$status" = "$2" ] && [ "$out" = "$3" ] && [ "$err" = "$4" ]; then
        echo "ok      $1"
    else
        echo "FAILED  $1: status $status, output '$out', error '$err'"
        failed=1
    fi
    status=0
    : >out
    : >err
}

: >out
: >err
# Two BOOLEANs, as octets and as text, and a module.
printf '\001\001\052\001\001\000' >two
echo '01012a 010100' >two.hex
echo 'M DEFINITIONS ::= BEGIN T ::= BOOLEAN END' >m.asn
mkdir folder

asn1x() {
    "$program" "$@"
}

# Pipes.
cat two | asn1x show @builtin BOOLEAN /dev/stdin >out 2>err || status=$?
told 'input from a pipe' 0 'TRUE
FALSE' ''

cat two.hex | asn1x convert @builtin BOOLEAN /dev/stdin --hex --to der >out 2>err || status=$?
told 'text from a pipe' 0 '0101ff010100' ''

cat m.asn | asn1x check /dev/stdin T two >out 2>err || status=$?
told 'a module from a pipe' 0 'ok 2' ''

asn1x check @builtin BOOLEAN /dev/null >out 2>err || status=$?
told 'no octets' 0 'ok 0' ''

yes "$(printf '\001\001\377')" | tr -d '\n' | head -c 3000000 |
    asn1x check @builtin BOOLEAN /dev/stdin >out 2>err || status=$?
told 'a million values from a pipe' 0 'ok 1000000' ''

# The longest stream, of 4,294,967,295 octets, and one with an octet more: 4,096 OCTET STRINGs, each of 1,048,576
# octets with its identifier and length but the last, which has one octet less.
{ printf '\004\203\017\377\373' && head -c 1048571 /dev/zero; } >long
{ printf '\004\203\017\377\372' && head -c 1048570 /dev/zero; } >last
# shellcheck disable=SC2046
cat $(yes long | head -n 4095) last | asn1x check @builtin 'OCTET STRING' /dev/stdin >out 2>err || status=$?
told 'the longest stream' 0 'ok 4096' ''

# shellcheck disable=SC2046
cat $(yes long | head -n 4096) | asn1x check @builtin 'OCTET STRING' /dev/stdin >out 2>err || status=$?
told 'a stream of one octet more' 1 '' 'asn1x: refused 13 StreamTooLong after 4095 values'

# The first value is printed before there is a second: else none of this ends, and `timeout` stops it.
mkfifo values lines
timeout 20 "$program" show @builtin BOOLEAN values >lines 2>err &
exec 3<>values
exec 4<lines
printf '\001\001\052' >&3
read -r first <&4
echo "$first" >out
printf '\001\001\000' >&3
exec 3>&-
cat <&4 >>out
exec 4<&-
wait $! || status=$?
told 'a value printed before the next one comes' 0 'TRUE
FALSE' ''

# Standard outputs that take nothing.
for command in 'show' 'check' 'convert --to der'; do
    case $command in
        check) done=2 ;;
        *) done=0 ;;
    esac
    # shellcheck disable=SC2086
    asn1x $command @builtin BOOLEAN two >/dev/full 2>err || status=$?
    told "$command to a full device" 3 '' "asn1x: refused 16 SinkFault after $done values"
    # shellcheck disable=SC2086
    asn1x $command @builtin BOOLEAN two 2>err >&- || status=$?
    told "$command to a closed output" 3 '' "asn1x: refused 16 SinkFault after $done values"
done

asn1x convert @builtin BOOLEAN two.hex --hex --to der >/dev/full 2>err || status=$?
told 'text to a full device' 3 '' 'asn1x: refused 16 SinkFault after 0 values'

asn1x --help >/dev/full 2>err || status=$?
told 'help to a full device' 3 '' ''

# No write is tried of an input without values.
asn1x show @builtin BOOLEAN /dev/null >/dev/full 2>err || status=$?
told 'no value to a full device' 0 '' ''

{
    sleep 1
    "$program" show @builtin BOOLEAN two 2>err
    echo $? >gone
} | true
status=$(cat gone)
told 'a pipe whose reader is gone' 3 '' 'asn1x: refused 16 SinkFault after 0 values'

# Standard errors that take nothing.
asn1x convert @builtin BOOLEAN m.asn --to der >out 2>&- || status=$?
told 'a refusal to a closed error output' 1 '' ''

asn1x convert @builtin BOOLEAN m.asn --to der >out 2>/dev/full || status=$?
told 'a refusal to a full error device' 1 '' ''

asn1x show @builtin BOOLEAN two >out 2>&- || status=$?
told 'values beside a closed error output' 0 'TRUE
FALSE' ''

asn1x check @builtin BOOLEAN two >&- 2>&- || status=$?
told 'all outputs closed' 3 '' ''

# Files that cannot be opened or read.
asn1x check @builtin BOOLEAN none >out 2>err || status=$?
told 'a missing input' 3 '' 'asn1x: cannot read none'

asn1x check none T two >out 2>err || status=$?
told 'a missing module' 3 '' 'asn1x: cannot read none'

asn1x check none T also >out 2>err || status=$?
told 'a missing module and a missing input' 3 '' 'asn1x: cannot read none'

asn1x check @builtin REAL none >out 2>err || status=$?
told 'a missing input of no type' 3 '' 'asn1x: cannot read none'

asn1x check @builtin REAL two >out 2>err || status=$?
told 'an input of no type' 64 '' 'asn1x: no such built-in type'

asn1x check @builtin BOOLEAN folder >out 2>err || status=$?
told 'a directory as input' 3 '' 'asn1x: refused 15 SourceFault after 0 values'

asn1x check @builtin BOOLEAN folder --hex >out 2>err || status=$?
told 'a directory as text' 3 '' 'asn1x: cannot read folder'

asn1x check folder T two >out 2>err || status=$?
told 'a directory as module' 3 '' 'asn1x: cannot read folder'

asn1x check m.asn U folder --hex >out 2>err || status=$?
told 'an unknown name before a directory' 2 '' 'asn1x: module refused 24 UnknownType at 1:1'

asn1x check @builtin BOOLEAN /dev/stdin >out 2>err <&- || status=$?
told 'a closed standard input' 3 '' 'asn1x: cannot read /dev/stdin'

asn1x check @builtin BOOLEAN two >out 2>err <&- || status=$?
told 'an input beside a closed standard input' 0 'ok 2' ''

# Words.
asn1x list @builtin BOOLEAN two >out 2>/dev/null || status=$?
told 'another command' 64 '' ''

asn1x list @builtin BOOLEAN two >out 2>&- || status=$?
told 'another command, said to a closed error output' 64 '' ''

asn1x check @builtin BOOLEAN "$(printf '\377')" >out 2>/dev/null || status=$?
told 'a word that is no text' 64 '' ''

asn1x --help >help 2>err || status=$?
[ -s help ] && echo help >out
told 'help' 0 'help' ''

exit "$failed"
