#!/usr/bin/env bash
# Prints what other tools take beside asn1x over the inputs of bench/throughput.sh, as ratios.
#
#     bench/peers.sh [PROGRAM]
#
# PROGRAM is crates/asn1x/out/asn1x unless given. It needs cc, and measures what there is of
#
#     floor    bench/floor.c, the converter written by hand for these types       convert
#     asn1c    the C code that it makes of the module, with its sample program    convert, check, show as XML
#     erlang   the module by Erlang's ASN.1 compiler, by decode and encode        convert
#     openssl  `openssl asn1parse`, which knows no module                         show as a tree
#
# A row has the milliseconds of asn1x, and of each tool how often it takes them, both run in turn: 2.00 is twice as
# long. A time is processor time, start and all, the least of five runs. `-` stands where a tool is missing, or does
# not take the module or the input, and `*` behind a ratio where what it writes is not the DER encoding that floor
# writes.
set -euo pipefail
shopt -s inherit_errexit

readonly runs=5

# shellcheck source=bench/built.sh
. "$(dirname "${BASH_SOURCE[0]}")/built.sh"
command -v cc >/dev/null || fail 'cc is missing'

cd "$work"
cc -O2 -Wall -o floor "$top/bench/floor.c"

# Reads each value of a file, and writes it again into another.
cat >again.erl <<'ERL'
-module(again).
-export([main/1]).

main([Module, Type, File, Written]) ->
    {ok, Octets} = file:read_file(File),
    {ok, Out} = file:open(Written, [write, raw, binary, {delayed_write, 65536, 2000}]),
    each(list_to_atom(Module), list_to_atom(Type), Octets, 0, Out),
    ok = file:close(Out),
    halt(0).

each(_, _, Octets, At, _) when At =:= byte_size(Octets) ->
    ok;
each(Module, Type, Octets, At, Out) ->
    {Value, Size} = read(Module, Type, Octets, At, [4096, 65536, 2097152]),
    {ok, Der} = Module:encode(Type, Value),
    ok = file:write(Out, Der),
    each(Module, Type, Octets, At + Size, Out).

%% The decoder takes long where much follows the value, so it is shown little, and more where that is too little.
read(Module, Type, Octets, At, [Most | More]) ->
    Size = min(Most, byte_size(Octets) - At),
    case Module:decode(Type, binary:part(Octets, At, Size)) of
        {ok, Value, Rest} -> {Value, Size - byte_size(Rest)};
        _ when More =/= [] -> read(Module, Type, Octets, At, More)
    end.
ERL

# Makes a converter of a module by asn1c that reads the input: $1.asn1c/converter. Its numbers are those of C where that
# is enough.
make_asn1c() {
    command -v asn1c >/dev/null || return 1
    local wide
    for wide in '' -fwide-types; do
        rm -rf "$1.asn1c"
        mkdir "$1.asn1c"
        (cd "$1.asn1c" && asn1c -fcompound-names $wide "$2" && cc -O2 -w -I. "-DPDU=$3" ./*.c -o converter -lm &&
            ./converter -iber -onull ../in) >/dev/null 2>&1 && return
    done
    rm -rf "$1.asn1c"
    return 1
}

# Has Erlang compile a module into the folder $1.erlang, and sets `module_name`.
make_erlang() {
    command -v erlc >/dev/null || return 1
    mkdir "$1.erlang"
    module_name=$(sed -nE 's/^([A-Z][A-Za-z0-9-]*) DEFINITIONS.*/\1/p' "$2")
    cp "$2" "$1.erlang/$module_name.asn"
    (cd "$1.erlang" && erlc ../again.erl && erlc +ber +der +undec_rest "$module_name.asn") >/dev/null 2>&1
}

# Sets `took` to the microseconds that each command of these words needs, which are run in turn and stand between `--`.
measure() {
    local time
    took=()
    while read -r time _; do
        took+=("$time")
    done < <(./floor measure $runs "$@" 2>/dev/null)
}

# Sets `cell` to what the command of these words takes, over what that of asn1x in the array $1 takes; `-` where it ends
# with another status than 0. The file $2, where it is named, is compared with `want`.
cell() {
    local -n ours=$1
    local written=$2 mark=
    shift 2
    cell=-
    if "$@" >out 2>/dev/null; then
        [[ -z $written ]] || cmp -s want "$written" || mark='*'
        measure "${ours[@]}" -- "$(command -v "$1")" "${@:2}"
        printf -v cell '%d.%02d%s' $((took[1] / took[0])) $((100 * took[1] / took[0] % 100)) "$mark"
    fi
}

# Prints the row of a work.
row() {
    local module type_name=Value module_name=
    local -a cells=() convert check show
    ./floor make "$1" <"$top/examples/certificates.hex" >in
    module=$work/$1.asn
    if [[ $1 == *certificates ]]; then
        cp "$top/examples/certificates.asn" "$module"
        type_name=Certificate
    else
        ./floor module "$1" >"$module"
    fi
    ./floor convert "$1" in >want
    convert=("$program" convert "$module" "$type_name" in --to der)
    check=("$program" check "$module" "$type_name" in)
    show=("$program" show "$module" "$type_name" in)
    "${convert[@]}" | cmp - want || fail "$1: asn1x writes other octets"
    cell convert out ./floor convert "$1" in && cells+=("$cell")
    cell=- && make_asn1c "$1" "$module" $type_name && cell convert out "$1.asn1c/converter" -iber -oder in
    cells+=("$cell")
    cell=- && make_erlang "$1" "$module" &&
        cell convert again erl -noinput -pa "$1.erlang" -run again main "$module_name" \
            $type_name in again
    cells+=("$cell")
    cell=- && [[ -x $1.asn1c/converter ]] && cell check "" "$1.asn1c/converter" -iber -onull in
    cells+=("$cell")
    cell=- && [[ -x $1.asn1c/converter ]] && cell show "" "$1.asn1c/converter" -iber -oxer in
    cells+=("$cell")
    cell=- && command -v openssl >/dev/null && cell show "" openssl asn1parse -inform DER -in in
    cells+=("$cell")
    measure "${convert[@]}" -- "${check[@]}" -- "${show[@]}"
    printf '%-24s %6d %8s %8s %8s %8d %8s %8d %8s %8s\n' "$1" $((took[0] / 1000)) "${cells[@]:0:3}" \
        $((took[1] / 1000)) "${cells[3]}" $((took[2] / 1000)) "${cells[@]:4}"
    rm -rf in out want again "$1".*
}

printf '%-24s %-33s %-17s %s\n' '' convert check show
printf '%-24s %6s %8s %8s %8s %8s %8s %8s %8s %8s\n' '' asn1x floor asn1c erlang asn1x asn1c asn1x asn1c openssl
for name in records segments_of_1000 segments_of_1 sets chains certificates indefinite_certificates booleans; do
    row $name
done
