#!/bin/sh
# Makes the files of expected/ anew, in the folder that this script stands in: for each line of `rows`
#
#     NAME.hex    the DER encoding of each value, a line of hexadecimal text for each, by Erlang's ASN.1 compiler
#     NAME.txt    the text of each value, by text.py, from that
#
#     examples/expected.sh
#
# It needs escript and Erlang's asn1 (Debian: erlang-base and erlang-asn1), python3, openssl and basenc, and no asn1x.
# What openssl reads it writes in DER too, and the two must be the same.
set -eu

cd "$(dirname "$0")"
for tool in escript python3 openssl basenc; do
    command -v "$tool" >/dev/null || { echo "expected: $tool is missing" >&2; exit 1; }
done

# Octets of the hexadecimal text on standard input.
octets() {
    tr -d ' \n' | tr a-f A-F | basenc --base16 -d
}

# Holds a line of hexadecimal text, $2, to what a command of openssl writes of the octets that $1 spells.
same() {
    from=$1 to=$2
    shift 2
    theirs=$(echo "$from" | octets | "$@" -inform DER -outform DER | od -An -v -tx1 | tr -d ' \n')
    [ "$theirs" = "$to" ] || { echo "expected: $* writes other octets" >&2; exit 1; }
}

mkdir -p expected
while read -r name module type file; do
    ./der.escript "$module" "$type" "$file" </dev/null >"expected/$name.hex"
    ./text.py "$module" "$type" <"expected/$name.hex" >"expected/$name.txt"
    echo "$name: $(wc -l <"expected/$name.txt") values of $type"
done <rows

# The first value of cms.hex is in BER, the others are in DER as openssl made them.
same "$(cat cms.hex)" "$(head -n 1 expected/cms.hex)" openssl cms -cmsout
while read -r line; do same "$line" "$line" openssl cms -cmsout; done <expected/cms.hex
while read -r line; do same "$line" "$line" openssl x509; done <expected/certificates.hex
while read -r line; do same "$line" "$line" openssl crl; done <expected/revoked.hex
