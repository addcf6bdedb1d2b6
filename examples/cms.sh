#!/bin/sh
# Makes cms.hex anew, in the folder that this script stands in: three values of ContentInfo of cms.asn, one behind
# another, as hexadecimal text. The keys are new each time and are thrown away.
#
#     examples/cms.sh
#
# It needs openssl, 3.0 or later, od and basenc. The values are
#
#     streamed    content of 2,292 octets, signed by a key on P-256, as `openssl cms -stream` writes it: in BER, with
#                 indefinite lengths and the content in segments
#     two         content of 18 octets, signed by that key and by an RSA key with RSASSA-PSS, without certificates, the
#                 signers named by key identifiers, in DER
#     chain       no content and no signer, a certificate and the revocation list of revoked.hex, in DER
set -eu

folder=$(cd "$(dirname "$0")" && pwd)
for tool in openssl od basenc; do
    command -v "$tool" >/dev/null || { echo "cms: $tool is missing" >&2; exit 1; }
done

work=$(mktemp -d)
trap 'rm -rf "$work"' EXIT
cd "$work"

# Says what openssl said, where the command fails.
quietly() {
    "$@" 2>said || { cat said >&2; exit 1; }
}

# Hexadecimal text of standard input.
spell() {
    od -An -v -tx1 | tr -d ' \n' | fold -w 96
    echo
}

quietly openssl genpkey -algorithm EC -pkeyopt ec_paramgen_curve:P-256 -out author.key
quietly openssl genpkey -algorithm RSA -pkeyopt rsa_keygen_bits:2048 -out witness.key
for name in author witness; do
    quietly openssl req -x509 -new -key $name.key -subj "/C=AQ/O=Example/CN=$name" -utf8 -days 3650 -out $name.pem
done
seq 1 600 >content
seq 1 9 >note

quietly openssl cms -sign -binary -nodetach -stream -signer author.pem -inkey author.key -in content \
    -outform DER -out streamed
quietly openssl cms -sign -binary -nodetach -nocerts -keyid -signer author.pem -inkey author.key \
    -signer witness.pem -inkey witness.key -keyopt rsa_padding_mode:pss -in note -outform DER -out two
tr -d ' \n' <"$folder/revoked.hex" | tr a-f A-F | basenc --base16 -d >list.der
quietly openssl crl -inform DER -in list.der -out list.pem
quietly openssl crl2pkcs7 -in list.pem -certfile author.pem -outform DER -out chain

for name in streamed two chain; do
    spell <$name
done >cms.hex
mv cms.hex "$folder"
