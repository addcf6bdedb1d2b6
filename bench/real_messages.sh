#!/bin/sh
# Converts messages by modules that asn1x-trim makes of the texts of RFCs as they are published, and compares with what
# other tools wrote.
#
#     bench/real_messages.sh [PROGRAM] FOLDER
#
# PROGRAM is crates/asn1x_trim/out/asn1x_trim unless given; ASN1X, in the environment, is crates/asn1x/out/asn1x unless
# set. FOLDER has the texts, as rfc5280.txt. It needs openssl, 3.0 or later, cmp and xxd. openssl makes a certificate, a
# revocation list, a request and a response of OCSP, a request and a token of a time stamp, and signed data, all in DER,
# which must come out as they are. The messages of LDAP and SNMP are those of examples/, and become what other tools
# made of them (examples/expected/). A line is printed for each kind, and last how many came out so. The status is 1 where
# one is refused or comes out otherwise, or none does; a kind is passed over whose texts are missing.
#
# TimeStampResp is left out: in RFC 3161 a comment has the brace in it that ends PKIStatus.
set -u

top=$(cd "$(dirname "$0")/.." && pwd) || exit 1
[ $# = 2 ] || set -- "$top/crates/asn1x_trim/out/asn1x_trim" "${1-}"
program=$1 texts=$2
asn1x=${ASN1X-$top/crates/asn1x/out/asn1x}
[ -d "$texts" ] || { echo 'usage: bench/real_messages.sh [PROGRAM] FOLDER' >&2; exit 1; }
for tool in "$program" "$asn1x" openssl xxd cmp; do
    command -v "$tool" >/dev/null || { echo "real_messages: $tool is missing" >&2; exit 1; }
done
texts=$(cd "$texts" && pwd)
program=$(realpath "$(command -v "$program")") asn1x=$(realpath "$(command -v "$asn1x")")
work=$(mktemp -d) || exit 1
trap 'rm -rf "$work"' EXIT
cd "$work" || exit 1
status=0 converted=0

# Says what openssl said, where the command fails.
quietly() {
    "$@" >said 2>&1 || { cat said >&2; exit 1; }
}

cat >config <<'END'
[req]
distinguished_name = none
[none]

[ca]
certificate = root.pem
private_key = root.key
database = index
serial = serial
crlnumber = crlnumber
new_certs_dir = .
policy = any
default_md = sha256
default_days = 30
default_crl_days = 30
string_mask = utf8only

[any]
countryName = optional
organizationName = optional
commonName = optional

[of_stamps]
extendedKeyUsage = critical, timeStamping
subjectAltName = DNS:example.org, email:post@example.org, IP:192.0.2.1

[stamps]
serial = stamps
signer_digest = sha256
default_policy = 1.2.3.4
digests = sha256
accuracy = secs:1, millisecs:500
ess_cert_id_alg = sha256
END
: >index
echo 0A >serial
echo 07 >crlnumber
echo 01 >stamps
quietly openssl req -x509 -config config -newkey rsa:2048 -nodes -keyout root.key -out root.pem -days 30 \
    -subj '/C=AQ/O=Example/CN=Root' -addext 'keyUsage=keyCertSign,cRLSign,digitalSignature'
quietly openssl req -new -config config -newkey ec -pkeyopt ec_paramgen_curve:P-256 -nodes -keyout stamps.key \
    -subj '/C=AQ/O=Example/CN=Stamps' -out stamps.request
quietly openssl ca -config config -name ca -batch -notext -in stamps.request -extensions of_stamps -out stamps.pem
quietly openssl ca -config config -name ca -revoke stamps.pem -crl_reason keyCompromise
quietly openssl ca -config config -name ca -gencrl -out list.pem
quietly openssl x509 -in stamps.pem -outform DER -out certificate
quietly openssl crl -in list.pem -outform DER -out list
quietly openssl ocsp -issuer root.pem -cert stamps.pem -reqout asked
quietly openssl ocsp -index index -CA root.pem -rsigner root.pem -rkey root.key -reqin asked -respout answered -ndays 1
place=$(openssl asn1parse -inform DER -in answered | awk -F : '/OCTET STRING/ { print $1 + 0; exit }')
quietly openssl asn1parse -inform DER -in answered -strparse "$place" -noout -out basic
quietly openssl ts -query -data config -sha256 -cert -out query
quietly openssl ts -reply -config config -section stamps -queryfile query -signer stamps.pem -inkey stamps.key \
    -token_out -out token
quietly openssl cms -verify -noverify -inform DER -in token -out stamped
quietly openssl cms -sign -binary -nodetach -signer root.pem -inkey root.key -in config -outform DER -out signed
for name in ldap ldap_long snmp; do
    xxd -r -p "$top/examples/$name.hex" >$name
    xxd -r -p "$top/examples/expected/$name.hex" >$name.der
done

# The types of open types in these messages.
cat >values.asn <<'VALUES'
Values DEFINITIONS IMPLICIT TAGS ::= BEGIN
IMPORTS SigningCertificateV2 FROM ExtendedSecurityServices-2006 ;
Parameters ::= CHOICE { none NULL, curve OBJECT IDENTIFIER }
Signed ::= CHOICE { type OBJECT IDENTIFIER, digest OCTET STRING, time UTCTime, capabilities Capabilities }
Capabilities ::= SEQUENCE OF SEQUENCE { id OBJECT IDENTIFIER, length INTEGER OPTIONAL }
Stamped ::= CHOICE { type OBJECT IDENTIFIER, digest OCTET STRING, time UTCTime, certificates SigningCertificateV2 }
END
VALUES

# Trims the type $2 from the texts of the RFCs whose numbers are $3, with the options behind, and converts the file $1,
# which must become the file $4.
convert() {
    from=$1 type=$2 numbers=$3 wanted=$4
    shift 4
    set -- values.asn "$type" "$@"
    for number in $numbers; do
        [ -f "$texts/rfc$number.txt" ] || { echo "$from: rfc$number.txt is missing"; return; }
        set -- "$texts/rfc$number.txt" "$@"
    done
    if ! "$program" "$@" >trimmed.asn 2>told; then
        echo "$from: $type is refused"
        grep ' refused: ' told
        status=1
    elif ! "$asn1x" convert trimmed.asn "${type#*.}" "$from" --to der >out 2>told || ! cmp -s out "$wanted"; then
        echo "$from: $type comes out otherwise"
        cat told
        status=1
    else
        echo "$from: $type as it should be, $(wc -c <"$from") octets"
        converted=$((converted + 1))
    fi
}

known='--narrow --as AlgorithmIdentifier.parameters=Values.Parameters'
named="$known --as PKIX1Explicit88.AttributeValue=DirectoryString"
content='--as ContentInfo.content=SignedData --as CryptographicMessageSyntax2004.AttributeValue'
# shellcheck disable=SC2086
{
    convert certificate PKIX1Explicit88.Certificate 5280 certificate $named
    convert list PKIX1Explicit88.CertificateList 5280 list $named
    convert asked OCSP-2013-88.OCSPRequest '6960 5280' asked $named
    convert answered OCSP-2013-88.OCSPResponse '6960 5280' answered
    convert basic OCSP-2013-88.BasicOCSPResponse '6960 5280' basic $named
    convert query PKIXTSP.TimeStampReq '3161 5280' query $known
    convert token CryptographicMessageSyntax2004.ContentInfo '5652 5280 3281 5035' token $named $content=Values.Stamped
    convert stamped PKIXTSP.TSTInfo '3161 5280' stamped $named
    convert signed CryptographicMessageSyntax2004.ContentInfo '5652 5280 3281' signed $named $content=Values.Signed
    convert ldap Lightweight-Directory-Access-Protocol-V3.LDAPMessage 4511 ldap.der --unroll 3
    convert ldap_long Lightweight-Directory-Access-Protocol-V3.LDAPMessage 4511 ldap_long.der --unroll 3
    convert snmp COMMUNITY-BASED-SNMPv2.Message '1901 3416 2578' snmp.der --as Message.data=PDUs
}
echo "$converted kinds of messages as they should be"
[ $converted -gt 0 ] || { echo "real_messages: there are no texts in $texts" >&2; exit 1; }
exit $status
