#!/bin/sh
# Makes certificates.hex and revoked.hex anew, in the folder that this script stands in: four certificates, one
# behind another, and a revocation list, in DER, as hexadecimal text. The keys are new each time and are thrown
# away; names, numbers and dates are the same.
#
#     examples/certificates.sh
#
# It needs openssl, 3.0 or later, and od. The certificates are
#
#     root      signed by itself, a key on P-256, serial number 1, valid past 2049
#     issuing   signed by root, an RSA key of 2,048 bits, a serial number of 20 octets
#     server    signed by issuing, a key on P-256, distribution points with reasons, two attributes in one part of its name
#     archive   signed by issuing with RSASSA-PSS, an Ed25519 key, attributes in IA5String and UTF8String
#
# The list is issued by issuing; it revokes server, whose key is compromised, and a certificate with serial number 2.
set -eu

folder=$(cd "$(dirname "$0")" && pwd)
for tool in openssl od; do
    command -v "$tool" >/dev/null || { echo "certificates: $tool is missing" >&2; exit 1; }
done

work=$(mktemp -d)
trap 'rm -rf "$work"' EXIT
cd "$work"

cat >config <<'END'
[req]
distinguished_name = none
[none]

[root]
certificate = root.pem
private_key = root.key
database = root.index
serial = root.serial
new_certs_dir = .
policy = any
default_md = sha256
default_startdate = 260101000000Z
string_mask = utf8only

[issuing]
certificate = issuing.pem
private_key = issuing.key
database = issuing.index
serial = issuing.serial
crlnumber = issuing.crlnumber
new_certs_dir = .
policy = any
default_md = sha256
default_startdate = 260201000000Z
string_mask = utf8only
crl_extensions = list

[any]
countryName = optional
organizationName = optional
organizationalUnitName = optional
domainComponent = optional
serialNumber = optional
commonName = optional
emailAddress = optional

[of_root]
basicConstraints = critical, CA:TRUE
keyUsage = critical, keyCertSign, cRLSign
subjectKeyIdentifier = hash
authorityKeyIdentifier = none

[of_issuing]
basicConstraints = critical, CA:TRUE, pathlen:0
keyUsage = critical, digitalSignature, keyCertSign, cRLSign
subjectKeyIdentifier = hash
authorityKeyIdentifier = keyid

[of_server]
keyUsage = critical, digitalSignature
extendedKeyUsage = serverAuth
subjectAltName = DNS:www.example.org, IP:192.0.2.1
subjectKeyIdentifier = hash
authorityKeyIdentifier = keyid
crlDistributionPoints = point

[point]
fullname = URI:http://example.org/issuing.crl
reasons = keyCompromise, superseded

[of_archive]
basicConstraints = CA:FALSE
keyUsage = critical, digitalSignature, nonRepudiation
subjectAltName = email:archive@example.org
subjectKeyIdentifier = hash
authorityKeyIdentifier = keyid

[list]
authorityKeyIdentifier = keyid
END

# Says what openssl said, where the command fails.
quietly() {
    "$@" 2>said || { cat said >&2; exit 1; }
}

# Has certificate $2 signed by $1 until $3, with serial number $4, for the subject $5; what else openssl takes follows.
certify() {
    issuer=$1 name=$2 until=$3 number=$4 subject=$5
    shift 5
    quietly openssl req -new -config config -key "$name.key" -subj "$subject" -utf8 -out "$name.request"
    : >>"$issuer.index"
    echo "$number" >"$issuer.serial"
    quietly openssl ca -config config -name "$issuer" -batch -notext -preserveDN -utf8 -in "$name.request" \
        -extensions "of_$name" -enddate "$until" -out "$name.pem" "$@"
}

# Hexadecimal text of standard input.
spell() {
    od -An -v -tx1 | tr -d ' \n' | fold -w 96
    echo
}

quietly openssl genpkey -algorithm EC -pkeyopt ec_paramgen_curve:P-256 -out root.key
quietly openssl genpkey -algorithm RSA -pkeyopt rsa_keygen_bits:2048 -out issuing.key
quietly openssl genpkey -algorithm EC -pkeyopt ec_paramgen_curve:P-256 -out server.key
quietly openssl genpkey -algorithm ED25519 -out archive.key

certify root root 20560101000000Z 01 '/C=AQ/O=Example/CN=Example Root' -selfsign
certify root issuing 360101000000Z 4D1F60A2B3C4D5E6F708192A3B4C5D6E7F809102 '/C=AQ/O=Example/CN=Example Issuing'
certify issuing server 270201000000Z 61A0B1C2D3E4F5061728394A5B6C7D8E9FA0B1C2 \
    '/C=AQ/O=Example/OU=Web+CN=www.example.org'
certify issuing archive 310201000000Z 3B '/DC=org/DC=example/CN=Archiv für Schlüssel/emailAddress=archive@example.org' \
    -sigopt rsa_padding_mode:pss -sigopt rsa_pss_saltlen:32

# What the list revokes, in the form of openssl's database: expiry, date and reason, serial number, file, subject.
{
    printf 'R\t270201000000Z\t260214093000Z,keyCompromise\t61A0B1C2D3E4F5061728394A5B6C7D8E9FA0B1C2\tunknown\t/\n'
    printf 'R\t270201000000Z\t260215140000Z\t02\tunknown\t/\n'
} >issuing.index
echo 07 >issuing.crlnumber
quietly openssl ca -config config -name issuing -gencrl -crl_lastupdate 260301000000Z -crl_nextupdate 260401000000Z \
    -out issuing.crl

for name in root issuing server archive; do
    quietly openssl x509 -in "$name.pem" -outform DER -out "$name.der"
    spell <"$name.der"
done >certificates.hex
quietly openssl crl -in issuing.crl -outform DER -out issuing.der
spell <issuing.der >revoked.hex
mv certificates.hex revoked.hex "$folder"
