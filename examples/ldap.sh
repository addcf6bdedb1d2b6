#!/bin/sh
# Makes ldap.hex and ldap_long.hex anew, in the folder that this script stands in: values of LDAPMessage of ldap.asn,
# one behind another, as hexadecimal text. They are what the tools of OpenLDAP send to a server of theirs on this
# machine, and what it sends back.
#
#     examples/ldap.sh
#
# It needs slapd, ldapsearch and ldapmodify (Debian: slapd and ldap-utils), python3, and the ports 13389 and 13390 of
# 127.0.0.1. A relay stands between the two, and keeps the messages in the order in which they come. Those are of
#
#     a bind with a wrong password, and an answer that refuses it
#     a bind, a search with a filter of four levels and two controls, its entries and result, and an end
#     a bind, a change of an entry, its result, and an end
#
# ldap_long.hex has the same messages with each length in five octets, as some servers write them. No such server is
# asked: the lengths are written anew by the python code below, which knows tags and lengths alone.
set -eu

folder=$(cd "$(dirname "$0")" && pwd)
PATH=$PATH:/usr/sbin
for tool in slapd ldapsearch ldapmodify python3; do
    command -v "$tool" >/dev/null || { echo "ldap: $tool is missing" >&2; exit 1; }
done

work=$(mktemp -d)
server= relay=
trap 'for it in $server $relay; do kill "$it" || :; done; rm -rf "$work"' EXIT
cd "$work"

mkdir entries
cat >slapd.conf <<'END'
include /etc/ldap/schema/core.schema
pidfile slapd.pid
database ldif
directory entries
suffix "dc=example,dc=org"
rootdn "cn=keeper,dc=example,dc=org"
rootpw secret
END
cat >directory.ldif <<'END'
dn: dc=example,dc=org
objectClass: organization
objectClass: dcObject
dc: example
o: Example

dn: cn=Ada,dc=example,dc=org
objectClass: top
objectClass: person
cn: Ada
sn: Byron
description: wrote notes
description: and a table

dn: cn=Grace,dc=example,dc=org
objectClass: top
objectClass: person
cn: Grace
sn: Hopper
telephoneNumber: +1 555 0100
END
cat >change.ldif <<'END'
dn: cn=Ada,dc=example,dc=org
changetype: modify
replace: description
description: Zeros
description: and ones
-
delete: telephoneNumber
END

cat >relay.py <<'END'
# Carries octets between clients, one after another, and the server, and writes a line of hexadecimal text for each
# message.
import selectors, socket, sys

def whole(octets):
    """The number of octets of the message at the front, where it is whole."""
    if len(octets) < 2 or len(octets) < 2 + (octets[1] & 0x7F if octets[1] > 0x7F else 0):
        return None
    head, length = 2, octets[1]
    if length > 0x7F:
        head += length & 0x7F
        length = int.from_bytes(octets[2:head], 'big')
    return head + length if len(octets) >= head + length else None

def carry(client, server):
    other, held = {client: server, server: client}, {client: b'', server: b''}
    waiting = selectors.DefaultSelector()
    for end in other:
        waiting.register(end, selectors.EVENT_READ)
    while True:
        for key, _ in waiting.select():
            octets = key.fileobj.recv(65536)
            if not octets:
                return
            held[key.fileobj] += octets
            while (size := whole(held[key.fileobj])) is not None:
                print(held[key.fileobj][:size].hex(), flush=True)
                held[key.fileobj] = held[key.fileobj][size:]
            other[key.fileobj].sendall(octets)

with socket.create_server(('127.0.0.1', 13390)) as listening:
    while True:
        with listening.accept()[0] as client, socket.create_connection(('127.0.0.1', 13389)) as server:
            carry(client, server)
END

cat >lengthen.py <<'END'
# Writes each length of the messages on standard input anew, in five octets.
import sys

def lengthen(octets):
    written = b''
    while octets:
        # No tag number of these messages is above 30.
        head, length = 2, octets[1]
        if length > 0x7F:
            head += length & 0x7F
            length = int.from_bytes(octets[2:head], 'big')
        contents = octets[head:head + length]
        if octets[0] & 0x20:
            contents = lengthen(contents)
        written += octets[:1] + b'\x84' + len(contents).to_bytes(4, 'big') + contents
        octets = octets[head + length:]
    return written

for line in sys.stdin:
    print(lengthen(bytes.fromhex(line)).hex())
END

# Runs a tool of OpenLDAP, whose status must be $1.
say() {
    want=$1 status=0
    shift
    LDAPNOINIT=1 "$@" >said 2>&1 || status=$?
    [ $status = "$want" ] || { cat said >&2; exit 1; }
}

slapadd -f slapd.conf -l directory.ldif >said 2>&1 || { cat said >&2; exit 1; }
slapd -f slapd.conf -h ldap://127.0.0.1:13389 -d 0 >log 2>&1 &
server=$!
python3 relay.py >messages &
relay=$!
sleep 2

at='-x -H ldap://127.0.0.1:13390 -D cn=keeper,dc=example,dc=org'
say 49 ldapsearch $at -w wrong -b dc=example,dc=org
say 0 ldapsearch $at -w secret -MM -E pr=10/noprompt -z 100 -l 30 -b dc=example,dc=org \
    '(&(objectClass=person)(|(sn=h*p*r)(!(cn:dn:caseExactMatch:=grace))))' objectClass cn sn description telephoneNumber
say 16 ldapmodify $at -w secret -f change.ldif
sleep 1

lines=$(wc -l <messages)
[ "$lines" -ge 11 ] || { echo "ldap: $lines messages alone" >&2; cat log >&2; exit 1; }
python3 lengthen.py <messages | fold -w 96 >"$folder/ldap_long.hex"
fold -w 96 messages >"$folder/ldap.hex"
