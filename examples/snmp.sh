#!/bin/sh
# Makes snmp.hex anew, in the folder that this script stands in: values of Message of snmp.asn, one behind another, as
# hexadecimal text. They are what the tools of net-snmp send to an agent of theirs on this machine, and what it sends
# back.
#
#     examples/snmp.sh
#
# It needs snmpd, and snmpget, snmpset, snmpbulkget and snmptrap (Debian: snmpd and snmp), and the ports 16161 and 16162
# of 127.0.0.1. But for the trap the tools are told to encode forwards, so that the lengths in what they send have
# three octets, where one would do; the agent's have one. The values are
#
#     get      four names, of a string, a time, an object identifier and no object; and the response
#     bulk     of two names, the second twice; and the response
#     set      an INTEGER, which the agent refuses; and the response, with an error's number
#     trap     with a value of each type that the tool takes
set -eu

folder=$(cd "$(dirname "$0")" && pwd)
PATH=$PATH:/usr/sbin
for tool in snmpd snmpget snmpset snmpbulkget snmptrap; do
    command -v "$tool" >/dev/null || { echo "snmp: $tool is missing" >&2; exit 1; }
done

work=$(mktemp -d)
agent=
trap '[ -z "$agent" ] || kill "$agent"; rm -rf "$work"' EXIT
cd "$work"

cat >snmpd.conf <<'END'
agentaddress udp:127.0.0.1:16161
rocommunity public 127.0.0.1
sysName station
sysContact post@example.org
sysLocation Hut 3
END
mkdir forwards backwards
echo 'reverseEncodeBER no' >forwards/snmp.conf

# Runs a tool of net-snmp that encodes as $1 says, and prints what it sends and receives as hexadecimal text, a message
# a line. What it sends forwards it shows at its second try alone.
say() {
    how=$1 tool=$2
    shift 2
    SNMPCONFPATH=$work/$how "$tool" -v2c -c public -d -Le -m '' "$@" >dump 2>&1 || :
    awk '/^[0-9]+: / { line = substr($0, 7, 52); gsub(" ", "", line); octets = octets line; next }
         octets { print tolower(octets); octets = "" }
         END { if (octets) print tolower(octets) }' dump
}

MIBS= snmpd -f -C -c snmpd.conf -Lf log -I -smux >/dev/null 2>&1 &
agent=$!
sleep 2

system=1.3.6.1.2.1.1
own=1.3.6.1.4.1.99999
{
    say forwards snmpget 127.0.0.1:16161 $system.4.0 $system.3.0 $system.2.0 $system.99.0
    say forwards snmpbulkget -Cn1 -Cr2 127.0.0.1:16161 $system.5 $system.5
    say forwards snmpset 127.0.0.1:16161 $system.7.0 i 72
    say backwards snmptrap 127.0.0.1:16162 4660 1.3.6.1.6.3.1.1.5.3 \
        $own.1 i -129 $own.2 s 'link 2 is down' $own.3 x 00ff80 $own.4 o $system.1 $own.5 a 192.0.2.7 $own.6 c 4294967295 $own.7 u 128 $own.8 t 0 $own.9 C 18446744073709551615
} >messages
[ "$(wc -l <messages)" = 7 ] || { echo 'snmp: other than seven messages' >&2; exit 1; }
fold -w 96 messages >"$folder/snmp.hex"
