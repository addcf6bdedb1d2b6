#!/usr/bin/env python3
"""Holds the lines of asn1x-view over the values in examples/ to openssl, to asn1x and to the files in examples/view/.

Runs from the top. Needs openssl and both built programs: ASN1X and VIEW name them, else those in crates/*/out are
taken. The offset, the depth, the head and the contents of each identifier are those of `openssl asn1parse`; the
lines are those of examples/view/NAME.lines. Then one octet is changed in each of the places that
examples/view/changed.txt lists: the last line is the one that stands there, and its number the one of `asn1x check`.
The same is compared with `openssl asn1parse` over ten of the certificates that openssl trusts, the first by name of
which examples/certificates.asn takes all. A stream of the values is cut: what `asn1x convert` writes for each part,
joined, is what it writes for the stream. Last, commands write to a full device, and to a pipe whose reader is gone.
Prints what agrees and what differs, and ends with 1 where something does.
"""
import glob
import os
import re
import shutil
import subprocess
import sys
import tempfile

ASN1X = os.environ.get("ASN1X", "crates/asn1x/out/asn1x")
VIEW = os.environ.get("VIEW", "crates/asn1x_view/out/asn1x_view")
EXAMPLES = {
    "calls": ("examples/calls.asn", "Call"),
    "certificates": ("examples/certificates.asn", "Certificate"),
    "directory": ("examples/directory.asn", "Message"),
}


def main():
    for program in (ASN1X, VIEW):
        if not os.access(program, os.X_OK):
            sys.exit(f"{program} is missing: build it first")
    if not shutil.which("openssl"):
        sys.exit("openssl is missing")
    faults = 0
    with tempfile.TemporaryDirectory() as folder:
        for name, (module, ty) in EXAMPLES.items():
            octets = bytes.fromhex(open(f"examples/{name}.hex", encoding="utf-8").read())
            for look in (whole_faults, cut_faults):
                for fault in look(folder, name, module, ty, octets):
                    faults += 1
                    print(f"{name}: {fault}")
        for look in (trusted_faults, output_faults):
            for fault in look(folder):
                faults += 1
                print(fault)
        for row in open("examples/view/changed.txt", encoding="utf-8"):
            if "|" in row and not row.startswith("#"):
                for fault in changed_faults(folder, row):
                    faults += 1
                    print(f"{row.strip()}: {fault}")
    print(f"{faults} differences")
    return 1 if faults else 0


def run(*words):
    done = subprocess.run(words, capture_output=True, check=False)
    return done.returncode, done.stdout.decode(), done.stderr.decode()


def converted(module, ty, path):
    return subprocess.run((ASN1X, "convert", module, ty, path, "--to", "der"), capture_output=True, check=False).stdout


def write(folder, name, octets):
    path = f"{folder}/{name}.ber"
    with open(path, "wb") as file:
        file.write(octets)
    return path


def whole_faults(folder, name, module, ty, octets):
    path = write(folder, name, octets)
    lines = run(VIEW, "octets", module, ty, path)[1]
    if lines != open(f"examples/view/{name}.lines", encoding="utf-8").read():
        yield "the lines are others than in examples/view"
    yield from place_faults(lines, openssl_places(folder, octets))


def place_faults(lines, theirs):
    """The first place of the lines that is not openssl's."""
    ours = [place_of(line) for line in lines.splitlines()]
    for our, their in zip(ours, theirs):
        if our != their:
            yield f"{our} and not {their}, as openssl has it"
            return
    if len(ours) != len(theirs):
        yield f"{len(ours)} identifiers, and {len(theirs)} by openssl"


def trusted_faults(folder):
    """What differs over ten certificates that openssl trusts. Prints how many identifiers were compared."""
    trusted = re.search(r'"(.*)"', run("openssl", "version", "-d")[1]).group(1)
    compared, identifiers = 0, 0
    for path in sorted(glob.glob(f"{trusted}/certs/*.pem")):
        if compared == 10:
            break
        if run("openssl", "x509", "-in", path, "-outform", "DER", "-out", f"{folder}/trusted")[0] != 0:
            continue
        status, lines, _ = run(VIEW, "octets", *EXAMPLES["certificates"], f"{folder}/trusted", "--from", "der")
        if status != 0:
            continue
        with open(f"{folder}/trusted", "rb") as file:
            octets = file.read()
        compared += 1
        identifiers += len(lines.splitlines())
        yield from (f"{path}: {fault}" for fault in place_faults(lines, openssl_places(folder, octets)))
    print(f"{compared} certificates that openssl trusts, {identifiers} identifiers compared")
    if compared < 10:
        yield f"{trusted}/certs has fewer than ten certificates that examples/certificates.asn takes"


def place_of(line):
    """The offset, the depth, the head and the contents of a line."""
    at, depth, head, size = re.match(r"(\d+): (\d+) (\d+)\+(\d+|indef)", line).groups()
    return int(at), int(depth), int(head), -1 if size == "indef" else int(size)


def openssl_places(folder, octets):
    path = write(folder, "parsed", octets)
    places = []
    for line in run("openssl", "asn1parse", "-inform", "DER", "-in", path)[1].splitlines():
        at, depth, head, size = re.match(r" *(\d+):d=(\d+) +hl=(\d+) l= *(\d+|inf)", line).groups()
        places.append((int(at), int(depth), int(head), -1 if size == "inf" else int(size)))
    return places


def cut_faults(folder, name, module, ty, octets):
    """What differs between a stream of the values and its parts."""
    stream = octets * (20_000 // len(octets) + 1)
    path = write(folder, "stream", stream)
    status, _, said = run(VIEW, "cut", path, "--octets", "4096", "--into", f"{folder}/{name}-")
    parts = sorted(glob.glob(f"{folder}/{name}-[0-9]*"))
    if status != 0 or len(parts) < 3:
        yield f"cut into {len(parts)} parts, with status {status}: {said.strip()}"
    if any(os.path.getsize(part) < 4096 for part in parts[:-1]):
        yield "a part but the last has fewer than 4,096 octets"
    if b"".join(open(part, "rb").read() for part in parts) != stream:
        yield "the parts have other octets than the stream"
    whole = converted(module, ty, path)
    if not whole or b"".join(converted(module, ty, part) for part in parts) != whole:
        yield "the parts become other octets than the stream"


def output_faults(folder):
    """What commands do wrong where standard output is a full device, or a pipe whose reader is gone."""
    module, ty = EXAMPLES["calls"]
    path = write(folder, "calls", bytes.fromhex(open("examples/calls.hex", encoding="utf-8").read()))
    reader, gone = os.pipe()
    os.close(reader)
    with open("/dev/full", "wb") as full, os.fdopen(gone, "wb") as gone:
        for words in (("octets", module, ty, path), ("json", module, ty, path), ("types", module), ("refusal", "9")):
            for out, wanted in (
                (full, (3, "standard output: cannot be written\n")),
                (gone, (0, "")),
            ):
                done = subprocess.run((VIEW, *words), stdout=out, stderr=subprocess.PIPE, check=False)
                found = (done.returncode, done.stderr.decode())
                if found != wanted:
                    yield f"{words[0]}: {found} and not {wanted}"


def changed_faults(folder, row):
    """The faults of a row: a name, a place and its new octet, the rules, and the last line behind the file's name."""
    name, place, rule, wanted = (column.strip() for column in row.split("|"))
    at, octet = place.split()
    module, ty = EXAMPLES[name]
    octets = bytearray(bytes.fromhex(open(f"examples/{name}.hex", encoding="utf-8").read()))
    octets[int(at)] = int(octet, 16)
    path = write(folder, name, octets)
    status, _, said = run(VIEW, "octets", module, ty, path, "--from", rule, "--only-refused")
    found = said.strip().partition(f"{path}: ")[2]
    if found != wanted:
        yield f"{found}"
    checked = run(ASN1X, "check", module, ty, path, "--from", rule)
    number = re.search(r"refused \d+ \w+", checked[2])
    if status != checked[0] or (number and number.group(0) not in said):
        yield f"asn1x says {checked[2].strip()}"


if __name__ == "__main__":
    sys.exit(main())
