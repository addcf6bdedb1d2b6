#!/usr/bin/env python3
"""Holds asn1x-view to asn1x over each row of the tables in crates/vectors.

Runs from the top. Needs both built programs: ASN1X and VIEW name them, else those in crates/*/out are taken.
By each rule, for each row: the status and the number of a refusal are those of `asn1x check`; the offsets of the lines
follow from one another and end where the octets do; the values of the lines and of the JSON are those of `asn1x show`.
Prints what differs and how many rows were compared, and ends with 1 where something differs or no row was compared.
"""
import glob
import json
import os
import re
import subprocess
import sys
import tempfile

ASN1X = os.environ.get("ASN1X", "crates/asn1x/out/asn1x")
VIEW = os.environ.get("VIEW", "crates/asn1x_view/out/asn1x_view")
NOT_OCTETS = {"steps.rt", "same_values.rt"}


def main():
    for program in (ASN1X, VIEW):
        if not os.access(program, os.X_OK):
            sys.exit(f"{program} is missing: build it first")
    compared, differing = 0, 0
    with tempfile.TemporaryDirectory() as folder:
        for path in sorted(glob.glob("crates/vectors/src/*.rt")):
            if os.path.basename(path) not in NOT_OCTETS:
                for module, octets, row in rows_of(path):
                    compared += 1
                    for fault in faults_of(folder, module, octets):
                        differing += 1
                        print(f"{os.path.basename(path)}: {row[:100]}: {fault}")
    print(f"{compared} rows compared, {differing} differences")
    return 1 if differing or not compared else 0


def rows_of(path):
    """The modules, octets and lines of the rows in a file."""
    text = open(path, encoding="utf-8").read()
    for table in re.findall(r'&str = "\n(.*?)";', text, re.S):
        module = module_of("NULL")
        for line in table.replace('\\"', '"').split("\n"):
            if line.endswith(":"):
                module = module_of(line[:-1])
            elif "|" in line and not line.startswith("//"):
                octets = octets_of(line.split("|")[0])
                if octets is not None:
                    yield module, octets, line


def module_of(text):
    """The module that a notation stands for."""
    if text.startswith("M DEFINITIONS"):
        return text
    tagging, found, ty = text.partition(" TAGS ")
    if not found:
        tagging, ty = "IMPLICIT", text
    return f"M DEFINITIONS {tagging} TAGS ::= BEGIN T ::= {ty} END"


def octets_of(column):
    """The octets that a column spells; None where it spells none."""
    octets = b""
    for part in column.split(","):
        once, times = re.match(r"(.*?)(?:\*(\d+))?$", part.strip()).groups()
        text = re.match(r"'(.*)'$", once)
        try:
            once = text.group(1).encode() if text else bytes.fromhex(once)
            octets += once * int(times or 1)
        except ValueError:
            return None
    return octets


def run(*words):
    done = subprocess.run(words, capture_output=True, check=False)
    return done.returncode, done.stdout.decode(), done.stderr.decode()


def faults_of(folder, module, octets):
    """What differs between the two programs over some octets, by each rule."""
    asn, values = f"{folder}/m.asn", f"{folder}/in"
    with open(asn, "w", encoding="utf-8") as file:
        file.write(module)
    with open(values, "wb") as file:
        file.write(octets)
    for rule in ("ber", "cer", "der"):
        words = (asn, "T", values, "--from", rule)
        checked = run(ASN1X, "check", *words)
        status, lines, said = run(VIEW, "octets", *words, "--wide")
        if status != checked[0]:
            yield f"{rule}: status {status} and not {checked[0]}: {said.strip()}"
            continue
        number = re.search(r"refused (\d+ \w+)", checked[2])
        found = re.search(r"octet (\d+): .*refused (\d+ \w+): ", said)
        if bool(number) != bool(found) or (number and number.group(1) != found.group(2)):
            yield f"{rule}: {said.strip()} and not {checked[2].strip()}"
        if number:
            if found and int(found.group(1)) > len(octets):
                yield f"{rule}: octet {found.group(1)} is behind the end"
            continue
        yield from (f"{rule}: {fault}" for fault in line_faults(lines, len(octets)))
        shown = run(ASN1X, "show", *words)[1]
        yield from (f"{rule}: {fault}" for fault in value_faults(lines, shown))
        texts = run(VIEW, "json", *words)[1]
        yield from (f"{rule}: {fault}" for fault in json_faults(texts, shown))


LINE = re.compile(r"(\d+): (\d+) (\d+)\+(\d+|indef) +\[([A-Z ]*\d+)\] +(.*)")


def line_faults(lines, size):
    """Where the offsets do not follow from one another."""
    at = 0
    for line in lines.splitlines():
        place, _, head, contents, _, words = LINE.match(line).groups()
        if int(place) != at:
            yield f"{line} stands at {at}"
        at = int(place) + int(head)
        if is_leaf(words) and contents != "indef":
            at += int(contents)
    if at != size:
        yield f"the lines end at {at} and the octets at {size}"


def is_leaf(words):
    """Whether a line has a value, so that its contents octets have no lines."""
    return "  " in words.split("  (not ")[0] or words.startswith("end of contents")


def value_faults(lines, shown):
    """Values of lines that the text of the value has not."""
    for line in lines.splitlines():
        words = LINE.match(line).group(6)
        parts = words.split("  ", 1)
        if len(parts) < 2 or " segment" in parts[0] or parts[1].startswith("(not "):
            continue
        value = parts[1].split("  (not ")[0]
        if "default is spelt out" not in line and value not in shown:
            yield f"{value} is not in {shown.strip()[:80]}"


def json_faults(texts, shown):
    """Leaves of JSON that the text of the value has not."""
    for line in texts.splitlines():
        for leaf in leaves(json.loads(line)):
            if not any(form in shown for form in forms(leaf)):
                yield f"JSON {leaf!r} is not in {shown.strip()[:80]}"
    if len(texts.splitlines()) != len(shown.splitlines()):
        yield f"{len(texts.splitlines())} lines of JSON for {len(shown.splitlines())} values"


def leaves(value):
    if isinstance(value, dict) and set(value) == {"value", "length"} and isinstance(value["value"], str):
        number = int(value["value"] or "0", 16)
        bits = format(number, "b").zfill(len(value["value"]) * 4) if value["value"] else ""
        yield ("bits", bits[: value["length"]])
    elif isinstance(value, dict):
        for inner in value.values():
            yield from leaves(inner)
    elif isinstance(value, list):
        for inner in value:
            yield from leaves(inner)
    else:
        yield value


def forms(leaf):
    """The texts that `show` may have for a leaf of JSON."""
    if isinstance(leaf, tuple):
        return [f"'{leaf[1]}'B"]
    if leaf is None:
        return ["NULL"]
    if isinstance(leaf, bool):
        return ["TRUE" if leaf else "FALSE"]
    if isinstance(leaf, int):
        return [str(leaf)]
    quoted = leaf.replace('"', '""')
    octets = leaf.encode().hex().upper()
    pairs = leaf.encode("utf-16-be").hex().upper()
    return [f'"{quoted}"', f"'{leaf}'H", leaf or "''H", f"'{octets}'H", f"'{pairs}'H"]


if __name__ == "__main__":
    sys.exit(main())
