#!/usr/bin/env python3
"""Runs a command of the gate, and prints the minutes of processor time that each crate took of it.

    bench/costs.py [COMMAND..]

The command is `rt ci` where none is given. Of each process below it the time is read off once a second; of one that
ends between two looks the last second is lost. What is kept from an earlier run is not proved again and costs nothing
here, so the table of CONTRIBUTING.md is made on a machine that has kept nothing. Behind it stand the dearest edits, in
seconds. The status is the command's.
"""

import os
import subprocess
import sys
import time
from collections import defaultdict
from pathlib import Path

TOP = Path(__file__).resolve().parent.parent
TICKS = os.sysconf("SC_CLK_TCK")
KINDS = ("proof", "tests", "edits")


def crate_and_kind(words):
    """Of which crate a process is, and whether it proves the crate, its tests, or tries an edit."""
    if "--crate-name" not in words[:-1]:
        return None, "rest"
    crate = words[words.index("--crate-name") + 1]
    if any("rt-edits" in word for word in words):
        return crate, "edits"
    return crate, "tests" if "--test" in words else "proof"


def edit_tried(words):
    """The place of the edit that is tried among those of its crate, if one is: the last part of the folder worked in."""
    at = words[words.index("--incremental") + 1] if "--incremental" in words[:-1] else ""
    number = at.rpartition("/")[2]
    return int(number) if "rt-edits" in at and number.isdigit() else None


def look(session, seen, edits):
    """Notes the time of each process of the session, by the process and when it began, and that of each edit."""
    for number in filter(str.isdigit, os.listdir("/proc")):
        try:
            stat = Path("/proc", number, "stat").read_text()
            fields = stat[stat.rindex(")") + 2 :].split()
            if int(fields[3]) != session:
                continue
            words = Path("/proc", number, "cmdline").read_text().split("\0")
        except (OSError, ValueError):
            continue
        key, spent = (number, fields[19]), (int(fields[11]) + int(fields[12])) / TICKS
        # One that has ended has no words any more.
        known = crate_and_kind(words) if any(words) else seen.get(key, (None, "rest"))[:2]
        seen[key] = (*known, spent)
        if (place := edit_tried(words)) is not None:
            edits[known[0], place] = spent


def minutes(seconds):
    return f"{seconds / 60:.1f}" if seconds >= 3 else "none"


def count(crate, files, word):
    return sum(path.read_text().count(word) for path in (TOP / "crates" / crate).glob(files))


def table(seen):
    spent = defaultdict(lambda: defaultdict(float))
    for crate, kind, seconds in seen.values():
        spent[crate][kind] += seconds
    print("| Crate | Proof | Proof of tests | Trying edits | Edits | Outside | Tests |\n|---|---|---|---|---|---|---|")
    crates = [line.split(":")[0].split()[0] for line in (TOP / "crates.txt").read_text().splitlines() if ":" in line]
    edits_of_all = outside_of_all = tests_of_all = 0
    for crate in crates:
        edits = len(list((TOP / "crates" / crate / "must-fail").glob("*.edit")))
        outside = len(list((TOP / "bench" / "edits" / crate).glob("*.edit")))
        tests = count(crate, "src/**/*.rt", "#[test]")
        edits_of_all += edits
        outside_of_all += outside
        tests_of_all += tests
        times = " | ".join(minutes(spent[crate][kind]) for kind in KINDS)
        print(f"| `{crate}` | {times} | {edits or 'none'} | {outside or 'none'} | {tests or 'none'} |")
    whole = " | ".join(minutes(sum(of[kind] for of in spent.values())) for kind in KINDS)
    print(f"| all | {whole} | {edits_of_all} | {outside_of_all} | {tests_of_all} |")
    print(f"\nbesides: {minutes(spent[None]['rest'])}; in all: {minutes(sum(s for _, _, s in seen.values()))}")


def dearest(edits):
    for (crate, number), spent in sorted(edits.items(), key=lambda it: -it[1])[:20]:
        print(f"{spent:.0f} {crate}: {sorted((TOP / 'crates' / crate / 'must-fail').glob('*.edit'))[number].stem}")


def main():
    seen, edits = {}, {}
    run = subprocess.Popen(sys.argv[1:] or ["rt", "ci"], start_new_session=True)
    while run.poll() is None:
        look(run.pid, seen, edits)
        time.sleep(1)
    table(seen)
    dearest(edits)
    return run.returncode


if __name__ == "__main__":
    sys.exit(main())
