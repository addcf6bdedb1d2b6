#!/usr/bin/env python3
"""Tries the must-fail edits that the gate has no time for.

    bench/edits.py [--look] [CRATE..]

They stand in bench/edits/CRATE/, in the form of those in crates/CRATE/must-fail/. What `rt check` or an install has
proved here is used; the rest is proved first. With --look nothing is proved: what is said is which edits cannot be
applied any more. The status is 1 where one cannot be, or is not refused.
"""

import shutil
import subprocess
import sys
import tempfile
from pathlib import Path

TOP = Path(__file__).resolve().parent.parent
EDITS = TOP / "bench" / "edits"


def pairs_of(edit):
    """The file, the old text and the new text of each change."""
    path = old = None
    for line in edit.read_text().split("\n"):
        if line.startswith("file: "):
            path = line[len("file: ") :]
        elif line.startswith("old: "):
            old = line[len("old: ") :]
        elif line.startswith("new:"):
            yield path, old, line[len("new:") :].removeprefix(" ")


def why_not(crate, edit):
    """Why an edit cannot be applied, if it cannot."""
    texts = {}
    for path, old, new in pairs_of(edit):
        file = TOP / "crates" / crate / path
        if path not in texts and not file.is_file():
            return f"there is no file {path}"
        text = texts.get(path) or file.read_text()
        if text.count(old) != 1:
            return f"its old text stands in {path} {text.count(old)} times"
        texts[path] = text.replace(old, new)
    return None if texts else "it changes nothing"


def look(crates):
    """Says which edits cannot be applied, and whether there are any."""
    edits = [(crate, edit) for crate in crates for edit in sorted((EDITS / crate).iterdir())]
    faults = [(edit, why) for crate, edit in edits if (why := why_not(crate, edit))]
    for edit, why in faults:
        print(f"{edit.relative_to(TOP)}: {why}", file=sys.stderr)
    return bool(faults)


def lines_below(crate):
    """The lines of crates.txt of a crate and the libraries that it stands on, the lowest first."""
    needed, found = {crate}, []
    for line in reversed((TOP / "crates.txt").read_text().splitlines()):
        head, _, names = line.partition(":")
        if head.split()[:1] and head.split()[0] in needed:
            needed.update(names.split())
            found.append(line)
    return found[::-1]


def tried(crate):
    """Tries the edits of a crate in a repository of links, and says whether all are refused."""
    lines = lines_below(crate)
    with tempfile.TemporaryDirectory(prefix=".edits.", dir=TOP) as room:
        shutil.copy(TOP / "HANDLES", room)
        (Path(room) / "crates.txt").write_text("\n".join(lines) + "\n")
        for line in lines:
            name = line.partition(":")[0].split()[0]
            to = Path(room) / "crates" / name
            subprocess.run(["mkdir", "-p", to], check=True)
            for part in sorted((TOP / "crates" / name).iterdir()):
                if part.name != "must-fail":
                    subprocess.run(["cp", "-al", part, to], check=True)
        shutil.copytree(EDITS / crate, Path(room) / "crates" / crate / "must-fail")
        return subprocess.run(["rt", "must-fail", crate], cwd=room).returncode == 0


def main(words):
    crates = [word for word in words if word != "--look"] or sorted(it.name for it in EDITS.iterdir())
    if look(crates):
        return 1
    if "--look" in words:
        return 0
    if not shutil.which("rt"):
        print("edits: rt is missing: put the kit's bin folder on the path", file=sys.stderr)
        return 1
    return 0 if all([tried(crate) for crate in crates]) else 1


sys.exit(main(sys.argv[1:]))
