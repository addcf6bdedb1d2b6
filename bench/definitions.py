#!/usr/bin/env python3
"""Prints how many definitions the clauses of public functions are made of, and how many lines these have.

    bench/definitions.py [--names]

Of each crate's specs/ three kinds are told apart:

    public   what the clauses of public functions and of exports cite, and what these definitions cite
    state    what only the definitions of STATE cite, by which a reader says where it stands between two pieces
    private  all others: what private functions cite, and the public functions of the crates of PARTS, which
             other crates of this repository alone call

A line is one of code: imports, comments, lines of modules and empty ones are left out. With --names each public
definition is printed first, with its file and its lines. The status is 1 where docs/DEFINITIONS.md does not have
the table that is printed, or does not name a definition that a public clause cites itself.
"""

import re
import sys
from collections import defaultdict
from pathlib import Path

TOP = Path(__file__).resolve().parent.parent
PAGE = TOP / "docs" / "DEFINITIONS.md"
PARTS = {"encoding_parts", "berslice", "builtin_types", "judging"}
STATE = {
    ("berreader", name)
    for name in ("HasBeenFed", "IsFresh", "IsFinished", "IsSoundReader", "open_encodings", "weight_held")
}

NO_CODE = re.compile(r"\s*(--|(pub )?use |pub mod |$)")
MUTUAL = re.compile(r"(abbrev )?mutual$")
DEFINITION = re.compile(r"(?:unfoldable |abbrev )?pub (?:record |data )?(\S+)")
IN_MUTUAL = re.compile(r"  pub (?:record |data )?(\S+)")
IMPORT = re.compile(r"^\s*(?:ghost |pub )?use Rattle\.(\w+)\.specs\.([\w.]+?)(?:\.\{(.*)\}| as (\S+))?;?$", re.M)
TOKEN = re.compile(r"[^\s(){}\[\],;]+")


def definitions_of(text):
    """The lines of code of each definition of a file, by its name."""
    found, lines, mutual = {}, [], False
    for line in text.splitlines():
        if NO_CODE.match(line):
            continue
        head = (IN_MUTUAL if mutual else DEFINITION).match(line)
        if not line.startswith(" ") and (MUTUAL.match(line) or DEFINITION.match(line)):
            mutual = bool(MUTUAL.match(line))
            head = None if mutual else DEFINITION.match(line)
        if head:
            lines = found[head.group(1)] = []
        if not MUTUAL.match(line):
            lines.append(line)
    return found


def imports_of(text):
    """What a text imports: definitions by the names that it gives them, and files likewise."""
    names, files = {}, {}
    for crate, path, listed, alias in IMPORT.findall(text):
        if not path.startswith(("declared", "contracts")):
            files[alias or path] = (crate, path)
            for item in filter(None, map(str.strip, listed.split(","))):
                name, _, other = item.partition(" as ")
                names[other or name] = (crate, path, name)
    return names, files


class Definitions:
    """All definitions, each by crate, file and name."""

    def __init__(self):
        texts = {(path.parts[-3], path.stem): path.read_text() for path in TOP.glob("crates/*/specs/*.antt")}
        self.lines = {(*at, name): lines for at, text in texts.items() for name, lines in definitions_of(text).items()}
        self.passed_on = {}
        for at, text in texts.items():
            passed = "\n".join(line for line in text.splitlines() if line.startswith("pub use"))
            self.passed_on |= {(*at, name): place for name, place in imports_of(passed)[0].items()}
        self.cited = {at: self.cites("\n".join(lines), texts[at[:2]], at[:2]) for at, lines in self.lines.items()}

    def cites(self, text, file, here=None):
        """The definitions that a text cites, which stands in a file with imports."""
        names, files = imports_of(file)
        places = set()
        for token in TOKEN.findall(text):
            first, *rest = token.split(".")
            place = names.get(first) or (here and (*here, first))
            if first in files and rest:
                place = (*files[first], rest[0])
            places.add(self.passed_on.get(place, place))
        return {place for place in places if place in self.lines}

    def reach(self, roots, ends):
        """All that the roots cite, but for what the ends alone cite."""
        seen, left = set(), list(roots)
        while left:
            at = left.pop()
            if at not in seen:
                seen.add(at)
                left += () if (at[0], at[2]) in ends else self.cited[at]
        return seen


def exports_of(crate):
    """The names that a crate's lib.rt passes on."""
    text = (TOP / "crates" / crate / "src" / "lib.rt").read_text()
    listed = re.findall(r"^pub use [\w:]+?::(?:\{([^}]*)\}|(\w+));", text, re.M)
    return {name.strip() for many, one in listed for name in (many or one).split(",")}


def hidden_traits_of(crate):
    """The traits of a crate that it does not pass on."""
    texts = [path.read_text() for path in (TOP / "crates" / crate / "src").glob("**/*.rt")]
    return {name for text in texts for name in re.findall(r"^(?:pub )?trait (\w+)", text, re.M)} - exports_of(crate)


def items_of(text):
    """The functions, traits and impls of a source file, each as its lines."""
    item = []
    for line in text.splitlines():
        if item or re.match(r'(pub )?(extern "C" )?(fn|trait|impl)\b', line):
            item.append(line)
        if item and line in ("}", "{}"):
            yield item
            item = []


def heads_of(item, indent):
    """The lines of an item but for the bodies of its functions, which stand between braces at the indent."""
    inside = False
    for line in item:
        if line == indent + "{":
            inside = True
        elif line == indent + "}":
            inside = False
        elif not inside and not line.lstrip().startswith("//"):
            yield line


def clauses_of(item, exports, hidden_traits):
    """The lines of an item in which its public clauses stand."""
    if item[0].startswith('pub extern "C" fn'):
        return list(heads_of(item, ""))
    function = re.match(r"pub fn (\w+)", item[0])
    subject = re.match(r"(?:pub trait|impl(?:<[^>]*>)?) (?:.* for )?(\w+)", item[0])
    if function:
        return list(heads_of(item, "")) if function.group(1) in exports else []
    trait = re.match(r"impl(?:<[^>]*>)? (\w+).* for ", item[0])
    if not subject or subject.group(1) not in exports or trait and trait.group(1) in hidden_traits:
        return []
    kept, public = [], True
    for line in heads_of(item, "    "):
        if item[0].startswith("impl") and " for " not in item[0] and re.match(r"    (pub )?fn ", line):
            public = line.startswith("    pub ")
        # What is imported is not yet cited.
        kept += [line] if public and not line.lstrip().startswith("ghost use ") else []
    return kept


def roots_in(definitions):
    """The definitions that the clauses of public functions cite."""
    roots = set()
    for path in TOP.glob("crates/*/src/**/*.rt"):
        crate = path.relative_to(TOP).parts[1]
        if crate in PARTS or not (TOP / "crates" / crate / "src" / "lib.rt").is_file():
            continue
        text = path.read_text()
        exports, hidden_traits = exports_of(crate), hidden_traits_of(crate)
        for item in items_of(text):
            roots |= definitions.cites("\n".join(clauses_of(item, exports, hidden_traits)), text)
    return roots


def table_of(definitions, public, state):
    """The lines of the table: one for each crate, in the order of crates.txt."""
    counts = defaultdict(lambda: [0] * 6)
    for at, lines in definitions.lines.items():
        column = 0 if at in public else 2 if at in state else 4
        counts[at[0]][column] += 1
        counts[at[0]][column + 1] += len(lines)
    rows = [(f"`{crate}`", counts[crate]) for crate in re.findall(r"^\w+", (TOP / "crates.txt").read_text(), re.M)]
    rows.append(("all", [sum(column) for column in zip(*counts.values())]))
    yield "| Crate | Public definitions | Lines | Of a reader's state | Lines | Private | Lines |"
    yield "|---|---|---|---|---|---|---|"
    for name, row in rows:
        if any(row):
            yield f"| {name} | {' | '.join(map(str, row))} |"


def main():
    definitions = Definitions()
    roots = roots_in(definitions)
    public = definitions.reach(roots, STATE)
    state = definitions.reach(roots, set()) - public
    if "--names" in sys.argv[1:]:
        for at in sorted(public):
            print(f"{at[0]}/specs/{at[1]}.antt {at[2]} {len(definitions.lines[at])}")
    table = "\n".join(table_of(definitions, public, state))
    print(table)
    page = PAGE.read_text()
    words = set(re.findall(r"\w+", page))
    faults = [f"{at[0]}/specs/{at[1]}.antt: {at[2]} is not named" for at in sorted(roots) if at[2] not in words]
    if table not in page:
        faults.insert(0, "the table is another one")
    for fault in faults:
        print(f"definitions: {PAGE.name}: {fault}", file=sys.stderr)
    return 1 if faults else 0


if __name__ == "__main__":
    sys.exit(main())
