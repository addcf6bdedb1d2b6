#!/usr/bin/env python3
"""Prints which functions and files of crates/ are long.

    bench/figures.py [--all]

Of functions: the lines of the body between its braces, and those of the clauses above it. Told are bodies of more than
40 lines, files of more than 350, and private functions that have more lines of clauses than of code, each list with its
number; with --all, all of these, else the first ten. The signature is not counted, nor a contract of one line. Tests'
crates are left out, since their bodies are tables. Of the others a body that is a table is counted, not told: one
`match` of a name or a field, without guards and with nothing around it, each arm of which is a text, a number, a
character or a truth as it stands. The status is 1 where a body or a file is longer than that.
"""

import re
import sys
from pathlib import Path

TOP = Path(__file__).resolve().parent.parent
MOST_BODY, MOST_FILE, SHOWN = 40, 350, 10
HEAD = re.compile(r"(\s*)(pub(?:\([a-z]+\))? )?(?:const )?fn (\w+)")
LITERAL = r"""(?:b?"(?:[^"\\]|\\.)*"|b?'(?:[^'\\]|\\.)+'|-?\d\w*(?:\.\d\w*)?|true|false)"""
ARM = rf"(?:(?!=>| if )[^\"{{}}])+ => (?:{LITERAL},|{{ {LITERAL} }},?)"
CLAUSE = re.compile(r"\s*(requires|ensures|decreases)\b")
TABLE = re.compile(rf"match [\w.*&]+ {{(?: {ARM})+ }}")


def opens(line, indent, is_first):
    """Whether the body of a function begins behind the line."""
    return line == indent + "{" or line.endswith("{") and (is_first or line.startswith(indent + ")"))


def functions_of(lines):
    """Name, whether it is public, how many lines of clauses, and the lines of the body of each function of a file."""
    for first, line in enumerate(lines):
        head = HEAD.match(line)
        if not head:
            continue
        indent, public, name = head.groups()
        if line.rstrip().endswith(("}", ";")):
            continue
        last = next((n for n in range(first + 1, len(lines)) if HEAD.match(lines[n])), len(lines))
        opening = next((n for n in range(first, last) if opens(lines[n].rstrip(), indent, n == first)), None)
        if opening is None:
            continue
        closing = next((n for n in range(opening + 1, len(lines)) if lines[n].rstrip() == indent + "}"), None)
        if closing is not None:
            clause = next((n for n in range(first, opening) if CLAUSE.match(lines[n])), opening)
            yield name, bool(public), opening - clause, lines[opening + 1:closing]


def is_table(body):
    """Whether the body is one `match` whose arms are literals."""
    return bool(TABLE.fullmatch(" ".join(" ".join(body).split())))


def told(what, rows, all_of_them):
    rows.sort(reverse=True)
    print(f"{what}: {len(rows)}")
    for count, where in rows if all_of_them else rows[:SHOWN]:
        print(f"  {count:4} {where}")


def main():
    all_of_them = "--all" in sys.argv[1:]
    bodies, files, contracts, functions, tables = [], [], [], 0, 0
    for path in sorted((TOP / "crates").glob("*/src/**/*.rt")):
        crate = path.relative_to(TOP / "crates").parts[0]
        if crate.endswith("trials") or crate == "vectors":
            continue
        where = str(path.relative_to(TOP))
        lines = path.read_text().splitlines()
        if len(lines) > MOST_FILE:
            files.append((len(lines), where))
        for name, public, clauses, body in functions_of(lines):
            functions += 1
            if len(body) > MOST_BODY and is_table(body):
                tables += 1
            elif len(body) > MOST_BODY:
                bodies.append((len(body), f"{where}: {name}"))
            if not public and clauses > max(len(body), 1):
                contracts.append((clauses - len(body), f"{where}: {name}"))
    print(f"functions: {functions}")
    told(f"bodies of more than {MOST_BODY} lines, tables aside (left out: {tables})", bodies, all_of_them)
    told(f"files of more than {MOST_FILE} lines", files, all_of_them)
    told("private functions with more lines of clauses than of code, and by how many", contracts, all_of_them)
    return 1 if bodies or files else 0


if __name__ == "__main__":
    sys.exit(main())
