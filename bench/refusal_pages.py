#!/usr/bin/env python3
"""Writes the table of crates/view/src/refusal_pages.rt anew from the sections of docs/REFUSALS.md.

    bench/refusal_pages.py [--check]

With --check it writes nothing, and ends with status 1 where the table is another one. It runs from anywhere.
"""

import pathlib
import re
import sys
import textwrap

TOP = pathlib.Path(__file__).resolve().parent.parent
TABLE = TOP / "crates/view/src/refusal_pages.rt"
# The most columns of a text before the sign that its line goes on.
WIDTH = 114


def sections(text):
    """Yields number, name, what is said and the examples of each section."""
    for part in re.split(r"^### ", text, flags=re.M)[1:]:
        head, _, body = part.partition("\n")
        found = re.fullmatch(r"(\d+) (\w+)", head.strip())
        if not found:
            continue
        body = re.split(r"^(?:#|\*\*|\|)", body, maxsplit=1, flags=re.M)[0]
        said, _, examples = body.partition("Example")
        examples, _, more = re.sub(r"^s?: ", "", examples).partition("\n\n")
        said += more
        plain = [" ".join(it.replace("`", "").split()) for it in (said, examples)]
        yield int(found[1]), found[2], *plain


def line(text):
    """The line of a text, or the lines of one that is longer than a line may be."""
    text = text.replace("\\", "\\\\").replace('"', '\\"')
    lines = textwrap.wrap(text, width=WIDTH, break_long_words=False, break_on_hyphens=False)
    return " \\\n    ".join(lines)


def page(number, name, says, example):
    """The lines of a page."""
    lines = [f"{number} {name}", f"  {says}"]
    if example:
        lines.append(f"  for example: {example}")
    return "\n".join(map(line, lines))


def main():
    rows = list(sections((TOP / "docs/REFUSALS.md").read_text(encoding="utf-8")))
    pages = "\n\n".join(page(*row) for row in rows)
    table = f'const PAGES: &str = "\\\n{pages}";\n'
    was = TABLE.read_text(encoding="utf-8")
    now = re.sub(r'^const PAGES: .*?";\n', lambda _: table, was, flags=re.M | re.S)
    if "--check" not in sys.argv[1:]:
        TABLE.write_text(now, encoding="utf-8")
    elif now != was:
        print("refusal_pages: the table of refusal_pages.rt is another one than docs/REFUSALS.md says", file=sys.stderr)
        return 1
    print(f"{len(rows)} pages")
    return 0


sys.exit(main())
