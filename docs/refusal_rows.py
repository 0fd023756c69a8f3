#!/usr/bin/env python3
"""Writes the rows of crates/refusal_rows by docs/REFUSALS.md, from which they are made.

With the word `--check` nothing is written: it ends with 1 where other rows stand there. A line of
the table that is no row is an error.
"""
import re
import sys
from pathlib import Path

ROOT = Path(__file__).resolve().parent.parent
TABLE = ROOT / "docs/REFUSALS.md"
ROWS = ROOT / "crates/refusal_rows/src/rows.rt"
ROW = re.compile(r"\| (\d+) `(\w+)` \| (.+) \| (.+) \| (.+) \|")
WIDTH = 100

HEAD = """//! The rows of the table of refusals, as `docs/refusal_rows.py` makes them of
//! `docs/REFUSALS.md`.

use crate::table::Row;

/// A row for each refusal, by their numbers.
pub(crate) const ROWS: &[Row] = &[
"""

TEXT = """%s %s
When it comes: %s
Leaves: %s
What to do: %s
"""


def rows_of(text):
    """The rows of the first table in a text: number, name, and three columns."""
    lines = text[text.index("\n|---"):].split("\n\n")[0].strip().splitlines()[1:]
    rows = []
    for line in lines:
        row = ROW.fullmatch(line)
        if not row or "|" in "".join(row.groups()):
            sys.exit(f"refusal_rows: no row of the table: {line}")
        rows.append(row.groups())
    numbers = [int(row[0]) for row in rows]
    if numbers != sorted(set(numbers)):
        sys.exit("refusal_rows: the numbers don't rise")
    return rows


def literal(text):
    """The lines of a text as a literal, none of which is too long."""
    lines, line = [], '        "'
    for place, row in enumerate(text.splitlines()):
        if place:
            lines.append(line + "\\n\\")
            line = " " * 9
        for number, word in enumerate(row.replace("\\", "\\\\").replace('"', '\\"').split(" ")):
            more = line + (" " if number else "") + word
            if len(more) + 4 > WIDTH:
                lines.append(line + " \\")
                more = " " * 12 + word
            line = more
    return [*lines, line + '\\n",']


def main():
    rows = rows_of(TABLE.read_text(encoding="utf-8"))
    text = HEAD
    for row in rows:
        lines = [f'        "{row[0]}",', *literal(TEXT % row)]
        text += "    (\n" + "\n".join(lines) + "\n    ),\n"
    text += "];\n"
    if sys.argv[1:] == ["--check"]:
        if ROWS.read_text(encoding="utf-8") != text:
            sys.exit("other rows stand in crates/refusal_rows: run docs/refusal_rows.py")
        print("the rows of crates/refusal_rows are those of docs/REFUSALS.md")
    else:
        ROWS.write_text(text, encoding="utf-8")


main()
