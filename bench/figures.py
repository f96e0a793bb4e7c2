#!/usr/bin/env python3
"""Makes the tables of docs/SPEED.md of the figures that were measured.

    python3 bench/figures.py

A line of bench/figures.tsv is a row: the name of its table, and then its cells, with tabs between. In the page a table
stands behind `<!-- figures: NAME -->`; its two head lines stay as they are.
"""
import collections
import pathlib

top = pathlib.Path(__file__).resolve().parent.parent
rows = collections.defaultdict(list)
for line in (top / "bench" / "figures.tsv").read_text().splitlines():
    table, *cells = line.split("\t")
    rows[table].append("| " + " | ".join(cells) + " |")

page = top / "docs" / "SPEED.md"
made, head, table = [], 0, None
for line in page.read_text().splitlines():
    if line.startswith("<!-- figures: "):
        table, head = line.split()[2], 2
        made.append(line)
    elif table and line.startswith("|"):
        if head:
            made.append(line)
            head -= 1
            if not head:
                made += rows.pop(table)
    else:
        table = None
        made.append(line)
if rows:
    raise SystemExit(f"docs/SPEED.md has no table for {', '.join(rows)}")
page.write_text("\n".join(made).replace("|  |", "| |") + "\n")
