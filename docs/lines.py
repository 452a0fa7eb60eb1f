#!/usr/bin/env python3
"""Prints the lines of code, specifications and proofs of each crate, as rows of the table of costs in docs/MEASURES.md.

Lines are counted as they stand, blank ones too: the `.rt` files under `src/` (code with its contracts), and the `.antt`
files under `specs/` and `proofs/`. Run it at the top of the repository: `python3 docs/lines.py`. With `--write` the three
columns of the table are made anew in their place, a crate without a row gets one at the table's end, and the seconds stay.
"""
import os
import re
import sys

TABLE = "docs/MEASURES.md"
PARTS = (("src", ".rt"), ("specs", ".antt"), ("proofs", ".antt"))
ROW = re.compile(r"^\| `(dsv\w*)` \|([^|]*)\|([^|]*)\|([^|]*)\|(.*)$")


def lines_of(folder, ending):
    """The lines of all files with this ending in the folder and below it."""
    count = 0
    for base, _, files in os.walk(folder):
        for file in files:
            if file.endswith(ending):
                with open(os.path.join(base, file), encoding="utf-8") as source:
                    count += source.read().count("\n")
    return count


def counts_of(crate):
    return [lines_of(f"crates/{crate}/{part}", ending) for part, ending in PARTS]


def crates():
    return [crate for crate in sorted(os.listdir("crates")) if os.path.isdir(f"crates/{crate}/src")]


def cells(counts):
    return " | ".join(str(count) if count else "" for count in counts)


def write():
    with open(TABLE, encoding="utf-8") as source:
        lines = source.read().split("\n")
    listed, last = set(), 0
    for place, line in enumerate(lines):
        row = ROW.match(line)
        if row and os.path.isdir(f"crates/{row.group(1)}/src"):
            crate, seconds = row.group(1), row.group(5)
            lines[place] = f"| `{crate}` | {cells(counts_of(crate))} |{seconds}"
            listed.add(crate)
            last = place
    new = [f"| `{crate}` | {cells(counts_of(crate))} |  |  |  |" for crate in crates() if crate not in listed]
    lines[last + 1:last + 1] = new
    with open(TABLE, "w", encoding="utf-8") as out:
        out.write("\n".join(lines))


def main():
    if sys.argv[1:] == ["--write"]:
        write()
        return
    total = [0, 0, 0]
    for crate in crates():
        counts = counts_of(crate)
        total = [sum(pair) for pair in zip(total, counts)]
        print(f"| `{crate}` | {cells(counts)} |")
    print(f"all: {total[0]} lines of code, {total[1]} of specifications, {total[2]} of proofs")


if __name__ == "__main__":
    main()
