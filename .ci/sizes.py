#!/usr/bin/env python3
"""Writes the table of each crate's lines into docs/PROVING.md, between its marks.

    python3 .ci/sizes.py           writes the table
    python3 .ci/sizes.py --check   ends with 1 where the table is not what would be written

Lines are all lines of the files: src/**/*.rt, specs/**/*.antt and proofs/**/*.antt. Edits are the files must-fail/*.edit.
"""

from sources import ROOT, between, known_words, settle, stands_on

PAGE = "docs/PROVING.md"
PARTS = (("src", "rt"), ("specs", "antt"), ("proofs", "antt"))


def lines_of(crate, folder, suffix):
    return sum(len(path.read_text().splitlines()) for path in (ROOT / "crates" / crate / folder).glob(f"**/*.{suffix}"))


def sizes_of(crate):
    edits = len(list((ROOT / "crates" / crate / "must-fail").glob("*.edit")))
    return [lines_of(crate, *part) for part in PARTS] + [edits]


def table():
    rows = [(f"`{crate}`", sizes_of(crate)) for crate in stands_on()]
    rows.append(("all", [sum(column) for column in zip(*(sizes for _, sizes in rows))]))
    head = ["| Crate | Code with clauses, docs and tests | Definitions | Proofs | Edits that must fail |", "|---|---|---|---|---|"]
    return "\n".join(head + [f"| {name} | " + " | ".join(map(str, sizes)) + " |" for name, sizes in rows]) + "\n"


def main():
    known_words(__doc__, "--check")
    settle("sizes.py", PAGE, between((ROOT / PAGE).read_text(), "sizes", table()))


main()
