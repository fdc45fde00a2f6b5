#!/usr/bin/env python3
"""Writes docs/DEFINITIONS.md: every definition of crates/*/specs/ that a public clause rests on.

    python3 .ci/definitions.py            writes the page
    python3 .ci/definitions.py --check    ends with 1 where the page is not what would be written
    python3 .ci/definitions.py --behind   prints the files behind `run`, with their lines

Of each stand its name, the comment above it, and the public clauses that cite it; where none does, the
definitions that do. A line of a definition counts where it is no blank, comment or import.
"""

import sys

from clauses import public_clauses
from sources import ROOT, behind, definition, definitions_of, known_words, lines_in, named_in, settle, spec_files, stands_on

# Of the definitions that name one so many are told.
MOST = 4

HEAD = """# Definitions

Every definition that a public clause rests on, crate by crate from the bottom up: its name, what it is, and which clauses of public functions cite it, as `function` (name of the clause, if it has one). Where none does, the definitions stand there that name it, and through which clauses rest on it. The {others} other definitions of `crates/*/specs/` serve inner functions, and what types keep.

`.ci/definitions.py` makes this page from the sources: each sentence is the comment above the definition. Numbers are whole numbers without bound, a text or a file is the list of its bytes, and places count from 0 where nothing else is said. What an `Option` holds is called *none* where it is empty.

What the contract of `run` rests on is marked with a star: {count} definitions of {lines} lines in {files} files. [HEADLINE.md](HEADLINE.md) shows those of its `serve` whole, in the order in which they are read.
"""


def key(one):
    return one.path, one.name


def by_definition():
    """The clauses that cite a definition, by crate and function."""
    found = {}
    for clause in public_clauses():
        for place in clause.cites:
            names = found.setdefault(place, {}).setdefault((clause.crate, clause.function), [])
            if clause.name not in names:
                names.append(clause.name)
    return found


def citations(functions):
    """Functions with the clauses of theirs that cite something, crate by crate."""
    crates = {}
    for (crate, function), names in functions.items():
        named = ", ".join(name for name in names if name)
        crates.setdefault(crate, []).append(f"`{function}`" + (f" ({named})" if named else ""))
    return "; ".join(f"{crate}: {', '.join(listed)}" for crate, listed in crates.items())


def within(names):
    """The first of the definitions that name one."""
    if not names:
        return "what contracts see of a type"
    listed = ", ".join(f"`{name}`" for name in names[:MOST])
    return f"in {listed}" + (f" and {len(names) - MOST} more" if len(names) > MOST else "")


def every():
    return [one for crate in stands_on() for path in spec_files(crate) for one in definitions_of(path)[1].values()]


def behind_run():
    found, _ = behind([definition("view_commands", "Run", "Runs")])
    return [one for one in found if one.path.suffix == ".antt"]


def page():
    cited, run = by_definition(), behind_run()
    starred, all_of_them = {key(one) for one in run}, every()
    found, _ = behind([one for one in all_of_them if key(one) in cited])
    shown, users = {key(one) for one in found}, {}
    for one in all_of_them:
        for other in named_in(one)[0]:
            if key(one) in shown and one.name not in users.setdefault(key(other), []):
                users[key(other)].append(one.name)
    out = [
        HEAD.format(
            others=sum(key(one) not in shown for one in all_of_them),
            count=len(run),
            lines=sum(map(lines_in, run)),
            files=len({one.path for one in run}),
        )
    ]
    for crate in stands_on():
        files = [(path, [one for one in definitions_of(path)[1].values() if key(one) in shown]) for path in spec_files(crate)]
        files = [(path, needed) for path, needed in files if needed]
        if files:
            out.append(f"## {crate}\n")
        for path, needed in files:
            head = definitions_of(path)[0]
            out.append(f"### {path.relative_to(ROOT)}\n" + (f"\n{head}\n" if head else ""))
            out.append("| Name | What it is | Cited by |\n|---|---|---|")
            for one in needed:
                by = citations(cited.get(key(one), {})) or within(users.get(key(one), []))
                star = " \\*" if key(one) in starred else ""
                cells = [f"`{one.name}`{star}", one.sentence, by]
                out.append("| " + " | ".join(cell.replace("|", "\\|") for cell in cells) + " |")
            out.append("")
    return "\n".join(out)


def main():
    known_words(__doc__, "--check", "--behind")
    if sys.argv[1:] == ["--behind"]:
        files = {}
        for one in behind_run():
            files[one.path] = files.get(one.path, 0) + lines_in(one)
        for path, lines in sorted(files.items()):
            print(lines, path.relative_to(ROOT))
        print(sum(files.values()), "lines in", len(files), "files")
    else:
        settle("definitions.py", "docs/DEFINITIONS.md", page())


main()
