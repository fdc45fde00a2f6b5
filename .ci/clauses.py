"""The public clauses of the crates, and the definitions that each cites."""

import re
from collections import namedtuple

from sources import ROOT, WORD, Brought, found_at, source_files, stands_on

# A clause of a public function: its crate, the function with its type or trait before it, its name if it has one,
# and the definitions that it cites.
Clause = namedtuple("Clause", "crate function name cites")

OWNER = re.compile(r"^(?:pub )?(?:unsafe )?(impl|trait)\b(?:<[^{]*?>)? ?([^{]*)")
FUNCTION = re.compile(r"^(    )?(pub(?:\(\w+\))? )?(?:const )?(?:unsafe )?fn (\w+)")
CLAUSE = re.compile(r"^\s+(?:ensures|requires)\b\*? ?(\w*) ?\{")


def exported(crate):
    """The names that a crate hands on, and those of its lib.rt itself."""
    text = (ROOT / "crates" / crate / "src" / "lib.rt").read_text()
    names = set()
    for listed, alone in re.findall(r"^pub use [\w:]+::(?:\{([^}]*)\}|(\w+));", text, re.M):
        names |= {item.strip() for item in listed.split(",") if item.strip()} | ({alone} if alone else set())
    return names | set(re.findall(r"^pub (?:fn|struct|enum|trait|const) (\w+)", text, re.M))


def closed(lines, number):
    """The text of a clause that begins on a line: to the brace that closes it."""
    depth, taken = 0, []
    for line in lines[number:]:
        taken.append(line)
        depth += line.count("{") - line.count("}")
        if depth <= 0:
            break
    return "\n".join(taken)


def cited(text, brought):
    """The definitions that a text cites."""
    found = []
    for first, second in WORD.findall(text):
        if second and first in brought.modules:
            found.append(found_at(brought.modules[first], second))
        elif first in brought.names:
            found.append(found_at(*brought.names[first]))
    return [one for one in dict.fromkeys((one.path, one.name) for one in found if one and one.path.suffix == ".antt")]


def clauses_of(path, crate, handed_on):
    lines = path.read_text().splitlines()
    brought, owner, function = Brought("\n".join(lines)), None, None
    for number, line in enumerate(lines):
        if line and not line.startswith((" ", "}", "/", "#")):
            found = OWNER.match(line)
            # What an implementation of a trait promises is the trait's.
            owner = None if not found else "" if " for " in found.group(2) else re.match(r"\w*", found.group(2)).group(0)
            in_trait = bool(found) and found.group(1) == "trait"
        begins = FUNCTION.match(line)
        if begins:
            inside, public, name = begins.groups()
            whole = f"{owner}::{name}" if inside else name
            known = (owner if inside else name) in handed_on
            function = whole if known and (public == "pub " or (inside and owner and in_trait)) else None
        clause = CLAUSE.match(line)
        if clause and function:
            cites = cited(closed(lines, number).partition("{")[2], brought)
            yield Clause(crate, function, clause.group(1), cites)


def public_clauses():
    for crate in stands_on():
        if not (ROOT / "crates" / crate / "src" / "lib.rt").exists():
            continue
        handed_on = exported(crate)
        for path in source_files(crate):
            if "tests" not in path.stem and "tests" not in path.parent.name:
                yield from clauses_of(path, crate, handed_on)
