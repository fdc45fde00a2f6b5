#!/usr/bin/env python3
"""Looks at the shape of the sources, and ends with 1 if one of these does not hold:

- no chain of crates is longer than eight; a crate of definitions alone, the program's `main` and the
  crates of tests are not counted;
- no source file has more than 400 lines;
- no line of a clause has more than 100 characters, no function's body more than 40 lines, and no function
  more than 7 parameters, except what `.ci/above.txt` lists with its size, and nothing of that grew. An entry
  of the list that is no longer above its limit has to go, so the list only gets shorter;
- no page of docs/ nor README.md has a paragraph that is wrapped by hand.

    python3 .ci/shape.py          prints what is wrong, and nothing if all holds
    python3 .ci/shape.py --chain  prints a longest chain
    python3 .ci/shape.py --above  prints what stands above a limit, as `.ci/above.txt` lists it
"""

import re
import sys

from sources import ROOT, known_words, stands_on

UNCOUNTED = ("view_meaning", "view_main", "test_desks", "acceptance_", "unit_")
CHAIN, FILE_LINES = 8, 400
CLAUSE, BODY, PARAMETERS = "characters in a line of a clause", "lines of body", "parameters"
LIMITS = {CLAUSE: 100, BODY: 40, PARAMETERS: 7}
# What a line of a page begins with that is no further line of a paragraph.
NO_PROSE = ("|", "#", "-", "```", "    ", "<!--", ">", "1", "2", "3", "4", "5", "6", "7", "8", "9")
FUNCTION = re.compile(r"(\s*)(?:pub(?:\(\w+\))? )?(?:const )?(?:unsafe )?fn (\w+)")


def longest(below, crate, known):
    if crate not in known:
        chains = [longest(below, other, known) for other in below[crate] if other in below]
        known[crate] = max(chains, key=len, default=[]) + ([] if crate.startswith(UNCOUNTED) else [crate])
    return known[crate]


def parameters(signature):
    """How many parameters a function has, by the text behind its name."""
    depth, count, empty = 0, 0, True
    signature = signature.replace("->", "  ")
    # A list of type parameters stands before the parameters.
    for character in signature[signature.find("(") if not signature.startswith("<") else behind_types(signature) :]:
        depth += (character in "([{<") - (character in ")]}>")
        if depth == 0:
            break
        if depth == 1 and character == ",":
            count, empty = count + 1, True
        elif not character.isspace() and character != "(":
            empty = False
    return count + (not empty)


def behind_types(signature):
    """The place behind a list of type parameters, in which bounds may have parentheses."""
    depth = 0
    for place, character in enumerate(signature):
        depth += (character == "<") - (character == ">")
        if depth == 0:
            return place + 1
    return 0


def opening(lines, indent):
    """The place of the line that opens a function's body, or that ends it if it has none."""
    for place, line in enumerate(lines):
        if line == indent + "{" or (line.startswith((indent + ")", indent + "where")) or place == 0) and line.endswith(("{", ";")):
            return place
        if re.match(r"\s+(requires|ensures)", line) and line.endswith(";"):
            return place + 1
    return 0


def sizes(text):
    """The sizes of each function of a source: its name, what is measured, and how much."""
    lines = text.splitlines()
    for number, line in enumerate(lines):
        begins = FUNCTION.match(line)
        if not begins:
            continue
        indent, name = begins.groups()
        rest = lines[number:]
        yield name, PARAMETERS, parameters("\n".join(rest)[begins.end() :])
        opened = opening(rest, indent)
        for clause in rest[:opened]:
            if re.match(r"\s+(requires|ensures)", clause):
                yield name, CLAUSE, len(clause)
        if rest[opened].rstrip().endswith("{"):
            closed = next((at for at, one in enumerate(rest) if at > opened and one == indent + "}"), opened)
            yield name, BODY, closed - opened - 1


def above():
    """What stands above a limit: its source, function and kind, with the greatest size."""
    found = {}
    for path in sorted((ROOT / "crates").glob("*/src/**/*.rt")):
        for name, kind, size in sizes(path.read_text()):
            if size > LIMITS[kind]:
                key = (str(path.relative_to(ROOT)), name, kind)
                found[key] = max(size, found.get(key, 0))
    return found


def listed():
    """The entries of `.ci/above.txt`."""
    found = {}
    for line in (ROOT / ".ci" / "above.txt").read_text().splitlines():
        if line and not line.startswith("#"):
            source, name, size, kind = line.split(" ", 3)
            found[source, name, kind] = int(size)
    return found


def not_as_listed():
    found, known = above(), listed()
    for key in sorted(found | known):
        source, name, kind = key
        if found.get(key, 0) > known.get(key, 0):
            yield f"{source}: {name} has {found[key]} {kind}, the limit is {max(LIMITS[kind], known.get(key, 0))}"
        elif key not in found:
            yield f".ci/above.txt: {name} of {source} is no longer above {LIMITS[kind]} {kind}: take the entry away"
        elif found[key] < known[key]:
            yield f".ci/above.txt: {name} of {source} has {found[key]} {kind}, not {known[key]}"


def wrapped(text):
    """The numbers of the lines of a page behind which its paragraph goes on."""
    outside, last = True, ""
    for number, line in enumerate(text.splitlines()):
        if line.startswith("```"):
            outside = not outside
        prose = outside and line and not line.startswith(NO_PROSE)
        if prose and last:
            yield number
        last = line if outside and not line.startswith(("|", "#", "```", "    ", "<!--")) else ""


def main():
    known_words(__doc__, "--chain", "--above")
    below, known = stands_on(), {}
    chain = max((longest(below, crate, known) for crate in below), key=len)
    if sys.argv[1:] == ["--chain"]:
        print(len(chain), " ".join(chain))
        return
    if sys.argv[1:] == ["--above"]:
        for (source, name, kind), size in sorted(above().items()):
            print(source, name, size, kind)
        return
    wrong = []
    if len(chain) > CHAIN:
        wrong.append(f"a chain of {len(chain)} crates: {' '.join(chain)}")
    for path in sorted((ROOT / "crates").glob("*/src/**/*.rt")):
        lines = len(path.read_text().splitlines())
        if lines > FILE_LINES:
            wrong.append(f"{path.relative_to(ROOT)} has {lines} lines")
    wrong += not_as_listed()
    for path in [ROOT / "README.md", *sorted((ROOT / "docs").glob("**/*.md"))]:
        wrong += [f"{path.relative_to(ROOT)}:{number}: a paragraph wrapped by hand" for number in wrapped(path.read_text())]
    if wrong:
        sys.exit("\n".join(wrong))


main()
