"""What the scripts of this folder read of the sources: the crates, their definitions, and what cites them."""

import functools
import re
import sys
from collections import namedtuple
from pathlib import Path

ROOT = Path(__file__).resolve().parent.parent

# A definition: the comment above it as a sentence, its lines with that comment and without, and the fields of a record.
Definition = namedtuple("Definition", "crate path name sentence whole text fields")
Field = namedtuple("Field", "name sentence text")

DEFINED = re.compile(r"(?:unfoldable pub|abbrev pub|pub record|pub data)\s+(\S+)")
FIELD = re.compile(r"  pub (\S+) :")
USE = re.compile(r"^[ \t]*(?:ghost |pub )*use (Rattle|mathlib|lib)\.([\w.]+?)(?:\.\{([^}]*)\})?(?: as (\w+))?[ \t]*;?[ \t]*$", re.M)
WORD = re.compile(r"([^\W\d][\w-]*)(?:\.([^\W\d][\w-]*))?")
BEGINS = re.compile(r"(?:(?:unfoldable|abbrev|pub|record|data)\s+)*([^\s:({]+)")


def stands_on():
    """Each crate of crates.txt from the bottom up, with the crates that it lists."""
    found = {}
    for line in (ROOT / "crates.txt").read_text().splitlines():
        line = line.split("#")[0].strip()
        if line:
            name, below = line.split(":")
            found[name.split()[0]] = below.split()
    return found


def told(lines, mark):
    """A comment as one text that begins with a capital."""
    text = " ".join(line.strip()[len(mark) :].strip() for line in lines)
    return text[:1].upper() + text[1:]


def fields_of(lines):
    """The fields of a record, each with the comment above it."""
    found, comment = [], []
    for line in lines:
        field = FIELD.match(line)
        if line.strip().startswith("--"):
            comment.append(line)
        elif field:
            found.append(Field(field.group(1), told(comment, "--"), "\n".join(comment + [line])))
            comment = []
        elif found:
            last = found[-1]
            found[-1] = last._replace(text=last.text + "\n" + line)
    return found


@functools.cache
def definitions_of(path):
    """The comment at the head of a file, and its definitions by name, in order.

    Definitions stand apart by an empty line; one without a comment shares that of the one before."""
    head, found, last = "", {}, ""
    for part in re.split(r"\n\s*\n", path.read_text()):
        lines = part.strip("\n").splitlines()
        comment = [line for line in lines if line.startswith("--")]
        body = lines[len(comment) :]
        defined = DEFINED.match(body[0]) if body else None
        if defined:
            last = told(comment, "--") or last
            crate = path.relative_to(ROOT / "crates").parts[0]
            text = "\n".join(body)
            found[defined.group(1)] = Definition(crate, path, defined.group(1), last, "\n".join(lines), text, fields_of(body[1:]))
        elif not found and not head:
            head = told(comment, "--")
    return head, found


def spec_files(crate):
    """The files of a crate's definitions, in the order in which its Lib.antt lists them."""
    folder = ROOT / "crates" / crate / "specs"
    if not (folder / "Lib.antt").exists():
        return []
    listed = re.findall(r"^pub mod (\w+)", (folder / "Lib.antt").read_text(), re.M)
    paths = [folder / f"{name}.antt" for name in listed] + sorted(folder.glob("*/**/*.antt"))
    return in_order([path for path in paths if path.exists()])


def in_order(paths):
    """Files, each behind those of them that it imports."""
    done = []

    def put(path):
        for brought in imports_of(path).modules_read:
            if brought in paths and brought not in done and brought != path:
                put(brought)
        if path not in done:
            done.append(path)

    for path in paths:
        put(path)
    return done


class Brought:
    """What the `use` lines of a file bring in: each name, and each module, with the places that they may mean."""

    def __init__(self, text):
        self.names, self.modules, self.library, self.modules_read = {}, {}, set(), []
        for root, module, listed, alias in USE.findall(text):
            crate, *parts = module.split(".")
            items = [item.strip().partition(" as ") for item in listed.split(",") if item.strip()]
            place = place_of(crate, parts) if root == "Rattle" else None
            if place is None:
                self.library |= {name.strip() for name, _, other in items}
                continue
            if isinstance(place, Path):
                self.modules_read.append(place)
            for name, _, other in items:
                self.names[(other or name).strip()] = (place, name.strip())
            if not listed:
                self.modules[alias or parts[-1]] = place


@functools.cache
def imports_of(path):
    return Brought(path.read_text())


def place_of(crate, parts):
    """Where a module stands: a file of definitions, or a type or the constants of a source; none of the library's."""
    if parts[:1] != ["specs"] or not (ROOT / "crates" / crate).is_dir():
        return None
    if parts[1:2] == ["declared"]:
        rest = [part for part in parts[2:] if part != "TheVariants"]
        return ("constants", crate, "/".join(rest[:-1])) if rest[-1] == "TheConstants" else ("type", crate, rest[-1])
    for end in range(len(parts), 1, -1):
        path = ROOT / "crates" / crate / "specs" / ("/".join(parts[1:end]) + ".antt")
        if path.exists():
            return path
    return None


@functools.cache
def source_files(crate):
    return sorted((ROOT / "crates" / crate / "src").glob("**/*.rt"))


@functools.cache
def declared(crate, name):
    """A type or a constant of a crate's sources, with its doc comment and its lines."""
    begins = re.compile(rf"\s*pub(?:\(crate\))? (?:struct|enum|const|type) {name}\b")
    for path in source_files(crate):
        lines = path.read_text().splitlines()
        for number, line in enumerate(lines):
            if not begins.match(line):
                continue
            first = number
            while first and lines[first - 1].lstrip().startswith(("///", "#[")):
                first -= 1
            comment = [above for above in lines[first:number] if above.startswith("///")]
            last = number
            if line.rstrip().endswith("{"):
                while lines[last] != "}":
                    last += 1
            text = lines[number : last + 1]
            return Definition(crate, path, name, told(comment, "///"), "\n".join(comment + text), "\n".join(text), [])
    return None


@functools.cache
def brought_from(path, name):
    """The crate that a file of sources has a name from, by its `use` lines, or none."""
    crate = path.relative_to(ROOT / "crates").parts[0]
    for used, listed, alone in re.findall(r"^(?:pub )?use (\w+)(?:::\w+)*::(?:\{([^}]*)\}|(\w+));", path.read_text(), re.M):
        if name in [item.strip() for item in listed.split(",")] + [alone]:
            return crate if used in ("crate", "self") else used if (ROOT / "crates" / used).is_dir() else None
    return None


@functools.cache
def home_of(path, name):
    """The crate that declares a type which a file of sources names, or none."""
    crate = brought_from(path, name) or path.relative_to(ROOT / "crates").parts[0]
    while crate and not declared(crate, name):
        other = brought_from(ROOT / "crates" / crate / "src" / "lib.rt", name)
        crate = other if other != crate else None
    return crate


@functools.cache
def seen_as(crate, name):
    """What contracts see a type as, where it is not what the source declares: a definition, or none."""
    for path in source_files(crate):
        model = re.search(rf"impl(?:<[^>]*>)? Model for {name}(?:<[^>]*>)? \{{(.*?)\n\}}", path.read_text(), re.S)
        value = model and re.search(r"ghost Value = \{ ([\w.]+).*? \};", model.group(1))
        if value:
            brought = Brought(model.group(1))
            first, _, second = value.group(1).partition(".")
            place = brought.modules.get(first) if second else brought.names.get(first, (None, None))[0]
            return found_at(place, second or first) if place else None
    return None


def types_in(one):
    """The types that a type of the sources has in it, each as contracts see it, with its name there."""
    found = []
    for name in re.findall(r"(?:[(<]|: |= |, )([A-Z]\w+)", code_of(one.text)):
        crate = home_of(one.path, name)
        seen = crate and (seen_as(crate, name) or declared(crate, name))
        if seen and seen != one and (name, seen) not in found:
            found.append((name, seen))
    return found


def found_at(place, name):
    """The definition that a name of a place is, or none."""
    if isinstance(place, Path):
        return definitions_of(place)[1].get(name)
    kind, crate, what = place
    return declared(crate, name if kind == "constants" else what)


def code_of(text):
    """A definition's lines without comments."""
    return "\n".join(line for line in text.splitlines() if not line.strip().startswith(("--", "///")))


def named_in(definition):
    """The definitions that one names, in order, and the names that it takes from the library."""
    if definition.path.suffix != ".antt":
        return [seen for _, seen in types_in(definition)], set()
    brought, own = imports_of(definition.path), {}
    # What stands later in the file can't be meant: it is what the definition binds by that name.
    for one in definitions_of(definition.path)[1].values():
        if one == definition:
            break
        own[one.name] = one
    found, library = [], set()
    for first, second in WORD.findall(code_of(definition.text)):
        if second and first in brought.modules:
            found.append(found_at(brought.modules[first], second))
        elif first in own:
            found.append(own[first])
        elif first in brought.names:
            found.append(found_at(*brought.names[first]))
        elif first in brought.library:
            library.add(first)
    return [one for one in found if one and one != definition], library


def behind(roots):
    """The definitions that these rest on, themselves among them, and the names of the library in them."""
    seen, library, left = {}, set(), list(roots)
    while left:
        one = left.pop()
        if (one.path, one.name) in seen:
            continue
        seen[one.path, one.name] = one
        more, names = named_in(one)
        left += more
        library |= names
    return list(seen.values()), library


def lines_in(definition):
    """How many lines of a definition are no comment and no blank."""
    return sum(bool(line.strip()) for line in code_of(definition.text).splitlines())


def definition(crate, file, name):
    return definitions_of(ROOT / "crates" / crate / "specs" / f"{file}.antt")[1][name]


def between(text, name, inside):
    """A page with other lines between its two marks of this name."""
    begin, end = f"<!-- {name} -->\n", f"<!-- end of {name} -->\n"
    before, found, rest = text.partition(begin)
    _, ended, after = rest.partition(end)
    if not found or not ended:
        sys.exit(f"no marks '{begin.strip()}' and '{end.strip()}' in the page")
    return before + begin + inside + end + after


def settle(script, page, wanted):
    """Writes a page, or with --check says that it isn't what would be written."""
    path = ROOT / page
    if sys.argv[1:] != ["--check"]:
        path.write_text(wanted)
    elif not path.exists() or path.read_text() != wanted:
        sys.exit(f"{page} is not what `python3 .ci/{script}` writes")


def known_words(doc, *known):
    """Ends where the words of a script are none that it knows, and prints its help where they ask for that."""
    words = sys.argv[1:]
    if words in (["--help"], ["-h"]):
        print(doc.strip())
        sys.exit()
    if words and (words[1:] or words[0] not in known):
        sys.exit(f"unknown words: {' '.join(words)} (--help tells the words)")
