#!/usr/bin/env python3
"""Writes docs/HEADLINE.md: the promise of `run` for a `serve`, part by part, beside the fields that say it.

    python3 .ci/headline.py           writes the page
    python3 .ci/headline.py --check   ends with 1 where the page is not what would be written

The sentence and its parts stand below, and so does which field says which part; every field of the records
that say it has to stand under some part. What a field says, and each definition that the fields rest on, comes
from the sources, crate by crate from the bottom up. The parts of the page that are written by hand stand in
docs/parts/. Each name of the library that the definitions use has to stand in the table of docs/parts/reading.md.
"""

import re
import sys

from sources import ROOT, behind, definition, definitions_of, known_words, lines_in, named_in, settle, spec_files, stands_on, types_in

SENTENCE = (
    "For every LAS file, session scripts, worker count and interleaving, each session's output is its commands' replies in order, "
    "each picture the plain nearest-record picture and every saved file the read bytes with the classes of one version of the run's "
    "single edit journal, never older than that session had seen; a session stops early only for want of memory, a stated limit or "
    "an endpoint that failed."
)

# The records whose fields say the sentence, by crate and file.
RECORDS = {
    "ServesLine": ("view_commands", "Run"),
    "IsReadWhole": ("view_commands", "Texts"),
    "NoSession": ("view_commands", "Run"),
    "RunsSessions": ("view_commands", "Run"),
    "RunsSession": ("view_commands", "Run"),
    "Served": ("sessions", "Session"),
    "Processed": ("sessions", "Session"),
}
# The line whose words fit, which is where the promise begins, and what the clause on `run` names besides.
ROOTS = [
    ("view_commands", "Run", "ServesLine"),
    ("view_commands", "Run", "IsNothing"),
    ("view_words", "CommandLine", "IsLine"),
    ("view_words", "CommandLine", "all_rows"),
    ("view_words", "CommandLine", "texts"),
]

# Words of the sentence, what they say, and the fields that say it. A field with `= word` is the line of a definition
# that has the word.
PARTS = [
    (
        "For every LAS file,",
        "`b` is the list of the bytes that SURVEY's file had at the start, at most 2^30 of them, and it is laid out as a survey (`IsLaid`). "
        "Nothing else is asked of it: which files are laid out is `header_faults` and `fault`, below (LAS 1.2 to 1.4, not compressed). Where no such file came, no session runs, and the cause is told (`NoSession`, below).",
        [
            "ServesLine.outcome",
            "IsReadWhole.few",
            "IsReadWhole.all",
            "IsReadWhole.there",
            "IsReadWhole.counted",
            "IsReadWhole.opened",
            "IsReadWhole.unfailed",
        ],
    ),
    (
        "session scripts,",
        "The bytes that session k may take, `left`, are those that its IN's file had at the start, whatever they are. Where an earlier session writes to the same name, which only `-` can be, there are none.",
        ["RunsSession.left", "RunsSession.there", "RunsSession.script", "RunsSession.emptied"],
    ),
    ("worker count", "The word WORKERS fits where it is a number from 1 to 64 (`IsLine`). Nothing else that is said depends on it.", []),
    ("and interleaving,", "No field has a premise on the order in which the sessions do their steps. The history is whatever came about.", []),
    (
        "each session's output",
        "There is one end for each pair of names, and one record for each session. What OUT got is its file, unless its keeping was refused.",
        [
            "RunsSessions.pairs",
            "RunsSessions.kept",
            "RunsSessions.each_kept",
            "RunsSessions.sessions",
            "RunsSession.start",
            "RunsSession.empty",
            "RunsSession.got",
            "RunsSession.keeping",
            "RunsSession.output_file",
        ],
    ),
    (
        "is its commands'",
        "An item is a command or a refused line, and has a reply either way. The items are those of the script, as far as the session came; and no other list of as many would do. "
        "So a line can't be left out, invented or taken twice. There is one mark for each item (`Makes`, below).",
        [
            "RunsSession.served",
            "Served.input",
            "Served.items",
            "Served.input_is",
            "Served.processed",
            "Processed.came",
            "Processed.items_are",
            "Served.one",
        ],
    ),
    (
        "replies in order,",
        "`replies` is the concatenation of the replies to all items. Where writing failed or memory was wanted, the output got a front of it "
        "that has at least the replies to all items but the last (`Got`).",
        ["Served.got"],
    ),
    (
        "each picture the plain nearest-record picture",
        "The reply to a view is `picture`, which is made pixel by pixel of the nearest record, and knows no worker, block or frame. The nearest record is the one of the least depth, floored to a whole unit, and of several the one that stands first in the file.",
        ["reply = View"],
    ),
    (
        "and every saved file the read bytes with the classes",
        "The reply to a save is a line `FILE` with version and length, and then `saved`, which differs from `b` in class bits alone. So a saved file is those bytes of OUT; the last reply may be cut where writing failed or memory was wanted, a saved file or a picture too.",
        ["reply = Save"],
    ),
    (
        "of one version of the run's single edit journal,",
        "There is one history for all sessions, which `run` tells (`ended.told.history`). A version is a front of its published edits, and "
        "each item has one mark, the version of its reply. No field names a store. What ties this history to what came about is this: each "
        "entry is by one of the sessions (`makers`); the entries of a session in it are those that its items make, no more and no fewer, in "
        "their order and under its marks (`makes`); each reply of each session is the one at its mark in it (`got`); and at the end JOURNAL's "
        "file has the line of each of its edits, or the cause is told (`journal_file`).",
        [
            "RunsSessions.legal",
            "RunsSessions.makers",
            "RunsSessions.newest_held",
            "RunsSessions.journal_file",
            "Served.begins",
            "Served.makes",
        ],
    ),
    (
        "never older than that session had seen;",
        "What a session had seen is what its marks say: a mark is the newest version when the entry was made, and marks don't fall. A session of `run` begins with the empty history, so "
        "`begins` and `newer` add nothing there; they are for callers of `serve_session` whose pass has seen more.",
        ["Served.rising", "Served.newer"],
    ),
    ("a session stops early only for want of memory,", "Of the reasons of an end `Memory` is the only one without a cause. A session that is `Finished` has processed all items of its whole input (`MayProcess`). Where a name can't be opened, no session of the run begins.", []),
    (
        "a stated limit",
        "`SessionLimit` comes exactly where byte 2^20 + 1 of the input came.",
        ["Processed.limit", "Processed.few", "RunsSession.taken"],
    ),
    (
        "or an endpoint that failed.",
        "`ReadFault` comes exactly where the count of failed reads of IN rose, and `WriteFault` only where that of failed writes of OUT did.",
        ["RunsSession.opened", "RunsSession.read", "RunsSession.wrote"],
    ),
]
BESIDE = (
    "The record says more than the sentence: what the status is, that no other file and no other count changes, what holds where no session ran (one name that can't be opened is enough, and outputs that were opened before it are then empty, where the desk tells its files), and that "
    "the run is done, or memory was wanted, where nothing outside failed. By the law `done-whole` of crates/view_commands/proofs/Settled.antt "
    "a run that is done has every session finished, and its input read to its end if the desk tells that file and no earlier session writes to the same name (which only `-` can be).",
    ["RunsSessions.status", "RunsSessions.reading", "RunsSessions.writing", "NoSession.nothing", "NoSession.untaken", "NoSession.cause", "ServesLine.settled"],
)

FIRST = """# The promise of `run`

> {sentence}

This is a clause of `run` (crates/view_commands/src/running.rt): its record `Runs` has, for a `serve` whose words fit, the record `ServesLine`. This page puts each part of the sentence beside the fields that say it, says what they rest on and what is not claimed, works one run out by hand, and then has every definition behind them, from the bottom up, so that none names one that comes later (but `Runs` and `RunsLine`, whose lines for the other commands are left out here): {definitions} definitions of {lines} lines, and {types} types and constants of the code. A reader needs LAS and some logic; the signs are explained behind the example.

`.ci/headline.py` makes this page from the sources, and the gate fails where it isn't what they say.

## Where it stands

{run}
`tells` is whether the desk, which has the files, tells their bytes. `old` and `new` are what it says of each name before the call and after it (`Said`): its file, and the counts of what failed and of what was taken. `ws` are the words of the command line, and `ended` is what `run` answers: the status, and what it tells of the sessions. Session k, from 0, has the names `input ws k` and `output ws k`, and makes its entries in the history by the number k + 1.
"""


def block(text):
    return f"```text\n{text}\n```\n"


def record(name):
    crate, file = RECORDS[name]
    return definition(crate, file, name)


def cited(fields, told):
    """The fields that a part cites, record by record, and with them what was told."""
    out, last = [], None
    for name in fields:
        if " = " in name:
            what, _, word = name.partition(" = ")
            lines = definition("sessions", "Session", what).text.splitlines()
            out += [f"`{what}`:\n", block("\n".join(line for line in lines if f"({word}" in line or f"Ok {word})" in line))]
            continue
        whole, _, field = name.partition(".")
        found = [one for one in record(whole).fields if one.name == field]
        if not found:
            sys.exit(f"{whole} has no field {field}")
        told.add(name)
        if whole == last:
            out[-1] = out[-1].removesuffix("\n```\n") + f"\n{found[0].text}\n```\n"
        else:
            out += [f"`{whole}`:\n", block(found[0].text)]
        last = whole
    return out


def sentence_parts():
    if " ".join(words for words, _, _ in PARTS) != SENTENCE:
        sys.exit("the parts are not the sentence")
    told, out = set(), ["## The sentence, part by part\n"]
    for words, remark, fields in PARTS:
        out += [f"### {words}\n", remark + "\n", *cited(fields, told)]
    out += ["### Beside the sentence\n", BESIDE[0] + "\n", *cited(BESIDE[1], told)]
    missing = [f"{name}.{field.name}" for name in RECORDS for field in record(name).fields if f"{name}.{field.name}" not in told]
    if missing:
        sys.exit(f"no part of the sentence cites {', '.join(missing)}")
    return out


def head_of(crate):
    """The first sentence of what a crate says of itself."""
    lines = [line[3:].strip() for line in (ROOT / "crates" / crate / "src" / "lib.rt").read_text().splitlines() if line.startswith("//!")]
    return re.split(r"(?<=[.])\s", " ".join(lines))[0]


def seen_types(types):
    """What contracts see of the types that these have in them, where that is another type."""
    pairs = [pair for one in types for pair in types_in(one)]
    seen = [f"a `{name}` as a `{other.name}`" for name, other in pairs if other.path.suffix == ".antt"]
    return "Contracts see " + ", ".join(dict.fromkeys(seen)) + ".\n" if seen else ""


def by_crate(found):
    """The definitions of each crate from the bottom up, in the order of its files, and its types before them."""
    out, ordered = [], []
    for crate in stands_on():
        here = [one for one in found if one.crate == crate]
        if not here:
            continue
        out.append(f"## {crate}\n\n{head_of(crate)}\n")
        types = [one for one in here if one.path.suffix != ".antt"]
        types.sort(key=lambda one: (str(one.path), one.path.read_text().index(one.text)))
        if types:
            out += ["### Types and constants of its code\n", block("\n\n".join(one.whole for one in types))]
            out += [text for text in [seen_types(types)] if text]
        ordered += types
        for path in spec_files(crate):
            head, every = definitions_of(path)
            needed = [one for one in every.values() if one in here]
            if needed:
                out += [f"### {path.relative_to(ROOT)}\n\n{head}\n", block("\n\n".join(one.whole for one in needed))]
            ordered += needed
    for number, one in enumerate(ordered):
        later = [other.name for other in named_in(one)[0] if other in ordered[number + 1 :]]
        if later:
            sys.exit(f"{one.name} stands before {', '.join(later)}, which it names")
    return out


def part(name):
    return (ROOT / "docs" / "parts" / f"{name}.md").read_text().rstrip() + "\n"


def explained(library):
    """Ends where a name of the library has no row in the table that explains them."""
    rows = re.findall(r"^\| ((?:`[^`]+` ?)+) \|", part("reading"), re.M)
    known = set(re.findall(r"`([^`]+)`", " ".join(rows)))
    missing = sorted(library - known)
    if missing:
        sys.exit(f"docs/parts/reading.md explains no {', '.join(missing)}")


def run_itself():
    """The function `run` as its source has it, without its body, and where its record has that of a `serve`."""
    source = (ROOT / "crates" / "view_commands" / "src" / "running.rt").read_text()
    function = re.search(r"^pub fn run<.*?(?=^\{)", source, re.M | re.S).group(0).rstrip()
    runs, line = definition("view_commands", "Run", "Runs"), definition("view_commands", "Run", "RunsLine")
    serve = [text for text in line.text.splitlines() if text.startswith("RunsLine Serve")]
    return block("\n\n".join([function, runs.whole, "\n".join([line.text.splitlines()[0], "..", *serve])]))


def page():
    found, library = behind([definition(*root) for root in ROOTS])
    explained(library)
    definitions = [one for one in found if one.path.suffix == ".antt"]
    first = FIRST.format(
        sentence=SENTENCE,
        definitions=len(definitions),
        types=len(found) - len(definitions),
        lines=sum(lines_in(one) for one in definitions),
        run=run_itself(),
    )
    return "\n".join([first, *sentence_parts(), part("premises"), part("example"), part("reading"), *by_crate(found)])


def main():
    known_words(__doc__, "--check")
    settle("headline.py", "docs/HEADLINE.md", page())


main()
