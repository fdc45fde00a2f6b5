#!/usr/bin/env python3
"""Times the program's commands over two surveys that it makes, alone or beside another program.

    python3 bench/commands/run.py [--beside PROGRAM] [--growth] [--quick] [--json FILE] [--page [FILE]]

One survey is a terrain in scan order, the other a cloud in random order; both have --records records
of format 6. Each of --rounds rounds does each work once. Where PROGRAM is given, which has the same command
line, a work is done by the one and then by the other, in the next round the other way about, and what both
wrote is compared byte for byte. Standard output gets a table in Markdown: the least of the rounds, behind
it the ratio of both programs' least, and in brackets the middle ratio of the rounds. --growth times the
program alone besides, by the parts of its work and over fewer records, pixels, workers and sessions, for a
second table. --page puts what is printed into docs/PERFORMANCE.md, or FILE, between two marks. --json keeps
all numbers, and --from prints kept ones. Ends with 1 where outputs differ or a run fails, as one does that
takes longer than --limit seconds.

The program is the built one, with the variable of the allocator that the launcher gives it; PROGRAM gets
the variables as they are. Surveys and outputs take 2 GB in /dev/shm where that is there, and are removed;
--folder is another place, where the surveys stay and are taken again.
"""

import collections
import datetime
import filecmp
import json
import os
import platform
import re
import shutil
import statistics
import sys
import tempfile

ROOT = os.path.dirname(os.path.dirname(os.path.dirname(os.path.realpath(__file__))))
sys.path.insert(0, os.path.join(ROOT, "examples"))
from growth import grown
from programs import Program
from script_ends import Words, Wrong, read_text, run, write_bytes
from surveys import surveys
from works import HIGH, WIDE, WORKS

PAGE = os.path.join(ROOT, "docs", "PERFORMANCE.md")
MARKS = "<!-- commands -->\n", "<!-- end of commands -->\n"
ORDERS = "scan order", "random order"


def say(text):
    print(f"run.py: {text}", file=sys.stderr, flush=True)


def tunables():
    """What the launcher tells the allocator, where the user tells it nothing."""
    if "GLIBC_TUNABLES" in os.environ:
        return {}
    told = re.findall(r"glibc\.malloc\.\w+=\d+", read_text(os.path.join(ROOT, "hidrevca")))
    return {"GLIBC_TUNABLES": ":".join(told)}


def both(given, folder):
    """The program, and the one beside it where there is one."""
    programs = [Program(os.path.abspath(given.program), tunables(), os.path.join(folder, "0"))]
    if given.beside:
        programs.append(Program(os.path.abspath(given.beside), {}, os.path.join(folder, "1")))
    return programs


def times(given, folder, programs):
    """What the rounds gave: by survey, work and workers the numbers of each program; and what went wrong."""
    found, faults = collections.defaultdict(lambda: ([], [])), []
    made = list(surveys(given.folder or folder, given.records))
    for turn in range(given.rounds):
        for survey in made:
            for name, work in WORKS.items():
                say(f"round {turn + 1} of {given.rounds}, {survey.name}: {name}")
                try:
                    once(work, programs, turn % 2, survey, given.limit, found)
                except Wrong as wrong:
                    faults.append(f"{survey.name}, {name}: {wrong}")
                    say(faults[-1])
    return found, faults


def once(work, programs, reverse, survey, limit, found):
    """One work of one round by each program, whose outputs are compared."""
    outs = {}
    for program in programs[::-1] if reverse else programs:
        shutil.rmtree(program.folder, ignore_errors=True)
        os.mkdir(program.folder)
        numbers, outs[program.folder] = work(program, survey, limit)
        for (name, workers), number in numbers.items():
            found[survey.name, name, workers][programs.index(program)].append(number)
    for ours, *theirs in zip(*outs.values()):
        if theirs and not filecmp.cmp(ours, *theirs, shallow=False):
            raise Wrong(f"{os.path.basename(ours)} differs")
    for program in programs:
        shutil.rmtree(program.folder)


def kept(given, found, faults, growth):
    """All numbers, with where and when they were made."""
    huge = "/sys/kernel/mm/transparent_hugepage/enabled"
    pages = re.search(r"\[(\w+)\]", read_text(huge)) if os.path.exists(huge) else None
    rows = []
    for (survey, name, workers), (ours, theirs) in found.items():
        row = {"survey": survey, "work": name, "workers": workers, "unit": "MB" if name.startswith("memory") else "ms"}
        rows.append({**row, "program": ours, "beside": theirs} | ratios(ours, theirs))
    return {
        "date": datetime.date.today().isoformat(),
        "processors": os.cpu_count(),
        "system": f"{platform.system()} {'.'.join(platform.release().split('.')[:2])}",
        "library": " ".join(platform.libc_ver()),
        "huge pages": pages[1] if pages else "none",
        "records": given.records,
        "rounds": given.rounds,
        "rows": rows,
        "growth": growth,
        "faults": faults,
    }


def ratios(ours, theirs):
    """The ratio of the least, and the middle one of the rounds."""
    if not ours or not theirs:
        return {}
    return {"ratio": min(ours) / min(theirs), "middle ratio": statistics.median(a / b for a, b in zip(ours, theirs))}


def short(number):
    return f"{number:.0f}" if number >= 100 else f"{number:.1f}" if number >= 10 else f"{number:.2f}"


def cells(row):
    """The least of a row's numbers, and its ratios."""
    if not row or not row["program"]:
        return "-", "-"
    least = f"{short(min(row['program']))} {row['unit']}"
    return least, f"{row['ratio']:.2f} ({row['middle ratio']:.2f})" if "ratio" in row else "-"


def table(all_numbers):
    """The page's text of kept numbers: a line on how they were made, and a table."""
    rows = {(row["work"], row["workers"], row["survey"]): row for row in all_numbers["rows"]}
    order = list(dict.fromkeys(row["work"] for row in all_numbers["rows"]))
    works = sorted({key[:2] for key in rows}, key=lambda key: (key[0].startswith("memory"), order.index(key[0]), key[1]))
    beside = any("ratio" in row for row in rows.values())
    same = "; ".join(all_numbers["faults"]) or ("each output was the same" if beside else "alone")
    lines = [
        f"Made on {all_numbers['date']} by one run of `bench/commands/run.py`: {all_numbers['records']:,} records, "
        f"{WIDE} by {HIGH} pixels, {all_numbers['rounds']} rounds; {all_numbers['processors']} processors, {all_numbers['system']}, "
        f"{all_numbers['library']}, transparent huge pages `{all_numbers['huge pages']}`; {same}.",
        "",
        "| Work | Workers | " + " | ".join(f"{name} | ratio" for name in ORDERS) + " |",
        "|---|---|" + "---|---|" * len(ORDERS),
    ]
    for name, workers in works:
        found = [cell for order in ORDERS for cell in cells(rows.get((name, workers, order)))]
        lines.append(f"| {name} | {workers} | " + " | ".join(found) + " |")
    return "\n".join(lines) + "\n"


def growth_table(growth):
    """Each case, with its ratio to the first one of its group."""
    lines = ["", "| Grows | Case | " + " | ".join(f"{name} | ratio" for name in ORDERS) + " |", "|---|---|" + "---|---|" * len(ORDERS)]
    taken = {(row["group"], row["case"], row["survey"]): row["ms"] for row in growth}
    first = {}
    for group, case in dict.fromkeys(key[:2] for key in taken):
        start = first.setdefault(group, case)
        found = []
        for order in ORDERS:
            ms, base = taken[group, case, order], taken[group, start, order]
            found += [f"{short(ms)} ms", f"{ms / base:.2f}"]
        lines.append(f"| {group} | {case} | " + " | ".join(found) + " |")
    return "\n".join(lines) + "\n"


def put(page, text):
    """Puts a text between the marks of a page."""
    before, first, rest = read_text(page).partition(MARKS[0])
    _, last, after = rest.partition(MARKS[1])
    if not first or not last:
        raise Wrong(f"{page} has no two lines {' and '.join(mark.strip() for mark in MARKS)}")
    write_bytes(page, (before + first + text + last + after).encode())


def words():
    parser = Words(__doc__)
    parser.add_argument("--program", default=os.path.join(ROOT, "crates", "view_main", "out", "view_main"))
    parser.add_argument("--beside", metavar="PROGRAM")
    parser.add_argument("--records", type=int, help="1024 to 2^25 (8388608, or with --quick 1048576)")
    parser.add_argument("--rounds", type=int, help="5, or with --quick 2")
    parser.add_argument("--quick", action="store_true")
    parser.add_argument("--growth", action="store_true")
    parser.add_argument("--limit", type=float, default=300, metavar="SECONDS")
    parser.add_argument("--folder")
    parser.add_argument("--json", metavar="FILE")
    parser.add_argument("--page", metavar="FILE", nargs="?", const=PAGE)
    parser.add_argument("--from", metavar="FILE", dest="source")
    given = parser.parse_args()
    given.records = given.records or (1 << 20 if given.quick else 1 << 23)
    given.rounds = given.rounds or (2 if given.quick else 5)
    if not 1024 <= given.records <= 1 << 25 or given.rounds < 1:
        parser.error("--records is 1024 to 33554432, and --rounds at least 1")
    return given


def numbers_of(given):
    """The numbers of a run, or those that were kept."""
    if given.source:
        try:
            return json.loads(read_text(given.source))
        except ValueError:
            raise Wrong(f"{given.source} is no JSON") from None
    for program in filter(None, (given.program, given.beside)):
        if not os.access(program, os.X_OK):
            raise Wrong(f"{program} can't be run; `./hidrevca` builds the program")
    if given.folder:
        os.makedirs(given.folder, exist_ok=True)
    memory = "/dev/shm" if os.path.isdir("/dev/shm") else None
    with tempfile.TemporaryDirectory(dir=given.folder or memory) as folder:
        programs = both(given, folder)
        found, faults = times(given, folder, programs)
        growth = []
        if given.growth:
            growth = grown(programs[0], given.folder or folder, given.records, min(given.rounds, 3), given.limit, say)
        return kept(given, found, faults, growth)


def main():
    given = words()
    numbers = numbers_of(given)
    if given.json:
        write_bytes(given.json, (json.dumps(numbers, indent=1) + "\n").encode())
    text = table(numbers) + (growth_table(numbers["growth"]) if numbers["growth"] else "")
    print(text, end="")
    if given.page:
        put(given.page, text)
    return 1 if numbers["faults"] else 0


if __name__ == "__main__":
    run(main, "run.py")
