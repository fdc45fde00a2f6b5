#!/usr/bin/env python3
"""Makes the table of the processor minutes that the merge gate takes for each crate.

    python3 .ci/check_times.py LOG                      runs `rt ci`, its output in LOG
    python3 .ci/check_times.py LOG rt ci view_base      runs another command of rt
    python3 .ci/check_times.py --page LOG ..            writes the table into docs/PROVING.md too, if the command passed

Run it at the top of a clean clone, with nothing kept (`rt ci --anew`) where the whole time is asked for.
The table comes on standard output and at the end of LOG, as Markdown. The status is that of the command.
While the command runs, this looks four times a second at its processes in /proc (so it needs Linux): a
check's words name its crate, a check of tests has the word `--test`, and an edit is checked in a folder
rt-edit-*. What ends between two looks is told as not attributed.
"""

import os
import re
import resource
import subprocess
import sys
import time

from sources import between

ROOT = os.path.dirname(os.path.dirname(os.path.realpath(__file__)))
TICKS = os.sysconf("SC_CLK_TCK")
SECONDS = 0.25
PARTS = ("code", "tests", "edits", "other")
WITHOUT = "(no crate)"


def stat_of(pid):
    """The parent of a process, its start and the ticks that it has used."""
    with open(f"/proc/{pid}/stat", encoding="utf-8", errors="replace") as stat:
        fields = stat.read().rpartition(")")[2].split()
    return int(fields[1]), int(fields[19]), int(fields[11]) + int(fields[12])


def part_of(pid):
    """The crate and the part of its check that a process works on, or None."""
    with open(f"/proc/{pid}/cmdline", encoding="utf-8", errors="replace") as cmdline:
        words = cmdline.read().split("\0")
    folder = os.readlink(f"/proc/{pid}/cwd")
    if "--crate-name" in words[:-1]:
        crate = words[words.index("--crate-name") + 1]
        if re.match("rt-edit", os.path.basename(folder)):
            return crate, "edits"
        return crate, "tests" if "--test" in words else "code"
    found = re.search("/crates/([a-z0-9_]+)(/|$)", folder)
    return (found.group(1), "other") if found else None


def look(top, seen):
    """Notes what each process below this one has used by now."""
    parents = {}
    stats = {}
    for entry in os.listdir("/proc"):
        if entry.isdigit():
            try:
                parent, start, ticks = stat_of(entry)
            except OSError:
                continue
            parents.setdefault(parent, []).append(int(entry))
            stats[int(entry)] = (start, ticks)
    below = [(top, None)]
    while below:
        pid, part = below.pop()
        start, ticks = stats.get(pid, (None, 0))
        # What has ended and waits for its parent tells no words any more.
        known = seen.get((pid, start), (None, 0))[0]
        try:
            part = part_of(pid) or known or part
        except OSError:
            part = known or part
        if start is not None:
            seen[pid, start] = (part, ticks)
        below += [(child, part) for child in parents.get(pid, [])]


def edits_of(crate):
    """How many must-fail edits a crate has."""
    folder = os.path.join(ROOT, "crates", crate, "must-fail")
    return sum(name.endswith(".edit") for name in os.listdir(folder)) if os.path.isdir(folder) else 0


def table(seen, total, wall):
    """The lines of the table, in processor minutes."""
    minutes = {}
    for named, ticks in seen.values():
        crate, part = named or (WITHOUT, "other")
        row = minutes.setdefault(crate, dict.fromkeys(PARTS, 0.0))
        row[part] += ticks / TICKS / 60
    sums = {part: sum(row[part] for row in minutes.values()) for part in PARTS}
    counted = sum(sums.values())
    lines = ["| Crate | Code | Tests | Edits | Number of edits | Other | All |", "|---|---|---|---|---|---|---|"]

    def line(crate, row, edits):
        cells = [f"{row[part]:.1f}" for part in PARTS]
        lines.append(f"| {crate} | {cells[0]} | {cells[1]} | {cells[2]} | {edits} | {cells[3]} | {sum(row.values()):.1f} |")

    for crate in sorted(minutes, key=lambda crate: -sum(minutes[crate].values())):
        line(crate if crate == WITHOUT else f"`{crate}`", minutes[crate], edits_of(crate))
    line("all", sums, sum(edits_of(crate) for crate in minutes))
    lines.append("")
    lines.append(
        f"{total / 60:.1f} processor minutes on {os.cpu_count()} processors in {wall / 60:.1f} minutes; "
        f"{max(0.0, total / 60 - counted):.1f} of them are not attributed."
    )
    return "\n".join(lines) + "\n"


def put_into_page(text):
    """Writes the table into docs/PROVING.md, between its marks."""
    name = os.path.join(ROOT, "docs", "PROVING.md")
    with open(name, encoding="utf-8") as page:
        whole = between(page.read(), "times", text)
    with open(name, "w", encoding="utf-8") as page:
        page.write(whole)


def main():
    words = sys.argv[1:]
    page = words[:1] == ["--page"]
    words = words[1:] if page else words
    if words[:1] in (["--help"], ["-h"]):
        print(__doc__.strip())
        return
    if not words or words[0].startswith("-"):
        sys.exit(__doc__)
    command = words[1:] or ["rt", "ci"]
    began = time.monotonic()
    seen = {}
    with open(words[0], "w", encoding="utf-8") as log:
        child = subprocess.Popen(command, cwd=ROOT, stdout=log, stderr=subprocess.STDOUT)
        while child.poll() is None:
            look(child.pid, seen)
            time.sleep(SECONDS)
    used = resource.getrusage(resource.RUSAGE_CHILDREN)
    text = table(seen, used.ru_utime + used.ru_stime, time.monotonic() - began)
    with open(words[0], "a", encoding="utf-8") as log:
        log.write(text)
    sys.stdout.write(text)
    if page and child.returncode == 0:
        put_into_page(text)
    sys.exit(child.returncode if child.returncode >= 0 else 1)


main()
