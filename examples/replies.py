#!/usr/bin/env python3
"""Shows the replies of a session, or takes the picture or the saved file out of one.

    python3 examples/replies.py REPLIES                 one line for each reply, numbered from 1
    python3 examples/replies.py REPLIES NUMBER OUT      the bytes that came with reply NUMBER
    python3 examples/replies.py REPLIES picture OUT     those of the last picture
    python3 examples/replies.py REPLIES file OUT        those of the last saved file
    python3 examples/replies.py REPLIES line:N OUT --script SCRIPT
                                                        those that answer line N of the script, from 1
    python3 examples/replies.py REPLIES --summary [--script SCRIPT]
                                                        how many came of each kind, and what each refused
                                                        line's code means; with the script its lines too
    --strict                                            ends with 1 where a line was refused

REPLIES is what `hidrevca serve` wrote. Each name may be `-`, for standard input or standard output. Lines
without words have no reply, so the number of a line can be above that of its reply.
"""

import re
import sys

import session_lines
from script_ends import Words, Wrong, open_bytes, read_bytes, run, write_bytes

HEAD = re.compile(rb"((PICTURE|FILE) [0-9]{1,20} ([0-9]{1,10})|(EDITED|COUNT) [0-9]{1,20} [0-9]{1,20}|(REFUSED) ([0-9]{1,3}))\n")
MOST_BYTES = 2**30
KINDS = ("PICTURE", "FILE", "EDITED", "COUNT", "REFUSED")
CODES = {
    1: "not a line of the grammar",
    2: "a camera number is out of its range",
    3: "the format has no RGB",
    4: "the class is above the format's greatest",
}


def replies(stream, name):
    """Each head line, numbered from 1, and the bytes that came with it."""
    number = 0
    while line := stream.readline(80):
        number += 1
        found = HEAD.fullmatch(line)
        if not found:
            raise Wrong(f"{name}: reply {number} breaks off or is none: {line[:40]!r}")
        head = line.decode("ascii").strip()
        size = int(found[3] or 0)
        content = stream.read(size) if size <= MOST_BYTES else b""
        if len(content) != size:
            raise Wrong(f"{name}: reply {number} is {head}, and only {len(content)} bytes came")
        yield number, head, content
    if number == 0:
        raise Wrong(f"{name}: empty, no reply came")


def take(stream, name, wanted, whole=False):
    """The reply with this number, or the last `picture` or `file`: its number, head and bytes; and all heads read.

    Behind a number's reply nothing is read, unless the whole is asked for.
    """
    kind = {"picture": "PICTURE", "file": "FILE"}.get(wanted)
    heads, found = [], None
    for reply in replies(stream, name):
        heads.append(reply[:2])
        if reply[1].split()[0] == kind if kind else reply[0] == int(wanted):
            found = reply
            if not kind and not whole:
                break
    if not found:
        raise Wrong(f"{name}: no {wanted} came" if kind else f"{name}: no reply {wanted}, only {len(heads)} came")
    if not found[2]:
        raise Wrong(f"{name}: reply {found[0]} is {found[1]}: no bytes came with it")
    return found, heads


def answered(script):
    """The number and the text of each line that has a reply."""
    for number, line in session_lines.answered(script):
        yield number, line.decode("utf-8", "replace")


def reply_of_line(line, script):
    """The number of the reply to a line of the script."""
    for reply, (number, _) in enumerate(answered(read_bytes(script)), 1):
        if number == line:
            return str(reply)
    raise Wrong(f"{script}: line {line} isn't there or has no words, so it has no reply")


def line_told(number, lines):
    """The line of a script that a reply answers."""
    if lines is None:
        return ""
    if number > len(lines):
        raise Wrong(f"the script has {len(lines)} lines with words, and reply {number} came: another script?")
    place, text = lines[number - 1]
    return f": line {place}: {text if len(text) <= 200 else text[:200] + ' ..'}"


def summary(heads, lines):
    """How many replies came of each kind, and a line for each that was refused."""
    kinds = [head.split()[0] for _, head in heads]
    yield f"{len(heads)} replies: " + ", ".join(f"{kinds.count(kind)} {kind}" for kind in KINDS)
    for number, head in heads:
        told = line_told(number, lines)
        if head.startswith("REFUSED"):
            yield f"{number} {head}, {CODES.get(int(head.split()[1]), 'a code that is not known here')}{told}"


def words():
    parser = Words(__doc__)
    parser.add_argument("replies", metavar="REPLIES")
    parser.add_argument("wanted", metavar="WHICH", nargs="?")
    parser.add_argument("output", metavar="OUT", nargs="?")
    parser.add_argument("--summary", action="store_true")
    parser.add_argument("--script", metavar="SCRIPT")
    parser.add_argument("--strict", action="store_true")
    given = parser.parse_args()
    if given.wanted and not re.fullmatch("[0-9]{1,9}|picture|file|line:[0-9]{1,9}", given.wanted):
        parser.error(f"{given.wanted} is no reply: a number, picture, file, or line:N")
    by_line = (given.wanted or "").startswith("line:")
    if given.wanted and not given.output:
        parser.error("OUT is missing")
    if given.wanted and given.summary:
        parser.error("--summary takes no reply out")
    if by_line != bool(given.script) and not given.summary:
        parser.error("line:N and --script go together")
    if given.script == given.replies == "-":
        parser.error("only one of REPLIES and SCRIPT is -")
    return given


def listed(stream, given):
    """Prints a line for each reply or the summary, and gives all heads."""
    heads = []
    for number, head, _ in replies(stream, given.replies):
        heads.append((number, head))
        if not given.summary:
            print(number, head)
    if given.summary:
        lines = list(answered(read_bytes(given.script))) if given.script else None
        for line in summary(heads, lines):
            print(line)
    return heads


def main():
    given = words()
    wanted = given.wanted
    if wanted and wanted.startswith("line:"):
        wanted = reply_of_line(int(wanted[5:]), given.script)
    with open_bytes(given.replies) as stream:
        if wanted:
            (_, _, content), heads = take(stream, given.replies, wanted, given.strict)
            write_bytes(given.output, content)
        else:
            heads = listed(stream, given)
    refused = [number for number, head in heads if head.startswith("REFUSED")]
    if given.strict and refused:
        sys.stdout.flush()
        raise Wrong(f"{given.replies}: {len(refused)} refused, the first by reply {refused[0]}")


if __name__ == "__main__":
    run(main, "replies.py")
