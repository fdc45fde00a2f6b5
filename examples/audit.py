#!/usr/bin/env python3
"""Checks a finished run of `serve`: whether every reply is what the journal's versions say.

    python3 examples/audit.py [--finished] SURVEY JOURNAL IN1 OUT1 [IN2 OUT2 ..]

SURVEY is as it was read, JOURNAL what the run wrote, IN a session's script and OUT its replies, in the
order of the line of `serve`. It says of each session how many replies are right and whether it finished,
or the first thing that is wrong: the line, the byte of OUT, what was wanted and what is there.

Right is a run where each line with words has its reply, in order; no session sees an older version than
before; each picture, count, number of changed records and saved file is that of the version it names; and
the journal has each edit once, at the version that its reply names, and no other line. It is worked out
here from SURVEY and JOURNAL alone, with the pictures of reference_draw.py.

A session that ended early (a device that filled up, a peer that went away, an input of more than 1048576
bytes, want of memory) has a front of its replies: that is told, and with --finished it is wrong too. Of an
OUT that is a device no replies are left. One name may be `-`, for standard input. A record takes some 500
bytes of memory.

Ends with 0 where nothing is wrong, and with 1 where something is.
"""

import bisect
import collections
import os
import re
import stat

import reference_draw
from script_ends import Words, Wrong, read_bytes, run
from session_lines import MOST_BYTES, Count, Edit, Refused, Save, View, asked, canonical, items
from survey_head import class_bits, head

HEADS = {View: b"PICTURE", Edit: b"EDITED", Count: b"COUNT", Save: b"FILE"}
NUMBER = rb"(0|[1-9][0-9]{0,19})"

# A reply: the item that it answers, the version that it names (none for a refused line and where it breaks
# off before), its bytes in OUT from one to below another, and whether it breaks off.
Answer = collections.namedtuple("Answer", "item version start end is_cut")
# The first thing that is wrong in a session: the byte of OUT where it shows, and its text.
Fault = collections.namedtuple("Fault", "at text")


class Survey:
    """The bytes of a survey with its records, and their classes after some edits."""

    def __init__(self, data, name):
        self.data, self.head = data, head(data, name)
        self.points = list(reference_draw.read_points(data, name))
        self.kinds = bytearray(point.kind for point in self.points)
        self.shown = bytes(not point.withheld for point in self.points)
        self.by_x = sorted(range(len(self.points)), key=lambda number: self.points[number].place[0])
        self.xs = [self.points[number].place[0] for number in self.by_x]
        self.pictures = {}

    def change(self, edit):
        """Makes an edit, and gives how many records have another class than before."""
        self.pictures.clear()
        changed = 0
        (_, south, low), (_, north, high) = edit.least, edit.greatest
        first, last = bisect.bisect_left(self.xs, edit.least[0]), bisect.bisect_right(self.xs, edit.greatest[0])
        for number in self.by_x[first:last]:
            _, y, z = self.points[number].place
            if south <= y <= north and low <= z <= high and self.kinds[number] in edit.classes:
                changed += self.kinds[number] != edit.to
                self.kinds[number] = edit.to
        return changed

    def passing(self, count):
        """How many records pass a filter."""
        passes = self.kinds.translate(bytes(kind in count.classes for kind in range(256)))
        if not count.hides:
            return passes.count(1)
        return (int.from_bytes(passes, "big") & int.from_bytes(self.shown, "big")).bit_count()

    def saved(self):
        """The whole file with these classes."""
        place, bits = class_bits(self.head.format)
        first, end = self.head.start + place, self.head.start + self.head.records * self.head.length
        saved = bytearray(self.data)
        old = self.data[first : max(first, end) : self.head.length]
        saved[first : max(first, end) : self.head.length] = bytes(byte & ~bits | kind for byte, kind in zip(old, self.kinds))
        return bytes(saved)

    def picture(self, view):
        if view not in self.pictures:
            words = (self.points, view.numbers, view.kind, view.colouring, view.classes, view.hides)
            self.pictures[view] = reference_draw.picture(*words, kinds=self.kinds)
        return self.pictures[view]


class Session:
    """A script with the replies to it, and what was found of them."""

    def __init__(self, number, names, form):
        script, self.out = read_bytes(names[0]), b"" if is_device(names[1]) else read_bytes(names[1])
        self.number, self.names, self.items = number, names, items(script, form)
        self.is_too_long = len(script) > MOST_BYTES
        self.answers, self.fault = [], None

    def wrong(self, at, item, text):
        """Notes what is wrong, unless something stands before it."""
        if self.fault is None or at < self.fault.at:
            line = f"line {item.number} ({short(item.text)}), " if item else ""
            self.fault = Fault(at, f"{line}byte {at} of {self.names[1]}: {text}")

    def whole(self):
        return [answer for answer in self.answers if not answer.is_cut]

    def early(self):
        """Why it is no finished session, or nothing."""
        answered = self.whole()
        if len(answered) < len(self.items):
            line = self.items[len(answered)].number
            if len(answered) == len(self.answers):
                return f"line {line} has no reply"
            cut = self.answers[-1]
            return f"the reply to line {line} breaks off after {cut.end - cut.start} bytes"
        return f"its input has more than {MOST_BYTES} bytes" if self.is_too_long else None


def is_device(name):
    return name != "-" and os.path.exists(name) and stat.S_ISCHR(os.stat(name).st_mode)


def short(value):
    """Bytes as they are shown in a line."""
    text = repr(bytes(value[:60]))[1:]
    return f"{text} and {len(value) - 60} more" if len(value) > 60 else text


def read_journal(data, name, form):
    """The edit of each line of a journal."""
    lines = data.split(b"\n")
    if lines.pop():
        raise Wrong(f"{name}: line {len(lines) + 1} breaks off, so this journal wasn't written whole")
    edits = []
    for number, line in enumerate(lines, 1):
        edit = asked(line, form)
        if not isinstance(edit, Edit) or canonical(edit) != line:
            raise Wrong(f"{name}: line {number} is no edit as the program writes it: {short(line)}")
        edits.append(edit)
    return edits


def read_answers(session, survey, edits):
    """Finds where each reply of a session lies, and holds the versions that they name against the journal."""
    at, seen = 0, 0
    for item in session.items:
        if at == len(session.out):
            return
        answer = refusal(session, item, at) if isinstance(item.asked, Refused) else named(session, item, at, seen, survey, edits)
        if answer is None:
            return
        session.answers.append(answer)
        if answer.is_cut:
            return
        at, seen = answer.end, seen if answer.version is None else answer.version
    if at < len(session.out):
        session.wrong(at, None, f"{len(session.out) - at} bytes follow the reply to the last line")


def refusal(session, item, at):
    wanted = b"REFUSED %d\n" % item.asked.code
    got = session.out[at : at + len(wanted)]
    if got != wanted and not (wanted.startswith(got) and at + len(got) == len(session.out)):
        return session.wrong(at, item, f"wanted {short(wanted)}, found {short(first_line(session.out, at))}")
    return Answer(item, None, at, at + len(got), got != wanted)


def first_line(data, at):
    return data[at : at + 60].split(b"\n")[0]


def named(session, item, at, seen, survey, edits):
    """A reply that names a version, or nothing where it is wrong."""
    out, kind = session.out, HEADS[type(item.asked)]
    found = re.compile(rb"%s %s " % (kind, NUMBER)).match(out, at)
    if not found:
        rest = out[at:]
        if any((b"%s %d " % (kind, version)).startswith(rest) for version in range(seen, len(edits) + 1)):
            return Answer(item, None, at, len(out), True)
        return session.wrong(at, item, f"wanted {kind.decode()} and a version, found {short(first_line(out, at))}")
    version = int(found[1])
    text = version_fault(item, version, seen, edits)
    if text:
        return session.wrong(at, item, text)
    size = size_of(item.asked, survey)
    if size is None:
        last = re.compile(rb"%s\n|%s?\Z" % (NUMBER, NUMBER)).match(out, found.end())
        if not last:
            return session.wrong(found.end(), item, f"wanted a number, found {short(first_line(out, found.end()))}")
        return Answer(item, version, at, last.end(), not last[0].endswith(b"\n"))
    line = b"%s %d %d\n" % (kind, version, size)
    if not line.startswith(out[at : at + len(line)]):
        return session.wrong(at, item, f"wanted {short(line)}, found {short(first_line(out, at))}")
    end = at + len(line) + size
    return Answer(item, version, at, min(end, len(out)), end > len(out))


def size_of(asked_for, survey):
    """How many bytes follow the head line, or nothing where it ends with a number that has to be worked out."""
    if isinstance(asked_for, View):
        width, height = asked_for.numbers[:2]
        return len(b"P6\n%d %d\n255\n" % (width, height)) + 3 * width * height
    return len(survey.data) if isinstance(asked_for, Save) else None


def version_fault(item, version, seen, edits):
    """What is wrong with the version that a reply names, where the session has seen another."""
    if version > len(edits):
        return f"version {version} is named, and the journal has {len(edits)} lines"
    if version < seen:
        return f"version {version} is named after version {seen}"
    if isinstance(item.asked, Edit):
        if version == seen:
            return f"version {version} was named before, so this edit didn't make it"
        line = canonical(item.asked)
        if canonical(edits[version - 1]) != line:
            return f"wanted {short(line)} as line {version} of the journal, found {short(canonical(edits[version - 1]))}"
    return None


def check_contents(sessions, survey, edits):
    """Holds each reply against the classes of its version, one version after the other."""
    by_version = collections.defaultdict(list)
    for session in sessions:
        for answer in session.answers:
            if answer.version is not None:
                by_version[answer.version].append((session, answer))
    changed = 0
    for version in range(len(edits) + 1):
        if version:
            changed = survey.change(edits[version - 1])
        for session, answer in by_version[version]:
            if session.fault is None or answer.start < session.fault.at:
                check_content(session, answer, survey, changed)


def check_content(session, answer, survey, changed):
    asked_for, got = answer.item.asked, session.out[answer.start : answer.end]
    if isinstance(asked_for, (Edit, Count)):
        count = changed if isinstance(asked_for, Edit) else survey.passing(asked_for)
        content, tail = b"", b" %d\n" % count
    else:
        content = survey.picture(asked_for) if isinstance(asked_for, View) else survey.saved()
        tail = b" %d\n" % len(content)
    line = b"%s %d%s" % (HEADS[type(asked_for)], answer.version, tail)
    wanted = line + content
    if got == wanted[: len(got)] and (answer.is_cut or len(got) == len(wanted)):
        return
    if got[: len(line)] != line[: len(got)]:
        session.wrong(answer.start, answer.item, f"wanted {short(line)}, found {short(got[: len(line) + 20])}")
        return
    at = next(at for at in range(len(line), len(got)) if got[at] != wanted[at])
    if isinstance(asked_for, View):
        text = pixel_fault(asked_for, content, got[len(line) :], at - len(line))
    else:
        text = byte_fault(survey, content, got[len(line) :], at - len(line))
    session.wrong(answer.start + at, answer.item, f"version {answer.version}: {text}")


def pixel_fault(view, wanted, got, at):
    """What a picture has at its first wrong byte."""
    width, height = view.numbers[:2]
    front = len(wanted) - 3 * width * height
    if at < front:
        return f"wanted {short(wanted[:front])}, found {short(got[:front])}"
    pixel = (at - front) // 3
    start = front + 3 * pixel
    place = f"column {pixel % width}, row {pixel // width}"
    return f"{place} of the picture: wanted {wanted[start : start + 3].hex()}, found {got[start : start + 3].hex()}"


def byte_fault(survey, wanted, got, at):
    """What a saved file has at its first wrong byte."""
    place, bits = class_bits(survey.head.format)
    record, offset = divmod(at - survey.head.start, survey.head.length)
    if 0 <= record < survey.head.records and offset == place and (wanted[at] ^ got[at]) & ~bits == 0:
        return f"record {record} of the file: wanted class {wanted[at] & bits}, found {got[at] & bits}"
    return f"byte {at} of the file: wanted {wanted[at]:02X}, found {got[at]:02X}"


def check_owners(sessions, edits):
    """Whether each line of the journal is one session's edit; gives how many have no reply, and what is wrong."""
    owners = {}
    for session in sessions:
        for answer in session.whole():
            if isinstance(answer.item.asked, Edit):
                first = owners.setdefault(answer.version, session)
                if first is not session:
                    text = f"version {answer.version} is the edit of a line of session {first.number} already"
                    session.wrong(answer.start, answer.item, text)
    left = [version for version in range(1, len(edits) + 1) if version not in owners]
    # A session that ended early may have made edits whose replies aren't there: the next ones of its script.
    tails = [tail(session) for session in sessions if session.early()]
    places = {(0,) * len(tails)}
    for version in left:
        places = {moved for place in places for moved in moves(place, tails, edits[version - 1], version)}
        if not places:
            return len(left), f"line {version} is no session's edit: {short(canonical(edits[version - 1]))}"
    return len(left), None


def tail(session):
    """The last version that a session saw, and the edits of its lines without a whole reply."""
    answered = session.whole()
    seen = max((answer.version for answer in answered if answer.version is not None), default=0)
    return seen, [item.asked for item in session.items[len(answered) :] if isinstance(item.asked, Edit)]


def moves(place, tails, edit, version):
    """How far the tails are where the next edit of one of them is this one."""
    for number, (seen, edits) in enumerate(tails):
        at = place[number]
        if version > seen and at < len(edits) and edits[at] == edit:
            yield (*place[:number], at + 1, *place[number + 1 :])


def audit(survey_name, journal_name, pairs):
    """The sessions with what is wrong in each, the journal's edits, how many of them have no reply, and what is wrong there."""
    survey = Survey(read_bytes(survey_name), survey_name)
    edits = read_journal(read_bytes(journal_name), journal_name, survey.head.format)
    sessions = [Session(number, names, survey.head.format) for number, names in enumerate(pairs, 1)]
    for session in sessions:
        read_answers(session, survey, edits)
    check_contents(sessions, survey, edits)
    unanswered, fault = check_owners(sessions, edits)
    # Where a session is wrong it is told there.
    return sessions, edits, unanswered, None if any(session.fault for session in sessions) else fault


def counted(number, one, more):
    return f"{number} {one if number == 1 else more}"


def told(session):
    """What was found of a session, in one line."""
    if session.fault:
        return f"session {session.number}: wrong at {session.fault.text}"
    early = session.early()
    right = counted(len(session.whole()), "reply", "replies")
    return f"session {session.number}: {right} right, {f'ended early: {early}' if early else 'finished'}"


def words():
    parser = Words(__doc__)
    parser.add_argument("--finished", action="store_true")
    parser.add_argument("survey", metavar="SURVEY")
    parser.add_argument("journal", metavar="JOURNAL")
    parser.add_argument("ends", metavar="IN OUT", nargs="+")
    given = parser.parse_args()
    if len(given.ends) % 2:
        parser.error("an IN has no OUT")
    if [given.survey, given.journal, *given.ends].count("-") > 1:
        parser.error("only one name is -")
    return given


def main():
    given = words()
    sessions, edits, unanswered, journal_fault = audit(given.survey, given.journal, list(zip(given.ends[::2], given.ends[1::2])))
    for session in sessions:
        print(told(session), flush=True)
    faults = sum(bool(session.fault or given.finished and session.early()) for session in sessions)
    if faults:
        kind = "wrong or unfinished" if given.finished else "wrong"
        raise Wrong(f"{faults} of {counted(len(sessions), 'session', 'sessions')} {'is' if faults == 1 else 'are'} {kind}")
    if journal_fault:
        raise Wrong(f"{given.journal}: {journal_fault}")
    print(f"journal: {counted(len(edits), 'edit', 'edits, each once')}" + (f", {unanswered} without a reply" if unanswered else ""))


if __name__ == "__main__":
    run(main, "audit.py")
