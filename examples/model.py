"""What a run of the program does, worked out from its words and its files, to hold the program against.

It is short and slow: numbers have no bound, lists are gone through from their beginning, and nothing is
kept from one answer to the next. The rules are those of docs/FORMATS.md and docs/GUIDE.md, over the
system's files. A run has a status, its line on standard error, and what every file holds afterwards; of
several sessions, whose order is open, it has what each has to have done, for audit.py.
"""

import struct

import reference_draw
import session_lines
from reference_draw import COLOURS, NUMBER, RED, classes_of
from session_lines import Count, Edit, Refused, View
from survey_head import class_bits, head, head_fault

MOST_WORKERS, MOST_PAIRS = 64, 16
# The lines that `trial` runs.
TRIAL = ("view ortho 256 256 32768 32768 0 1 0 0 0 1 0 0 0 1 256 1 0 65535 class all show", "edit 0 0 0 65535 65535 1023 all 2",
         "view persp 256 256 32768 32768 -65536 1 0 0 0 1 0 0 0 1 128 16 1 65535 intensity all hide", "count 2 show")


class Ends(Exception):
    """A status with its text, and what is known of the sessions where some ran."""

    def __init__(self, status, text, known=None):
        super().__init__(status, text)
        self.ended = status, text, known


# Surveys.


def layout_fault(data):
    """The first thing that is wrong with these bytes as a survey, or none."""
    fault = head_fault(data)
    if fault:
        return fault
    at, start, vlrs = struct.unpack_from("<HII", data, 94)
    for number in range(vlrs):
        end = at + 54 + int.from_bytes(data[at + 20 : at + 22], "little")
        if max(at + 54, end) > min(start, len(data)):
            return f"VLR {number} at {at}"
        at = end
    known = counts(data)
    points_end = start + known["records"] * known["length"]
    if points_end > len(data):
        return f"points need {points_end} bytes, file has {len(data)}"
    at = int.from_bytes(data[235:243], "little")
    for number in range(known["evlrs"]):
        end = at + 60 + int.from_bytes(data[at + 20 : at + 28], "little")
        if at < points_end or max(at + 60, end) > len(data):
            return f"EVLR {number} at {at}"
        at = end
    return None


def counts(data):
    """The numbers of a header, in the order of the text of info."""
    is_new = data[25] == 4
    wide = int.from_bytes(data[247:255], "little") if is_new else 0
    size, _, vlrs, form, length, legacy = struct.unpack_from("<HIIBHI", data, 94)
    evlrs = int.from_bytes(data[243:247], "little") if is_new else 0
    records = wide or legacy
    return {"header": size, "format": form, "length": length, "records": records, "vlrs": vlrs, "evlrs": evlrs, "bytes": len(data)}


def info_text(data):
    lines = [f"LAS 1.{data[25]}"] + [f"{name} {number}" for name, number in counts(data).items()]
    points = list(reference_draw.read_points(data))
    if points:
        axes = list(zip(*(point.place for point in points)))
        lines.append("box " + " ".join(str(end(axis)) for end in (min, max) for axis in axes))
    kinds = [point.kind for point in points]
    lines += [f"class {kind} {kinds.count(kind)}" for kind in sorted(set(kinds))]
    return "".join(f"{line}\n" for line in lines).encode()


# Sessions.


def is_in(edit, place):
    return all(low <= part <= high for low, part, high in zip(edit.least, place, edit.greatest))


def saved(data, kinds):
    """The file with these classes."""
    known, (place, bits) = head(data, "the survey"), class_bits(data[104])
    copy = bytearray(data)
    for number, kind in enumerate(kinds):
        at = known.start + number * known.length + place
        copy[at] = copy[at] & ~bits | kind
    return bytes(copy)


class Session:
    """The only session over a survey: its classes, and its edits as lines of the journal."""

    def __init__(self, data):
        self.data, self.points = data, list(reference_draw.read_points(data))
        self.kinds, self.journal = [point.kind for point in self.points], []

    def reply(self, asked):
        """Answers what a line asks for."""
        if isinstance(asked, Refused):
            return b"REFUSED %d\n" % asked.code
        if isinstance(asked, Edit):
            old = self.kinds
            changes = [kind in asked.classes and is_in(asked, point.place) for kind, point in zip(old, self.points)]
            self.kinds = [asked.to if change else kind for change, kind in zip(changes, old)]
            self.journal.append(session_lines.canonical(asked) + b"\n")
            return b"EDITED %d %d\n" % (len(self.journal), sum(a != b for a, b in zip(old, self.kinds)))
        version = len(self.journal)
        if isinstance(asked, Count):
            passing = [kind in asked.classes and not (asked.hides and point.withheld) for kind, point in zip(self.kinds, self.points)]
            return b"COUNT %d %d\n" % (version, sum(passing))
        if isinstance(asked, View):
            words = (self.points, asked.numbers, asked.kind, asked.colouring, asked.classes, asked.hides, self.kinds)
            name, content = b"PICTURE", reference_draw.picture(*words)
        else:
            name, content = b"FILE", saved(self.data, self.kinds)
        return b"%s %d %d\n" % (name, version, len(content)) + content

    def replies(self, items):
        return b"".join([self.reply(item.asked) for item in items])


# Trials.


def made(start, records):
    """The survey of format 7 that `trial` makes of a number."""
    header = bytearray(375)
    header[0:4], header[24:26] = b"LASF", bytes((1, 4))
    struct.pack_into("<HI", header, 94, 375, 375)
    struct.pack_into("<BH", header, 104, 7, 36)
    struct.pack_into("<Q", header, 247, records)
    state, data = start, bytes(header)
    pieces = [data]
    for _ in range(records):
        drawn = []
        for _ in range(5):
            state = (6364136223846793005 * state + 1442695040888963407) % 2**64
            drawn.append(state >> 32)
        x, y, z, shade = drawn[0] % 65536, drawn[1] % 65536, drawn[2] % 4096, drawn[3] % 65536
        pieces.append(struct.pack("<3iH2xB13x3H", x, y, z, shade, drawn[4] % 32, shade, x, y))
    return b"".join(pieces)


def summary(start, records):
    data = made(start, records)
    replies = Session(data).replies(session_lines.items("\n".join(TRIAL).encode(), 7))
    return b"records %d\nbytes %d\nreplies %d\nsum %d\n" % (records, len(data), len(replies), sum(replies) % 2**64)


# Words.


def number_in(least, most):
    return lambda word: NUMBER.fullmatch(word) and least <= int(word) <= most


READ, WRITTEN = "read", "written"
WORKERS = number_in(1, MOST_WORKERS)
VIEW = [("ortho", "persp").__contains__, *[NUMBER.fullmatch] * 18, COLOURS.__contains__, lambda word: classes_of(word) is not None,
        ("show", "hide").__contains__]
ROWS = {
    "draw": [READ, WRITTEN, WORKERS, *VIEW],
    "info": [READ, WRITTEN],
    "serve": [READ, WORKERS, WRITTEN, *[READ, WRITTEN] * MOST_PAIRS],
    "trial": [number_in(0, 2**64 - 1), number_in(0, 2**23), WORKERS, WRITTEN],
}


def bad_word(words):
    """The place of the first word that doesn't fit, or of the first that is missing, or none."""
    row, names = ROWS.get(words[0] if words else None), set()
    if row is None:
        return 0
    for at, word in enumerate(words[1:], 1):
        form = row[at - 1] if at <= len(row) else None
        name = (word, form) if word == "-" else word
        if form is None or (not form(word) if callable(form) else not word or name in names):
            return at
        if form in (READ, WRITTEN):
            names.add(name)
    is_whole = len(words) >= 6 and len(words) % 2 == 0 if words[0] == "serve" else len(words) == len(row) + 1
    return None if is_whole else len(words)


# Files.


class Node:
    """What a name leads to: a `file` with its bytes, a `folder`, a `device` that is full or takes all, or a `stream`."""

    def __init__(self, kind, data=b""):
        self.kind, self.data = kind, data


class Desk:
    """The files of a run by name, and which of them it opened. A name without one has none, or no folder to be in."""

    def __init__(self, nodes, stdin=b""):
        self.nodes, self.stdin, self.stdout = nodes, Node("stream", stdin), Node("stream")
        self.opened, self.written = [], []

    def read(self, words, at):
        """Opens a name to read."""
        node = self.stdin if words[at] == "-" else self.nodes.get(plain(words[at]))
        if node is None or node in self.written:
            raise Ends(5, f"cannot open word {at}")
        if node.kind == "file":
            self.opened.append(node)
        return node

    def write(self, words, at):
        """Opens a name to write: a file keeps what it holds until it gets something or is ended, and a survey is spared."""
        name = plain(words[at])
        node = self.stdout if words[at] == "-" else self.nodes.get(name)
        if node is None and "/" not in name:
            node = self.nodes[name] = Node("file")
        if node is None or node.kind == "folder" or node in self.opened or node.kind == "file" and node.data[:4] == b"LASF":
            raise Ends(5, f"cannot open word {at}")
        if node.kind == "file":
            self.opened.append(node)
            self.written.append(node)
        return node


def plain(word):
    """A name without the folder that it is looked up in."""
    while word.startswith("./"):
        word = word[2:]
    return word


def give(node, data):
    """Writes all that a name gets, and gives whether that could be done."""
    if node.kind == "full":
        return not data
    if node.kind != "device":
        node.data = data
    return True


# Runs.


class Known:
    """What is known of sessions: of each the input, the output, the items that it processes and how it ends early, if it does."""

    def __init__(self, pairs, journal):
        self.pairs, self.journal = pairs, journal
        self.edits = sum(isinstance(item.asked, Edit) for _, _, items, _ in pairs for item in items)


def load(words, desk):
    node = desk.read(words, 1)
    if node.kind == "folder":
        raise Ends(6, "cannot read word 1")
    fault = layout_fault(node.data)
    if fault:
        raise Ends(8, f"survey: {fault}")
    return node.data


def session_end(node, out, form, at):
    """The items that one session processes, and how it ends where it doesn't finish."""
    if node.kind == "folder":
        return [], (6, f"cannot read word {at}")
    items = session_lines.items(node.data, form)
    if out.kind == "full" and items:
        return items[:1], (9, f"cannot write word {at + 1}")
    is_too_long = len(node.data) > session_lines.MOST_BYTES
    return items, (10, f"session input of word {at} is too long") if is_too_long else None


def serve(words, desk):
    """Serves, and gives what is known of the sessions. The bytes of several, whose order is open, are not worked out."""
    data = load(words, desk)
    ends = [(desk.read(words, at), desk.write(words, at + 1), at) for at in range(4, len(words), 2)]
    journal = desk.write(words, 3)
    known = Known([(node, out, *session_end(node, out, data[104], at)) for node, out, at in ends], journal)
    if len(ends) == 1:
        session, (_, out, items, _) = Session(data), known.pairs[0]
        give(out, session.replies(items))
        give(journal, b"".join(session.journal))
    for *_, end in known.pairs:
        if end:
            raise Ends(*end, known)
    if known.edits and journal.kind == "full":
        raise Ends(9, "cannot write word 3", known)
    return known


def draw(words, desk):
    numbers = [int(word) for word in words[5:23]]
    limit = session_lines.out_of_range(words[4], numbers)
    if limit:
        raise Ends(3, "camera number {} is out of range: {}".format(*limit))
    data = load(words, desk)
    if words[23].startswith("rgb") and data[104] not in RED:
        raise Ends(4, f"format {data[104]} has no colour")
    picture = reference_draw.picture(list(reference_draw.read_points(data)), numbers, words[4], words[23], classes_of(words[24]), words[25] == "hide")
    put(words, desk, 2, picture)


def put(words, desk, at, text):
    if not give(desk.write(words, at), text):
        raise Ends(9, f"cannot write word {at}")


def run(words, desk):
    """The status and the line of a run, and what is known of its sessions where some ran; the desk has its files then."""
    try:
        texts = [word.decode() for word in words]
        at = bad_word(texts)
    except UnicodeDecodeError:
        at = 0
    try:
        if at is not None:
            raise Ends(2, f"word {at} is not expected")
        return 0, "", COMMANDS[texts[0]](texts, desk)
    except Ends as ends:
        return ends.ended


COMMANDS = {
    "draw": draw,
    "serve": serve,
    "info": lambda words, desk: put(words, desk, 2, info_text(load(words, desk))),
    "trial": lambda words, desk: put(words, desk, 4, summary(int(words[1]), int(words[2]))),
}
