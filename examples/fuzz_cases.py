"""Runs of the program that are drawn by lot: surveys whole and damaged, command lines, scripts and files.

What is drawn comes from the lots that are handed in, so it is the same each time.
"""

import struct

import assemble
import damage
import lots
from model import Node, ROWS, bad_word, plain
from session_lines import GREATEST, LEAST, MOST_BYTES

OLD = (b"", b"as it was", b"P6\n1 1\n255\n", b"\xa5" * 3000) * 3 + (b"LASF of another survey",)
# Words that don't fit where most do, or only just.
ODD = ("", "-", "--", "0", "-0", "1", "007", "64", "65", "+1", "1.5", "1e3", " 1", "1 ", "1\n", "x", "all", "ALL", "256", "5-3", "3,,4", "0-255",
       "show", "hide", "class", "rgb16", "persp", "ortho", "draw", "serve", "info", "trial", "a", "./a", "none", "none/x", "folder", ".", "\u00e9",
       "9" * 20, "9" * 21, "-" + "9" * 20, "18446744073709551615", "18446744073709551616", "8388609", "4096", "4097", "9437185",
       str(GREATEST), str(GREATEST + 1), str(LEAST), str(LEAST - 1), "32768", "-32769", "4294967294", "4294967295", "1099511627777", "1048577")
ODD_LINES = (b"", b" \t", b"\r", b"\r\r", b"save\r", b"save\r\r", b"\tsave ", b"SAVE", b"save x", b"save\0", b"\xff\x0b", b"x" * 4096, b"x" * 4097,
             b" " * 4096, b" " * 4097, b"save" + b" " * 4092, b"save" + b" " * 4092 + b"\r", b"save" + b" " * 4091 + b"\r", b"count\x0ball show")


class Case:
    """The words of a run, the files beside it by name, and standard input."""

    def __init__(self, words, nodes, stdin):
        self.words, self.nodes, self.stdin = words, nodes, stdin


def length_of(lot):
    """Mostly short, some long: a block has at most 1024 records, and a page of classes 4096."""
    if lot.random() < 0.005:
        return lot.choice((1023, 1024, 1025, 1400, 2100, 4097))
    return lot.choice((0, 1, 1, 2, 3, 5, 8, 13, 30, lot.randint(0, 60)))


def records(lot, form, size, length):
    """The bytes of records, some at the place of another, and what is read of each."""
    points = []
    for _ in range(length_of(lot)):
        made = lots.point(lot, form, size)
        if points and lot.random() < 0.2:
            made = made._replace(place=lot.choice(points).place)
        points.append(made)
    return points, b"".join(lots.record(lot, form, length, made) for made in points)


def walked(lot, header, place, size, most):
    """Variable length records one after another: of so many bytes of header, with the length after them at this place."""
    found = []
    for _ in range(lot.choice((0, 0, 0, 1, 2, 3))):
        after = lot.choice((0, 1, lot.randint(0, most)))
        data = bytearray(lot.randbytes(header + after))
        data[place : place + size] = after.to_bytes(size, "little")
        found.append(bytes(data))
    return found


def survey(lot):
    """A whole survey of any version and format: what isn't read of it is drawn by lot too. Gives what its views are aimed at."""
    minor, form = lot.choice((2, 3, 4, 4, 4)), lot.choice(list(assemble.FORMATS))
    size = lot.choice(list(lots.SIZES))
    length = assemble.LENGTHS[form] + lot.choice((0, 0, 0, 1, 7))
    points, data = records(lot, form, size, length)
    head_size = assemble.HEADER_SIZES[minor] + lot.choice((0, 0, 0, 1, 200))
    vlrs = walked(lot, 54, 20, 2, 40)
    before = b"".join(vlrs) + lot.randbytes(lot.choice((0, 0, 1, 60)))
    start = head_size + len(before)
    gap, after = lot.randbytes(lot.choice((0, 0, 1, 70))), walked(lot, 60, 20, 8, 40) if minor == 4 else []
    header = bytearray(lot.randbytes(head_size))
    header[0:4], header[24:26] = b"LASF", bytes((1, minor))
    struct.pack_into("<HII", header, 94, head_size, start, len(vlrs))
    legacy = len(points) if minor < 4 else lot.choice((0, len(points), lot.getrandbits(32))) if points else 0
    struct.pack_into("<BHI", header, 104, form, length, legacy)
    if minor == 4:
        is_wide = legacy != len(points) or lot.random() < 0.5
        evlrs_at = start + len(data) + len(gap) if after else lot.getrandbits(64)
        struct.pack_into("<QIQ", header, 235, evlrs_at, len(after), len(points) if is_wide else 0)
    whole = bytes(header) + before + data + gap + b"".join(after) + lot.randbytes(lot.choice((0, 0, 3)))
    aims = points or [lots.point(lot, form, size)]
    return whole, lots.Survey("", form, aims)


def damaged(lot, data):
    """The survey, of three one with some damage."""
    if lot.random() < 0.65:
        return data
    for _ in range(lot.choice((1, 1, 1, 2))):
        harm = lot.choice((damage.cut, damage.change, damage.set_field, damage.set_field, damage.put_in, damage.take_out))
        data, _ = harm(data, lot) if data else (data, "")
    return data


def number(lot, word):
    """A word of digits in another spelling or off by one."""
    if not word.removeprefix("-").isdigit():
        return word
    return lot.choice((word.replace("-", "-00") if "-" in word else f"00{word}", str(int(word) + lot.choice((-1, 1))), f"-{word}"))


def mutated(lot, words):
    """Words of which one or two are changed, left out, doubled or moved."""
    words = list(words)
    for _ in range(lot.choice((1, 1, 2))):
        at = lot.randrange(len(words) + 1)
        kind = lot.randrange(7)
        if kind == 0 or at == len(words):
            words.insert(at, lot.choice(ODD))
        elif kind == 1:
            del words[at]
        elif kind == 2:
            words[at] = lot.choice(words)
        elif kind == 3:
            words[at] = number(lot, words[at])
        elif kind == 4:
            del words[at:]
        else:
            words[at] = lot.choice(ODD)
    return words


def line(lot, made):
    """A line of a session."""
    which = lot.random()
    if which < 0.1:
        return lot.choice(ODD_LINES)
    if which < 0.4:
        words = lots.edit(lot, made)[0].split()
    elif which < 0.65:
        words = ["view", *lots.view_words(lot, lots.view(lot, made))]
    elif which < 0.9:
        words = ["count", lots.class_list(lot, 255)[0], lot.choice(("show", "hide"))]
    else:
        words = ["save"]
    if lot.random() < 0.2:
        words = mutated(lot, words)
    blanks = [lot.choice((" ", " ", " ", " ", "\t", "  ", " \t")) for _ in range(len(words) + 1)]
    front, end = (lot.choice(("", "", "", blank)) for blank in (blanks[0], blanks[-1]))
    text = front + "".join(word + blank for word, blank in zip(words, blanks[1:])).rstrip(" \t") + end
    return text.encode() + lot.choice((b"", b"", b"", b"\r"))


def script(lot, made, most):
    text = b"\n".join(line(lot, made) for _ in range(lot.randint(0, most))) + lot.choice((b"", b"\n"))
    if text and lot.random() < 0.1:
        text, _ = lot.choice((damage.cut, damage.change, damage.put_in, damage.take_out))(text, lot)
    if lot.random() < 0.003:
        # One byte below the greatest length, at it, or one or more above it.
        wanted = MOST_BYTES + lot.choice((-1, 0, 1, 4000))
        blank = b" " * 3999 + b"\n"
        text += (blank * (wanted // 4000 + 1))[: max(0, wanted - len(text))]
    return text


def nodes_of(lot, made, data, scripts):
    """Files: the survey `a`, so many scripts, older outputs, a folder, and other names that lead to some of them."""
    nodes = {name: Node("file", lot.choice(OLD)) for name in ("b", "o1", "o2", "o3", "j") if lot.random() < 0.5}
    nodes |= {"a": Node("file", data), "folder": Node("folder"), ".": Node("folder")}
    nodes |= {"/dev/full": Node("full"), "/dev/./full": Node("full"), "/dev/null": Node("device")}
    nodes |= {f"i{at}": Node("file", script(lot, made, 14)) for at in range(1, scripts + 1)}
    for link in ("link", "other"):
        if lot.random() < 0.2:
            nodes[link] = nodes[lot.choice([name for name in ("a", "i1", "b", "o1", "j") if name in nodes])]
    return nodes


def changed_names(lot, words):
    """A whole line, of which a name may lead to nothing, to a folder, a device, a standard stream or another name's file."""
    row = ROWS[words[0]]
    for at, form in enumerate(row[: len(words) - 1], 1):
        if callable(form) or lot.random() >= 0.12:
            continue
        read = ("-", "-", "none", "none/x", "folder", "./a", "link", "other", "./i1", "/dev/null", "i2")
        written = ("-", "-", "/dev/full", "/dev/full", "/dev/./full", "none/x", "folder", "./a", "./b", "link", "other", "./i1", "/dev/null", "new")
        words[at] = lot.choice(read if form == "read" else written)
    return words


def command(lot, made):
    """The words of a run over `a`."""
    kind = lot.random()
    if kind < 0.3:
        seen = lots.view(lot, made)
        return ["draw", "a", "b", str(lot.choice((1, 2, 3, 4, 64))), *lots.view_words(lot, seen)]
    if kind < 0.45:
        return ["info", "a", "b"]
    if kind < 0.47:
        return ["trial", str(lot.choice((0, 5, lot.getrandbits(64)))), str(length_of(lot)), str(lot.randint(1, 64)), "b"]
    words = ["serve", "a", str(lot.choice((1, 1, 2, 4, 64))), "j", "i1", "o1"]
    return words + [word for at in range(2, lot.choice((2, 2, 2, 3, 4))) for word in (f"i{at}", f"o{at}")]


def case(lot):
    """One run."""
    data, made = survey(lot)
    words = command(lot, made)
    # The sessions of a serve are the pairs behind its first four words.
    nodes = nodes_of(lot, made, damaged(lot, data), max(0, len(words) - 4) // 2 if words[0] == "serve" else 0)
    words = changed_names(lot, words)
    if lot.random() < 0.25:
        words = mutated(lot, words)
        # What is read to its end must have one.
        words = ["none" if plain(word).startswith("/dev/") and word != "/dev/null" else word for word in words]
    stdin = b""
    if bad_word(words) is None and "-" in words:
        stdin = nodes["a"].data if words[1] == "-" or "i1" not in nodes else nodes["i1"].data
    words = [word.encode() for word in words]
    if lot.random() < 0.005:
        words.insert(lot.randint(0, len(words)), b"\xff")
    return Case(words, nodes, stdin)
