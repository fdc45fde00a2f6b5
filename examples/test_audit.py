#!/usr/bin/env python3
"""Tests of audit.py: runs that are right, and faults that are planted in them.

    python3 examples/test_audit.py

The run below has two sessions and three edits; its replies were worked out by hand.
"""

import os
import struct
import subprocess
import sys
import tempfile
import unittest

import audit
import session_lines
from session_lines import Count, Edit, Refused, Save, View

HERE = os.path.dirname(os.path.realpath(__file__))

# Records (X, Y, Z, class byte) of format 0; the second is withheld. The view shows the first three, the
# others lie outside of its 2 by 2 pixels.
RECORDS = ((0, 0, 5, 2), (1, 0, 5, 0x82), (0, 1, 5, 6), (9, 9, 9, 9))
VIEW = b"view ortho 2 2 1 1 0 1 0 0 0 1 0 0 0 1 1 1 0 10 class all show"
COLOUR = {2: b"\xc6\x86\xfa", 5: b"\x8f\x0f\x51", 6: b"\xd2\x92\x6e", 9: b"\x9b\x1b\xc5", None: bytes(3)}

SCRIPTS = (
    b"count 2 show\nedit 00 0 0 9 9 9 2 05\n" + VIEW + b"\nfrob\n\n \r\nedit 1 0 0 9 9 9 9,5 9\r\nsave",
    VIEW + b"\ncount all hide\n edit 0 0 0\t0 9 9 0-255 9\ncount 9 show\ncount 9 hide\n"
    b"view ortho 0 2 1 1 0 1 0 0 0 1 0 0 0 1 1 1 0 10 rgb16 all show\n"
    b"view ortho 1 2 1 1 0 1 0 0 0 1 0 0 0 1 1 1 0 10 rgb16 all show\nedit 0 0 0 9 9 9 all 32\n",
)
# The classes are 2 2 6 9; then 5 5 6 9; then 9 5 9 9; then 9 9 9 9.
JOURNAL = b"edit 0 0 0 9 9 9 2 5\nedit 0 0 0 0 9 9 all 9\nedit 1 0 0 9 9 9 5,9 9\n"


def survey(records):
    header = bytearray(375)
    header[0:4], header[24:26] = b"LASF", bytes([1, 4])
    struct.pack_into("<HI", header, 94, 375, 375)
    struct.pack_into("<H", header, 105, 20)
    struct.pack_into("<Q", header, 247, len(records))
    return bytes(header) + b"".join(struct.pack("<iii3xB4x", x, y, z, kind) for x, y, z, kind in records)


def blank(size):
    """Lines without words of so many bytes in all."""
    lines, rest = divmod(size, 4000)
    return (b" " * 3999 + b"\n") * lines + b"\n" * rest


def picture(*kinds):
    return b"P6\n2 2\n255\n" + b"".join(COLOUR[kind] for kind in kinds)


SURVEY = survey(RECORDS)
SAVED = survey(((0, 0, 5, 9), (1, 0, 5, 0x89), (0, 1, 5, 9), (9, 9, 9, 9)))
# 11 bytes of header and 12 of pixels; 375 bytes of header and four records of 20.
OUTS = (
    b"COUNT 0 2\nEDITED 1 2\nPICTURE 2 23\n" + picture(9, 5, 9, None) + b"REFUSED 1\nEDITED 3 1\nFILE 3 455\n" + SAVED,
    b"PICTURE 0 23\n" + picture(2, 2, 6, None) + b"COUNT 1 3\nEDITED 2 2\nCOUNT 2 3\nCOUNT 3 3\nREFUSED 2\nREFUSED 3\nREFUSED 4\n",
)
RIGHT = b"session 1: 6 replies right, finished\nsession 2: 8 replies right, finished\njournal: 3 edits, each once\n"


class Audits(unittest.TestCase):
    def setUp(self):
        folder = tempfile.TemporaryDirectory()
        self.addCleanup(folder.cleanup)
        self.folder = folder.name

    def put(self, survey=SURVEY, journal=JOURNAL, scripts=SCRIPTS, outs=OUTS):
        files = {"s": survey, "j": journal}
        for number, pair in enumerate(zip(scripts, outs), 1):
            files[f"i{number}"], files[f"o{number}"] = pair
        for name, data in files.items():
            with open(os.path.join(self.folder, name), "wb") as file:
                file.write(data)
        return list(files)

    def end(self, *flags, **run):
        """Status, standard output and standard error of the script over a run."""
        command = [sys.executable, "-S", os.path.join(HERE, "audit.py"), *flags, *self.put(**run)]
        done = subprocess.run(command, cwd=self.folder, capture_output=True)
        return done.returncode, done.stdout.decode(), done.stderr.decode()

    def found(self, **run):
        """What audit.py finds of each session, and of the journal."""
        names = [os.path.join(self.folder, name) for name in self.put(**run)]
        sessions, _, unanswered, fault = audit.audit(*names[:2], list(zip(names[2::2], names[3::2])))
        return [audit.told(session).replace(self.folder + os.sep, "") for session in sessions], unanswered, fault


class Right(Audits):
    def test_a_right_run_is_told_so(self):
        self.assertEqual(self.end(), (0, RIGHT.decode(), ""))
        self.assertEqual(self.end("--finished"), (0, RIGHT.decode(), ""))

    def test_each_front_of_the_replies_is_told_as_an_early_end(self):
        # The sizes of the replies of session 1, and which of them are to edits.
        sizes, edits = (10, 11, 13 + 23, 10, 11, 11 + 455), (1, 4)
        ends = [sum(sizes[: count + 1]) for count in range(6)]
        for length in (*range(100), 300, len(OUTS[0]) - 1):
            whole = sum(end <= length for end in ends)
            cut = length - sum(sizes[:whole])
            line = (1, 2, 3, 4, 7, 8)[whole]
            early = f"the reply to line {line} breaks off after {cut} bytes" if cut else f"line {line} has no reply"
            told, unanswered, fault = self.found(outs=(OUTS[0][:length], OUTS[1]))
            replies = "1 reply" if whole == 1 else f"{whole} replies"
            self.assertEqual(told[0], f"session 1: {replies} right, ended early: {early}")
            self.assertEqual(told[1], "session 2: 8 replies right, finished")
            self.assertEqual((unanswered, fault), (sum(edit >= whole for edit in edits), None))

    def test_an_early_end_is_wrong_where_all_have_to_finish(self):
        outs = (OUTS[0][:-1], OUTS[1])
        told = "session 1: 5 replies right, ended early: the reply to line 8 breaks off after 465 bytes\nsession 2: 8 replies right, finished\n"
        self.assertEqual(self.end(outs=outs), (0, told + "journal: 3 edits, each once\n", ""))
        self.assertEqual(self.end("--finished", outs=outs), (1, told, "audit.py: 1 of 2 sessions is wrong or unfinished\n"))

    def test_edits_without_their_replies_are_counted(self):
        status, told, _ = self.end(outs=(OUTS[0][:30], OUTS[1]))
        self.assertEqual((status, told.splitlines()[2]), (0, "journal: 3 edits, each once, 1 without a reply"))

    def test_an_input_that_is_too_long_is_answered_to_its_last_whole_line(self):
        # The first line ends with byte 2^20, the last ends beyond it or not at all.
        for tail in (b"save\n", b"save", b"\n"):
            scripts = (blank(2**20 - 13) + b"count 2 show\n" + tail,)
            told, _, _ = self.found(scripts=scripts, outs=(b"COUNT 0 2\n",), journal=b"")
            self.assertEqual(told, ["session 1: 1 reply right, ended early: its input has more than 1048576 bytes"])
        told, _, _ = self.found(scripts=(blank(2**20 - 12) + b"count 2 show",), outs=(b"COUNT 0 2\n",), journal=b"")
        self.assertEqual(told, ["session 1: 1 reply right, finished"])

    def test_replies_to_a_device_are_not_there(self):
        os.symlink("/dev/full", os.path.join(self.folder, "full"))
        self.put()
        words = [os.path.join(self.folder, name) for name in ("s", "j", "i1", "full", "i2", "o2")]
        sessions, _, unanswered, fault = audit.audit(*words[:2], [words[2:4], words[4:]])
        self.assertEqual((sessions[0].early(), unanswered, fault), ("line 1 has no reply", 2, None))

    def test_a_survey_without_records(self):
        scripts, outs = (b"edit 0 0 0 9 9 9 all 1\nsave\ncount all hide\n" + VIEW,), survey(())
        replies = b"EDITED 1 0\nFILE 1 375\n" + outs + b"COUNT 1 0\nPICTURE 1 23\n" + picture(None, None, None, None)
        told, _, _ = self.found(survey=outs, journal=b"edit 0 0 0 9 9 9 all 1\n", scripts=scripts, outs=(replies,))
        self.assertEqual(told, ["session 1: 4 replies right, finished"])


class Planted(Audits):
    def wrong(self, number, old, new, *said, journal=JOURNAL):
        """Plants a fault in the replies of a session, and holds what is said of it against this."""
        self.assertEqual(OUTS[number].count(old), 1)
        outs = [out.replace(old, new) if at == number else out for at, out in enumerate(OUTS)]
        told, _, fault = self.found(outs=outs, journal=journal)
        self.assertEqual((told[number], fault), (f"session {number + 1}: wrong at " + "".join(said), None))
        return told

    def test_a_byte_of_a_reply(self):
        self.wrong(0, b"REFUSED 1", b"REFUSED 2", "line 4 ('frob'), byte 57 of o1: wanted 'REFUSED 1\\n', found 'REFUSED 2'")
        self.wrong(1, b"REFUSED 4", b"REFUSED 1", "line 8 ('edit 0 0 0 9 9 9 all 32'), byte 97 of o2: wanted 'REFUSED 4\\n', found 'REFUSED 1'")
        self.wrong(0, b"EDITED 1", b"COUNT 1", "line 2 ('edit 00 0 0 9 9 9 2 05'), byte 10 of o1: wanted EDITED and a version, found 'COUNT 1 2'")
        self.wrong(1, b"COUNT 2 3", b"COUNT 02 3", "line 4 ('count 9 show'), byte 57 of o2: wanted COUNT and a version, found 'COUNT 02 3'")
        self.wrong(1, b"COUNT 2 3", b"COUNT 2 x", "line 4 ('count 9 show'), byte 65 of o2: wanted a number, found 'x'")

    def test_a_line_of_the_journal(self):
        journal = JOURNAL.replace(b"0 9 9 all 9", b"0 9 9 all 8")
        said = "line 3 (' edit 0 0 0\\t0 9 9 0-255 9'), byte 46 of o2: wanted 'edit 0 0 0 0 9 9 all 9' as line 2 of the journal, "
        told = self.wrong(1, b"EDITED 2 2", b"EDITED 2 2", said, "found 'edit 0 0 0 0 9 9 all 8'", journal=journal)
        # Session 1 saw this version too.
        self.assertIn("column 0, row 0 of the picture: wanted 5898a8, found 9b1bc5", told[0])

    def test_the_journal_in_another_order(self):
        lines = JOURNAL.splitlines(keepends=True)
        told, _, _ = self.found(journal=b"".join((lines[1], lines[0], lines[2])))
        self.assertIn("as line 1 of the journal, found 'edit 0 0 0 0 9 9 all 9'", told[0])
        self.assertIn("as line 2 of the journal, found 'edit 0 0 0 9 9 9 2 5'", told[1])

    def test_a_count(self):
        self.wrong(0, b"COUNT 0 2", b"COUNT 0 3", "line 1 ('count 2 show'), byte 0 of o1: wanted 'COUNT 0 2\\n', found 'COUNT 0 3\\n'")
        self.wrong(1, b"COUNT 3 3", b"COUNT 3 4", "line 5 ('count 9 hide'), byte 67 of o2: wanted 'COUNT 3 3\\n', found 'COUNT 3 4\\n'")
        said = "line 7 ('edit 1 0 0 9 9 9 9,5 9'), byte 67 of o1: wanted 'EDITED 3 1\\n', found 'EDITED 3 2\\n'"
        self.wrong(0, b"EDITED 3 1", b"EDITED 3 2", said)

    def test_a_version(self):
        said = "column 0, row 0 of the picture: wanted 8f0f51, found 9b1bc5"
        self.wrong(0, b"PICTURE 2", b"PICTURE 1", f"line 3 ({audit.short(VIEW)}), byte 45 of o1: version 1: ", said)
        said = "version 4 is named, and the journal has 3 lines"
        self.wrong(0, b"FILE 3", b"FILE 4", "line 8 ('save'), byte 78 of o1: ", said)

    def test_swapped_replies(self):
        said = "line 4 ('count 9 show'), byte 57 of o2: wanted 'COUNT 3 4\\n', found 'COUNT 3 3\\n'"
        self.wrong(1, b"COUNT 2 3\nCOUNT 3 3", b"COUNT 3 3\nCOUNT 2 3", said)
        said = "line 6 ('view ortho 0 2 1 1 0 1 0 0 0 1 0 0 0 1 1 1 0 10 rgb16 all sh' and 2 more), byte 77 of o2: "
        self.wrong(1, b"REFUSED 2\nREFUSED 3", b"REFUSED 3\nREFUSED 2", said, "wanted 'REFUSED 2\\n', found 'REFUSED 3'")

    def test_a_missing_reply(self):
        said = "line 5 ('count 9 hide'), byte 67 of o2: wanted COUNT and a version, found 'REFUSED 2'"
        self.wrong(1, b"COUNT 3 3\n", b"", said)
        said = "wanted COUNT and a version, found 'EDITED 1 2'"
        self.wrong(0, b"COUNT 0 2\n", b"", "line 1 ('count 2 show'), byte 0 of o1: ", said)
        # At the end it is as if the session had ended early.
        status, _, told = self.end("--finished", outs=(OUTS[0], OUTS[1].removesuffix(b"REFUSED 4\n")))
        self.assertEqual((status, told), (1, "audit.py: 1 of 2 sessions is wrong or unfinished\n"))

    def test_a_reply_too_much(self):
        self.wrong(1, b"REFUSED 4\n", b"REFUSED 4\nREFUSED 1\n", "byte 107 of o2: 10 bytes follow the reply to the last line")

    def test_a_pixel_and_a_head_of_a_picture(self):
        line = f"line 1 ({audit.short(VIEW)}), byte "
        said = "version 0: column 1, row 0 of the picture: wanted c686fa, found c687fa"
        self.wrong(1, picture(2, 2, 6, None), picture(2, 2, 6, None)[:15] + b"\x87" + picture(2, 2, 6, None)[16:], line, "28 of o2: ", said)
        said = "version 0: wanted 'P6\\n2 2\\n255\\n', found 'P6\\n2 3\\n255\\n'"
        self.wrong(1, b"P6\n2 2", b"P6\n2 3", line, "18 of o2: ", said)
        self.wrong(1, b"PICTURE 0 23", b"PICTURE 0 24", line, "0 of o2: wanted 'PICTURE 0 23\\n', found 'PICTURE 0 24'")

    def test_a_byte_of_a_saved_file(self):
        # Record 1 begins at byte 395 of the file, and its class byte is the sixteenth.
        for at, byte, said in (
            (410, 0x86, "record 1 of the file: wanted class 9, found 6"),
            (410, 0x09, "byte 410 of the file: wanted 89, found 09"),
            (0, 0x4D, "byte 0 of the file: wanted 4C, found 4D"),
            (454, 0x01, "byte 454 of the file: wanted 00, found 01"),
        ):
            saved = SAVED[:at] + bytes([byte]) + SAVED[at + 1 :]
            self.wrong(0, SAVED, saved, f"line 8 ('save'), byte {89 + at} of o1: version 3: ", said)

    def test_a_version_that_falls(self):
        said = "line 5 ('count 9 hide'), byte 67 of o2: version 1 is named after version 2"
        self.wrong(1, b"COUNT 3 3", b"COUNT 1 1", said)

    def test_an_edit_that_names_a_version_of_before(self):
        scripts, journal = (b"edit 0 0 0 9 9 9 all 1\n" * 2,), b"edit 0 0 0 9 9 9 all 1\n" * 2
        for outs, said in (
            (b"EDITED 1 4\nEDITED 1 4\n", "version 1 was named before, so this edit didn't make it"),
            (b"EDITED 2 0\nEDITED 1 4\n", "version 1 is named after version 2"),
        ):
            told, _, _ = self.found(scripts=scripts, journal=journal, outs=(outs,))
            self.assertIn(f"byte 11 of o1: {said}", told[0])

    def test_an_edit_of_two_sessions(self):
        line, told = b"edit 0 0 0 9 9 9 all 1\n", b"EDITED 1 4\n"
        found, _, _ = self.found(scripts=(line, line), journal=line, outs=(told, told))
        self.assertEqual(found[0], "session 1: 1 reply right, finished")
        self.assertIn("version 1 is the edit of a line of session 1 already", found[1])

    def test_an_edit_that_stands_twice_in_the_journal(self):
        lines = JOURNAL.splitlines(keepends=True)
        told, _, _ = self.found(journal=b"".join((lines[0], lines[0], *lines[1:])))
        self.assertIn("as line 2 of the journal, found 'edit 0 0 0 9 9 9 2 5'", told[1])
        status, told, fault = self.end(journal=JOURNAL + lines[2])
        self.assertEqual((status, told), (1, RIGHT.decode().rpartition("journal")[0]))
        self.assertEqual(fault, "audit.py: j: line 4 is no session's edit: 'edit 1 0 0 9 9 9 5,9 9'\n")

    def test_an_edit_without_its_reply_has_to_be_the_next_of_its_session(self):
        # Of session 1 only the first count was answered; its edits are lines 1 and 3.
        lines = JOURNAL.splitlines(keepends=True)
        outs = (OUTS[0][:10], b"")
        for journal, wanted in (
            (JOURNAL, None),
            (lines[1] + lines[0] + lines[2], None),
            (lines[2] + lines[0], "line 1 is no session's edit: 'edit 1 0 0 9 9 9 5,9 9'"),
            (lines[0] + lines[0], "line 2 is no session's edit: 'edit 0 0 0 9 9 9 2 5'"),
        ):
            self.assertEqual(self.found(journal=journal, outs=outs)[2], wanted)

    def test_a_journal_that_is_none(self):
        for journal, said in (
            (JOURNAL[:-1], "line 3 breaks off, so this journal wasn't written whole"),
            (b"count all show\n", "line 1 is no edit as the program writes it: 'count all show'"),
            (b"edit 00 0 0 9 9 9 2 5\n", "line 1 is no edit as the program writes it: 'edit 00 0 0 9 9 9 2 5'"),
            (b"edit 0 0 0 9 9 9 2 32\n", "line 1 is no edit as the program writes it: 'edit 0 0 0 9 9 9 2 32'"),
            (JOURNAL + b"\n", "line 4 is no edit as the program writes it: ''"),
        ):
            self.assertEqual(self.end(journal=journal), (1, "", f"audit.py: j: {said}\n"))

    def test_all_that_is_wrong_is_counted(self):
        status, told, said = self.end(outs=(b"x", b"y"))
        self.assertEqual((status, len(told.splitlines()), said), (1, 2, "audit.py: 2 of 2 sessions are wrong\n"))


class Lines(unittest.TestCase):
    def test_what_a_line_asks_for(self):
        numbers = (2, 2, 1, 1, 0, 1, 0, 0, 0, 1, 0, 0, 0, 1, 1, 1, 0, 10)
        every = frozenset(range(256))
        for line, form, wanted in (
            (VIEW, 0, View("ortho", numbers, "class", every, False)),
            (VIEW.replace(b"class all show", b"rgb8 2,5-6 hide"), 7, View("ortho", numbers, "rgb8", frozenset({2, 5, 6}), True)),
            (VIEW.replace(b"class", b"rgb8"), 6, Refused(3)),
            (VIEW.replace(b"class", b"rgb8").replace(b"0 10", b"11 10"), 6, Refused(2)),
            (VIEW.replace(b"ortho", b"persp"), 6, Refused(2)),
            (VIEW.replace(b"2 2", b"4096 2305"), 6, Refused(2)),
            (VIEW + b" all", 6, Refused(1)),
            (b"edit 007 -0 0 9 9 9 3,1-2,2 06", 0, Edit((7, 0, 0), (9, 9, 9), frozenset({1, 2, 3}), 6)),
            (b"edit 0 0 0 9 9 9 all 255", 6, Edit((0, 0, 0), (9, 9, 9), every, 255)),
            (b"edit 0 0 0 9 9 9 all 32", 5, Refused(4)),
            (b"edit 0 0 0 9 9 9 all +1", 5, Refused(1)),
            (b"edit 0 0 0 9 9 9 all " + b"0" * 21, 5, Refused(1)),
            (b"edit 0 0 0 9 9 2147483648 all 32", 5, Refused(1)),
            (b"edit -2147483648 0 0 9 9 2147483647 all 0", 0, Edit((-(2**31), 0, 0), (9, 9, 2**31 - 1), every, 0)),
            (b"\tcount  0,2 hide ", 0, Count(frozenset({0, 2}), True)),
            (b"count 3-2 hide", 0, Refused(1)),
            (b"count 256 hide", 0, Refused(1)),
            (b"count 1,,2 hide", 0, Refused(1)),
            (b"save", 0, Save()),
            (b"save\x0b", 0, Refused(1)),
            (b"SAVE", 0, Refused(1)),
            (b"\r", 0, Refused(1)),
            (b"\xff", 0, Refused(1)),
            (b" " * 4097, 0, Refused(1)),
        ):
            self.assertEqual(session_lines.asked(line, form), wanted, line)

    def test_which_lines_are_answered(self):
        text = b"save\r\n\n \t\r\nsave\r\r\n" + b" " * 4096 + b"\n" + b" " * 4096 + b"\r\n" + b"\r"
        numbers = [(item.number, item.asked) for item in session_lines.items(text, 0)]
        self.assertEqual(numbers, [(1, Save()), (4, Refused(1)), (6, Refused(1))])
        self.assertEqual([item.number for item in session_lines.items(b"save\nsave", 0)], [1, 2])

    def test_the_line_of_an_edit_in_the_journal(self):
        for line, wanted in (
            (b"edit 007 -0 0 9 9 9 3,1-2,2 06", b"edit 7 0 0 9 9 9 1-3 6"),
            (b"edit -010 -0 0 9 9 9 5,2-3,3 07", b"edit -10 0 0 9 9 9 2-3,5 7"),
            (b"edit 1 2 3 4 5 6 0-254,255 0", b"edit 1 2 3 4 5 6 all 0"),
        ):
            self.assertEqual(session_lines.canonical(session_lines.asked(line, 0)), wanted)


if __name__ == "__main__":
    unittest.main()
