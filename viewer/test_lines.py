#!/usr/bin/env python3
"""Tests of the viewer's sessions, journals, seats and frames, by cases worked out by hand.

    python3 viewer/test_lines.py
"""

import io
import json
import os
import sys
import tempfile
import threading
import types
import unittest

HERE = os.path.dirname(os.path.realpath(__file__))
sys.path.append(os.path.join(os.path.dirname(HERE), "examples"))

import office
import program
import tab
import web_socket
from script_ends import Wrong


class Journals(unittest.TestCase):
    def setUp(self):
        folder = tempfile.TemporaryDirectory()
        self.addCleanup(folder.cleanup)
        self.folder = folder.name

    def test_what_was_answered_is_written_in_the_order_of_versions(self):
        journal = os.path.join(self.folder, "journal")
        answered = office.Answered(journal)
        for version, line in ((2, b"edit b"), (1, b"edit a"), (4, b"edit d")):
            answered.note(version, line)
        with open(f"{journal}.answered", "rb") as file:
            self.assertEqual(file.read(), b"edit a\nedit b\n")
        answered.close()
        with open(f"{journal}.answered", "rb") as file:
            self.assertEqual(file.read(), b"edit a\nedit b\nedit d\n")

    def test_the_file_goes_where_the_journal_has_all_that_was_answered(self):
        for at, (journal, whole) in enumerate((
            (b"edit a\nedit b\n", True), (b"edit a\nedit b\nedit c\n", True), (b"edit a\n", False), (b"", False), (None, False),
        )):
            name = os.path.join(self.folder, str(at))
            answered = office.Answered(name)
            answered.note(1, b"edit a")
            answered.note(2, b"edit b")
            if journal is not None:
                with open(name, "wb") as file:
                    file.write(journal)
            self.assertEqual((answered.settle(name), os.path.exists(answered.name)), (whole, not whole))

    def test_what_is_there_is_not_overwritten(self):
        with open(os.path.join(self.folder, "journal.answered"), "wb") as file:
            file.write(b"edit a\n")
        with self.assertRaises(FileExistsError):
            office.Answered(os.path.join(self.folder, "journal"))


class Rooms(unittest.TestCase):
    def office(self, *rooms):
        """An office whose sessions have so many bytes of input left: one with a seat, and spares."""
        made = office.Office.__new__(office.Office)
        sessions = [program.Session(at, None, None) for at, _ in enumerate(rooms, 1)]
        for session, room in zip(sessions, rooms):
            session.room = room
        made.lock, made.spares = threading.Lock(), sessions[1:]
        return made, types.SimpleNamespace(session=sessions[0]), sessions

    def test_a_session_that_has_had_its_lines_gives_way_to_the_spare_with_most_room(self):
        # A line of 10 bytes and its LF leave 16384 bytes for edits.
        made, one, sessions = self.office(16384 + 10, 30000, 40000)
        self.assertIs(made.session_for(one, "view 45678"), sessions[2])
        self.assertEqual(made.spares, [sessions[1], sessions[0]])
        made, one, sessions = self.office(16384 + 11, 40000)
        self.assertIs(made.session_for(one, "view 45678"), sessions[0])

    def test_the_part_that_is_left_is_that_of_the_session_and_the_spares(self):
        # Of 2^20 bytes 2^14 are kept: 1032192 are for views.
        made, one, _ = self.office(2**20, 16384 + 516096, 16000)
        self.assertEqual(made.room(one), 0.5)

    def test_where_no_session_has_room_the_view_is_refused_and_an_edit_is_not(self):
        made, one, sessions = self.office(16000, 16394)
        with self.assertRaisesRegex(Wrong, "as many views as they take"):
            made.session_for(one, "view 45678")
        self.assertIs(made.session_for(one, "edit 45678", kept=0), sessions[0])


class Replying(unittest.TestCase):
    def setUp(self):
        come, self.out = (os.fdopen(end, mode, 0) for end, mode in zip(os.pipe(), ("rb", "wb")))
        to, told = (os.fdopen(end, mode, 0) for end, mode in zip(reversed(os.pipe()), ("wb", "rb")))
        for file in (come, self.out, to, told):
            self.addCleanup(file.close)
        self.told = told
        self.session = program.Session(7, to, program.Replies(come, silent=0.05))

    def test_a_reply_is_read_as_far_as_it_goes_and_no_further(self):
        self.out.write(b"FILE 3 12\nCOUNT 1 2\nabCOUNT 0 5\n")
        self.assertEqual(self.session.ask("save"), (["FILE", "3", "12"], b"COUNT 1 2\nab"))
        self.assertEqual(self.session.ask("count 2 show"), (["COUNT", "0", "5"], b""))
        self.assertEqual((self.told.read(100), self.session.room), (b"save\ncount 2 show\n", 2**20 - 18))

    def test_a_session_that_says_nothing_for_long_has_ended(self):
        with self.assertRaisesRegex(program.Broken, "no reply came for 0.05 seconds"):
            self.session.ask("save")

    def test_a_reply_that_breaks_off_breaks_the_session(self):
        for replied, told in (
            (b"PICTURE 0 4\nabc", "the pipe of session 7 broke within a reply"), (b"PICTURE 0", "the pipe of session 7 broke"),
            (b"", "the pipe of session 7 broke"), (b"no head\n", "the pipe of session 7 broke"),
        ):
            self.setUp()
            self.out.write(replied)
            self.out.close()
            with self.assertRaises(program.Broken) as caught:
                self.session.ask("save")
            self.assertEqual(str(caught.exception), told)

    def test_a_line_for_which_there_is_no_room_is_not_sent(self):
        self.session.room = 4
        with self.assertRaisesRegex(Wrong, "as many lines as it takes"):
            self.session.ask("save")
        self.assertEqual(self.session.room, 4)

    def test_a_file_whose_taker_is_gone_is_read_to_its_end(self):
        self.out.write(b"FILE 0 6\nabcdefCOUNT 0 5\n")
        taken = []
        self.session.ask_pieces("save", lambda words, size: taken.append((words, size)) or False, taken.append)
        self.assertEqual(taken, [(["FILE", "0", "6"], 6)])
        self.assertEqual(self.session.ask("count 2 show")[0], ["COUNT", "0", "5"])


class Frames(unittest.TestCase):
    def test_the_examples_of_the_standard(self):
        # RFC 6455: section 1.3 has this key and its answer, section 5.7 these frames.
        self.assertEqual(web_socket.accept("dGhlIHNhbXBsZSBub25jZQ=="), "s3pPLMBiTxaQ9kYGzzhZRbK+xOo=")
        masked = bytes.fromhex("818537fa213d7f9f4d5158")
        self.assertEqual(next(web_socket.messages(io.BytesIO(masked))), (web_socket.TEXT, b"Hello"))
        self.assertEqual(web_socket.head(web_socket.TEXT, 5) + b"Hello", bytes.fromhex("810548656c6c6f"))
        self.assertEqual(web_socket.head(web_socket.BINARY, 256), bytes.fromhex("827E0100"))
        self.assertEqual(web_socket.head(web_socket.BINARY, 65536), bytes.fromhex("827F0000000000010000"))

    def heard(self, data):
        """The messages in these bytes, and the code with which they end."""
        found = []
        try:
            for message in web_socket.messages(io.BytesIO(data)):
                found.append(message)
        except web_socket.Closed as closed:
            return found, closed.code
        return found, None

    def test_a_message_in_parts_with_a_ping_between_them(self):
        mask = bytes(4)
        parts = b"\x01\x83" + mask + b"Hel" + b"\x89\x81" + mask + b"!" + b"\x80\x82" + mask + b"lo" + b"\x88\x80" + mask
        self.assertEqual(self.heard(parts), ([(web_socket.PING, b"!"), (web_socket.TEXT, b"Hello")], 1000))

    def test_what_is_no_message_ends_with_its_code(self):
        for data, code in (
            ("8105", 1002),  # not masked
            ("c180", 1002),  # an extension's bit
            ("808000000000", 1002),  # goes on with nothing
            ("838000000000", 1002),  # a kind that is none
            ("81ff0000000000010001", 1009),  # longer than a page may send
            ("818537fa", 1000),  # cut
            ("888000000000", 1000),
        ):
            self.assertEqual(self.heard(bytes.fromhex(data)), ([], code), data)

    def test_parts_together_are_no_longer_than_a_page_may_send(self):
        first, second = b"\x01\xfe\x80\x00" + bytes(4 + 0x8000), b"\x80\xfe\x80\x01" + bytes(4 + 0x8001)
        self.assertEqual(self.heard(first + second), ([], 1009))

    def test_keys(self):
        self.assertTrue(web_socket.is_key("dGhlIHNhbXBsZSBub25jZQ=="))
        for key in ("", "dGhl", "dGhlIHNhbXBsZSBub25jZQ=", "no key at all"):
            self.assertFalse(web_socket.is_key(key))

    def test_of_the_pictures_asked_for_the_last_is_wanted(self):
        one = tab.Tab(None, None)
        one.session = object()
        for n in (1, 2, 3):
            one.heard(web_socket.TEXT, json.dumps({"ask": "view", "n": n}).encode())
        one.heard(web_socket.TEXT, b'{"ask":"line","n":"line"}')
        self.assertEqual(one.next(), ("task", {"ask": "line", "n": "line"}))
        self.assertEqual(one.next(), ("view", {"ask": "view", "n": 3}))
        for n in range(33):
            one.heard(web_socket.TEXT, json.dumps({"ask": "line", "n": n}).encode())
        self.assertEqual(one.next(), ("tell", {"say": "wrong", "n": 32, "text": "too much was asked before this was answered"}))
        self.assertEqual([one.next()[1]["n"] for _ in range(32)], list(range(32)))
        for data in (b"no json", b"[1]", b'"text"', b"{", b"\xff"):
            with self.assertRaises(web_socket.Closed):
                one.heard(web_socket.TEXT, data)


if __name__ == "__main__":
    unittest.main()
