"""The package's calls, at worked values: `python3 -m unittest tests/calls.py`."""

import unittest
from unittest import mock

import ringyew
from ringyew import FIRST_PAGE, Agent, Cause, Close, Draw, Guard, Name, Open, Page, Room, RoomFault, RoomMember, State
from ringyew._library import library


OUR_ROOM = """
ringyew = 1
session = 7
key = "000102030405060708090a0b0c0d0e0f"
[[member]]
name = "ada"
address = "192.0.2.7:47100"
[[member]]
name = "gräce"
address = "[2001:db8::7]:47101"
[settings]
waits = [2, 3, 1, 4]
least-distance = 5000
rate = 64000
depth = 4204
linger = 2000000
most-missing = 9
"""


def agent(me: int = 0) -> Agent:
    return Agent(me=me, members=2, session=7, seed=me, now=0)


class Calls(unittest.TestCase):
    def test_settings_out_of_range_are_refused(self) -> None:
        for bad in ({"rate": 0}, {"rate": 2**32}, {"depth": 1050}, {"c1": 17}, {"c1": 256}, {"d2": -1}, {"least_distance": 0}, {"least_distance": 10_000_001}):
            with self.subTest(bad), self.assertRaises(ringyew.ConfigError):
                Agent(me=0, members=2, session=7, seed=0, now=0, **bad)
        for me, members in ((2, 2), (0, 33), (0, 256), (-1, 2)):
            with self.subTest((me, members)), self.assertRaises(ringyew.ConfigError):
                Agent(me=me, members=members, session=7, seed=0, now=0)
        with self.assertRaises(ringyew.MomentError):
            Agent(me=0, members=2, session=7, seed=0, now=2**64)

    def test_calls_that_break_a_rule_are_refused(self) -> None:
        with agent() as a:
            for late in (ringyew.MOMENT_MAX + 1, 2**64, -1):
                for call in (lambda: a.draw(b"", late), lambda: a.hear(b"", late), lambda: a.tick(late), lambda: a.leave(late), lambda: a.show(FIRST_PAGE, late)):
                    self.assertRaises(ringyew.MomentError, call)
            for page in (Page(32, 0), Page(256, 0), Page(0, 65536)):
                self.assertRaises(ringyew.PageError, a.draw, b"", 0, page)
                self.assertRaises(ringyew.PageError, a.show, page, 0)
            for slot in (8, 256, 2**32, -1):
                self.assertRaises(ringyew.SlotError, a.give, slot)
            for member in (32, 256, 2**32, -1):
                self.assertRaises(ringyew.MemberError, a.distance, member)
                self.assertRaises(ringyew.MemberError, a.known, member)
                self.assertRaises(ringyew.MemberError, a.missing, member)
                self.assertRaises(ringyew.MemberError, a.next_missing, member)
            self.assertRaises(ringyew.PageError, a.known, 32, Page(32, 0))
            with self.assertRaises(ringyew.BodyLongError) as refused:
                a.draw(bytes(ringyew.BODY_MAX + 1), 0)
            self.assertEqual((refused.exception.code, str(refused.exception)), (5, "the body is too long"))

    def test_strokes_are_given_in_order(self) -> None:
        with agent(0) as drawer, agent(1) as listener:
            self.assertEqual(drawer.draw(b"a line", 5), Name(FIRST_PAGE, 0, 1))
            drawer.draw(b"", 6)
            self.assertEqual(drawer.tick(6), (0, 0, 2, State.ACTIVE))
            sent = list(drawer.datagrams())
            for datagram in reversed(sent):
                self.assertIsNone(listener.hear(datagram, 9).ignored)
                self.assertEqual(drawer.hear(datagram, 9).ignored, Cause.OWN)
            self.assertEqual(listener.hear(b"noise", 9), (Cause.DECODE, 2, 0))
            given = list(listener.messages(0))
            self.assertEqual(given, [Open(FIRST_PAGE), Draw(Name(FIRST_PAGE, 0, 1), 5, b"a line"), Draw(Name(FIRST_PAGE, 0, 2), 6, b"")])
            self.assertIsInstance(given[1], Draw)
            self.assertEqual((listener.distance(1), listener.distance(0)), (0, 100_000))

    def test_a_loss_is_requested_and_repaired(self) -> None:
        with agent(0) as drawer, agent(1) as listener:
            for _ in range(3):
                drawer.draw(b"x", 0)
            drawer.tick(0)
            *_, last = drawer.datagrams()
            self.assertEqual(listener.hear(last, 0), (None, 0, 2))
            due = listener.next_due
            self.assertTrue(due is not None and 200_000 <= due <= 400_000)
            self.assertEqual(listener.tick(400_000), (2, 0, 1, State.ACTIVE))
            names = [Name(FIRST_PAGE, 0, 1), Name(FIRST_PAGE, 0, 2)]
            self.assertEqual(list(listener.requests()), names)
            (request,) = listener.datagrams()
            self.assertEqual(drawer.hear(request, 400_000), (None, 0, 2))
            self.assertEqual(drawer.tick(600_000), (0, 2, 2, State.ACTIVE))
            self.assertEqual(list(drawer.repairs()), names)
            self.assertEqual(len(list(drawer.datagrams())), 2)

    def test_a_member_is_asked_what_it_misses(self) -> None:
        with agent(0) as drawer, agent(1) as listener:
            for _ in range(4):
                drawer.draw(b"x", 0)
            self.assertEqual(drawer.outstanding, (0, None, None, 0, 4, 0, State.ACTIVE))
            drawer.tick(0)
            for datagram in list(drawer.datagrams())[1::2]:
                listener.hear(datagram, 0)
            self.assertEqual((listener.known(0), listener.missing(0)), (4, 2))
            self.assertEqual([listener.next_missing(0, after) for after in (0, 1, 3, 2**64)], [1, 3, None, None])
            self.assertEqual((listener.known(0, Page(1, 0)), listener.next_missing(1)), (0, None))
            self.assertEqual(listener.outstanding, (2, listener.next_due, None, 0, 0, 0, State.ACTIVE))

    def test_the_rate_says_from_when_on_it_admits(self) -> None:
        with agent() as a:
            self.assertTrue(a.admits(ringyew.BODY_MAX, 0))
            for _ in range(5):
                a.draw(bytes(ringyew.BODY_MAX), 0)
            self.assertIsNone(a.admits_from(13))
            a.tick(0)
            self.assertEqual(a.admits_from(13), 136_375)
            self.assertEqual((a.admits(13, 136_374), a.admits(13, 136_375), a.admits(1024, 136_375)), (False, True, False))
            self.assertRaises(ValueError, a.admits, -1, 0)
            self.assertRaises(ringyew.MomentError, a.admits, 13, -1)
        with agent() as a:
            self.assertTrue(a.admits(0, 0))

    def test_seeds_choose_the_waits(self) -> None:
        dues = []
        for seed in (17, 18, 2**64 + 17):
            with agent(0) as drawer, Agent(me=1, members=2, session=7, seed=seed, now=0) as listener:
                for _ in range(2):
                    drawer.draw(b"x", 0)
                drawer.tick(0)
                *_, last = drawer.datagrams()
                listener.hear(last, 0)
                dues.append(listener.next_due)
        self.assertEqual(dues[0], dues[2])
        self.assertNotEqual(dues[0], dues[1])

    def test_an_agent_is_freed_once(self) -> None:
        with mock.patch.object(library, "srm_agent_free", wraps=library.srm_agent_free) as free:
            a = agent()
            del a
            self.assertEqual(free.call_count, 1)
            with agent() as a:
                a.close()
            del a
            self.assertEqual(free.call_count, 2)

    def test_a_member_leaves(self) -> None:
        with agent() as a:
            self.assertEqual(a.new_page(), Page(0, 1))
            a.leave(5)
            self.assertRaises(ringyew.LeavingError, a.leave, 5)
            self.assertEqual(a.tick(5).state, State.GONE)
            self.assertEqual(len(list(a.datagrams())), 1)
            self.assertIsNone(a.next_due)
            self.assertRaises(ringyew.GoneError, a.draw, b"", 5)
            self.assertEqual(list(a.messages(1)), [Close()])
        self.assertRaises(ValueError, a.tick, 5)
        a.close()

    def test_a_room_is_read(self) -> None:
        with Room(OUR_ROOM.encode()) as room:
            self.assertEqual(room.members, [RoomMember("ada", "192.0.2.7:47100"), RoomMember("gräce", "[2001:db8::7]:47101")])
            self.assertEqual([room.find(who) for who in ("ada", "gräce", "0", "1")], [0, 1, 0, 1])
            for who in ("2", "eve", "", "ada\0"):
                self.assertRaises(ringyew.MemberError, room.find, who)
            self.assertEqual((room.linger, room.most_missing), (2_000_000, 9))
            settings = {"me": 1, "members": 2, "session": 7, "rate": 64000, "depth": 4204, "c1": 2, "c2": 3, "d1": 1, "d2": 4, "least_distance": 5000}
            self.assertEqual(room.settings(1), settings)
            with Agent(**room.settings(1), seed=1, now=0) as a:
                self.assertEqual(a.state, State.ACTIVE)
            for me in (2, 32, 256, 2**32, -1):
                self.assertRaises(ringyew.MemberError, room.settings, me)
                self.assertRaises(ringyew.MemberError, room.guard, me, 0)
        self.assertRaises(ValueError, room.find, "ada")
        room.close()

    def test_a_text_that_is_no_room_is_refused(self) -> None:
        for text, kind, line, words in (
            (OUR_ROOM.replace("ringyew = 1", "ringyew = 2"), RoomFault.WRONG, 2, "`ringyew` is of another kind or out of its range: write the format, ringyew = 1"),
            (OUR_ROOM.replace("gräce", "ada"), RoomFault.NAME_TWICE, 9, "member 1: a member before has its `name` too: give it another"),
            ("", RoomFault.LACKS, None, "there is no `ringyew`: write the format, ringyew = 1"),
            ("#" * 70_000, RoomFault.NO_TEXT, None, "that is no text of at most 65536 bytes: write a room as srm room new does"),
        ):
            with self.subTest(words), self.assertRaises(ringyew.FaultError) as refused:
                Room(text.encode())
            self.assertEqual((refused.exception.kind, refused.exception.line, str(refused.exception)), (kind, line, words))

    def test_what_is_sealed_opens_once(self) -> None:
        with Room(OUR_ROOM.encode()) as room:
            sender, receiver = room.guard(0, start=258), room.guard(1, start=258)
        with sender, receiver:
            sealed = sender.seal(1, b"hi")
            self.assertEqual(sealed.hex(), "68690000000000000001025d3a9272a433670d9435622c43bad678")  # as hmac has it
            self.assertRaises(ringyew.UntaggedError, receiver.open, sealed[:-1])
            self.assertRaises(ringyew.UntaggedError, sender.open, sealed)
            self.assertEqual(receiver.open(sealed), b"hi")
            self.assertRaises(ringyew.AgainError, receiver.open, sealed)
            self.assertRaises(ringyew.OlderError, receiver.open, bytes.fromhex("68699d33d01c1f9024458ff7db4a2156aec5"))
            self.assertTrue(issubclass(ringyew.OlderError, ringyew.DroppedError))
            for to in (32, 256, 2**32, -1):
                self.assertRaises(ringyew.MemberError, sender.seal, to, b"hi")
            longest = sender.seal(1, bytes(ringyew.DATAGRAM_MAX))
            self.assertEqual((len(longest), len(receiver.open(longest))), (ringyew.SEALED_MAX, ringyew.DATAGRAM_MAX))
        self.assertRaises(ValueError, sender.seal, 1, b"")

    def test_guards_by_keys_of_each_length(self) -> None:
        for length in (0, 15, 1025):
            with self.assertRaises(ringyew.KeyRefusedError):
                Guard(key=bytes(length), me=0, start=0)
        for me in (32, 256, 2**32, -1):
            with self.assertRaises(ringyew.MemberError):
                Guard(key=bytes(16), me=me, start=0)
        for start in (-1, 2**64):
            with self.assertRaises(ValueError):
                Guard(key=bytes(16), me=0, start=start)
        with Guard(key=bytes(1024), me=31, start=2**64 - 1) as last:
            self.assertRaises(ringyew.CountersError, last.seal, 1, b"")

    def test_the_library_has_the_version_of_the_package(self) -> None:
        self.assertEqual(ringyew.library_version(), "0.1.0")


if __name__ == "__main__":
    unittest.main()
