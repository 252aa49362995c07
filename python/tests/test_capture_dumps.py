"""Tests of `capture` by dumps of clients of FreeTDS: of one connection and several, whole, lacking packets, and mixed."""
from __future__ import annotations

import io
import itertools
import struct
import unittest

from gavyreto.capturing import dumps, files
from gavyreto.capturing.accounts import Accounts
from tests.capture_cases import GREETING, LOGIN_ANSWER, packets, words
from tests.test_capture_cases import Desk, Read

SIZE = 512
Line = tuple[bool, bytes]  # a packet, and whether it was received


def each(wire: bytes) -> list[bytes]:
    """The packets of a message."""
    found, at = [], 0
    while at < len(wire):
        length, = struct.unpack_from(">H", wire, at + 2)
        found.append(wire[at:at + length])
        at += length
    return found


def dumped(lines: list[Line], before: str = "log.c:1: a client begins") -> bytes:
    """A dump as FreeTDS writes it."""
    text = before + "\n"
    for is_received, packet in lines:
        text += f"net.c:1:{'Received' if is_received else 'Sending'} packet\n"
        for at in range(0, len(packet), 16):
            pairs = [f"{byte:02x}" for byte in packet[at:at + 16]]
            text += f"{at:04x} " + " ".join(pairs[:8]) + ("-" + " ".join(pairs[8:]) if len(pairs) > 8 else "") + " |................|\n"
        text += "\n"
    return text.encode()


def login(channel: int) -> list[Line]:
    """A greeting and a login; the login itself isn't in a dump, since it has the password."""
    return [(False, packets(0x12, GREETING, SIZE, 0)), (True, packets(4, GREETING, SIZE, 0)), (True, packets(4, LOGIN_ANSWER, SIZE, channel))]


def exchange(channel: int, number: int) -> tuple[list[Line], bytes]:
    """A statement and its answer in three packets, and all packets of that."""
    answer = packets(4, b"\x81" + bytes([number]) * 1200 + bytes([0xFD]) + bytes(12), SIZE, channel)
    return [(False, packets(1, words(f"SELECT {number}"), SIZE, channel)), *((True, it) for it in each(answer))], answer


def read(data: bytes) -> Read:
    """What a dump gives."""
    desk, accounts = Desk(), Accounts()
    found = dumps.dumped(files.Source(io.BytesIO(data)).lines())
    first = next(found, None)
    try:
        if first:
            dumps.take_packets(first, found, desk, accounts)
    except dumps.Mixed as why:
        desk.told.append(str(why))
    return Read(desk.answers, desk.told, accounts)


class Dumps(unittest.TestCase):
    def test_one_connection_after_the_other(self) -> None:
        for channels in ((0, 0), (51, 52), (51, 51)):
            with self.subTest(channels):
                one, first = exchange(channels[0], 1)
                other, second = exchange(channels[1], 2)
                came = read(dumped([*login(channels[0]), *one, *login(channels[1]), *other]))
                self.assertEqual((came.answers, came.told, came.accounts.connections), ([first, second], [], 2))
                self.assertTrue(came.accounts.meets())

    def test_packets_that_are_lost_behind_a_greeting(self) -> None:
        """What comes next, but for a login's answer, is told, and is never taken for the answer to the greeting."""
        (one, first), (other, second) = exchange(51, 1), exchange(51, 2)
        lines = [*login(51), *one, *other]
        for end in range(3, len(lines)):
            came = read(dumped(lines[:1] + lines[end:]))
            with self.subTest(end):
                self.assertTrue(came.told, came.accounts.line())
                self.assertEqual(came.answers, [first] * (end < 5) + [second] * (end < 9))

    def test_packets_after_other_lines(self) -> None:
        one, first = exchange(51, 1)
        came = read(dumped([*login(51), *one], "log.c:1: no packet yet\n" * 1000))
        self.assertEqual((came.answers, came.told), ([first], []))

    def test_two_connections_at_once(self) -> None:
        """They are kept apart by their SPIDs."""
        one, first = exchange(51, 1)
        other, second = exchange(52, 2)
        lines = [*login(51), *login(52), *(line for pair in zip(one, other) for line in pair)]
        came = read(dumped(lines))
        self.assertEqual((came.answers, came.told, came.accounts.connections), ([first, second], [], 2))

    def test_two_connections_without_numbers_are_refused(self) -> None:
        """However their packets are mixed, no answer is made of both."""
        one, first = exchange(0, 1)
        other, second = exchange(0, 2)
        for mixed in range(1 << 8):
            left, lines = [list(one), list(other)], []
            for place in range(8):
                side = mixed >> place & 1
                if left[side]:
                    lines.append(left[side].pop(0))
            lines += left[0] + left[1]
            came = read(dumped([*login(0), *login(0), *lines]))
            with self.subTest(mixed):
                self.assertTrue(all(it in (first, second) for it in came.answers))
                self.assertTrue(came.told or sorted(came.answers) == sorted([first, second]), came)
                self.assertTrue(came.accounts.meets())

    def test_packets_of_a_client_that_ask_nothing(self) -> None:
        """Of each type, before a login, between it and a statement, and behind the last answer: what is in no request is told too."""
        one, first = exchange(51, 1)
        for kind, place in itertools.product(range(256), (0, 3, 7)):
            lines = [*login(51), *one]
            lines.insert(place, (False, packets(kind, b"what is this", SIZE, 51 if place else 0)))
            came = read(dumped(lines))
            is_joined = kind in (0x10, 0x11, 0x12, 8) and place < 7  # several messages of a login have one answer
            with self.subTest(kind=kind, place=place):
                self.assertTrue(came.told or is_joined and came.answers == [first], came)

    def test_packets_that_are_lacking(self) -> None:
        """Whichever it is: the answer is whole, or something is told."""
        one, first = exchange(51, 1)
        other, second = exchange(51, 2)
        lines = [*login(51), *one, *other]
        for place in range(3, len(lines)):
            came = read(dumped(lines[:place] + lines[place + 1:]))
            with self.subTest(place):
                self.assertTrue(all(it in (first, second) for it in came.answers))
                self.assertTrue(came.told, came)

    def test_lines_that_only_end_like_a_head(self) -> None:
        """As the literal of a statement may that a client of DB-Library writes."""
        one, first = exchange(51, 1)
        other, second = exchange(51, 2)
        for head, count in (("SELECT ' packet.c:410:Received packet", 1), ("x: Received packet", 1), ("packet.c:410:Received packet", 2)):
            text = dumped([*login(51), *one, other[0]]) + dumped(other[1:2]).replace(b"net.c:1:Received packet", head.encode()) + dumped(other[2:])
            with self.subTest(head):
                self.assertEqual(len(read(text).answers), count)
        for head in ("16:10:49.123456 net.c:1:", "16:10:49.123456 4711 (net.c:1):", "12 34 packet.c:852:"):
            self.assertEqual(read(dumped([*login(51), *one]).replace(b"net.c:1:", head.encode())).answers, [first])
        self.assertNotEqual(first, second)

    def test_what_is_no_dump(self) -> None:
        for text in (b"", b"a packet\nof words\n", b"Received packet\nno hexadecimal\n", b"\n" * 100000):
            self.assertEqual(read(text).accounts.packets, 0)


if __name__ == "__main__":
    unittest.main()
