"""Tests of `capture` by frames of each link and tunnel, and by connections that aren't as one expects."""
from __future__ import annotations

import itertools
import random
import struct
import sys
import tempfile
import unittest
from collections.abc import Callable
from dataclasses import replace
from unittest import mock

from gavyreto.capturing.accounts import Accounts
from gavyreto.capturing.files import Frame
from gavyreto.commands import capture, common
from tests.capture_cases import ACK, PUSH, SYN, Conversation, Link, Segment, checksum, packets, pcap, words
from tests.test_capture_cases import Read, read

CLIENT, SERVER = (bytes([192, 0, 2, 1]), 50000), (bytes([192, 0, 2, 2]), 1433)
ANSWER = packets(4, b"\x81" + bytes(3000) + bytes([0xFD]) + bytes(12), 4096, 51)
REQUEST = packets(1, words("SELECT 1"), 4096, 0)
ETHERNET, COOKED, COOKED_2, RAW, NULL = 1, 113, 276, 101, 0


class Plain(Link):
    """Frames with nothing before the packet of IP, and nothing after it."""

    def __init__(self) -> None:
        super().__init__(random.Random(1))
        self.kind, self.vlans, self.padding, self.is_offloaded, self.has_extensions, self.is_without_length = RAW, [], "none", False, False, False


def one_exchange() -> list[Segment]:
    """A connection with a statement and its answer."""
    segments = [Segment(True, 99, 0, SYN), Segment(False, 499, 100, SYN | ACK), Segment(True, 100, 500, ACK)]
    segments.append(Segment(True, 100, 500, ACK | PUSH, REQUEST))
    for at in range(0, len(ANSWER), 1000):
        segments.append(Segment(False, 500 + at, 100 + len(REQUEST), ACK, ANSWER[at:at + 1000]))
    return segments


def framed(segments: list[Segment], link: int, wrap: Callable[[bytes], bytes]) -> Read:
    """What a capture gives whose packets are wrapped so."""
    made, plain = Conversation(CLIENT, SERVER), Plain()
    return read(pcap(link, [wrap(plain.frame(segment, made)) for segment in segments]))


def ethernet(kind: int, payload: bytes) -> bytes:
    return bytes(range(12)) + struct.pack(">H", kind) + payload


def ipv4(protocol: int, payload: bytes) -> bytes:
    head = struct.pack(">BBHHHBBH", 0x45, 0, 20 + len(payload), 1, 0, 64, protocol, 0) + bytes([198, 51, 100, 1, 198, 51, 100, 2])
    return head[:10] + struct.pack(">H", checksum(head)) + head[12:] + payload


def udp(port: int, payload: bytes) -> bytes:
    return ipv4(17, struct.pack(">HHHH", 40000, port, 8 + len(payload), 0) + payload)


WRAPPED: dict[str, tuple[int, Callable[[bytes], bytes]]] = {
    "Ethernet": (ETHERNET, lambda it: ethernet(0x0800, it)),
    "VLAN": (ETHERNET, lambda it: ethernet(0x8100, struct.pack(">HH", 0x2064, 0x0800) + it)),
    "two VLANs": (ETHERNET, lambda it: ethernet(0x88A8, struct.pack(">HHHH", 7, 0x8100, 8, 0x0800) + it)),
    "MPLS": (ETHERNET, lambda it: ethernet(0x8847, struct.pack(">II", 0x10040, 0x20140) + it)),
    "PPPoE": (ETHERNET, lambda it: ethernet(0x8864, struct.pack(">BBHHH", 0x11, 0, 9, len(it) + 2, 0x21) + it)),
    "SNAP": (ETHERNET, lambda it: ethernet(len(it) + 8 if len(it) < 1400 else 1500, b"\xAA\xAA\x03\0\0\0\x08\x00" + it)),
    "SLL": (COOKED, lambda it: struct.pack(">HHHQH", 0, 1, 6, 0, 0x0800) + it),
    "SLL2": (COOKED_2, lambda it: struct.pack(">HHIHBBQ", 0x0800, 0, 2, 1, 0, 6, 0) + it),
    "loopback of BSD": (NULL, lambda it: struct.pack("<I", 2) + it),
    "IP": (RAW, lambda it: it),
    "IP in IP": (RAW, lambda it: ipv4(4, it)),
    "GRE": (RAW, lambda it: ipv4(47, struct.pack(">HH", 0, 0x0800) + it)),
    "GRE with key and number": (RAW, lambda it: ipv4(47, struct.pack(">HHII", 0x3000, 0x0800, 5, 6) + it)),
    "ERSPAN": (RAW, lambda it: ipv4(47, struct.pack(">HHI", 0x1000, 0x88BE, 6) + bytes(8) + ethernet(0x0800, it))),
    "VXLAN": (ETHERNET, lambda it: ethernet(0x0800, udp(4789, struct.pack(">II", 0x08000000, 77 << 8) + ethernet(0x0800, it)))),
    "Geneve": (RAW, lambda it: udp(6081, struct.pack(">HHII", 0x0100, 0x6558, 77 << 8, 0) + ethernet(0x0800, it))),
}
UNREAD: dict[str, tuple[int, Callable[[bytes], bytes]]] = {
    "link type 127": (127, lambda it: it),
    "protocol 0x002d of PPP": (9, lambda it: b"\xFF\x03\x00\x2D" + it),
    "protocol 0x003d of PPP": (50, lambda it: b"\x3D\xC0" + it),
    "a fragment of IP": (RAW, lambda it: it[:6] + b"\x20\x00" + it[8:]),
    "a frame that is too short for its headers": (RAW, lambda it: it[:30]),
    "a wrong header of TCP": (RAW, lambda it: it[:32] + b"\x10" + it[33:]),
}
FOREIGN: dict[str, tuple[int, bytes]] = {
    "type 0x88e5 of Ethernet": (ETHERNET, ethernet(0x88E5, bytes(40))),
    "type 0x8915 of Ethernet": (ETHERNET, ethernet(0x8915, bytes(40))),
    "type 0x0000 in a tunnel": (ETHERNET, ethernet(0x0800, ipv4(47, bytes(4)))),
    "protocol 50 of IP": (RAW, ipv4(50, bytes(40))),
}


class Frames(unittest.TestCase):
    def test_each_link_and_tunnel(self) -> None:
        for name, (link, wrap) in WRAPPED.items():
            with self.subTest(name):
                came = framed(one_exchange(), link, wrap)
                self.assertEqual((came.answers, came.told, came.accounts.in_connections), ([ANSWER], [], 8))

    def test_what_is_not_read_is_told(self) -> None:
        for reason, (link, wrap) in UNREAD.items():
            with self.subTest(reason):
                came = framed(one_exchange(), link, wrap)
                self.assertIn(reason, came.accounts.unread if "short" not in reason and "header" not in reason else [reason])
                self.assertEqual((came.answers, sum(came.accounts.unread.values()), came.accounts.meets()), ([], 8, True))

    def test_fragments_of_tunnels(self) -> None:
        """Their first fragments are told; those of other datagrams, and of other protocols, say nothing of a connection."""
        made, plain = Conversation(CLIENT, SERVER), Plain()
        whole = [plain.frame(segment, made) for segment in one_exchange()]
        for (protocol, port), is_6, at in itertools.product(((17, 4789), (17, 8472), (17, 6081), (17, 53), (1, 4789)), (False, True), (0, 4)):
            payload = struct.pack(">HHHH", 40000, port, 2000, 0) + bytes(800)
            fragment = ipv4(protocol, payload)[:6] + struct.pack(">H", 0x2000 | at) + ipv4(protocol, payload)[8:]
            if is_6:
                fragment = struct.pack(">IHBB", 6 << 28, 8 + len(payload), 44, 64) + bytes(32) + struct.pack(">BBHI", protocol, 0, at << 3 | 1, 7) + payload
            came = read(pcap(RAW, [*whole, fragment]))
            with self.subTest(protocol=protocol, port=port, is_6=is_6, at=at):
                self.assertEqual((came.answers, came.told), ([ANSWER], ["a fragment of IP"] * (port != 53 and protocol == 17 and not at)))

    def test_what_is_foreign_is_counted(self) -> None:
        """Frames of other protocols beside a connection say nothing of it; at most 20 kinds have a line."""
        for kind, (link, frame) in FOREIGN.items():
            made, plain = Conversation(CLIENT, SERVER), Plain()
            wrap = WRAPPED["Ethernet" if link == ETHERNET else "IP"][1]
            came = read(pcap(link, [frame, *(wrap(plain.frame(segment, made)) for segment in one_exchange())]))
            with self.subTest(kind):
                self.assertEqual((came.answers, came.told, dict(came.accounts.foreign), came.accounts.meets()), ([ANSWER], [], {kind: 1}, True))
        came = read(pcap(ETHERNET, [ethernet(0x9900 + number, bytes(40)) for number in range(30)]))
        self.assertEqual((len(came.accounts.foreign), came.accounts.foreign["further kinds"]), (21, 10))

    def test_tags_without_an_end(self) -> None:
        """A frame of nothing but tags is one that isn't read."""
        came = read(pcap(ETHERNET, [ethernet(0x8100, struct.pack(">HH", 0, 0x8100) * 994)]))
        self.assertEqual(list(came.accounts.unread), ["more than 32 tags and tunnels"])

    def test_two_networks_with_the_same_addresses(self) -> None:
        """Their frames alternate. With other numbers each has a connection of its own; with the same ones they are the same frames, and
        so are those within and outside a tunnel."""
        made, plain = Conversation(CLIENT, SERVER), Plain()
        others = [replace(it, sequence=it.sequence + 70000, acknowledged=it.acknowledged + 70000 * bool(it.flags & ACK)) for it in one_exchange()]
        for second, count in (others, 2), (one_exchange(), 1):
            frames = [
                ethernet(0x8100, struct.pack(">HH", vlan, 0x0800) + plain.frame(segment, made))
                for pair in zip(one_exchange(), second) for segment, vlan in zip(pair, (10, 20))]
            came = read(pcap(ETHERNET, frames))
            with self.subTest(count):
                self.assertEqual((came.answers, came.told, came.accounts.connections), ([ANSWER] * count, [], count))
        for name in ("VLAN", "VXLAN"):
            frames = [wrap(plain.frame(segment, made)) for segment in one_exchange() for wrap in (WRAPPED["Ethernet"][1], WRAPPED[name][1])]
            came = read(pcap(ETHERNET, frames))
            with self.subTest(name):
                self.assertEqual((came.answers, came.told, came.accounts.connections), ([ANSWER], [], 1))

    def test_other_protocols_are_counted(self) -> None:
        frames = [ethernet(0x0806, bytes(28)), ethernet(0x0800, udp(53, bytes(20))), ethernet(0x0800, ipv4(1, bytes(8))), ethernet(38, bytes(38))]
        came = read(pcap(ETHERNET, frames))
        self.assertEqual((came.accounts.elsewhere, came.accounts.unread, came.accounts.meets()), (4, {}, True))

    def test_a_connection_without_data(self) -> None:
        """As a check of health makes it."""
        came = framed(one_exchange()[:3], RAW, lambda it: it)
        self.assertEqual((came.answers, came.told, came.accounts.connections), ([], [], 1))

    def test_answers_that_hide(self) -> None:
        """An answer that begins with 00, or looks like a login, is one if a statement was asked; so is a packet of another type told."""
        login = packets(4, bytes([0xAD, 12, 0, 1, 0x74, 0, 0, 4, 1, 65, 0, 16, 0, 0, 0]) + bytes([0xFD]) + bytes(12), 4096, 51)
        greeting = packets(4, bytes([0, 0, 6, 0, 6, 0xFF, 16, 0, 0x10, 0, 0, 0]), 4096, 51)
        for wire, is_answer in ((login, True), (greeting, True), (b"\x12" + ANSWER[1:], False)):
            segments = one_exchange()[:4] + [Segment(False, 500, 100 + len(REQUEST), ACK, wire)]
            came = framed(segments, RAW, lambda it: it)
            with self.subTest(wire[8:12]):
                self.assertEqual((came.answers, bool(came.told)), ([wire] if is_answer else [], not is_answer))

    def test_requests_without_answers(self) -> None:
        """The first two exchanges lack their answers, and a third has one: each is told."""
        place = 100
        segments = one_exchange()[:3]
        for _ in range(2):
            segments.append(Segment(True, place, 500, ACK | PUSH, REQUEST))
            place += len(REQUEST)
        segments.append(Segment(True, place, 700, ACK | PUSH, REQUEST))
        segments.append(Segment(False, 700, place + len(REQUEST), ACK, ANSWER))
        came = framed(segments, RAW, lambda it: it)
        self.assertEqual((came.answers, came.told.count("no answer to it came"), came.accounts.unanswered), ([ANSWER], 2, 2))

    def test_how_far_a_capture_is_read(self) -> None:
        """A line on a terminal, written anew and taken away in the end; elsewhere none."""
        frames = [Frame(1, RAW, b"", 0)] * 3
        for is_terminal in (True, False):
            said: list[str] = []
            with tempfile.TemporaryFile(buffering=0) as file, mock.patch.object(common, "SECONDS_OF_PROGRESS", -1), mock.patch.object(capture, "FRAMES", 1), \
                    mock.patch.object(sys.stderr, "isatty", lambda: is_terminal), mock.patch.object(sys.stdout, "isatty", lambda: False), \
                    mock.patch.object(common, "say", said.append):
                file.write(bytes(100))
                file.seek(50)
                self.assertEqual(list(capture.shown(iter(frames), file, Accounts(answers=7))), frames)
            with self.subTest(is_terminal=is_terminal):
                self.assertEqual(said, ["\r\033[K50 of 100 bytes, 7 answers, 0 seconds left"] * 3 * is_terminal + ["\r\033[K"] * is_terminal)

    def test_padding_is_no_data(self) -> None:
        """Of an acknowledgement that was captured too late, too."""
        segments = one_exchange()
        late = Segment(False, 500 + 1000, 100 + len(REQUEST), ACK)
        came = framed([*segments, late], ETHERNET, lambda it: (ethernet(0x0800, it) + b"\x99" * 60)[:max(60, 14 + len(it))])
        self.assertEqual((came.answers, came.told), ([ANSWER], []))


if __name__ == "__main__":
    unittest.main()
