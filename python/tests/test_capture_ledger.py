"""Tests of `capture` by what a capture shows and doesn't have, by whose name an answer has, and by connections that come again."""
from __future__ import annotations

import itertools
import struct
import unittest
from collections.abc import Iterable
from dataclasses import replace
from typing import Optional
from unittest import mock

from gavyreto.capturing import connections, endings, memory
from tests.capture_cases import ACK, FIN, GREETING, PUSH, RESET, SPACE, SYN, Conversation, Link, Segment, packets, pcap, words
from tests.test_capture_cases import Read, read
from tests.test_capture_frames import RAW, Plain

CLIENT, SERVER = (bytes([192, 0, 2, 1]), 50000), (bytes([192, 0, 2, 2]), 1433)
LOGIN_ANSWER = packets(4, bytes([0xAD, 12, 0, 1, 0x74, 0, 0, 4, 1, 65, 0, 16, 0, 0, 0]) + bytes([0xFD]) + bytes(12), 4096, 51)
SEGMENT = 1000


def answer(number: int, length: int = 2500) -> bytes:
    """An answer, of whose bytes each tells its number."""
    return packets(4, b"\x81" + bytes([number]) * length + bytes([0xFD]) + bytes(12), 4096, 51)


def request(number: int) -> bytes:
    return packets(1, words(f"SELECT {number}"), 4096, 0)


class Talk:
    """The segments of a connection, in order."""

    def __init__(self, client: int = 50000, first: tuple[int, int] = (99, 499)) -> None:
        self.made = Conversation((CLIENT[0], client), SERVER)
        self.segments: list[Segment] = []
        self.place = {True: first[0], False: first[1]}

    def add(self, is_client: bool, flags: int, data: bytes = b"", back: int = 0) -> Segment:
        """A segment, so many bytes before its turn."""
        acknowledged = self.place[not is_client] if flags & ACK else 0
        found = Segment(is_client, (self.place[is_client] - back) % SPACE, acknowledged, flags, data)
        self.segments.append(found)
        if not back:
            self.place[is_client] = (self.place[is_client] + len(data) + bool(flags & (SYN | FIN))) % SPACE
        return found

    def open(self) -> Talk:
        self.add(True, SYN)
        self.add(False, SYN | ACK)
        self.add(True, ACK)
        return self

    def send(self, is_client: bool, data: bytes, size: int = SEGMENT) -> Talk:
        for at in range(0, len(data), size):
            self.add(is_client, ACK | PUSH, data[at:at + size])
        return self

    def exchange(self, *numbers: int) -> Talk:
        """Statements, and their answers."""
        for number in numbers:
            self.send(True, request(number))
            self.send(False, answer(number))
        return self

    def close(self) -> Talk:
        self.add(True, FIN | ACK)
        self.add(False, FIN | ACK)
        self.add(True, ACK)
        return self

    def frames(self, link: Link = Plain()) -> list[bytes]:
        return [link.frame(segment, self.made) for segment in self.segments]


def come(*talks: Talk) -> Read:
    """What a capture of connections gives, one after the other."""
    return of(frame for talk in talks for frame in talk.frames())


def of(frames: Iterable[bytes]) -> Read:
    return read(pcap(RAW, list(frames)))


class Shown(unittest.TestCase):
    """What a frame shows to be sent, and isn't there, is told."""

    def assert_whole(self, came: Read, numbers: Iterable[int]) -> None:
        self.assertEqual((came.answers, came.told, came.accounts.meets()), ([answer(number) for number in numbers], [], True))

    def assert_told(self, came: Read, numbers: Iterable[int]) -> None:
        self.assertEqual((came.answers, bool(came.told), came.accounts.meets()), ([answer(number) for number in numbers], True, True), came.told)

    def test_wrong_checksums(self) -> None:
        """All frames of a connection beside a good one, all from its first data on, and the last ones; sent again, nothing lacks."""
        for start in (0, 3, 8, 10):
            answers = [1] if start >= 8 else []
            made = Talk(50001).open().exchange(1, 2)
            for segment in made.segments[start:]:
                segment.is_wrong = True
            with self.subTest(start):
                self.assert_told(come(Talk().open().exchange(3), made), [3, *answers])
                made.segments = [it for one in made.segments for it in ([one, replace(one, is_wrong=False)] if one.is_wrong else [one])]
                self.assert_whole(come(Talk().open().exchange(3), made), [3, 1, 2])

    def test_requests_that_are_not_whole(self) -> None:
        """Half of two packets, all but the last byte, and a part of a header."""
        for data in (packets(1, words("SELECT 2" + " " * 900), 512, 0)[:600], request(2)[:-1], request(2)[:3]):
            with self.subTest(len(data)):
                self.assert_told(come(Talk().open().exchange(1).send(True, data)), [1])

    def test_a_last_exchange_that_is_lost(self) -> None:
        """Only an acknowledgement shows it, or a reset, or a segment that asks whether the other side is there, of either side."""
        for flags, is_client, back in itertools.product((ACK, RESET | ACK, FIN | ACK), (True, False), (0, 1)):
            made = Talk().open().exchange(1)
            kept = len(made.segments)
            made.exchange(2)
            del made.segments[kept:]
            made.add(is_client, flags, back=back)
            with self.subTest(flags=flags, is_client=is_client, back=back):
                self.assert_told(come(made), [1])
        for flags in (ACK, RESET | ACK):
            made = Talk().open().exchange(1, 2)
            made.add(True, flags)
            made.add(False, flags, back=1)
            self.assert_whole(come(made), [1, 2])

    def test_frames_that_the_capture_counts_as_lost(self) -> None:
        """In the statistics of an interface, and before a frame."""
        frames = Talk().open().exchange(1).frames()
        for counted, before, is_told in (
            (b"", b"", False), (option(5, 7), b"", True), (option(7, 1), b"", True), (option(5, 0) + option(7, 0), b"", False), (b"", option(4, 3), True),
        ):
            with self.subTest(counted=counted, before=before):
                came = read(pcapng(frames, counted, before))
                self.assertEqual((came.answers, came.told), ([answer(1)], ["lost frames"] * is_told))
        for lost, is_told in ((0, False), (3, True), (0xFFFF, False)):
            came = read(pcapng(frames, b"", b"", lost))
            self.assertEqual((came.answers, came.told), ([answer(1)], ["lost frames"] * is_told), lost)

    def test_damaged_blocks(self) -> None:
        """Whichever bit of a block's type or of its two lengths is another one, and however many blocks the first length takes in: all answers
        come, or something is told."""
        data = pcapng(Talk().open().exchange(1).frames() + Talk(50001).open().exchange(2).frames(), b"", b"")
        ends = [0]
        while ends[-1] < len(data):
            ends.append(ends[-1] + struct.unpack_from("<I", data, ends[-1] + 4)[0])
        blocks = list(zip(ends, ends[1:]))
        changes = [(at, data[at] ^ 1 << bit) for start, end in blocks for at in (*range(start, start + 8), *range(end - 4, end)) for bit in range(8)]
        damaged = [data[:at] + bytes([byte]) + data[at + 1:] for at, byte in changes if at >= 4]  # the first four tell that it is a capture
        damaged += [data[:start + 4] + struct.pack("<I", end - start) + data[start + 8:] for start, _ in blocks for end in ends if end > start + 8]
        for it in (data, *damaged):
            came = read(it)
            self.assertTrue(came.told or came.answers == [answer(1), answer(2)], it)

    def test_blocks_of_other_types(self) -> None:
        """Those that may have a frame are told."""
        frames = Talk().open().exchange(1).frames()
        for kind in (0, 4, 7, 10, 11, 0x0BAD, 0x40000BAD, 0x0102, 0x0201, 0x0213, 0x0214, 0x80000001):
            came = read(pcapng(frames, b"", b"") + block(kind, bytes(40)))
            self.assertEqual((came.answers, came.told), ([answer(1)], ["unknown blocks"] * (kind in (0, 11, 0x0214, 0x80000001))), kind)

    def test_a_copy_that_differs_of_what_was_acknowledged_before_it_came(self) -> None:
        """Which copy was received isn't known of a segment that comes after its acknowledgement, whatever an earlier one says behind it; of one
        that comes before it no copy counts."""
        ethernet = Plain()
        ethernet.kind = 1
        for link, before, is_followed in itertools.product((Plain(), ethernet), range(4), (False, True)):
            made = Talk().open().exchange(1)
            *_, first, second, last = made.segments
            whole = replace(first, is_client=True, sequence=first.acknowledged, acknowledged=made.place[False], flags=ACK, data=b"")
            made.segments[len(made.segments) - before:len(made.segments) - before] = [whole]
            made.segments += [replace(whole, acknowledged=second.sequence)] * is_followed
            made.segments.append(replace(last, data=bytes(byte ^ 1 for byte in last.data)))
            with self.subTest(kind=link.kind, before=before, is_followed=is_followed):
                came = read(pcap(link.kind, made.frames(link)))
                self.assertEqual((came.answers, bool(came.told)), ([answer(1)], before > 0), came.told)

    def test_routing_headers(self) -> None:
        """Their packets go to another address than the last: the one that the checksum is of."""
        made = Talk().open().exchange(1)
        hosts = bytes(range(16)), bytes(range(16, 32))
        made.made = Conversation((hosts[0], 50000), (hosts[1], 1433))
        for kind, at in ((0, 8), (2, 8), (4, 8)):
            frames = [routed(frame, kind, at) for frame in made.frames()]
            with self.subTest(kind):
                self.assert_whole(of(frames), [1])


def routed(frame: bytes, kind: int, at: int) -> bytes:
    """A packet of IPv6 on its way by another address."""
    head = struct.pack(">BBBB", 6, 2, kind, 1) + bytes(at - 4) + frame[24:40]
    return frame[:4] + struct.pack(">HB", len(frame) - 40 + len(head), 43) + frame[7:24] + bytes([0xFE]) * 16 + head + frame[40:]


def option(code: int, value: int) -> bytes:
    return struct.pack("<HHQ", code, 8, value)


def block(kind: int, body: bytes) -> bytes:
    length = 12 + len(body)
    return struct.pack("<II", kind, length) + body + struct.pack("<I", length)


def pcapng(frames: list[bytes], counted: bytes, before: bytes, lost: Optional[int] = None) -> bytes:
    """A file of pcapng with options in its last packet, and with statistics; if frames are lost before the last one, of packets of the
    older type, which count them."""
    data = block(0x0A0D0D0A, struct.pack("<IHHq", 0x1A2B3C4D, 1, 0, -1)) + block(1, struct.pack("<HHI", RAW, 0, 0))
    for frame in frames:
        is_last = frame is frames[-1]
        head = struct.pack("<IIIII", 0 if lost is None else lost * is_last << 16, 0, 0, len(frame), len(frame))
        data += block(6 if lost is None else 2, head + frame + bytes(-len(frame) % 4) + (before if is_last else b""))
    return data + block(5, struct.pack("<III", 0, 0, 0) + counted)


class Names(unittest.TestCase):
    """An answer has the name of its own statement, or none."""

    def assert_names(self, came: Read, names: list[str]) -> None:
        self.assertEqual(came.words, names, came.told)

    def test_a_bulk_load_that_lacks_a_segment(self) -> None:
        made = Talk().open().exchange(1)
        start = len(made.segments)
        made.send(True, packets(7, bytes(range(256)) * 40, 512, 0)).send(False, answer(2)).exchange(3, 4)
        for lost in range(start, start + 10):
            with self.subTest(lost):
                left = Talk()
                left.segments = made.segments[:lost] + made.segments[lost + 1:]
                came = come(left)
                self.assertEqual(came.answers, [answer(number) for number in (1, 2, 3, 4)])
                self.assertTrue(came.told)
                self.assert_names(came, ["SELECT 1", "(a bulk load)" if lost > start else came.words[1], "SELECT 3", "SELECT 4"])

    def test_a_request_without_an_answer(self) -> None:
        made = Talk().open().exchange(1).send(True, request(9)).exchange(2, 3)
        came = come(made)
        self.assert_names(came, ["SELECT 1", "SELECT 2", "SELECT 3"])
        self.assertEqual(came.told, ["no answer to it came"])

    def test_what_answers_a_login(self) -> None:
        """It is accepted or refused, and may be asked in turn; an answer with rows is told."""
        changed, refused, done = bytes([0xE3, 3, 0, 1, 0, 0]), bytes([0xAA, 2, 0, 1, 2]), bytes([0xFD]) + bytes(12)
        accepted, asked = bytes([0xAD, 1, 0, 1]), bytes([0xED, 1, 0, 1])
        for tokens in (accepted + done, changed + accepted + done, changed + bytes([0xAE, 0xFF]) + accepted + done, refused + done, asked):
            made = Talk().open().send(True, packets(0x12, GREETING, 4096, 0)).send(False, packets(4, GREETING, 4096, 0))
            came = come(made.send(True, packets(0x10, bytes(200), 4096, 0)).send(False, packets(4, tokens, 4096, 51)))
            with self.subTest(tokens):
                self.assertEqual((came.answers, came.told, came.accounts.in_logins), ([], [], 8 + len(tokens)))
        for kind in (0x10, 0x12):
            came = come(Talk().open().send(True, packets(kind, GREETING, 4096, 0)).send(False, answer(1)))
            self.assertEqual((came.answers, came.told, came.accounts.meets()), ([answer(1)], ["nothing was asked for before the answer that follows"], True))

    def test_an_alert_after_the_login(self) -> None:
        """The end of the login's TLS asks for nothing."""
        made = Talk().open().send(True, packets(0x12, GREETING, 4096, 0)).send(False, packets(4, GREETING, 4096, 0))
        made.send(True, b"\x17\x03\x03\x00\x50" + bytes(80)).send(False, LOGIN_ANSWER).send(True, b"\x15\x03\x03\x00\x1A" + bytes(26)).exchange(1, 2)
        came = come(made)
        self.assertEqual(came.told, [])
        self.assert_names(came, ["SELECT 1", "SELECT 2"])

    def test_a_request_and_its_answer_that_are_lost(self) -> None:
        """Whatever is lost, no answer has the name of another statement."""
        made = Talk().open().exchange(1, 2, 3, 4)
        for count in range(1, 9):
            for start in range(3, len(made.segments) - count):
                left = Talk()
                left.segments = made.segments[:start] + made.segments[start + count:]
                came = come(left)
                with self.subTest(start=start, count=count):
                    self.assertTrue(came.told or len(came.answers) == 4)
                    for data, name in zip(came.answers, came.words):
                        self.assertIn(name, (f"SELECT {data[9]}", ""))

    def test_an_attention_never_names_rows(self) -> None:
        """It is lost what was asked, and the attention is there."""
        made = Talk().open().exchange(1).send(True, request(2))
        made.segments.pop()
        made.send(False, answer(2)[:1000]).send(True, packets(6, b"", 4096, 0)).send(False, answer(2)[1000:])
        came = come(made)
        self.assert_names(came, ["SELECT 1", ""])
        self.assertTrue(came.told)

    def test_an_attention_that_is_captured_after_its_acknowledgement(self) -> None:
        """Also where that is in one segment with the end of the answer."""
        cancelled = packets(4, bytes([0xFD, 0x20, 0]) + bytes(10), 4096, 51)
        for size in SEGMENT, 5 * SEGMENT:
            made = Talk().open().exchange(1).send(True, request(2)).send(False, answer(2)[:1000]).send(True, packets(6, b"", 4096, 0))
            attention = made.segments.pop()
            made.send(False, answer(2)[1000:] + cancelled, size)
            made.segments.append(attention)
            came = come(made.exchange(3))
            self.assertEqual((came.answers, came.told), ([answer(1), answer(2), answer(3)], []))
            self.assert_names(came, ["SELECT 1", "SELECT 2", "SELECT 3"])


class Whole(unittest.TestCase):
    """Nothing is told where nothing lacks."""

    def test_syns_in_any_order(self) -> None:
        rest = Talk().open().exchange(1, 2).close()
        first = rest.segments[:3]
        orders = [*itertools.permutations(range(3)), *itertools.permutations((0, 0, 1, 1, 2))]
        for order, numbers in itertools.product(orders, ((99, 499), (SPACE - 1, SPACE - 1), (SPACE - 2, 7))):
            made = Talk(first=numbers).open().exchange(1, 2).close()
            made.segments[:3] = [made.segments[place] for place in order]
            came = come(made)
            with self.subTest(order=order, numbers=numbers):
                self.assertEqual((came.answers, came.told), ([answer(1), answer(2)], []))
        for place in range(len(rest.segments)):
            made = Talk()
            made.segments = [*rest.segments[:place], *first[:2], *rest.segments[place:]]
            came = come(made)
            with self.subTest(place):
                self.assertEqual((came.answers, came.told), ([answer(1), answer(2)], []))

    def test_a_copy_that_comes_late_among_others(self) -> None:
        """Before an acknowledgement, after a megabyte of others and in a time when more is held than may be."""
        late = Talk().open().send(True, request(1)).send(False, answer(1))
        copies = late.segments[4:]
        others = [Talk(50001 + number).open().exchange(1, 2, 3).frames() for number in range(200)]
        with mock.patch.object(memory, "MOST_HELD", 100000):
            came = of([*late.frames(), *itertools.chain(*others), *(Plain().frame(it, late.made) for it in copies)])
        self.assertEqual((len(came.answers), came.told), (601, []))

    def test_what_dead_connections_hold(self) -> None:
        """A connection that lacks a segment holds what follows; others are whole, and so is what is disordered in them."""
        with mock.patch.object(memory, "MOST_HELD", 100000):
            dead = [Talk(40000 + number).open().send(True, request(1)).send(False, answer(1, 9000)) for number in range(30)]
            for it in dead:
                del it.segments[4]
            good = Talk().open().exchange(1, 2)
            good.segments[4:6] = good.segments[4:6][::-1]
            came = come(*dead, good)
        self.assertEqual(came.answers, [answer(1), answer(2)])

    def test_checksums_that_are_left_to_the_adapter(self) -> None:
        """Their sum may be that of the addresses, the protocol and the length, or without the length; where it is 0, FFFF is the same."""
        made = Talk().open().exchange(1)
        for length in (0, len(made.frames()[4]) - 20):
            left = 0xFFFF * 3 - 6 - length - sum(struct.unpack(">2H", SERVER[0]))
            made.made = Conversation((struct.pack(">HH", 0xFFFF, left % 0xFFFF), 50000), SERVER)
            frames = [written(frame, length) for frame in made.frames()]
            with self.subTest(length):
                self.assertIn(b"\xFF\xFF", [frame[36:38] for frame in frames])
                self.assertEqual((of(frames).answers, of(frames).told, sum(of(frames).accounts.foreign.values())), ([answer(1)], [], 0))

    def test_a_servers_side_alone(self) -> None:
        """With logins of further messages: those of SSPI, and of a federation."""
        for token in (bytes([0xED, 3, 0, 1, 2, 3]), bytes([0xEE, 3, 0, 0, 0, 1, 2, 3])):
            made = Talk().open().send(True, packets(0x12, GREETING, 4096, 0)).send(False, packets(4, GREETING, 4096, 0))
            made.send(True, packets(0x10, bytes(200), 4096, 0)).send(False, packets(4, token, 4096, 51)).send(True, packets(0x11, bytes(90), 4096, 0))
            made.send(False, LOGIN_ANSWER).exchange(1, 2)
            made.segments = [it for it in made.segments if not it.is_client]
            came = come(made)
            with self.subTest(token):
                self.assertEqual((came.answers, came.told), ([answer(1), answer(2)], []))

    def test_segments_of_one_byte(self) -> None:
        """In order, before their turn, and as what only asks whether the other side is there."""
        for at in range(4):
            made = Talk().open().send(True, request(1))
            for start, end in ((0, 500), (500, 501), (501, 1500), (1500, len(answer(1)))):
                made.add(False, ACK, answer(1)[start:end])
            made.add(False, ACK, b"\0", back=1)
            made.segments.insert(4 + at, made.segments.pop(5))
            came = come(made)
            with self.subTest(at):
                self.assertEqual((came.answers, came.told), ([answer(1)], []))


def written(frame: bytes, length: int) -> bytes:
    """A packet of IPv4 whose checksum of TCP is what an adapter is to complete: with the length, if there is one."""
    total = sum(struct.unpack(">4H", frame[12:20])) + 6 + (len(frame) - 20 if length else 0)
    return frame[:36] + struct.pack(">H", total % 0xFFFF or 0xFFFF) + frame[38:]


class Again(unittest.TestCase):
    """A connection that comes again is compared; one that has other numbers is another one."""

    def test_a_file_that_is_joined_to_itself(self) -> None:
        for is_closed, count in itertools.product((True, False), (1, 40)):
            talks = [Talk(50000 + number).open().exchange(1, 2) for number in range(count)]
            frames = [frame for it in talks for frame in (it.close() if is_closed else it).frames()]
            for most in (1 << 14, 8):
                with self.subTest(is_closed=is_closed, count=count, most=most), mock.patch.object(endings, "MOST_ENDED", most), mock.patch.object(
                        connections, "MOST_RESTING", most):
                    came = of(frames * 2)
                    self.assertTrue(came.accounts.meets())
                    self.assertTrue(came.told or came.answers == [answer(1), answer(2)] * count)
                    self.assertEqual(bool(came.told), most < count)

    def test_a_port_that_is_used_again(self) -> None:
        """With other numbers, with the same ones, and without its SYN."""
        for is_closed in (True, False):
            one = Talk().open().exchange(1, 2)
            one = one.close() if is_closed else one
            other = Talk(first=(70000, 90000)).open().exchange(3, 4)
            came = come(one, other)
            self.assertEqual((came.answers, came.told, came.accounts.connections), ([answer(number) for number in (1, 2, 3, 4)], [], 2))
            for numbers in ((3, 4), (3,), (3, 4, 5), (1, 4)):
                came = come(one, Talk().open().exchange(*numbers))
                with self.subTest(numbers=numbers, is_closed=is_closed):
                    self.assertTrue(came.told)
            for first in ((1 << 31, 1 << 31), (1 << 30, 5 << 28), (7 << 29, 7 << 29), (50, 7 << 29)):
                other = Talk(first=first).open().exchange(3, 4)
                del other.segments[:3]
                came = come(one, other)
                with self.subTest(first=first, is_closed=is_closed):
                    self.assertTrue(came.told or came.answers == [answer(number) for number in (1, 2, 3, 4)])

    def test_more_connections_than_are_followed(self) -> None:
        """One that rests goes on; one with a message under way is told."""
        with mock.patch.object(connections, "MOST_RESTING", 8):
            talks = [Talk(50000 + number).open().exchange(1) for number in range(20)]
            first = [frame for it in talks for frame in it.frames()]
            for it in talks:
                it.segments.clear()
                it.exchange(2)
            came = of([*first, *(frame for it in talks for frame in it.frames())])
            self.assertEqual((came.answers, came.told, came.accounts.connections), ([answer(1)] * 20 + [answer(2)] * 20, [], 20))
        for count in (1, 2, 3):
            rest = [Talk(50000 + number, (number << 27, number << 26)).open().exchange(1).frames() for number in range(20)]
            with self.subTest(opened=count), mock.patch.object(connections, "MOST_RESTING", 4):
                came = of([*(frame for it in rest for frame in it[:count]), *(frame for it in rest for frame in it[count:])])
                self.assertEqual((came.answers, came.told, came.accounts.connections), ([answer(1)] * 20, [], 20))
        talks = [Talk(50000 + number).open().exchange(1) for number in range(20)]
        for most, count in (8, 20), (30, 20), (8, 2):
            rest = [it.frames() for it in talks]
            under_way = [frame for it in rest[:count] for frame in it[:-1]] + [frame for it in rest[count:] for frame in it]
            with self.subTest(most=most, count=count), mock.patch.object(connections, "MOST_RESTING", 4), mock.patch.object(connections, "MOST_OPEN", most):
                came = of([*under_way, *(it[-1] for it in rest[:count])])
                self.assertEqual((came.told.count(connections.GIVEN_UP) >= count - most, bool(came.told)), (True, count > most))


if __name__ == "__main__":
    unittest.main()
