"""Tests of `capture` by what would take long, or much memory: work and memory don't grow with what comes in no good order."""
from __future__ import annotations

import argparse
import tempfile
import time
import tracemalloc
import unittest
from collections.abc import Iterable, Iterator
from pathlib import Path
from typing import cast
from unittest import mock

from gavyreto.capturing import keeping
from gavyreto.capturing.accounts import Accounts
from gavyreto.capturing.connections import Connections
from gavyreto.capturing.desk import Sides
from gavyreto.capturing.files import Frame
from gavyreto.commands import capture
from tests.capture_cases import ACK, SPACE, Segment, packets
from tests.test_capture_cases import Desk
from tests.test_capture_frames import RAW
from tests.test_capture_ledger import Talk, request

SECONDS = 8  # of the processor, at most; each case takes less than one where others don't run beside it
RECORD = b"\x17\x03\x03\x00\x50" + bytes(80)


def taken(frames: Iterable[bytes]) -> Desk:
    """What a capture with these frames gives."""
    desk = Desk()
    connections = Connections({1433}, desk, Accounts())
    for frame in frames:
        connections.take(Frame(1, RAW, frame, len(frame)))
    connections.finish()
    return desk


def pieces(count: int) -> tuple[Talk, list[Segment]]:
    """A request, and the segments of its answer, of 50 bytes each."""
    talk = Talk().open().send(True, request(1))
    wire, start = packets(4, b"\x81" + bytes(count * 50) + bytes([0xFD]) + bytes(12), 4096, 51), talk.place[False]
    return talk, [Segment(False, (start + at) % SPACE, talk.place[True], ACK, wire[at:at + 50]) for at in range(0, len(wire), 50)]


class Time(unittest.TestCase):
    def assert_quick(self, talk: Talk, segments: list[Segment]) -> Desk:
        talk.segments += segments
        frames, began = talk.frames(), time.process_time()
        desk = taken(frames)
        self.assertLess(time.process_time() - began, SECONDS)
        return desk

    def test_segments_backwards(self) -> None:
        talk, segments = pieces(20000)
        self.assertTrue(self.assert_quick(talk, segments[::-1]).told)
        talk, segments = pieces(4000)
        desk = self.assert_quick(talk, segments[::-1])
        self.assertEqual((len(desk.answers), desk.told), (1, []))

    def test_holes(self) -> None:
        talk, segments = pieces(20000)
        self.assertTrue(self.assert_quick(talk, segments[::2]).told)

    def test_copies(self) -> None:
        """Of old segments, before they are acknowledged."""
        talk, segments = pieces(10000)
        desk = self.assert_quick(talk, segments + [segments[number * 7 % len(segments)] for number in range(5000)])
        self.assertEqual((len(desk.answers), desk.told), (1, []))


class Memory(unittest.TestCase):
    def peaks(self, frames: list[bytes]) -> list[int]:
        """The greatest memory that each half of a capture takes, but for the lines of the table."""
        desk, found, half = Desk(), list[int](), len(frames) // 2
        connections = Connections({1433}, desk, Accounts())
        tracemalloc.start()
        try:
            for part in (frames[:half], frames[half:]):
                tracemalloc.reset_peak()
                for frame in part:
                    connections.take(Frame(1, RAW, frame, len(frame)))
                    desk.told.clear()
                    desk.answers.clear()
                found.append(tracemalloc.get_traced_memory()[1])
            return found
        finally:
            tracemalloc.stop()

    def encrypted(self, count: int, is_client_alone: bool) -> Iterator[bytes]:
        talk = Talk().open()
        yield from talk.frames()
        for number in range(count):
            talk.segments.clear()
            talk.send(True, request(number % 100) if is_client_alone else RECORD).send(False, RECORD)
            talk.segments[1:] = [] if is_client_alone else talk.segments[1:]
            yield from talk.frames()

    def resting(self, count: int) -> Iterator[bytes]:
        """Connections that rest, one after the other."""
        for number in range(count):
            talk = Talk(1024 + number % 60000, (number * 7919, number * 104729)).open().exchange(1)
            talk.add(True, ACK)
            yield from talk.frames()

    def test_memory_does_not_grow(self) -> None:
        """With encrypted exchanges, and with those of a client's side alone."""
        for is_client_alone in (False, True):
            with self.subTest(is_client_alone=is_client_alone):
                first, second = self.peaks(list(self.encrypted(3000, is_client_alone)))
                self.assertLess(second, first + 20000)

    def test_connections_that_rest(self) -> None:
        """Those that are followed take a few kilobytes each; others about one."""
        first, second = self.peaks(list(self.resting(2400)))
        self.assertLess(second - first, 1200 * 2000)

    def test_connections_whose_texts_are_not_counted(self) -> None:
        """The numbers of so many are kept; another one goes on behind the texts that are there."""
        with tempfile.TemporaryDirectory() as folder, mock.patch.object(capture, "MOST_COUNTED", 3):
            export, names = capture.Export(argparse.Namespace(out=folder), cast(keeping.Room, None)), list[str]()
            for number in range(40):
                names.append(export._next_name(Sides("abcde"[number * number % 5], "s")))
                Path(folder, names[-1] + (".csv", ".csv.partial")[number % 2]).touch()
            self.assertEqual((len(export._counts), sorted(names)), (3, sorted({*names})))
            self.assertEqual({name[0]: max(int(it[4:]) for it in names if it[0] == name[0]) for name in names}, {it: sum(name[0] == it for name in names) for it in "abe"})

    def test_an_answer_beside_many(self) -> None:
        """Its first bytes tell what it is, also where others have all the memory and each of its pieces goes into a file."""
        data = bytes(range(256)) * 300
        for length in (3, 7, 20, 5000):
            with self.subTest(length), tempfile.TemporaryDirectory() as folder, keeping.Room(folder, [], False) as room:
                room.used, kept = keeping.MOST_OF_ALL, keeping.Kept(room)
                for at in range(0, len(data), length):
                    kept.write(data[at:at + length])
                    self.assertEqual(kept.first(1000), data[:at + length][:1000])
                with open(kept.file(), "rb") as file:
                    self.assertEqual((file.read(), room.used), (data, keeping.MOST_OF_ALL))


if __name__ == "__main__":
    unittest.main()
