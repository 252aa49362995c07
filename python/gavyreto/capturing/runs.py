"""Segments of one side that follow each other in a capture, and that are taken as one."""
from __future__ import annotations

from typing import Optional

from gavyreto.capturing.internet import ACK, AFTER_PLAIN, FIN, RESET, SYN, Header, Segment, is_sum, sum_of_ends
from gavyreto.capturing.streams import SPACE, ahead

MOST_OF_A_RUN = 1 << 16  # bytes


def is_plain(segment: Segment) -> bool:
    """Whether a segment has only data, of more than one byte, all of which was captured and is sound."""
    return segment.flags & (SYN | FIN | RESET | ACK) == ACK and len(segment.data) > 1 and not segment.cut and not segment.is_wrong


class Run:
    """Segments of one side that follow each other; between them the other side only acknowledges some of those that were there, of which
    the farthest is kept."""

    def __init__(self, segment: Segment, is_client: bool, time: int, ends: bytes) -> None:
        self.first, self.is_client, self.time = segment, is_client, time
        self._size, self._pieces = len(segment.data), [segment.data]
        self._farthest: Optional[tuple[int, int]] = None  # both numbers of what the other side acknowledges
        self._ends = ends  # as plain frames of this side have both, and as those of the other; nothing if they aren't plain
        self._back = ends[4:8] + ends[:4] + ends[10:] + ends[8:10]
        self._sum = sum_of_ends(ends[:8])

    def add(self, segment: Segment) -> bool:
        """Adds a segment, if it is the next, or only acknowledges."""
        first, ends = self.first, (segment.source, segment.target)
        is_own = ends == (first.source, first.target)
        if segment.tags != first.tags or segment.cut or segment.is_wrong or not is_own and ends != (first.target, first.source):
            return False
        goes_on = self._goes_on(is_own, segment.sequence, segment.acknowledged, segment.flags, len(segment.data))
        if goes_on:
            self._take(segment.sequence, segment.acknowledged, segment.data)
        return goes_on

    def add_plain(self, data: bytes, header: Header) -> bool:
        """The same of the segment of a plain frame."""
        ends, sequence, acknowledged, head, flags, checksum, end = header
        start, is_own = AFTER_PLAIN + (head >> 4) * 4, ends == self._ends
        if head < 0x50 or not start <= end <= len(data) or not is_own and ends != self._back:
            return False
        goes_on = self._goes_on(is_own, sequence, acknowledged, flags, end - start) and is_sum(data[AFTER_PLAIN:end], self._sum, checksum)
        if goes_on:
            self._take(sequence, acknowledged, data[start:end])
        return goes_on

    def _goes_on(self, is_own: bool, sequence: int, acknowledged: int, flags: int, size: int) -> bool:
        """Whether a segment is the next, or one of the other side that acknowledges what was there: of what comes after its acknowledgement,
        another copy may be the one that was received."""
        first, after = self.first, self.first.sequence + self._size
        if is_own:
            is_next = sequence == after % SPACE and acknowledged == first.acknowledged and self._size < MOST_OF_A_RUN
            return is_next and size > 1 and flags & (SYN | FIN | RESET | ACK) == ACK
        is_like = self._farthest is None or self._farthest[0] == sequence
        return is_like and not size and flags == ACK and ahead(after, acknowledged) >= 0

    def _take(self, sequence: int, acknowledged: int, data: bytes) -> None:
        if data:
            self._pieces.append(data)
            self._size += len(data)
        elif self._farthest is None or ahead(acknowledged, self._farthest[1]) > 0:
            self._farthest = sequence, acknowledged

    def segment(self) -> Segment:
        """All segments of the side as one."""
        return self.first._replace(data=b"".join(self._pieces)) if len(self._pieces) > 1 else self.first

    def acknowledgement(self) -> Optional[Segment]:
        """The farthest of the other side."""
        first = self.first
        return self._farthest and Segment(first.tags, first.target, first.source, *self._farthest, ACK, b"", 0, False)
