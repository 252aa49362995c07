"""Connections that have ended, or rest: their numbers and checksums, by which what comes again is known and compared."""
from __future__ import annotations

from collections import OrderedDict
from typing import NamedTuple, Optional, Union

from gavyreto.capturing.conversations import Conversation
from gavyreto.capturing.internet import ACK, SYN, Segment, Tags, is_single
from gavyreto.capturing.memory import Memory, Share
from gavyreto.capturing.streams import FARTHEST, MARK, SPACE, WINDOW, Piece, Side, Stream, ahead

MOST_ENDED = 1 << 14  # whose numbers are kept
MOST_OF_A_KEY = 4  # of the same addresses
FILTER = 1 << 25  # bits by which earlier ones are known, as a filter of Bloom has it
BITS_OF_ONE = 7


class Ended(NamedTuple):
    """A connection that has ended or rests: its tags, its two sides, and whether both were there to their ends."""

    tags: Tags
    client: Side
    server: Side
    is_over: bool

    def streams(self, is_client: bool) -> tuple[Side, Side]:
        """What is known of a side, and of the other."""
        return (self.client, self.server) if is_client else (self.server, self.client)

    def has(self, is_client: bool, segment: Segment) -> bool:
        """Whether a segment is one more of it: by the number of its SYN, or by both its numbers. Nothing comes after an end."""
        own, other = self.streams(is_client)
        if segment.flags & SYN and own.place >= 0:
            return segment.sequence == own.first
        if own.place < 0 or other.place < 0:  # nothing of a side was there
            return other.place >= 0 and bool(segment.flags & ACK) and _is_near(other, segment.acknowledged, 0, FARTHEST)
        size, most = len(segment.data) + segment.cut, 1 if self.is_over else FARTHEST
        return _is_near(own, segment.sequence, size, most) and (not segment.flags & ACK or _is_near(other, segment.acknowledged, 0, most))

    def is_new(self, is_client: bool, segment: Segment) -> bool:
        """Whether a segment shows more than is there."""
        own, other = self.streams(is_client)
        if own.place < 0 or other.place < 0:
            return own.place < 0 or not segment.flags & SYN
        more = ahead(segment.sequence + len(segment.data) + segment.cut, own.place)
        return more > 1 or bool(segment.data) and more == 1 or ahead(segment.acknowledged, other.place) > 1


def _is_near(side: Side, sequence: int, size: int, most: int) -> bool:
    """Whether so many bytes from a number on are of a side: none before its SYN, and none that are farther ahead of its last one."""
    return -side.size - 1 <= ahead(sequence, side.place) <= most - size


class Revisit:
    """A connection that comes again with its first numbers, as in a file that is joined to itself: the bytes of each side, from the first
    that were there up to where they ended, to be compared with those that came first."""

    def __init__(self, memory: Memory, first: Union[Conversation, Ended], time: int) -> None:
        self.first, self.time = first, time
        self._share = Share(memory, self.close)
        self._streams = Stream(self._share), Stream(self._share)
        self._has_syn = [False, False]
        self._is_given_up = False

    def close(self) -> None:
        """Lets go what it holds, and takes nothing more."""
        self._is_given_up = True
        for stream in self._streams:
            stream.close()

    def take(self, is_client: bool, segment: Segment) -> None:
        """One more segment of it."""
        stream, first = self._streams[not is_client], self.first.streams(is_client)[0]
        if segment.flags & SYN:
            self._has_syn[not is_client] = True
            if not stream.is_begun():
                stream.begin((segment.sequence + 1) % SPACE, False)
        if not stream.is_begun() and segment.data and segment.sequence == first.start % SPACE:
            stream.begin(segment.sequence, False)
        if not segment.flags & SYN and stream.is_begun() and segment.data and not segment.is_wrong and not self._is_given_up:
            place = stream.place_of(segment.sequence)
            piece = Piece(place, segment.data[:max(stream.place_of(first.place % SPACE) - place, 0)], 0, 0)
            stream.add_single(piece) if is_single(segment) else stream.add(piece)
            stream.show(piece.end())
            stream.settle(stream.place)
            if stream.held.size > WINDOW:
                self.close()

    def has_begun(self, is_client: bool) -> bool:
        """Whether bytes of a side have come."""
        return self._streams[not is_client].delivered > 0

    def differs(self) -> bool:
        """Whether the bytes of a side are known not to be the same, those up to its end or to where one of its first pieces ended; or, of
        two sides that both began again with a SYN, aren't known to be the same."""
        first = self.first.ended() if isinstance(self.first, Conversation) else self.first.streams(True)
        found = [_is_same(*it) for it in zip(self._streams, first)]
        return False in found or all(self._has_syn) and None in found and all(stream.delivered for stream in self._streams)


def _is_same(again: Stream, first: Side) -> Optional[bool]:
    """Whether what comes again of a side is the same; None if nothing says."""
    if again.differing:
        return False
    known: dict[int, int] = {size: checksum for size, checksum in MARK.iter_unpack(first.marks)} | {first.size: first.sum, 0: 0}
    compared = {size: known[size] == checksum for size, checksum in [*MARK.iter_unpack(again.marks), (again.delivered, again.sum)] if size in known}
    return False if False in compared.values() else compared.get(again.delivered)


class Endings:
    """The connections that have ended or rest, the latest of them by all their numbers, earlier ones by a filter."""

    def __init__(self) -> None:
        self._ended: OrderedDict[bytes, tuple[Ended, ...]] = OrderedDict()
        self._filter = bytearray()

    def add(self, key: bytes, conversation: Conversation) -> None:
        """A connection has ended, or rests."""
        ended = Ended(conversation.tags, *conversation.ended(), conversation.is_over())
        of_key = (*self._ended.pop(key, ()), ended)
        for it in of_key[:-MOST_OF_A_KEY]:
            self._remember(key, it)
        self._ended[key] = of_key[-MOST_OF_A_KEY:]
        if len(self._ended) > MOST_ENDED:
            oldest, all_of_it = self._ended.popitem(last=False)
            for it in all_of_it:
                self._remember(oldest, it)

    def find(self, key: bytes, is_client: bool, segment: Segment) -> Optional[Ended]:
        """The connection that a segment is one more of."""
        found = [it for it in self._ended.get(key, ()) if it.has(is_client, segment)]
        found.sort(key=lambda it: (not it.is_new(is_client, segment), it.tags == segment.tags))
        return found[-1] if found else None

    def take(self, key: bytes, ended: Ended) -> None:
        """Forgets a connection, which goes on."""
        left = tuple(it for it in self._ended.pop(key) if it is not ended)
        if left:
            self._ended[key] = left

    def _bits(self, key: bytes, first: tuple[Optional[int], Optional[int]]) -> list[int]:
        from hashlib import blake2b  # for more connections than most captures have: it takes some megabytes

        digest = blake2b(key + repr(first).encode(), digest_size=4 * BITS_OF_ONE).digest()
        return [int.from_bytes(digest[at:at + 4], "big") % FILTER for at in range(0, len(digest), 4)]

    def _remember(self, key: bytes, ended: Ended) -> None:
        if ended.client.first is None and ended.server.first is None:
            return
        if not self._filter:
            self._filter = bytearray(FILTER // 8)
        for bit in self._bits(key, (ended.client.first, ended.server.first)):
            self._filter[bit // 8] |= 1 << bit % 8

    def has_been(self, key: bytes, first: tuple[Optional[int], Optional[int]]) -> bool:
        """Whether a connection with these first numbers seems to have been among those whose numbers aren't kept."""
        return bool(self._filter) and all(self._filter[bit // 8] >> bit % 8 & 1 for bit in self._bits(key, first))
