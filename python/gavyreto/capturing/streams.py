"""One side of a connection in order: each of its bytes once, by sequence number (RFC 9293, section 3.4).

Three numbers of TCP count here. The sequence number of a segment is that of its first byte; of one without data it is that of the
byte that its sender sends next (or the one before that, if it asks whether the other side is there), so it shows how much was sent.
The acknowledgement number is that of the byte that its sender expects: it shows how much the other side has sent, and that this much
was received. SYN and FIN take one number each.

Of several copies of a byte the first counts. One that differs is told, as far as the receiver hadn't acknowledged the byte: past
that, no copy reaches it. What comes before its turn is held, in a window of bounded size; past it what is lacking counts as lost."""
from __future__ import annotations

import struct
import zlib
from bisect import bisect_left
from typing import NamedTuple, Optional

from gavyreto.capturing.memory import OBJECT, Share

SPACE, HALF = 1 << 32, 1 << 31
WINDOW = 1 << 20  # bytes that are held of one stream
FARTHEST = 1 << 28  # bytes after all that is shown, that a number of the same stream may be ahead by
REMEMBERED = 1 << 20  # bytes of one stream, handed out and not acknowledged, that copies are compared with
MARK = struct.Struct(">QI")
MOST_MARKS = 8 * MARK.size
MOST_SINGLE = 64  # single bytes before their turn


class Piece(NamedTuple):
    """Bytes of a stream: where they begin, what the other side had sent as far as their sender knew (its sequence number), and
    when they came."""

    place: int
    data: bytes
    acknowledged: int
    time: int

    def end(self) -> int:
        return self.place + len(self.data)


class Side(NamedTuple):
    """What is known of one side of a connection that has ended or rests: the sequence number of its SYN, the place after its last
    byte, how many bytes that are, their checksum, and the checksums of the first of them, each after how many bytes."""

    first: Optional[int]
    place: int
    size: int
    sum: int
    marks: bytes

    @property
    def start(self) -> int:
        """The place of its first byte."""
        return self.place - self.size


class Pieces(list[Piece]):
    """Pieces in order, each of which counts in a share from its coming to its going."""

    def __init__(self, share: Share) -> None:
        super().__init__()
        self.size = 0  #: bytes of all, with those that each costs besides
        self._share = share

    def put(self, piece: Piece, at: int) -> None:
        """Puts a piece at a place among them."""
        self.insert(at, piece)
        self._count(len(piece.data) + OBJECT)

    def take(self, count: int) -> list[Piece]:
        """Takes the first ones away."""
        taken, self[:count] = self[:count], []
        self._count(-sum([len(piece.data) + OBJECT for piece in taken]))
        return taken

    def _count(self, size: int) -> None:
        self.size += size
        self._share.count(size)


def ahead(sequence: int, other: int) -> int:
    """How far a sequence number is ahead of another; below 0 if it is before that."""
    return (sequence - other + HALF) % SPACE - HALF


class Stream:
    """One side of a connection. Places count its bytes, from its first sequence number on, without an end."""

    def __init__(self, share: Share) -> None:
        self.place = -1  #: of the next byte in order; below 0 before anything is known
        self.start = 0  #: of its first byte, as far as that is known
        self.first: Optional[int] = None  #: the sequence number of its SYN
        self.shown = 0  #: the greatest place that any frame shows to be sent
        self._shown_before = 0  # the greatest but that
        self.acknowledged = 0  #: the greatest place that the other side says it has
        self.is_late = False  #: whether its beginning isn't there
        self.delivered = 0  #: bytes handed out
        self.sum = 0  #: a checksum (CRC-32) of them
        self.marks = b""  #: after each of the first pieces: how many bytes were handed out, and their checksum
        self.differing = 0  #: bytes of copies that differ from the first
        self.early = 0  #: bytes that came again, unacknowledged, when the first copy was forgotten, or before the first that counts
        self.end: Optional[int] = None  #: its place, after a FIN
        self.held = Pieces(share)  #: what came before its turn, none twice
        self._sent = Pieces(share)  # handed out and not acknowledged
        self._share, self._is_firm = share, False
        self._single: dict[int, Piece] = {}  # single bytes before their turn, which may be none
        self._sums: dict[int, tuple[int, int]] = {}  # by the place of a piece: its length, and its checksum

    # Places.

    def place_of(self, sequence: int) -> int:
        """The place of a sequence number, the nearest to the next byte."""
        return self.place + ahead(sequence, self.place)

    def begin(self, sequence: int, is_late: bool, is_firm: bool = False) -> None:
        """Its first byte has this number; if that isn't firm, it may have a lower one. The places begin so high that none is
        below 0."""
        self.place, self.is_late, self._is_firm = SPACE + sequence, is_late, is_firm
        self.start = self.shown = self._shown_before = self.place
        self.acknowledged = self.place if is_firm or not is_late else 0

    def begin_at(self, place: int) -> None:
        """Its first byte has this place, as it turns out before there is any."""
        self.place = self.start = place
        self.is_late = False
        self.show(place)

    def side(self) -> Side:
        """What is kept of it."""
        return Side(self.first, self.place, self.place - self.start, self.sum, self.marks)

    def go_on(self, side: Side) -> None:
        """It was there before, and goes on: all that is kept of it was acknowledged."""
        self.first = side.first
        if side.place >= 0:
            _, _, self.delivered, self.sum, self.marks = side
            self.start = SPACE + side.start % SPACE
            self.place = self.shown = self.acknowledged = self.start + side.size
            self._is_firm = True

    def is_near(self, sequence: int) -> bool:
        """Whether a number is that of a byte that is there, or close after it."""
        after = (sequence - self.place) % SPACE
        return after < WINDOW or SPACE - after <= self.place - self.start

    def is_far(self, sequence: int) -> bool:
        """Whether a number is before the beginning, or far after all that is shown. A number less than that of the first byte asks whether
        the other side is there; of a stream whose beginning isn't there, earlier bytes may come."""
        return self.is_begun() and not self.start - (WINDOW if self.is_late else 1) <= self.place_of(sequence) <= self.shown + FARTHEST

    def is_ahead(self, sequence: int) -> bool:
        """Whether a number is after what may be held of all that is shown."""
        return self.is_begun() and self.place_of(sequence) > self.shown + WINDOW

    def may_begin(self, sequence: int) -> bool:
        """Whether it may have begun with a number that isn't that of its first byte, as far as is known."""
        place = self.place_of(sequence)
        return place == self.start or not self.delivered and abs(place - self.start) < WINDOW

    def is_begun(self) -> bool:
        return self.place >= 0

    def is_over(self) -> bool:
        """Whether all up to its end was handed out."""
        return self.end is not None and self.place >= self.end

    def lacking(self) -> int:
        """How many bytes are shown to be sent and weren't handed out. A number more may be that of a FIN that isn't there: no
        message has one byte."""
        if not self.is_begun():
            return 0
        if self.end is not None:
            return max(self.end - self.place, self.shown - 1 - self.place, 0)
        left = self.shown - self.place
        return left if left > 1 else 0

    def show(self, place: int) -> None:
        """A frame shows that all up to a place was sent."""
        if place > self.shown:
            self._shown_before, self.shown = self.shown, place

    def disown(self, sequence: int) -> None:
        """The greatest number that was shown is the first one of another connection, if it is this one."""
        if self.is_begun() and self.shown == self.place_of(sequence) and not self.held:
            self.shown = self.acknowledged = max(self._shown_before, self.place)

    # Bytes.

    def settle(self, place: int) -> None:
        """The other side has all up to a place, and no copy counts any more of what was handed out of that."""
        if place > self.acknowledged:
            self.acknowledged = place
            self.show(place)
        count = 0
        while count < len(self._sent) and self._sent[count].end() <= place:
            count += 1
        if count:
            self._sent.take(count)

    def add(self, piece: Piece) -> list[Piece]:
        """Takes a piece, and returns what is in order by it."""
        if piece.place == self.place and not self.held and not self._single:
            return [self._hand_out(piece)]
        if piece.place < self.place:
            if self._lowers(piece):
                self.place = self.start = piece.place
            else:
                self._compare_sent(piece)
                piece = _from(piece, self.place)
        if piece.data:
            self._hold(piece)
        pieces = self.in_order()
        while self._single and self.place in self._single:
            pieces += [self._hand_out(self._single.pop(self.place)), *self.in_order()]
        return pieces

    def add_single(self, piece: Piece) -> list[Piece]:
        """Takes a byte that may only ask whether the other side is there: then it is any byte, with the number of the last one that was
        sent. So it counts only before any other copy, and if it isn't the last one that is shown."""
        if piece.place + 1 == self.shown or piece.place < self.place:
            return []
        if piece.place == self.place:
            return self.add(piece)
        if len(self._single) < MOST_SINGLE:
            self._single[piece.place] = piece
        return []

    def _lowers(self, piece: Piece) -> bool:
        """Whether a piece is the first of a stream whose beginning isn't there, and of which nothing was handed out."""
        return self.is_late and not self._is_firm and not self.delivered and self.place - piece.place < WINDOW

    def _hand_out(self, piece: Piece) -> Piece:
        self.place = piece.end()
        self.delivered += len(piece.data)
        self.sum = zlib.crc32(piece.data, self.sum)
        if len(self.marks) < MOST_MARKS:
            self.marks += MARK.pack(self.delivered, self.sum)
        self._sent.put(piece, len(self._sent))
        if self._sent.size - len(self._sent) * OBJECT > REMEMBERED:
            self.shorten(2)
        return piece

    def in_order(self) -> list[Piece]:
        """Hands out what is held and in order."""
        count, place = 0, self.place
        while count < len(self.held) and self.held[count].place == place:
            place = self.held[count].end()
            count += 1
        return [self._hand_out(piece) for piece in self.held.take(count)]

    def _hold(self, piece: Piece) -> None:
        """Holds what isn't held of a piece."""
        at = _first_after(self.held, piece.place)
        self._compare(piece, self.held)
        while piece.data:
            following = self.held[at] if at < len(self.held) else None
            if following is None or piece.place < following.place:
                free = piece._replace(data=piece.data[:following.place - piece.place]) if following else piece
                self.held.put(free, at)
                piece = _from(piece, free.end())
            else:
                piece = _from(piece, following.end())
            at += 1

    # Copies.

    def _compare(self, piece: Piece, others: list[Piece]) -> int:
        """Counts the bytes of a piece that differ from an earlier copy of them. Returns how many there is a copy of."""
        compared, at = 0, _first_after(others, piece.place)
        while at < len(others) and others[at].place < piece.end():
            other = others[at]
            start, end = max(piece.place, other.place), min(piece.end(), other.end())
            if start < end:
                compared += end - start
                own, first = piece.data[start - piece.place:end - piece.place], other.data[start - other.place:end - other.place]
                if own != first:
                    self.differing += sum(one != another for one, another in zip(own, first))
            at += 1
        return compared

    def _compare_sent(self, piece: Piece) -> None:
        """Compares a copy of what was handed out; as far as its receiver hadn't all of it, there has to be something to compare."""
        settled = max(self.acknowledged, self.start)
        self.early += max(min(piece.end(), self.start) - piece.place, 0)
        self._compare(piece._replace(data=piece.data[:max(settled - piece.place, 0)]), self._sent)
        copy = _from(piece, settled)
        lacking = min(copy.end(), self.place) - copy.place - self._compare(copy, self._sent)
        length, checksum = self._sums.get(piece.place, (0, 0))
        if lacking > 0 and length != len(piece.data):
            self.early += lacking
        elif lacking > 0 and checksum != zlib.crc32(piece.data):
            self.differing += length

    def shorten(self, share: int = 1) -> None:
        """Remembers checksums instead of what it remembers, or of the older half of it, or another share."""
        count = (len(self._sent) + share - 1) // share
        for piece in self._sent.take(count):
            self._sums[piece.place] = len(piece.data), zlib.crc32(piece.data)
            self._share.memory.remember(self._sums, piece.place)

    # What is lacking.

    def jump(self, place: int) -> int:
        """Goes on at a place, of a stream that holds nothing before it: how many bytes are lacking."""
        lacking, self.place = place - self.place, place
        return lacking

    def close(self) -> None:
        """Lets go what is held and remembered."""
        self.held.take(len(self.held))
        self._sent.take(len(self._sent))
        self._sums.clear()


def _from(piece: Piece, place: int) -> Piece:
    """What a piece has from a place on."""
    return piece._replace(place=max(place, piece.place), data=piece.data[max(place - piece.place, 0):])


def _first_after(pieces: list[Piece], place: int) -> int:
    """Where the first piece is that may have the byte at a place, or one after it."""
    return max(bisect_left(pieces, Piece(place, b"", 0, 0)) - 1, 0)
