"""A connection in a capture: both streams, what they show to be sent, and what becomes of their bytes."""
from __future__ import annotations

from collections.abc import Iterable
from typing import Optional

from gavyreto.capturing.accounts import Accounts
from gavyreto.capturing.answers import Answers
from gavyreto.capturing.desk import Desk, Sides
from gavyreto.capturing.internet import ACK, FIN, RESET, SYN, Segment, Tags, is_single
from gavyreto.capturing.memory import Memory, Share
from gavyreto.capturing.messages import Requests
from gavyreto.capturing.streams import SPACE, WINDOW, Piece, Pieces, Side, Stream


class Conversation:
    """A connection.

    Bytes of a server that begin an answer wait for what the server had read then, so that the order of frames in a capture
    doesn't matter."""

    def __init__(self, sides: Sides, tags: Tags, desk: Desk, accounts: Accounts, memory: Memory) -> None:
        self.sides, self.tags = sides, tags
        self.share = Share(memory, self.shorten)
        self.client, self.server = Stream(self.share), Stream(self.share)
        self._answers, self._requests = Answers(sides, desk, accounts), Requests()
        self._desk = desk
        self._is_client_seen = self._is_client_absent = False  # whether anything of it is there; whether it isn't waited for
        self._lacking = 0  # bytes of the client
        self._waiting = Pieces(self.share)  # of the server, not yet taken
        self._time = self._arriving = 0  # of the last segment, and the place of its first byte

    # Whose segments.

    def contradicts(self, is_client: bool, segment: Segment) -> bool:
        """Whether a segment has numbers that no segment of this connection has: before its beginning, or far after all that it
        shows. A SYN has to be the same."""
        stream, other = self.streams(is_client)
        is_other = stream.is_far(segment.sequence)
        if segment.flags & SYN and stream.is_begun():
            is_other = segment.sequence != stream.first if stream.first is not None else not stream.may_begin((segment.sequence + 1) % SPACE)
        return is_other or bool(segment.flags & ACK) and other.is_far(segment.acknowledged)

    def is_far_ahead(self, is_client: bool, segment: Segment) -> bool:
        """Whether a segment has numbers far after all that is shown of this connection."""
        stream, other = self.streams(is_client)
        return stream.is_ahead(segment.sequence) or bool(segment.flags & ACK) and other.is_ahead(segment.acknowledged)

    def is_near(self, is_client: bool, segment: Segment) -> bool:
        """Whether a segment, which is no SYN, has both numbers among those of what is there, or close after it."""
        stream, other = self.streams(is_client)
        return segment.flags & (SYN | ACK) == ACK and stream.is_near(segment.sequence) and other.is_near(segment.acknowledged)

    def streams(self, is_client: bool) -> tuple[Stream, Stream]:
        """The one of a side, and the other."""
        return (self.client, self.server) if is_client else (self.server, self.client)

    def comes_again(self, is_client: bool, segment: Segment) -> bool:
        """Whether a segment may be one of a connection that comes again as a whole: a SYN after bytes of both sides, or a copy."""
        stream, other = self.streams(is_client)
        if segment.flags & SYN:
            return stream.delivered > 0 and other.delivered > 0
        return bool(segment.data) and stream.place_of(segment.sequence) < stream.place

    def first(self) -> tuple[Optional[int], Optional[int]]:
        """The sequence numbers of both SYNs, as far as they are there."""
        return self.client.first, self.server.first

    def disown(self, is_client: bool, segment: Segment) -> None:
        """A SYN came of another connection of these ports: what only one number showed that is its first one was shown of that."""
        if segment.flags & SYN:
            stream, other = self.streams(is_client)
            stream.disown((segment.sequence + 1) % SPACE)
            if segment.flags & ACK:
                other.disown(segment.acknowledged)

    def is_idle(self) -> bool:
        """Whether all that is shown to be sent is there, and no message is under way."""
        if self.client.lacking() or self.server.lacking() or self.client.held or self.server.held or self._waiting:
            return False
        return self._answers.is_idle() and self._requests.is_between() and not self._lacking and not self._complaints()

    def is_over(self) -> bool:
        """Whether both sides are there to their ends."""
        return self.client.is_over() and self.server.is_over() and not self._waiting

    # Segments.

    def go_on(self, client: Side, server: Side) -> None:
        """It has been there, and goes on."""
        for stream, side in ((self.client, client), (self.server, server)):
            stream.go_on(side)
        if client.size > 0 and server.size > 0:
            self._answers.go_on()

    def take(self, is_client: bool, segment: Segment, time: int) -> None:
        """A segment came. Of one with a wrong checksum only the numbers count: it was sent, and nobody took it."""
        self._time = time
        stream, other = self.streams(is_client)
        flags, sequence = segment.flags, segment.sequence
        if flags & SYN:
            self._open(is_client, stream, sequence)
            sequence = (sequence + 1) % SPACE
        data = b"" if flags & RESET else segment.data  # what a reset has besides isn't of the stream
        is_only_one = bool(data) and is_single(segment)
        if not stream.is_begun():
            stream.begin((sequence + is_only_one) % SPACE, True)
            self._begin_late(is_client, time)
        acknowledged = self._acknowledged(is_client, other, segment)
        if is_client and not self._is_client_absent:
            self._is_client_seen = self._answers.is_client_known = True
        place = self._arriving = stream.place_of(sequence)
        end = place + len(data) + segment.cut
        if data and not segment.is_wrong:
            piece = Piece(place, data, acknowledged, time)
            self._arrived(stream, stream.add_single(piece) if is_only_one else stream.add(piece))
        stream.show(end + bool(flags & FIN))
        if flags & FIN and stream.end is None and not segment.is_wrong:
            stream.end = end
        if data and not segment.is_wrong:
            self._advance()

    def _open(self, is_client: bool, stream: Stream, sequence: int) -> None:
        """A SYN came."""
        if stream.first is None:
            stream.first = sequence
            if not stream.is_begun():
                stream.begin((sequence + 1) % SPACE, False)
            elif not stream.delivered and not stream.held:
                stream.begin_at(stream.place_of((sequence + 1) % SPACE))
            if is_client:
                self._answers.is_client_known, self._requests.is_late = True, False
            else:
                self._answers.begin_whole()

    def _begin_late(self, is_client: bool, time: int) -> None:
        """The beginning of a side's stream isn't there."""
        if is_client:
            self._requests.is_late = True
        else:
            self._answers.begin_late(time)

    def _acknowledged(self, is_client: bool, other: Stream, segment: Segment) -> int:
        """The place of the byte that the sender of a segment expects."""
        if not segment.flags & ACK:
            return 0
        if not other.is_begun():
            other.begin(segment.acknowledged, True, is_firm=True)
            self._begin_late(not is_client, self._time)
            self._requests.is_late = self._requests.is_late and not segment.flags & SYN  # of a server, to that of its client
        place = other.place_of(segment.acknowledged)
        if segment.flags & SYN and place < other.start and not is_client:
            self._lacking += other.start - place  # the connection begins in the capture, and its client had sent them
            other.start = place
        if segment.is_wrong:
            other.show(place)
        else:
            other.settle(place)
        return place

    def _arrived(self, stream: Stream, pieces: Iterable[Piece]) -> None:
        """Pieces are in order. Those of the client are taken at once."""
        for piece in pieces:
            if stream is self.server:
                if self._waiting or self._answers.is_between() and self._waits(piece):
                    self._waiting.put(piece, len(self._waiting))
                else:
                    self._take_answer(piece)
            elif not self._answers.is_over:
                for request in self._requests.take(piece):
                    if request.start == self._arriving:
                        self.client.settle(request.start)  # its client had an answer to all before it
                    self._answers.request(request)

    def _advance(self) -> None:
        """Takes what can be taken of the server, and gives up what is past a window."""
        if self.share.held:
            self._take_answers()
            self._let_go(WINDOW)

    def _take_answers(self) -> None:
        while self._waiting and not (self._answers.is_between() and self._waits(self._waiting[0])):
            self._take_answer(self._waiting.take(1)[0])

    def _take_answer(self, piece: Piece) -> None:
        taken = self._answers.take(piece, self._waits(piece))
        if taken < len(piece.data):
            self._waiting.put(piece._replace(place=piece.place + taken, data=piece.data[taken:]), 0)
        if self._answers.begun == self._arriving:
            self.server.settle(self._arriving)  # whoever asked for it had all before it

    def _waits(self, piece: Piece) -> bool:
        """Whether the server had read more of the client than is there yet."""
        stream = self.client
        return stream.is_begun() and not self._is_client_absent and stream.place < piece.acknowledged - (stream.end is not None)

    # What is lacking.

    def _give_up(self, stream: Stream) -> None:
        """Goes on with what is held of a stream, after what is lacking."""
        start, first = stream.place, stream.held[0]
        lacking, pieces = stream.jump(first.place), stream.in_order()
        self._lose(stream, start, lacking, first.time)
        self._arrived(stream, pieces)

    def _lose(self, stream: Stream, start: int, lacking: int, time: int) -> None:
        if lacking and stream is self.client:
            self._lacking += lacking
            self._requests.lose()
            self._answers.lose_of_client(start, start + lacking)
        elif lacking:
            self._wait_for(0)
            self._answers.lose(lacking, time)

    def _wait_no_longer(self) -> None:
        """What a server waits for isn't there."""
        stream, wanted = self.client, self._waiting[0].acknowledged
        if not self._is_client_seen:
            self._is_client_absent, self._answers.is_client_known = True, False
        elif stream.held and stream.held[0].place < wanted:
            self._give_up(stream)
        else:
            start = stream.place
            self._lose(stream, start, stream.jump(wanted), self._time)

    def _let_go(self, most: int) -> None:
        """Holds at most so many bytes of each side before their turn: what is lacking before them counts as lost."""
        for stream in (self.client, self.server):
            while stream.held.size > most:
                self._give_up(stream)
                self._take_answers()
        self._wait_for(most)

    def _wait_for(self, most: int) -> None:
        """Has at most so many bytes of the server wait."""
        while self._waiting.size > most:
            self._wait_no_longer()
            self._take_answers()

    def shorten(self) -> None:
        """Holds nothing but checksums of what it has remembered."""
        self._let_go(0)
        self.client.shorten()
        self.server.shorten()

    # The end.

    def finish(self, why: str = "") -> None:
        """Nothing more comes. If something is under way, the reason is told."""
        if why and not self.is_idle():
            self._desk.tell(self.sides, self._time, why)
        self._let_go(0)
        self._tell_lacking()
        for complaint in self._complaints():
            self._desk.tell(self.sides, self._time, complaint)
        self._answers.finish()
        self.client.close()
        self.server.close()
        self.share.close()
        self._answers.pending.close()

    def _tell_lacking(self) -> None:
        """Tells what is shown to be sent, and lacks at the ends."""
        lacking = self.server.lacking()
        if lacking:
            self._answers.lose(lacking, self._time)
        self._lacking += 0 if self._is_client_absent else self.client.lacking()
        if self._lacking and not self._answers.is_over:
            self._desk.tell(self.sides, self._time, f"{self._lacking} bytes of the client are lacking")

    def _complaints(self) -> list[str]:
        """What is wrong besides."""
        found = []
        for stream, name in ((self.client, "client"), (self.server, "server")):
            if stream.differing:
                found.append(f"{stream.differing} bytes of the {name} came again with other values: those that came first count")
            if stream.early:
                found.append(f"{stream.early} bytes of the {name} came too late to be compared")
        if (complaint := self._requests.complaint()) and not self._answers.is_over:
            found.append(complaint)
        return found

    def ended(self) -> tuple[Side, Side]:
        """What is kept of it: its client, and its server."""
        return self.client.side(), self.server.side()
