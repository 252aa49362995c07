"""The answers in the bytes of a server: where each begins and ends, and what it answers.

What a greeting or a login is, is known by what was asked; only where nothing is known of the client, by the first messages of the
connection. After bytes that are lacking an answer begins only where a request says so, or where the server has read more."""
from __future__ import annotations

from typing import Optional

from gavyreto import tds
from gavyreto.capturing.accounts import Accounts
from gavyreto.capturing.desk import Answer, Desk, Lost, Sides
from gavyreto.capturing.messages import Asked, Packets, Request, is_greeting, is_header, is_login, is_record
from gavyreto.capturing.pending import HANDSHAKE, Pending
from gavyreto.capturing.streams import Piece
from gavyreto.tds import PacketType

ANSWERS, HANDSHAKES = (PacketType.ANSWER,), (PacketType.ANSWER, PacketType.PRELOGIN)


class Answers:
    """Takes the bytes of a server in order, and hands each answer on."""

    def __init__(self, sides: Sides, desk: Desk, accounts: Accounts, is_numbered: bool = False) -> None:
        self.pending = Pending(accounts, self._tell_unanswered)
        self.is_client_known = False  #: whether what the client sent is there
        self.is_client_whole = True  #: whether nothing of it is lacking
        self.is_over = ""  #: why nothing more is read
        self.begun = 0  #: the place where the last answer began
        self._sides, self._desk, self._accounts = sides, desk, accounts
        self._is_numbered = is_numbered
        self._answer: Optional[Answer] = None
        self._lost: Optional[Lost] = None
        self._answered = 0  # answers to statements so far
        self._greeted = self._logged_in = False
        self._asked: Optional[int] = None  # the first place where an answer may begin to more than greeting and login
        self._before: Optional[Piece] = None  # the piece before
        self._over_bytes, self._over_time = 0, 0
        self._channel: Optional[int] = None

    def is_idle(self) -> bool:
        """Whether nothing is under way: no answer, no request without one, and no byte that is passed over."""
        return self._answer is None and not self._lost and not self.pending and not self.is_over

    def is_early(self) -> bool:
        """Whether nothing was asked for yet but a greeting and a login."""
        return not self._logged_in and self._asked is None

    def is_between(self) -> bool:
        """Whether the next bytes may begin an answer."""
        return self._answer is None and not self.is_over

    def request(self, request: Request) -> None:
        """The client begins to ask."""
        self.is_client_known = True
        if self._asked is None and request.kind not in HANDSHAKE:
            self._asked = request.acknowledged
        self.pending.add(request)

    def lose_of_client(self, start: int, end: int) -> None:
        """Bytes of the client are lacking, between two places."""
        self.is_client_whole = False
        self.pending.hole = start, end

    def go_on(self) -> None:
        """The connection has been there, and its client was known; greeting and login are past."""
        self.is_client_known = self._greeted = self._logged_in = True
        self._asked = 0

    def begin_late(self, time: int) -> None:
        """The beginning of the stream isn't there."""
        self._lost = Lost(time, why="the capture begins within the connection", is_start=True)

    def begin_whole(self) -> None:
        """The beginning of the stream is there after all."""
        if self._lost and self._lost.is_start and not self._lost.passed and not self._lost.lacking:
            self._lost = None

    def lose(self, lacking: int, time: int) -> None:
        """Bytes are lacking before what comes next."""
        if self.is_over:
            return
        if self._answer:
            self._answer.why = self._answer.why or f"{lacking} bytes are lacking"
            self._end()
        self._lost = self._lost or Lost(time)
        self._lost.lacking += lacking
        self._before = None

    def take(self, piece: Piece, waits: bool = False) -> int:
        """Takes the next bytes, but none behind an answer that ends among them if it is waited for what the client sent. Returns how many."""
        data, place = piece.data, piece.place
        while data and not (waits and place > piece.place and self.is_between()):
            if self.is_over:
                self._accounts.told += len(data)
                self._over_bytes += len(data)
                used = len(data)
            elif self._lost:
                used = self._find(piece, data, place)
            elif self._answer:
                used = self._go_on(data, piece)
            else:
                used = self._begin(data, place, piece)
            data, place = data[used:], place + used
        taken = place - piece.place
        self._accounts.received += taken
        self._before = piece._replace(data=piece.data[:taken]) if data else piece
        return taken

    # Where an answer begins.

    def _find(self, piece: Piece, data: bytes, place: int) -> int:
        """Passes over bytes up to where an answer is known to begin. Returns how many."""
        at = self._boundary(piece, data, place)
        if at is None and self._looks_first(data):
            doubt = "the capture begins within the connection: nothing shows that the answer that follows is whole"
            self._desk.tell(self._sides, piece.time, doubt)
            at = 0
        passed = len(data) if at is None else at
        if self._lost:
            self._lost.passed += passed
            self._accounts.told += passed
        if at is not None:
            self._tell_lost()
        return passed

    def _boundary(self, piece: Piece, data: bytes, place: int) -> Optional[int]:
        """Where in a piece an answer is known to begin: where a request says so that the server had begun to read; or, of a client
        that isn't there, where the server has read more than when it sent the piece before."""
        asked, before = self.pending.first_place(place, place + len(data), piece.acknowledged), self._before
        if asked is not None:
            return asked - place
        has_read = before is not None and before.end() == place == piece.place and before.acknowledged < piece.acknowledged
        return 0 if has_read and not self.is_client_known and is_header(data, ANSWERS) else None

    def _looks_first(self, data: bytes) -> bool:
        """Whether the first bytes of a capture that begins within a connection are those of the first packet of a message."""
        lost = self._lost
        is_start = lost is not None and lost.is_start and not lost.passed and not lost.lacking and not self.pending
        return is_start and is_header(data, ANSWERS) and data[6:tds.HEADER] == b"\x01\0"

    def _tell_unanswered(self, request: Request) -> None:
        if not self.is_over:
            why = "no answer to it came" if request.is_whole else "it isn't whole, and no answer to it came"
            self._desk.tell(self._sides, request.time, why, request.words)

    def _tell_lost(self) -> None:
        if self._lost and (self._lost.passed or self._lost.lacking):
            self._desk.tell(self._sides, self._lost.time, self._lost.line())
        self._lost = None

    def _begin(self, data: bytes, place: int, piece: Piece) -> int:
        """Begins a message, if one begins here."""
        request = self.pending.find(place, piece.acknowledged)
        kinds = HANDSHAKES if self._expects_handshake(request) else ANSWERS
        if data[0] in kinds:
            if request:
                self.pending.answer(request)
            self.begun = place
            self._answer = Answer(piece.time, self._desk.keep(), Packets(kinds, self._is_numbered), request)
        elif data[0] == tds.MARS:
            self.stop("several answers at once (MARS), which aren't read", piece.time)
        elif is_record(data) or len(data) == 1 and is_record(data + b"\x03"):
            self.stop("the connection is encrypted", piece.time)
        else:
            self._lost = Lost(piece.time)
            if request:
                self.pending.pass_first()
        return 0

    def _expects_handshake(self, request: Optional[Request]) -> bool:
        """Whether what comes may be of the type of a PRELOGIN, as the records of TLS before a login are."""
        if self.is_client_known:
            return request is not None and request.kind is Asked.GREETING
        return not self._answered

    def stop(self, why: str, time: int) -> None:
        """Nothing more is read, and no request has an answer."""
        self.is_over, self._over_time = why, time
        self.pending.pass_all()

    # An answer.

    def _go_on(self, data: bytes, piece: Piece) -> int:
        answer = self._answer
        assert answer
        used = answer.packets.take(data)
        answer.length += used
        answer.kept.write(data[:used] if used < len(data) else data)
        if answer.packets.wrong:
            answer.kept.cut(tds.HEADER)
            answer.length -= tds.HEADER
            answer.why = answer.why or answer.packets.wrong
            self._end()
            self._lost = Lost(piece.time, passed=tds.HEADER)
            self._accounts.told += tds.HEADER
        elif answer.packets.is_whole:
            self._end()
        return used

    def _end(self) -> None:
        """The answer under way has ended."""
        answer, self._answer = self._answer, None
        assert answer
        kind = self._kind_of(answer)
        if not answer.packets.is_whole and not answer.why:
            answer.why = "the connection ends within it"
        if kind in HANDSHAKE and answer.packets.is_whole and not answer.why:
            self._greeted, self._logged_in = True, self._logged_in or kind is Asked.LOGIN
            self._accounts.in_greetings += answer.length if kind is Asked.GREETING else 0
            self._accounts.in_logins += answer.length if kind is Asked.LOGIN else 0
            answer.kept.drop()
        elif kind is Asked.ATTENTION and answer.length == tds.HEADER + tds.DONE_LENGTH and tds.is_cancelled(answer.packets.tail):
            self._accounts.in_acknowledgements += answer.length
            answer.kept.drop()
        else:
            if kind is Asked.ATTENTION or kind is None and answer.packets.is_whole:
                answer.request = None
            self._end_answer(answer)

    def _end_answer(self, answer: Answer) -> None:
        self._answered += 1
        if self.is_client_known and self.is_client_whole and not answer.request:
            self._desk.tell(self._sides, answer.time, "nothing was asked for before the answer that follows")
        channel = answer.packets.channel
        if self._channel is not None and channel is not None and channel != self._channel:
            self._desk.tell(self._sides, answer.time, f"the SPID of the answer that follows is {channel}, and was {self._channel}")
        self._channel = self._channel if channel is None else channel
        if answer.packets.is_whole and tds.is_cancelled(answer.packets.tail):
            self.pending.acknowledge()
        self._accounts.answers += 1
        self._accounts.in_answers += answer.length
        self._desk.answer(self._sides, answer)

    def _kind_of(self, answer: Answer) -> Optional[Asked]:
        """What an answer is: what was asked for, but a greeting or a login only if its bytes are those of an answer to one; if its request
        isn't there, it is either only before all statements."""
        asked = answer.request.kind if answer.request else None
        if asked not in (None, *HANDSHAKE) or not asked and (self._answered or self._asked is not None and self._asked <= self.begun):
            return asked
        payload = answer.kept.first(tds.GREATEST_PACKET_SIZE)[tds.HEADER:]
        is_handshake = answer.kept.first(1) == bytes([PacketType.PRELOGIN]) or asked and is_record(payload)
        if is_handshake or (asked or not self._greeted) and is_greeting(payload):
            return Asked.GREETING
        return Asked.LOGIN if is_login(payload, asked is Asked.LOGIN) else None

    # The end.

    def finish(self) -> None:
        """Nothing more comes."""
        if self._answer:
            self._end()
        self._tell_lost()
        self.pending.pass_all()
        if self.is_over:
            self._desk.tell(self._sides, self._over_time, f"{self.is_over}: {self._over_bytes} bytes")
