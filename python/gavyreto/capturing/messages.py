"""Messages of TDS as they come in pieces: what a client asks, and the packets of a server (MS-TDS, Packets)."""
from __future__ import annotations

import re
from collections.abc import Container
from dataclasses import dataclass
from enum import Enum
from typing import Optional

from gavyreto import tds
from gavyreto.capturing.streams import Piece
from gavyreto.tds import PacketType

ASKING_RECORDS = (0x16, 0x17)  # those that an answer may come to: not a change of ciphers, nor an alert
FEDERATED = 0x08  # a further type of packets that a client sends
STATEMENT_LENGTH = 60  # characters of a statement that are shown
MOST_OF_A_STATEMENT = 4096  # bytes that these are looked for in


class Asked(Enum):
    """What a message of a client asks for."""

    GREETING = "(a greeting)"
    LOGIN = "(a login)"
    STATEMENT = "(a statement)"
    PROCEDURE = "(a procedure call)"
    BULK = "(a bulk load)"
    TRANSACTION = "(a request of a transaction)"
    ATTENTION = "(an attention)"


KINDS = {
    PacketType.STATEMENT: Asked.STATEMENT, PacketType.PROCEDURE: Asked.PROCEDURE, PacketType.ATTENTION: Asked.ATTENTION,
    PacketType.BULK: Asked.BULK, PacketType.TRANSACTION: Asked.TRANSACTION, PacketType.LOGIN: Asked.LOGIN, PacketType.TICKET: Asked.LOGIN,
    FEDERATED: Asked.LOGIN, PacketType.PRELOGIN: Asked.GREETING}


@dataclass
class Request:
    """A message of a client. A client asks once it has the whole answer before: so the acknowledgement number of its first byte is
    that of the first byte of its answer."""

    kind: Asked
    acknowledged: int  #: the place of the server's next byte, as the client knew it
    start: int  #: the place of its first byte
    time: int
    end: int = 0  #: the place after its last byte, as far as it is there
    words: str = ""
    is_whole: bool = False


def is_header(data: bytes, kinds: Container[int], at: int = 0) -> bool:
    """Whether a packet may begin so, from a place on."""
    if len(data) < at + tds.HEADER or data[at] not in kinds:
        return False
    return tds.HEADER <= data[at + 2] << 8 | data[at + 3] <= tds.GREATEST_PACKET_SIZE


def is_record(data: bytes) -> bool:
    """Whether a record of TLS begins so."""
    return len(data) >= 2 and data[0] in tds.TLS_RECORDS and data[1] == 3


def shortened(body: bytes) -> str:
    """The first words of a statement, on one line."""
    headers = int.from_bytes(body[:4], "little")  # bytes before the text, as it itself says
    text = body[headers:len(body) & ~1 | headers & 1].decode("utf-16-le", "replace")
    words = re.sub(r"[\s\x00-\x1F\x7F-\x9F]+", " ", text[:4 * STATEMENT_LENGTH]).strip()
    return words if len(words) <= STATEMENT_LENGTH else words[:STATEMENT_LENGTH - 2].rstrip() + " .."


def _is_numbered_first(head: bytes) -> bool:
    """Whether the header of a packet may be that of a message's first one, by its number."""
    return head[6] < 2 and not head[7]


def _is_first(data: bytes) -> bool:
    """Whether the first packet of a message that asks for rows may begin so, or a record of TLS."""
    asks = is_header(data, (PacketType.STATEMENT, PacketType.PROCEDURE, PacketType.ATTENTION, PacketType.BULK, PacketType.TRANSACTION))
    return asks and _is_numbered_first(data) or is_record(data)


class Requests:
    """Takes the bytes of a client, and finds its messages."""

    def __init__(self) -> None:
        self.is_late = False  #: whether what comes next may be within a message: the beginning of the stream isn't there
        self.strange = 0  #: bytes that are in no message
        self.open: Optional[Request] = None  #: the message under way
        self._acknowledged = 0  # what the server had sent, as far as the client knew at the piece before
        self._waiting = b""  # of a header that isn't whole
        self._left = 0  # bytes of the packet or record under way
        self._is_last, self._is_lost = False, False
        self._body = bytearray()

    def lose(self) -> None:
        """Bytes are lacking: what comes next is of the message under way, or of one whose header lacks, up to a message after a further
        answer of the server."""
        self.strange += len(self._waiting)
        self._waiting, self._left, self.open, self._is_lost, self.is_late = b"", 0, None, True, False

    def is_between(self) -> bool:
        """Whether no message is under way."""
        return not self._waiting and not self._left and self.open is None

    def complaint(self) -> str:
        """What there is to say of bytes in no message, those of a header that isn't whole among them; "" if there are none."""
        strange = self.strange + len(self._waiting)
        return f"{strange} bytes of the client are in no request" if strange else ""

    def take(self, piece: Piece) -> list[Request]:
        """The messages that begin in a piece."""
        found: list[Request] = []
        data, place = self._waiting + piece.data, piece.place - len(self._waiting)
        self._waiting = b""
        before, self._acknowledged = self._acknowledged, piece.acknowledged
        if self._is_lost:
            if before >= piece.acknowledged or not (_is_first(data) or self.is_late and is_header(data, KINDS)):
                self.strange += len(data)
                return found
            self._is_lost = self.is_late = False
        at = 0
        while at < len(data):
            if not self._left:
                used = self._begin(data[at:at + tds.HEADER], place + at, piece, found)
                if used == 0:
                    self._keep(data[at:])
                    break
                at += used
            at += self._go_on(data[at:at + self._left], place + at)
        return found

    def _begin(self, head: bytes, place: int, piece: Piece, found: list[Request]) -> int:
        """Takes a header, and returns its length, or 0 if there is none."""
        kind: Optional[Asked]
        if is_record(head) and len(head) >= 5:
            kind = Asked.LOGIN if head[0] in ASKING_RECORDS else None
            length, size, self._is_last = int.from_bytes(head[3:5], "big"), 5, True
        elif is_header(head, KINDS) and (not self.is_late or _is_numbered_first(head)):
            kind, length, size, self._is_last = KINDS[head[0]], tds.length_of(head) - tds.HEADER, tds.HEADER, bool(head[1] & tds.LAST)
        else:
            return 0
        self.is_late = False
        if self.open is None and kind:
            self.open = Request(kind, piece.acknowledged, place, piece.time, words=kind.value)
            self._body.clear()
            found.append(self.open)
        self._left = length
        return size

    def _go_on(self, body: bytes, place: int) -> int:
        """Takes bytes of a packet, and returns how many."""
        request = self.open
        self._left -= len(body)
        if request is None:
            return len(body)
        request.end = place + len(body)
        if request.kind is Asked.STATEMENT and len(self._body) < MOST_OF_A_STATEMENT:
            self._body += body[:MOST_OF_A_STATEMENT]
        if not self._left and self._is_last:
            request.is_whole, self.open = True, None
            if request.kind is Asked.STATEMENT:
                request.words = shortened(bytes(self._body))
        return len(body)

    def _keep(self, rest: bytes) -> None:
        """A header that isn't whole waits; anything else is passed over, up to the piece that begins with one."""
        if len(rest) < tds.HEADER and (rest[0] in KINDS or rest[0] in tds.TLS_RECORDS):
            self._waiting = rest
        else:
            self.strange += len(rest)
            self.open, self._is_lost = None, True


# What a server sends.

class Packets(tds.Framing):
    """Follows the packets of a message of a server, which have one SPID, and numbers that follow each other."""

    def __init__(self, kinds: tuple[int, ...], is_numbered: bool) -> None:
        super().__init__()
        self.wrong = ""  #: why what comes next isn't the next packet
        self.channel: Optional[int] = None  #: the SPID of its packets
        self._kinds, self._is_numbered = kinds, is_numbered
        self._number: Optional[int] = None  # of the packet before
        self._is_constant = False  # whether all packets have the number of the first

    def fits(self, block: bytes, at: int) -> bool:
        number, channel = block[at + 6], block[at + 4] << 8 | block[at + 5]
        if self.wrong:
            return False
        if not is_header(block, self._kinds, at):
            self.wrong = "no packet follows"
        elif self.channel is not None and channel != self.channel:
            self.wrong = f"a packet of SPID {channel} comes within a message of SPID {self.channel}"
        elif not self._follows(number):
            self.wrong = f"packet {number} comes after packet {self._number}" if self._number is not None else f"its first packet has number {number}"
        else:
            self.channel, self._number = channel, number
        return not self.wrong

    def _follows(self, number: int) -> bool:
        """Whether a packet with this number comes next: one more, modulo 256. Where the stream itself shows that none is lacking,
        packets may also have one number all."""
        if self._number is None:
            return not self._is_numbered or number in (0, 1)
        if number == (self._number + 1) % 256 and not self._is_constant:
            return True
        self._is_constant = not self._is_numbered and number == self._number
        return self._is_constant


# What an answer is, if nothing is known of the client.

def is_greeting(payload: bytes) -> bool:
    """Whether a payload is the answer to a PRELOGIN: a table of options with their places and lengths (MS-TDS, PRELOGIN)."""
    at = 0
    while payload[at:at + 1] not in (b"", b"\xFF"):
        place, length = int.from_bytes(payload[at + 1:at + 3], "big"), int.from_bytes(payload[at + 3:at + 5], "big")
        if payload[at] > 10 or place + length > len(payload):
            return False
        at += 5
    return at > 0 and payload[at:at + 1] == b"\xFF"


LOGIN_TOKENS = (tds.Token.ENV_CHANGE, tds.Token.INFO, tds.Token.ERROR)  # what comes before the LOGINACK
FEDERATED_ANSWER = 0xEE  # what a server asks in turn (MS-TDS, FEDAUTHINFO), beside tickets


def is_login(payload: bytes, is_asked: bool) -> bool:
    """Whether a payload begins as the answer to a login: with a LOGINACK, after changes and messages only, or with what is asked of the
    client in turn; if one was asked for, it may be refused, too, and features may come first."""
    at = 0
    while at < len(payload) and payload[at] in LOGIN_TOKENS:
        at += 3 + int.from_bytes(payload[at + 1:at + 3], "little")
    others = (tds.Token.DONE, tds.Token.FEATURES) if is_asked and at else ()
    return at < len(payload) and payload[at] in (tds.Token.LOGIN_ACK, tds.Token.TICKET, FEDERATED_ANSWER, *others)
