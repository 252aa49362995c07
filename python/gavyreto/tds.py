"""Messages and tokens of TDS 7.4, as a client and a server write and read them. Sections of MS-TDS are cited by title.

It knows what comes before a response (PRELOGIN, LOGIN7, SQLBatch, attention) and the tokens that need no description of
columns. What the rows of a response mean is for the program tds_replay alone to say."""
from __future__ import annotations

import re
import struct
from enum import IntEnum
from typing import NamedTuple, Optional

from gavyreto.errors import BadAnswer, LoginRefused
from gavyreto.logins import Hidden
from gavyreto.packets import (  # noqa: F401  whoever reads messages needs their packets
    DONE_LENGTH as DONE_LENGTH, HEADER as HEADER, LAST as LAST, Bytes as Bytes, Framing as Framing, PacketType as PacketType, header as header,
    length_of as length_of, packet as packet, packets as packets, read_fully as read_fully, read_packet as read_packet,
)


class Encryption(IntEnum):
    """The option ENCRYPTION of a PRELOGIN (MS-TDS, PRELOGIN)."""

    OFF = 0  # the login alone
    ON = 1
    NOT_SUPPORTED = 2
    REQUIRED = 3


class Token(IntEnum):
    """The first byte of a token (MS-TDS, Packet Data Token Stream Definition)."""

    RETURN_STATUS = 0x79
    COLUMNS = 0x81
    ORDER = 0xA9
    ERROR = 0xAA
    INFO = 0xAB
    RETURN_VALUE = 0xAC
    LOGIN_ACK = 0xAD
    FEATURES = 0xAE
    ROW = 0xD1
    NBCROW = 0xD2
    ENV_CHANGE = 0xE3
    TICKET = 0xED
    DONE = 0xFD
    DONE_PROC = 0xFE
    DONE_IN_PROC = 0xFF


class DataType(IntEnum):
    """The byte of a data type (MS-TDS, Data Type Definitions)."""

    NULL = 0x1F
    IMAGE = 0x22
    TEXT = 0x23
    GUID = 0x24
    INTN = 0x26
    DATE = 0x28
    TIME = 0x29
    DATETIME2 = 0x2A
    DATETIMEOFFSET = 0x2B
    INT1 = 0x30
    BIT = 0x32
    INT2 = 0x34
    INT4 = 0x38
    DATETIME4 = 0x3A
    FLT4 = 0x3B
    MONEY = 0x3C
    DATETIME = 0x3D
    FLT8 = 0x3E
    VARIANT = 0x62
    NTEXT = 0x63
    BITN = 0x68
    DECIMAL = 0x6A
    NUMERIC = 0x6C
    FLTN = 0x6D
    MONEYN = 0x6E
    DATETIMEN = 0x6F
    MONEY4 = 0x7A
    INT8 = 0x7F
    VARBINARY = 0xA5
    VARCHAR = 0xA7
    BINARY = 0xAD
    CHAR = 0xAF
    NVARCHAR = 0xE7
    NCHAR = 0xEF
    UDT = 0xF0
    XML = 0xF1


class Change(IntEnum):
    """What an ENVCHANGE changes (MS-TDS, ENVCHANGE)."""

    DATABASE = 1
    PACKET_SIZE = 4
    COLLATION = 7
    ROUTING = 20


TLS_RECORDS = range(0x14, 0x18)  # the first byte of a record of TLS (RFC 5246, Record Layer)
MARS = 0x53  # the first byte of a packet of MARS, which has those of TDS within (MC-SMP, SMP Header)
MORE, FAILED, CANCELLED, SERVER_FAILED = 0x0001, 0x0002, 0x0020, 0x0100  # bits of the status of a DONE (MS-TDS, DONE)
LEAST_PACKET_SIZE, FIRST_PACKET_SIZE, GREATEST_PACKET_SIZE = 512, 4096, 32767  # the second holds until the login's answer
VERSION = bytes.fromhex("74000004")  # 7.4, in the order of a LOGINACK
OTHER_VERSIONS = range(0x70, 0x74)  # the first byte of each before
MOST_OF_MESSAGE = 512  # bytes of UTF-8 of a message in a line
ENCRYPTION, TOKEN_REQUIRED = 1, 6  # the options ENCRYPTION and FEDAUTHREQUIRED of a PRELOGIN
FED_AUTH, SECURITY_TOKEN = 0x02, 0x01  # a feature of a LOGIN7, and the library that has the token already
MOST_UNITS = 128  # of a name in a LOGIN7 (MS-TDS, LOGIN7)
READ_ONLY_INTENT = 0x20  # fReadOnlyIntent, of its TypeFlags


# What a client sends (MS-TDS, PRELOGIN, LOGIN7, SQLBatch, Attention).

def prelogin(encryption: Encryption, is_token: bool = False) -> bytes:
    """The options VERSION and ENCRYPTION, and FEDAUTHREQUIRED if the login is by a token: for each its number, place and length, then
    0xFF, then their bytes."""
    options = [(0, bytes(6)), (ENCRYPTION, bytes([encryption])), *([(TOKEN_REQUIRED, b"\x01")] if is_token else [])]
    table, data, start = b"", b"", 5 * len(options) + 1
    for number, value in options:
        table += struct.pack(">BHH", number, start + len(data), len(value))
        data += value
    return table + b"\xFF" + data


def options_of(payload: bytes) -> dict[int, int]:
    """The first byte of each option of a PRELOGIN, by the option's number. Raises struct.error."""
    found: dict[int, int] = {}
    at = 0
    while payload[at:at + 1] not in (b"", b"\xFF"):
        option, place, length = struct.unpack_from(">BHH", payload, at)
        if length and place < len(payload):
            found.setdefault(option, payload[place])
        at += 5
    return found


class Login(NamedTuple):
    """The texts of a LOGIN7, in its order, the packet size that is asked for, in bytes, and whether nothing but reading is intended."""

    host: str
    user: str
    password: str
    program: str
    server: str
    library: str
    language: str
    database: str
    packet_size: int
    is_read_only: bool = False


def _checked_units(what: str, text: str, most: Optional[int] = None) -> bytes:
    """The units of a text. Raises ValueError, which doesn't show the text, if it has more than so many, or half of a surrogate pair, as Python
    reads bytes that aren't UTF-8."""
    try:
        units = Hidden(text.encode("utf-16-le"))
    except UnicodeEncodeError:
        raise ValueError(f"the {what} isn't UTF-8") from None
    if most and len(units) > 2 * most:
        raise ValueError(f"the {what} has more than {most} characters")
    return units


def _disguised(units: bytes) -> bytes:
    """A password's units as LOGIN7 has them: the halves of each byte change places, then some bits are turned. That isn't
    encryption."""
    return bytes((byte >> 4 | byte << 4 & 0xF0) ^ 0xA5 for byte in units)


# Where the table of places and lengths of a LOGIN7 has its texts: those of `Login`, with an unused one in their middle.
PLACES = [36, 40, 44, 48, 52, 60, 64, 68]
_FIXED = 94  # bytes of a LOGIN7 before its texts


def login(asked: Login, process: int, ticket: bytes = b"", token: Optional[bytes] = None, echoes: bool = False) -> bytes:
    """A LOGIN7 of version 7.4: with a ticket, by which the login is integrated, or a token and whether that was required. Raises ValueError
    if a text is too long, or no Unicode."""
    found = {name: _checked_units(name, text, MOST_UNITS) for name, text in asked._asdict().items() if isinstance(text, str)}
    fixed, data = bytearray(_FIXED), Hidden()
    for place, (name, units) in zip(PLACES, found.items()):
        struct.pack_into("<HH", fixed, place, _FIXED + len(data), len(units) // 2)
        data = Hidden(data + (_disguised(units) if name == "password" else units))
    for place in (56, 78, 82, 86):  # texts that aren't there
        struct.pack_into("<HH", fixed, place, _FIXED + len(data), 0)
    if ticket:
        struct.pack_into("<H", fixed, 80, min(len(ticket), 0xFFFF))
        struct.pack_into("<I", fixed, 90, len(ticket) if len(ticket) >= 0xFFFF else 0)
        data = Hidden(data + ticket)
    if token is not None:
        struct.pack_into("<HH", fixed, 56, _FIXED + len(data), 4)
        data = Hidden(data + struct.pack("<I", _FIXED + len(data) + 4) + _feature_of(token, echoes))
    struct.pack_into("<I4sIIII", fixed, 0, _FIXED + len(data), VERSION[::-1], asked.packet_size, 0, process, 0)
    type_flags = READ_ONLY_INTENT if asked.is_read_only else 0
    struct.pack_into("<BBBBiI", fixed, 24, 0xE0, 0x83 if ticket else 0x03, type_flags, 0 if token is None else 0x10, 0, 0x0409)
    return Hidden(bytes(fixed) + data)


def _feature_of(token: bytes, echoes: bool) -> bytes:
    """The one feature of a login by a token: FEDAUTH by security token, with the token (MS-TDS, LOGIN7, FEDAUTH)."""
    data = Hidden(bytes([SECURITY_TOKEN << 1 | echoes]) + struct.pack("<I", len(token)) + token)
    return Hidden(struct.pack("<BI", FED_AUTH, len(data)) + data + b"\xFF")


def statement(text: str) -> bytes:
    """A SQLBatch: its headers (no transaction, one request), and its text. Raises ValueError if that is no Unicode."""
    return struct.pack("<IIHQI", 22, 18, 2, 0, 1) + _checked_units("statement", text)


# What a server sends (MS-TDS, DONE, ERROR, ENVCHANGE, LOGINACK).

def is_cancelled(payload: bytes) -> bool:
    """Whether the end of a message is the DONE that answers an attention."""
    end = payload[-DONE_LENGTH:]
    return len(end) == DONE_LENGTH and end[0] == Token.DONE and bool(end[1] & CANCELLED)


def unfinished(tail: bytes) -> Optional[str]:
    """What there is to say of an answer without an ERROR whose last DONE, DONEPROC or DONEINPROC, at the end of these bytes,
    says that it was cancelled or failed (MS-TDS, DONE); None if it was neither."""
    if len(tail) < DONE_LENGTH or tail[-DONE_LENGTH] not in (Token.DONE, Token.DONE_PROC, Token.DONE_IN_PROC):
        return None
    status = int.from_bytes(tail[1 - DONE_LENGTH:3 - DONE_LENGTH], "little")
    if status & (FAILED | SERVER_FAILED):
        return f"the answer isn't whole: the server ended it with a failure, DONE 0x{status:04x}, and told no error"
    return f"the answer isn't whole: it was cancelled, DONE 0x{status:04x}" if status & CANCELLED else None


class Accepted(NamedTuple):
    """What a server answers to a login: the packet size from now on, in bytes, and host and port of the server to ask in its
    place, if there is one."""

    packet_size: int
    routing: Optional[tuple[str, int]]
    ticket: bytes = b""  #: by which the server proves itself
    is_done: bool = True  #: False if that is all, and the client has to go on


def read_login_answer(payload: bytes) -> Accepted:
    """Reads the answer to a login. Raises LoginRefused, or BadAnswer for another version of TDS; or ValueError, IndexError or struct.error
    if it is no such answer."""
    size, routed, acknowledged, ticket, at = FIRST_PACKET_SIZE, None, False, b"", 0
    while True:
        if ticket and at == len(payload) and not acknowledged:
            return Accepted(size, None, ticket, False)
        if payload[at:at + 1] == bytes([Token.FEATURES]):
            at = _after_features(payload, at + 1)
        token, length = struct.unpack_from("<BH", payload, at)
        body = payload[at + 3:at + 3 + length]
        if token == Token.DONE and acknowledged and LEAST_PACKET_SIZE <= size <= GREATEST_PACKET_SIZE and at + DONE_LENGTH == len(payload):
            if length & (MORE | FAILED | CANCELLED | SERVER_FAILED):  # of a DONE it is the status
                raise ValueError(f"an answer to a login whose end is none: DONE 0x{length:04x}")
            return Accepted(size, routed, ticket)
        if token == Token.ERROR:
            raise LoginRefused(error_line(body))
        if token == Token.LOGIN_ACK:
            acknowledged = body[1:5] == VERSION
            if not acknowledged and len(body) >= 5 and body[1] in OTHER_VERSIONS:
                raise BadAnswer(f"the server speaks TDS 7.{body[1] & 0x0F}, and TDS 7.4 is spoken here")
        elif token == Token.ENV_CHANGE and body[0] == Change.PACKET_SIZE:
            size = int(body[2:2 + 2 * body[1]].decode("utf-16-le"))
        elif token == Token.ENV_CHANGE and body[0] == Change.ROUTING:
            routed = _routing_of(body)
        elif token == Token.TICKET:
            ticket = body
        elif token not in (Token.ENV_CHANGE, Token.INFO):
            raise ValueError(f"no token of an answer to a login: 0x{token:02x}")
        at += 3 + length


def _after_features(payload: bytes, at: int) -> int:
    """Where a FEATUREEXTACK ends. Raises IndexError or struct.error if it doesn't."""
    while payload[at] != 0xFF:
        at += 5 + int(struct.unpack_from("<I", payload, at + 1)[0])
    return at + 1


def _routing_of(body: bytes) -> tuple[str, int]:
    protocol, port, units = struct.unpack_from("<BHH", body, 3)
    host = body[8:8 + 2 * units].decode("utf-16-le")
    if protocol != 0 or not host or not port:
        raise ValueError("a redirection by another protocol than TCP, or to nowhere")
    return host, port


def error_line(body: bytes) -> str:
    """The line of an ERROR, as tds_replay writes it."""
    number, state, severity, units = struct.unpack_from("<iBBH", body)
    server = 8 + 2 * units
    procedure = server + 1 + 2 * body[server]
    line, = struct.unpack_from("<i", body, procedure + 1 + 2 * body[procedure])
    message = re.sub(r"[\0-\x1F\x7F]", " ", body[8:server].decode("utf-16-le", "replace"))
    message = message.encode()[:MOST_OF_MESSAGE].decode("utf-8", "ignore")
    return f"server error {number}, state {state}, class {severity}, line {line}: {message}"
