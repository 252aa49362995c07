"""Messages of TDS 7.4 as a server reads and writes them (MS-TDS, LOGIN7, SQLBatch, DONE, ERROR, ENVCHANGE, LOGINACK)."""
import struct
from typing import Optional

from lib import repository  # noqa: F401  after it the Python package is on the path
from gavyreto.tds import PLACES, VERSION, Change, Login, Token


# What a client sends.

def login_of(payload: bytes) -> Login:
    """What a LOGIN7 says."""
    texts = {}
    for place, name in zip(PLACES, Login._fields):
        start, units = struct.unpack_from("<HH", payload, place)
        data = payload[start:start + 2 * units]
        texts[name] = (bared(data) if name == "password" else data).decode("utf-16-le")
    return Login(packet_size=struct.unpack_from("<I", payload, 8)[0], is_read_only=bool(payload[26] & 0x20), **texts)


def ticket_of(payload: bytes) -> bytes:
    """The ticket of an integrated LOGIN7, or none."""
    start, length = struct.unpack_from("<HH", payload, 78)
    return payload[start:start + (struct.unpack_from("<I", payload, 90)[0] if length == 0xFFFF else length)] if payload[25] & 0x80 else b""


def token_of(payload: bytes) -> Optional[tuple[str, bool]]:
    """The access token of a LOGIN7, and whether it says that the server required one; None without one (MS-TDS, LOGIN7, FEDAUTH)."""
    if not payload[27] & 0x10:
        return None
    place, = struct.unpack_from("<H", payload, 56)
    at, = struct.unpack_from("<I", payload, place)
    feature, length, options, size = struct.unpack_from("<BIBI", payload, at)
    whole = payload[at + 10:at + 10 + size]
    if feature != 2 or options >> 1 != 1 or length != 5 + size or payload[at + 10 + size:] != b"\xFF":
        return None
    return whole.decode("utf-16-le"), bool(options & 1)


def bared(units: bytes) -> bytes:
    """A password's units, of which a LOGIN7 has the halves of each byte in each other's place, and some bits turned."""
    turned = bytes(byte ^ 0xA5 for byte in units)
    return bytes(byte >> 4 | byte << 4 & 0xF0 for byte in turned)


def statement_of(payload: bytes) -> str:
    """The text of a SQLBatch."""
    return payload[struct.unpack_from("<I", payload)[0]:].decode("utf-16-le")


# What a server sends.

def done(status: int = 0, command: int = 0xC1) -> bytes:
    return struct.pack("<BHHQ", Token.DONE, status, command, 0)


def counted_body(token: int, body: bytes) -> bytes:
    """A token whose body has a length of two bytes before it."""
    return struct.pack("<BH", token, len(body)) + body


def _after_units(form: str, text: str) -> bytes:
    """A text in UTF-16 after the number of its units, which has this form."""
    units = text.encode("utf-16-le")
    return struct.pack(form, len(units) // 2) + units


def counted(text: str) -> bytes:
    """One byte that counts UTF-16 units, then the units."""
    return _after_units("B", text)


def server_error(number: int, message: str, line: int, state: int = 1, severity: int = 16) -> bytes:
    """An ERROR without names of server and procedure."""
    head = struct.pack("<iBB", number, state, severity)
    return counted_body(Token.ERROR, head + _after_units("<H", message) + bytes(2) + struct.pack("<i", line))


def change(kind: Change, new: bytes, old: bytes) -> bytes:
    return counted_body(Token.ENV_CHANGE, bytes([kind]) + new + old)


def routing(host: str, port: int) -> bytes:
    """A redirection to another server."""
    data = struct.pack("<BH", 0, port) + _after_units("<H", host)
    return change(Change.ROUTING, struct.pack("<H", len(data)) + data, bytes(2))


def ticket(data: bytes) -> bytes:
    """By which a server proves itself (MS-TDS, SSPI)."""
    return counted_body(Token.TICKET, data)


def token_acknowledged() -> bytes:
    """A FEATUREEXTACK of a login by a token."""
    return bytes([Token.FEATURES, 2]) + bytes(4) + b"\xFF"


def prelogin_with_token(encryption: int) -> bytes:
    """A greeting that requires a token: the options ENCRYPTION and FEDAUTHREQUIRED."""
    return struct.pack(">BHHBHHB", 1, 11, 1, 6, 12, 1, 0xFF) + bytes([encryption, 1])


def login_ack(program: str) -> bytes:
    return counted_body(Token.LOGIN_ACK, b"\x01" + VERSION + counted(program) + bytes([16, 0, 0, 0]))
