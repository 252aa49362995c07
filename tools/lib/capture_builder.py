"""A capture of one TCP connection as a file of pcap (Ethernet, IPv4), and the messages that come before its statements."""
import struct
from typing import BinaryIO

from lib import served
from gavyreto import tds

CLIENT, SERVER = (bytes([192, 0, 2, 10]), 50123), (bytes([192, 0, 2, 20]), 1433)
SEGMENT = 1460
SYN, FIN, PUSH, ACK = 2, 1, 8, 16
Side = tuple[bytes, int]  # address and port


def greeting(kind: int) -> bytes:
    """One option, the version, and the end of the options."""
    return tds.packet(kind, bytes([0, 0, 6, 0, 6, 0xFF]) + bytes([16, 0, 0x10, 0, 0, 0]))


def tls_record(kind: int, length: int) -> bytes:
    """A record of TLS 1.2: 0x16 of the handshake, 0x17 of encrypted data."""
    return struct.pack(">BHH", kind, 0x0303, length) + bytes(range(256)) * (length // 256) + bytes(length % 256)


def login_answer() -> bytes:
    """The answer to a login."""
    return tds.packet(tds.PacketType.ANSWER, served.login_ack("Server") + served.done())


def sum_of(data: bytes) -> int:
    """The checksum of IPv4 and TCP."""
    data += bytes(len(data) % 2)
    total = int(sum(struct.unpack(f">{len(data) // 2}H", data)))
    while total >> 16:
        total = (total & 0xFFFF) + (total >> 16)
    return ~total & 0xFFFF


class Capture:
    """The frames of a connection; `sent` is how many bytes each side has sent."""

    def __init__(self, client: Side = CLIENT, server: Side = SERVER) -> None:
        self.frames: list[bytes] = []
        self.client, self.server, self.sent = client, server, {client: 1000, server: 9000}

    def frame(self, source: Side, flags: int, start: int, data: bytes = b"") -> None:
        """Adds a frame of a side, with flags of TCP and data."""
        target = self.server if source is self.client else self.client
        answered = self.sent[target] if flags & ACK else 0
        tcp = struct.pack(">HHIIBBHHH", source[1], target[1], start, answered, 5 << 4, flags, 64000, 0, 0) + data
        ends = source[0] + target[0]
        tcp = tcp[:16] + struct.pack(">H", sum_of(ends + struct.pack(">HH", 6, len(tcp)) + tcp)) + tcp[18:]
        ip = struct.pack(">BBHHHBBH", 0x45, 0, 20 + len(tcp), len(self.frames) % 65536, 0, 64, 6, 0) + ends
        ip = ip[:10] + struct.pack(">H", sum_of(ip)) + ip[12:]
        self.frames.append(bytes(12) + b"\x08\x00" + ip + tcp)

    def open(self) -> None:
        """Adds the three frames that open a connection."""
        for source, flags in (self.client, SYN), (self.server, SYN | ACK), (self.client, ACK):
            self.frame(source, flags, self.sent[source])
            self.sent[source] += flags & SYN != 0

    def send(self, source: Side, data: bytes, is_disordered: bool = True) -> None:
        """In segments; if they are disordered, the first of three or more is sent twice, and the second comes after the third."""
        starts = list(range(0, len(data), SEGMENT))
        if is_disordered and len(starts) > 2:
            starts[:3] = [starts[0], starts[0], starts[2], starts[1]]
        for start in starts:
            self.frame(source, PUSH | ACK, self.sent[source] + start, data[start:start + SEGMENT])
        self.sent[source] += len(data)

    def write(self, out: BinaryIO) -> None:
        """Writes the capture."""
        out.write(struct.pack("<IHHiIII", 0xA1B2C3D4, 2, 4, 0, 0, 65535, 1))
        for number, frame in enumerate(self.frames):
            out.write(struct.pack("<IIII", 1_700_000_000, number * 1000, len(frame), len(frame)) + frame)
