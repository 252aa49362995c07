"""The frames in a capture: files of pcap and pcapng (draft-ietf-opsawg-pcap, draft-ietf-opsawg-pcapng), also as they come from a
pipe, and compressed by gzip."""
from __future__ import annotations

import gzip
import io
import struct
import zlib
from collections import Counter
from collections.abc import Iterator
from typing import IO, Any, NamedTuple, Union, cast

GZIP = b"\x1F\x8B"
PCAP = {  # by the first bytes: the order of bytes, and the units of time in a second
    b"\xD4\xC3\xB2\xA1": ("<", 10**6), b"\xA1\xB2\xC3\xD4": (">", 10**6), b"\x4D\x3C\xB2\xA1": ("<", 10**9), b"\xA1\xB2\x3C\x4D": (">", 10**9)}
PCAPNG = b"\x0A\x0D\x0D\x0A"
ORDERS = {b"\x4D\x3C\x2B\x1A": "<", b"\x1A\x2B\x3C\x4D": ">"}
SECTION, INTERFACE, OLD_PACKET, SIMPLE_PACKET, STATISTICS, PACKET = 0x0A0D0D0A, 1, 2, 3, 5, 6  # types of blocks of pcapng
# Others that have no frame: names, times of IRIG, AFDX, a journal of systemd, secrets, those of Hone and sysdig, and of their makers' own.
WITHOUT_FRAMES = (SECTION, INTERFACE, STATISTICS, 4, 7, 8, 9, 10, 0x101, 0x102, *range(0x201, 0x214), 0x0BAD, 0x40000BAD)
RESOLUTION, OFFSET = 9, 14  # options of an interface: units of time in a second, seconds to add
DROPPED_BEFORE = 4  # an option of a packet: frames that were lost before it (epb_dropcount)
DROPPED = (5, 7)  # options of statistics: frames lost so far by the interface (isb_ifdrop) and by the system (isb_osdrop)
UNKNOWN, UNKNOWN_BEFORE = (1 << 64) - 1, (1 << 16) - 1  # counts that aren't known, the second before a packet of the older type
MOST_OF_A_FRAME = 1 << 20  # bytes; a greater length is no length
MOST_OF_A_BLOCK = 1 << 24
BLOCK = 1 << 16  # bytes that are read at once, at most
HEAD = 4096  # bytes that are looked at before a file is read


class Frame(NamedTuple):
    """A frame: microseconds since 1970, the type of its link, its bytes as far as they were captured, and its length."""

    time: int
    link: int
    data: bytes
    length: int


class CutShort(Exception):
    """A capture ends within a frame, or goes on with what is none. The message says which."""


class Unpacked(io.RawIOBase):
    """What gzip packed, as far as it can be unpacked; what is wrong then is told at its end."""

    def __init__(self, packed: Source) -> None:
        self._file = gzip.GzipFile(fileobj=cast(IO[bytes], packed))
        self.wrong = ""

    def readable(self) -> bool:
        return True

    def readinto(self, room: Any) -> int:
        data = b""
        try:
            data = self._file.read1(len(room))
        except (EOFError, zlib.error, gzip.BadGzipFile) as cut:
            self.wrong = f"the compressed file ends too early, or is damaged: {cut}"
        room[:len(data)] = data
        return len(data)


class Source:
    """The bytes of a file or a pipe, of which the first can be looked at before they are read. Raises `CutShort` where nothing is left of
    what gzip packed, and more was there."""

    def __init__(self, file: Union[IO[bytes], Unpacked]) -> None:
        self._raw, self._file = file, io.BufferedReader(cast(io.RawIOBase, file), BLOCK)
        self._head = self._file.read(HEAD)

    def _checked(self, data: bytes) -> bytes:
        if not data and isinstance(self._raw, Unpacked) and self._raw.wrong:
            raise CutShort(self._raw.wrong)
        return data

    def head(self) -> bytes:
        """The first bytes, which `read` gives too."""
        return self._head

    def read(self, length: int) -> bytes:
        """As many bytes, or fewer at the end."""
        if not self._head:
            return self._checked(self._file.read(length))
        data, self._head = self._head[:length], self._head[length:]
        return data if len(data) == length else data + self._file.read(length - len(data))

    def more(self) -> bytes:
        """The next bytes, as many as are there, or none at the end."""
        data, self._head = self._head, b""
        return data or self._checked(self._file.read1(BLOCK))

    def lines(self) -> Iterator[bytes]:
        """The lines, each at most as long as a line of a dump may be; a longer one comes in several."""
        rest, block = b"", b"-"
        while block:
            block = self.read(BLOCK)
            pieces = (rest + block).split(b"\n")
            rest = pieces.pop()
            yield from pieces
            if not block or len(rest) > BLOCK:
                yield rest
                rest = b""


def source_of(file: IO[bytes]) -> Source:
    """The bytes of a file or a pipe, or what gzip made of them."""
    source = Source(file)
    return Source(Unpacked(source)) if source.head().startswith(GZIP) else source


def is_capture(head: bytes) -> bool:
    """Whether a file that begins so is a capture."""
    return head[:4] in PCAP or head[:4] == PCAPNG


class Drops:
    """The frames that a capture says it has lost, of each interface: as statistics count them, and as packets do; and its blocks of types
    that aren't known, which may be frames."""

    def __init__(self) -> None:
        self.unknown = 0  #: blocks
        self._ended = 0  # of the sections before
        self._counted, self._before = Counter[int](), Counter[int]()

    def end_section(self) -> None:
        """The interfaces that follow are others."""
        self._ended = self.total()
        self._counted, self._before = Counter(), Counter()

    def count(self, interface: int, so_far: int) -> None:
        """So many of an interface, from the beginning on."""
        self._counted |= Counter({interface: so_far})

    def add(self, interface: int, count: int) -> None:
        """So many more of an interface."""
        self._before[interface] += count

    def total(self) -> int:
        return self._ended + sum((self._counted | self._before).values())  # the greater count of each


def frames(source: Source, drops: Drops) -> Iterator[Frame]:
    """The frames of a capture. Raises `CutShort` after the last whole one if it doesn't end there."""
    return _pcapng(source, drops) if source.head()[:4] == PCAPNG else _pcap(source)


def _need(source: Source, length: int, what: str) -> bytes:
    data = source.read(length)
    if len(data) < length:
        source.more()  # which tells what is wrong, if that isn't the capture's own end
        raise CutShort(f"the capture ends within {what}")
    return data


def _pcap(source: Source) -> Iterator[Frame]:
    head = _need(source, 24, "its header")
    order, units = PCAP[head[:4]]
    link = struct.unpack_from(order + "I", head, 20)[0] & 0xFFFF  # the bits above tell of check sequences
    unpack, nanoseconds = struct.Struct(order + "IIII").unpack_from, units // 10**6
    block, at = b"", 0
    while more := source.more():
        block, at = block[at:] + more, 0
        while at + 16 <= len(block):
            seconds, parts, captured, length = unpack(block, at)
            if captured > MOST_OF_A_FRAME:
                raise CutShort(f"the capture goes on with what is no frame: {captured} bytes")
            end = at + 16 + captured
            if end > len(block):
                break
            yield Frame(seconds * 10**6 + parts // nanoseconds, link, block[at + 16:end], length if length > captured else captured)
            at = end
    if at < len(block):
        raise CutShort("the capture ends within a frame" if at + 16 <= len(block) else "the capture ends within a frame's header")


class _Interface(NamedTuple):
    """An interface of a section: its link, the bytes that are captured of a frame, the units of time, the offset in seconds."""

    link: int
    most: int
    units: int
    offset: int


def _pcapng(source: Source, drops: Drops) -> Iterator[Frame]:
    order, interfaces = "<", list[_Interface]()
    while head := source.read(8):
        head += _need(source, 8 - len(head), "a block's header") if len(head) < 8 else b""
        if head[:4] == PCAPNG:
            mark = _need(source, 4, "a section's header")
            if mark not in ORDERS:
                raise CutShort("the capture goes on with a section in no order of bytes")
            order, interfaces = ORDERS[mark], []
            drops.end_section()
            head += mark
        kind, length = struct.unpack_from(order + "II", head)
        if not len(head) + 4 <= length <= MOST_OF_A_BLOCK or length % 4:
            raise CutShort(f"the capture goes on with what is no block: {length} bytes")
        body = _need(source, length - len(head), "a block")
        if struct.unpack(order + "I", body[-4:]) != (length,):
            raise CutShort("the capture goes on with a block that has another length at its end")
        body = body[:-4]
        if kind == INTERFACE:
            interfaces.append(_interface(order, body))
        elif kind in (PACKET, SIMPLE_PACKET, OLD_PACKET):
            try:
                frame = _frame(order, kind, body, interfaces, drops)
            except (struct.error, IndexError):
                raise CutShort("the capture goes on with a block that is no frame") from None
            yield frame
        elif kind == STATISTICS and len(body) >= 12:
            found = [struct.unpack(order + "Q", value)[0] for option, value in _options(order, body, 12) if option in DROPPED and len(value) == 8]
            drops.count(struct.unpack_from(order + "I", body)[0], sum(it for it in found if it != UNKNOWN))
        elif kind not in WITHOUT_FRAMES:
            drops.unknown += 1


def _options(order: str, body: bytes, at: int) -> Iterator[tuple[int, bytes]]:
    """The options of a block from a place on: the code of each, and its value."""
    while at + 4 <= len(body):
        option, length = struct.unpack_from(order + "HH", body, at)
        if not option:
            return
        yield option, body[at + 4:at + 4 + length]
        at += 4 + length + -length % 4


def _interface(order: str, body: bytes) -> _Interface:
    if len(body) < 8:
        raise CutShort("the capture goes on with an interface that is none")
    link, most = struct.unpack_from(order + "HxxI", body)
    units, offset = 10**6, 0
    for option, value in _options(order, body, 8):
        if option == RESOLUTION and value:
            units = 2 ** (value[0] & 0x7F) if value[0] & 0x80 else 10 ** value[0]
        elif option == OFFSET and len(value) == 8:
            offset = struct.unpack(order + "q", value)[0]
    return _Interface(link, most, units, offset)


def _frame(order: str, kind: int, body: bytes, interfaces: list[_Interface], drops: Drops) -> Frame:
    """The frame of a block; those that were lost before it are counted. Raises struct.error or IndexError if it is none."""
    if kind == SIMPLE_PACKET:
        length, = struct.unpack_from(order + "I", body)
        captured = min(length, interfaces[0].most or length)
        return Frame(0, interfaces[0].link, struct.unpack_from(f"{captured}s", body, 4)[0], length)
    number, high, low, captured, length = struct.unpack_from(order + ("IIIII" if kind == PACKET else "HxxIIII"), body)
    interface, data = interfaces[number], struct.unpack_from(f"{captured}s", body, 20)[0]
    if kind == OLD_PACKET:
        lost, = struct.unpack_from(order + "H", body, 2)
        drops.add(number, lost if lost != UNKNOWN_BEFORE else 0)
    for option, value in _options(order, body, 20 + captured + -captured % 4) if kind == PACKET else ():
        if option == DROPPED_BEFORE and len(value) == 8:
            drops.add(number, struct.unpack(order + "Q", value)[0])
    time = interface.offset * 10**6 + (high << 32 | low) * 10**6 // interface.units
    return Frame(time, interface.link, data, max(length, captured))
