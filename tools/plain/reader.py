"""A plain, slow reading of a whole response: the second opinion that tools/generated compares the program with.

It is written from the rules of docs/PROTOCOL.md over the joined payload, element by element, by Python's own integers and
dates. It shares no code with the program or with other tools, keeps everything in memory, and isn't proved. tools/wrong-rules
turns its rules into wrong ones, each by a text that occurs once in this file."""
from __future__ import annotations

import collections
from dataclasses import dataclass, field
from datetime import date, timedelta
from typing import NamedTuple, Optional

TOKENS = {
    0x81: "COLMETADATA", 0xD1: "ROW", 0xD2: "NBCROW", 0xA9: "ORDER", 0xAA: "ERROR", 0xAB: "INFO", 0xAC: "RETURNVALUE",
    0xE3: "ENVCHANGE", 0x79: "RETURNSTATUS", 0xFD: "DONE", 0xFE: "DONEPROC", 0xFF: "DONEINPROC",
}
FIXED = {
    0x30: "Int1", 0x32: "Bit", 0x34: "Int2", 0x38: "Int4", 0x7F: "Int8", 0x3A: "DateTime4", 0x3D: "DateTime8", 0x7A: "Money4",
    0x3C: "Money8",
}
FIXED_LENGTH = {0x30: 1, 0x32: 1, 0x34: 2, 0x38: 4, 0x7F: 8, 0x3A: 4, 0x3D: 8, 0x7A: 4, 0x3C: 8}
LONG = {0xA5: "Binary", 0xAD: "Binary", 0xA7: "Narrow", 0xAF: "Narrow", 0xE7: "Wide", 0xEF: "Wide"}
# How many bytes follow a type byte in the type information of a kind that isn't fixed.
REST = {
    0x24: 1, 0x26: 1, 0x68: 1, 0x6E: 1, 0x6F: 1, 0x6A: 3, 0x6C: 3, 0x28: 0, 0x29: 1, 0x2A: 1, 0x2B: 1,
    0xA5: 2, 0xAD: 2, 0xA7: 7, 0xAF: 7, 0xE7: 7, 0xEF: 7,
}
REFUSED = {
    0x3B: "FLT4", 0x3E: "FLT8", 0x6D: "FLTN", 0x23: "TEXT", 0x63: "NTEXT", 0x22: "IMAGE", 0x62: "SSVARIANT", 0xF0: "UDT",
    0xF1: "XML",
}
# The bytes of a time, by its scale.
TIME_LENGTH = (3, 3, 3, 4, 4, 5, 5, 5)
# The characters of the bytes 80 to 9F of Windows-1252.
CP1252 = (
    0x20AC, 0x0081, 0x201A, 0x0192, 0x201E, 0x2026, 0x2020, 0x2021,
    0x02C6, 0x2030, 0x0160, 0x2039, 0x0152, 0x008D, 0x017D, 0x008F,
    0x0090, 0x2018, 0x2019, 0x201C, 0x201D, 0x2022, 0x2013, 0x2014,
    0x02DC, 0x2122, 0x0161, 0x203A, 0x0153, 0x009D, 0x017E, 0x0178,
)
# The characters of UTF-8, as Unicode tabulates well-formed sequences: each byte from and to.
LATER = (0x80, 0xBF)
UTF8 = (
    ((0x00, 0x7F),),
    ((0xC2, 0xDF), LATER),
    ((0xE0, 0xE0), (0xA0, 0xBF), LATER),
    ((0xE1, 0xEC), LATER, LATER),
    ((0xED, 0xED), (0x80, 0x9F), LATER),
    ((0xEE, 0xEF), LATER, LATER),
    ((0xF0, 0xF0), (0x90, 0xBF), LATER, LATER),
    ((0xF1, 0xF3), LATER, LATER, LATER),
    ((0xF4, 0xF4), (0x80, 0x8F), LATER, LATER),
)
LAST_DAY, DAY_1900 = 3_652_058, 693_595
RETURN_COLUMN = 65_535


@dataclass
class Stop(Exception):
    """A fault by its number, its name with fields, its place, and the element that has it or isn't whole."""

    number: int
    name: str
    place: str
    element: str = ""


@dataclass
class Options:
    packet_size: int = 4096
    column_room: int = 1_048_576
    max_wire: int = 1_099_511_627_776
    charset: str = "windows-1252"


def options_of(words: list[str]) -> Options:
    """The options that arguments name, two words each."""
    options = Options()
    for name, value in zip(words[::2], words[1::2]):
        if name == "--packet-size":
            options.packet_size = int(value)
        elif name == "--column-room":
            options.column_room = int(value)
        elif name == "--max-wire":
            options.max_wire = int(value)
        elif name == "--charset":
            options.charset = value
        else:
            raise ValueError(f"no option {name}")
    return options


@dataclass(frozen=True)
class Kind:
    """A column's type: its byte and what follows it."""

    byte: int
    rest: bytes

    def is_chunked(self) -> bool:
        return self.byte in LONG and self.rest[:2] == b"\xFF\xFF"


class Cell(NamedTuple):
    """A value that was read: the token that it is in, how it was spelt (value, NULL, or by its bit), and its bytes."""

    token: str
    kind: Kind
    spelt: str
    length: int


@dataclass
class Report:
    sets: int = 0
    rows: int = 0
    errors: int = 0
    infos: int = 0
    values: int = 0
    status: Optional[int] = None
    error: str = ""


def number(data: bytes) -> int:
    return int.from_bytes(data, "little")


def signed(data: bytes) -> int:
    return int.from_bytes(data, "little", signed=True)


# Texts

def quoted(text: str) -> bytes:
    return text.replace('"', '""').encode("utf-8")


def utf16(units: bytes, is_whole: bool) -> tuple[str, bytes]:
    """The text of the characters that are whole, with U+FFFD for each unpaired surrogate, and the bytes that are withheld."""
    text: list[str] = []
    at = 0
    while at + 2 <= len(units):
        unit, next_unit = number(units[at:at + 2]), number(units[at + 2:at + 4])
        is_high = 0xD800 <= unit <= 0xDBFF
        if is_high and at + 4 > len(units) and not is_whole:
            break
        if is_high and 0xDC00 <= next_unit <= 0xDFFF:
            text.append(chr(0x10000 + ((unit - 0xD800) << 10) + next_unit - 0xDC00))
            at += 2
        else:
            text.append("\uFFFD" if 0xD800 <= unit <= 0xDFFF else chr(unit))
        at += 2
    return "".join(text), units[at:]


def with_point(units: int, scale: int) -> str:
    """A count of units of 10^-scale as digits with a point."""
    digits = str(abs(units)).rjust(scale + 1, "0")
    whole, part = digits[:len(digits) - scale], digits[len(digits) - scale:]
    return ("-" if units < 0 else "") + whole + ("." + part if scale > 0 else "")


def day_text(days: int) -> str:
    found = date(1, 1, 1) + timedelta(days)
    return f"{found.year:04}-{found.month:02}-{found.day:02}"


def clock(seconds: int) -> str:
    return f"{seconds // 3600:02}:{seconds // 60 % 60:02}:{seconds % 60:02}"


def time_text(units: int, scale: int) -> str:
    seconds, part = divmod(units, 10 ** scale)
    return clock(seconds) + (f".{part:0{scale}}" if scale > 0 else "")


def small_datetime_text(data: bytes) -> Optional[str]:
    days, minutes = number(data[:2]), number(data[2:])
    if minutes >= 1440:
        return None
    return f"{day_text(DAY_1900 + days)} {clock(60 * minutes)}"


def datetime_text(data: bytes) -> Optional[str]:
    days, thirds = DAY_1900 + signed(data[:4]), number(data[4:])
    if days < 0 or days > LAST_DAY or thirds >= 25_920_000:
        return None
    return f"{day_text(days)} {clock(thirds // 300)}.{(10 * (thirds % 300) + 1) // 3:03}"


def fixed_text(name: str, data: bytes) -> Optional[str]:
    """The text of a value of a kind without a scale, or None if it is out of range."""
    if name == "Int1":
        return str(data[0])
    if name in ("Int2", "Int4", "Int8"):
        return str(signed(data))
    if name == "Bit":
        return "0" if data[0] == 0 else "1"
    if name == "Money4":
        return with_point(signed(data), 4)
    if name == "Money8":
        return with_point((signed(data[:4]) << 32) + number(data[4:]), 4)
    return small_datetime_text(data) if name == "DateTime4" else datetime_text(data)


def guid_text(data: bytes) -> str:
    first, second, third = data[0:4][::-1].hex(), data[4:6][::-1].hex(), data[6:8][::-1].hex()
    return f"{first}-{second}-{third}-{data[8:10].hex()}-{data[10:].hex()}"


def moment_text(byte: int, scale: int, data: bytes) -> Optional[str]:
    """The text of a time, a date and time, or one with an offset, or None if it is out of range."""
    length, second = TIME_LENGTH[scale], 10 ** scale
    units, days = number(data[:length]), number(data[length:length + 3])
    if units >= 86_400 * second:
        return None
    if byte == 0x29:
        return time_text(units, scale)
    if days > LAST_DAY:
        return None
    if byte == 0x2A:
        return f"{day_text(days)} {time_text(units, scale)}"
    offset = signed(data[length + 3:])
    local_day, local_units = divmod((days * 86_400 + 60 * offset) * second + units, 86_400 * second)
    if offset < -840 or offset > 840 or local_day < 0 or local_day > LAST_DAY:
        return None
    sign, minutes = "-" if offset < 0 else "+", abs(offset)
    return f"{day_text(local_day)} {time_text(local_units, scale)} {sign}{minutes // 60:02}:{minutes % 60:02}"


def scalar_text(kind: Kind, data: bytes) -> Optional[str]:
    """The text of a scalar of a length that is allowed, or None if it is out of range."""
    byte, rest = kind.byte, kind.rest
    if byte in FIXED:
        return fixed_text(FIXED[byte], data)
    if byte == 0x24:
        return guid_text(data)
    if byte == 0x26:
        return fixed_text(f"Int{len(data)}", data)
    if byte == 0x68:
        return fixed_text("Bit", data)
    if byte == 0x6E:
        return fixed_text(f"Money{len(data)}", data)
    if byte == 0x6F:
        return fixed_text(f"DateTime{len(data)}", data)
    if byte in (0x6A, 0x6C):
        magnitude = number(data[1:])
        return with_point(-magnitude if data[0] == 0 else magnitude, rest[2])
    if byte == 0x28:
        return day_text(number(data)) if number(data) <= LAST_DAY else None
    return moment_text(byte, rest[0], data)


# Lengths

def is_allowed(kind: Kind, length: int) -> bool:
    """Whether a value that isn't NULL may have so many bytes."""
    byte, rest = kind.byte, kind.rest
    if byte in (0x24, 0x26, 0x68, 0x6E, 0x6F):
        return length == rest[0]
    if byte in (0x6A, 0x6C):
        return length in (5, 9, 13, 17) and length <= rest[0]
    if byte == 0x28:
        return length == 3
    if byte == 0x29:
        return length == TIME_LENGTH[rest[0]]
    if byte == 0x2A:
        return length == TIME_LENGTH[rest[0]] + 3
    return length == TIME_LENGTH[rest[0]] + 5


def is_described(byte: int, rest: bytes) -> bool:
    """Whether a type byte may be followed by these bytes."""
    if byte == 0x24:
        return rest[0] == 16
    if byte == 0x26:
        return rest[0] in (1, 2, 4, 8)
    if byte == 0x68:
        return rest[0] == 1
    if byte in (0x6E, 0x6F):
        return rest[0] in (4, 8)
    if byte in (0x6A, 0x6C):
        length, precision, scale = rest
        return length in (5, 9, 13, 17) and 1 <= precision <= 38 and scale <= precision
    if byte in (0x29, 0x2A, 0x2B):
        return rest[0] <= 7
    return byte not in (0xAD, 0xAF, 0xEF) or rest[:2] != b"\xFF\xFF"


# The wire

def payload_of(wire: bytes, options: Options) -> tuple[bytes, Optional[Stop]]:
    """The payload of the packets at the front, and what stops the wire after them if none of them is the last."""
    bodies: list[bytes] = []
    at = 0
    while True:
        place, header = f"wire {at}", wire[at:at + 8]
        if len(header) < 8:
            return b"".join(bodies), Stop(2, "InputEnded", place)
        if header[0] != 4:
            return b"".join(bodies), Stop(3, f"WrongPacketType 0x{header[0]:02x}", place)
        length = int.from_bytes(header[2:4], "big")
        if length < 8 or length > options.packet_size:
            return b"".join(bodies), Stop(4, f"BadPacketLength {length}", place)
        if at + length > options.max_wire:
            return b"".join(bodies), Stop(5, "ResponseTooLong", place)
        if at + length > len(wire):
            return b"".join(bodies), Stop(2, "InputEnded", place)
        bodies.append(wire[at + 8:at + length])
        at += length
        if header[1] & 1:
            return b"".join(bodies), None


# Long values

def utf8_form(first: int) -> tuple[tuple[int, int], ...]:
    """The ranges of the bytes of a character that begins with a byte; none if no character does."""
    for form in UTF8:
        low, high = form[0]
        if low <= first <= high:
            return form
    return ()


class Value:
    """A long value: `text` grows by its whole characters, and what isn't a whole character is withheld."""

    def __init__(self, form: str, is_utf8: bool, text: bytearray) -> None:
        self.form, self.is_utf8, self.text = form, is_utf8, text
        self.withheld = b""
        # the ranges of the bytes that a character of UTF-8 lacks
        self.missing: tuple[tuple[int, int], ...] = ()
        self.quote = b"" if form == "Binary" else b'"'
        self.text += b"0x" if form == "Binary" else self.quote

    def add_utf8(self, byte: int) -> bool:
        """Adds a byte of UTF-8, and returns whether some UTF-8 text begins with the data so far and this byte."""
        expected = self.missing or utf8_form(byte)
        if not expected or not expected[0][0] <= byte <= expected[0][1]:
            return False
        self.withheld, self.missing = self.withheld + bytes([byte]), expected[1:]
        if not self.missing:
            self.text += quoted(self.withheld.decode("utf-8"))
            self.withheld = b""
        return True

    def add(self, data: bytes) -> None:
        """Adds data that isn't read as UTF-8."""
        if self.form == "Binary":
            self.text += data.hex().encode()
        elif self.form == "Narrow":
            self.text += quoted("".join(chr(CP1252[it - 0x80] if 0x80 <= it <= 0x9F else it) for it in data))
        else:
            text, self.withheld = utf16(self.withheld + data, False)
            self.text += quoted(text)

    def close(self) -> None:
        """Adds what withheld units stand for, and the quote."""
        self.text += quoted(utf16(self.withheld, True)[0]) + self.quote


# ERROR and INFO

class Notice(NamedTuple):
    number: int
    state: int
    severity: int
    message: bytes
    line: int


def notice_of(body: bytes) -> Optional[Notice]:
    """The fields of an ERROR or INFO, or None if they pass its body."""
    at = 8 + 2 * number(body[6:8])
    message = body[8:at]
    for _ in ("server name", "procedure name"):
        if at >= len(body):
            return None
        at += 1 + 2 * body[at]
    if at + 4 > len(body):
        return None
    return Notice(signed(body[:4]), body[4], body[5], message, signed(body[at:at + 4]))


def error_line(notice: Notice) -> str:
    message, _ = utf16(notice.message, True)
    while len(message.encode()) > 512:
        message = message[:-1]
    shown = "".join(" " if ord(it) < 0x20 or ord(it) == 0x7F else it for it in message)
    return f"server error {notice.number}, state {notice.state}, class {notice.severity}, line {notice.line}: {shown}"


@dataclass
class Reader:
    """The state of a reading over a whole payload."""

    payload: bytes
    wire_stop: Optional[Stop]
    options: Options
    at: int = 0
    # the token under way, the element that was taken last, and where that begins
    token: str = ""
    element: str = ""
    element_at: int = 0
    text: bytearray = field(default_factory=bytearray)
    report: Report = field(default_factory=Report)
    # the kinds of the current description; empty if there is none
    columns: list[Kind] = field(default_factory=list)
    is_final: bool = False
    # for those who count: elements that were taken, by token and name, and values
    elements: collections.Counter[tuple[str, str]] = field(default_factory=collections.Counter)
    cells: list[Cell] = field(default_factory=list)

    def cut(self, element: str) -> Stop:
        """What stops a reading whose next element isn't whole."""
        return self.wire_stop or Stop(7, "MessageEnded", f"payload {self.at}", element)

    def refused(self, number_of: int, name: str) -> Stop:
        """A fault of the element that was taken last."""
        return Stop(number_of, name, f"payload {self.element_at}", self.element)

    def take(self, element: str, length: int) -> bytes:
        """Takes an element of so many bytes."""
        data = self.payload[self.at:self.at + length]
        if len(data) < length:
            raise self.cut(element)
        self.element, self.element_at = element, self.at
        self.elements[self.token, element] += 1
        self.at += length
        return data

    def run(self) -> None:
        """Reads tokens up to the end of the message."""
        while self.at < len(self.payload):
            byte = self.take("token", 1)[0]
            if byte not in TOKENS:
                raise self.refused(6, f"RefusedToken 0x{byte:02x}")
            if byte in (0xD1, 0xD2) and not self.columns:
                raise self.refused(14, "RowWithoutColumns")
            self.token, self.is_final = TOKENS[byte], False
            self.elements[self.token, "token"] += 1
            self.body(byte)
            self.token = ""
        if self.wire_stop:
            raise self.wire_stop
        if not self.is_final:
            raise Stop(8, "EndWithoutDone", f"payload {self.at}", "token")

    def body(self, byte: int) -> None:
        """Reads what follows a token byte."""
        if byte == 0x81:
            self.description()
        elif byte in (0xD1, 0xD2):
            self.row(byte)
        elif byte in (0xA9, 0xE3):
            self.take("body", number(self.take("Length", 2)))
        elif byte in (0xAA, 0xAB):
            self.notice(byte)
        elif byte == 0xAC:
            self.return_value()
        elif byte == 0x79:
            self.report.status = signed(self.take("value", 4))
        else:
            self.is_final = self.take("body", 12)[0] & 1 == 0 and byte != 0xFF

    # descriptions

    def description(self) -> None:
        self.columns, start, room = [], self.at, self.options.column_room

        def need(more: int) -> None:
            """Refuses a description that needs so many bytes more, if they pass the room."""
            if self.at - start + more > room:
                raise self.refused(13, "DescriptionTooLong")

        count = number(self.take("Count", 2))
        if count == 0:
            raise self.refused(9, "NoColumns")
        if count == 0xFFFF:
            return
        need(8 * count)
        kinds: list[Kind] = []
        names: list[bytes] = []
        for index in range(count):
            not_begun = 8 * (count - index - 1)
            byte = self.type_byte("column head", 7, index)
            need(REST.get(byte, 0) + 1 + not_begun)
            kinds.append(self.type_information(byte, index))
            units = self.take("unit count of the name", 1)[0]
            need(2 * units + not_begun)
            names.append(self.units_of_name(units))
        self.columns = kinds
        self.header_line(names)

    def header_line(self, names: list[bytes]) -> None:
        if self.report.sets > 0:
            self.text += b"\r\n"
        self.report.sets += 1
        self.text += b",".join(b'"' + quoted(utf16(name, True)[0]) + b'"' for name in names) + b"\r\n"

    def units_of_name(self, units: int) -> bytes:
        return self.take("units of the name", 2 * units) if units else b""

    def type_byte(self, element: str, length: int, index: int) -> int:
        """Reads a head that ends with a type byte."""
        byte = self.take(element, length)[-1]
        if byte in REFUSED:
            raise self.refused(10, f"RefusedColumn {index} {REFUSED[byte]}")
        if byte not in FIXED and byte not in REST:
            raise self.refused(11, f"UnknownType {index} 0x{byte:02x}")
        return byte

    def type_information(self, byte: int, index: int) -> Kind:
        """Reads what follows a type byte."""
        if REST.get(byte, 0) == 0:
            return Kind(byte, b"")
        rest = self.take("rest of the type information", REST[byte])
        if not is_described(byte, rest):
            raise self.refused(12, f"BadTypeInfo {index}")
        return Kind(byte, rest)

    # rows

    def row(self, byte: int) -> None:
        columns = len(self.columns)
        bitmap = self.take("bitmap", (columns + 7) // 8) if byte == 0xD2 else bytes(columns)
        for index, kind in enumerate(self.columns):
            comma = b"," if index > 0 else b""
            if bitmap[index // 8] >> index % 8 & 1:
                self.text += comma + b"NULL"
                self.cells.append(Cell(self.token, kind, "by bit", 0))
            else:
                self.cell(kind, index, comma, self.text)
        self.text += b"\r\n"
        self.report.rows += 1

    def cell(self, kind: Kind, column: int, comma: bytes, text: bytearray) -> None:
        """Reads a value, and adds its field to a text."""
        if kind.is_chunked():
            length = self.chunked(kind, column, comma, text)
        elif kind.byte in LONG:
            length = self.short(kind, column, comma, text)
        else:
            length = self.scalar(kind, column, comma, text)
        if length is None:
            text += comma + b"NULL"
        self.cells.append(Cell(self.token, kind, "NULL" if length is None else "value", length or 0))

    def scalar(self, kind: Kind, column: int, comma: bytes, text: bytearray) -> Optional[int]:
        """Reads a value of a scalar kind, and returns how many bytes it has, or None for NULL."""
        if kind.byte in FIXED:
            length, element = FIXED_LENGTH[kind.byte], "bytes of a fixed kind"
        else:
            length, element = self.take("length", 1)[0], "bytes after a length"
            if length == 0:
                return None
            if not is_allowed(kind, length):
                raise self.refused(15, f"BadValueLength {column}")
        found = scalar_text(kind, self.take(element, length))
        if found is None:
            raise self.refused(16, f"BadValue {column}")
        text += comma + found.encode()
        return length

    def value(self, kind: Kind, column: int, comma: bytes, text: bytearray) -> Value:
        """Opens a long value. Narrow data of a RETURNVALUE may be any bytes, so none of it is read as UTF-8."""
        form = LONG[kind.byte]
        is_utf8 = form == "Narrow" and self.options.charset == "utf-8" and column != RETURN_COLUMN
        text += comma
        return Value(form, is_utf8, text)

    def short(self, kind: Kind, column: int, comma: bytes, text: bytearray) -> Optional[int]:
        """Reads a short value, and returns how many bytes it has, or None for NULL."""
        length = number(self.take("length of a short value", 2))
        if length == 0xFFFF:
            return None
        if LONG[kind.byte] == "Wide" and length % 2 == 1:
            raise self.refused(17, f"OddText {column}")
        value = self.value(kind, column, comma, text)
        self.data("data of a short value", value, length, column, True)
        value.close()
        return length

    def chunked(self, kind: Kind, column: int, comma: bytes, text: bytearray) -> Optional[int]:
        """Reads a chunked value, and returns how many bytes it has, or None for NULL."""
        is_wide = LONG[kind.byte] == "Wide"
        total = number(self.take("total", 8))
        if total == 2 ** 64 - 1:
            return None
        is_known = total != 2 ** 64 - 2
        if is_wide and is_known and total % 2 == 1:
            raise self.refused(17, f"OddText {column}")
        value = self.value(kind, column, comma, text)
        taken = 0
        while True:
            length = self.chunk_length()
            if length == 0:
                break
            if is_known and taken + length > total:
                raise self.refused(18, f"PlpLength {column}")
            self.data("data of a chunk", value, length, column, False)
            taken += length
        if is_known and taken != total:
            raise self.refused(18, f"PlpLength {column}")
        if is_wide and taken % 2 == 1:
            raise self.refused(17, f"OddText {column}")
        if value.missing:
            raise self.refused(21, f"BadText {column}")
        value.close()
        return taken

    def chunk_length(self) -> int:
        """Reads the length of a chunk, or the terminator, which is a length of 0."""
        length = number(self.payload[self.at:self.at + 4])
        self.take("terminator" if length == 0 else "length of a chunk", 4)
        return length

    def data(self, element: str, value: Value, length: int, column: int, is_rest: bool) -> None:
        """Takes data of a long value byte by byte, as far as it is there; it is the rest of the value, or a chunk of it."""
        data = self.payload[self.at:self.at + length]
        if value.is_utf8:
            for index in range(len(data)):
                self.element, self.element_at = element, self.at
                is_last = is_rest and index == length - 1
                if not value.add_utf8(data[index]) or is_last and value.missing:
                    raise self.refused(21, f"BadText {column}")
                self.at += 1
        else:
            value.add(data)
            self.at += len(data)
        if len(data) < length:
            raise self.cut(element)
        self.elements[self.token, element] += 1

    # the other tokens

    def notice(self, byte: int) -> None:
        length = number(self.take("Length", 2))
        if length < 14:
            raise self.refused(19, "BadNotice")
        notice = notice_of(self.take("body", length))
        if notice is None:
            raise self.refused(19, "BadNotice")
        if byte == 0xAB:
            self.report.infos += 1
            return
        self.report.errors += 1
        if self.report.errors == 1:
            self.report.error = error_line(notice)

    def return_value(self) -> None:
        self.take("ordinal", 2)
        self.units_of_name(self.take("unit count of the name", 1)[0])
        byte = self.type_byte("status to type byte", 8, RETURN_COLUMN)
        kind = self.type_information(byte, RETURN_COLUMN)
        self.cell(kind, RETURN_COLUMN, b"", bytearray())
        self.report.values += 1


class Answer(NamedTuple):
    """What the program has to write, say on standard error and end with, the stop if there is one, and the reader."""

    text: bytes
    said: str
    status: int
    stop: Optional[Stop]
    reader: Reader

    def shown(self) -> tuple[bytes, str, int]:
        return self.text, self.said, self.status


def said_of(report: Report, written: int) -> str:
    """The lines on standard error after a response that was read to its end."""
    lines = [f"sets {report.sets} rows {report.rows} errors {report.errors} infos {report.infos} written {written}"]
    if report.values > 0:
        lines.append(f"return values {report.values}")
    if report.status is not None:
        lines.append(f"return status {report.status}")
    if report.errors > 0:
        lines.append(report.error)
    return "".join(line + "\n" for line in lines)


def export(wire: bytes, words: list[str]) -> Answer:
    """Reads a response under the options that the words name."""
    options = options_of(words)
    payload, wire_stop = payload_of(wire, options)
    reader = Reader(payload, wire_stop, options)
    try:
        reader.run()
    except Stop as stop:
        text = bytes(reader.text)
        said = f"fault {stop.number} {stop.name} at {stop.place}, written {len(text)}, unwritten 0\n"
        return Answer(text, said, 4, stop, reader)
    text, report = bytes(reader.text), reader.report
    return Answer(text, said_of(report, len(text)), 3 if report.errors > 0 else 0, None, reader)


def length_of(wire: bytes) -> int:
    """How many bytes the packets at the front have up to the end of the last."""
    at, is_last = 0, False
    while not is_last:
        is_last = bool(wire[at + 1] & 1)
        at += int.from_bytes(wire[at + 2:at + 4], "big")
    return at


def export_all(wire: bytes, words: list[str]) -> list[Answer]:
    """Reads responses one after another under the options that the words name beside `--all`: what comes of each, up to the first stop."""
    words, answers = [word for word in words if word != "--all"], list[Answer]()
    while wire and not (answers and answers[-1].stop):
        answers.append(export(wire, words))
        wire = wire[length_of(wire):] if not answers[-1].stop else b""
    return answers


def shown_of_all(answers: list[Answer]) -> tuple[bytes, str, int]:
    """What the program has to write, say and end with for these responses."""
    count = sum(not answer.stop for answer in answers)
    said = "".join(answer.said for answer in answers) + f"responses {count}\n"
    return b"".join(answer.text for answer in answers), said, max([answer.status for answer in answers], default=0)
