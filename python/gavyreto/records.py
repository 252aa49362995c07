"""The records of a text: fields with commas between them, and CR LF at the end of each record."""
from __future__ import annotations

import codecs
import io
import re
from itertools import repeat
from typing import Callable, Iterator, NamedTuple, Optional, TypeVar, Union, cast

from gavyreto.values import BINARY, TEXT, Shape

Read = Callable[[int], bytes]
Piece = TypeVar("Piece", str, bytes)
BLOCK = 1 << 17  # bytes that are read at once, at most
LONGEST = 1 << 20  # characters of a row that are held as text; a longer row is read field by field
SEPARATOR = "\r\n"  # at the end of a record, and alone between two sets
END = "\ud800"  # of a value: what no text has
FIELD = re.compile(r'("[^"]*(?:""[^"]*)*"|[^",\r\n]+)(,|\r\n)')
SHORT = re.compile(r'[^",\r\n]{0,100}')
QUOTED = re.compile(r'[^"]*(?:""[^"]*)*')
DIGITS = re.compile(r"[0-9a-f]*")


def end_of_set(text: str, at: int) -> int:
    """Where the records of a set end that are in a text from a place on, at which one begins: before an empty record, or at
    the end of the text."""
    inside, end = 0, at
    while True:
        place = text.find("\r\n\r\n", end)
        if place < 0:
            return len(text)
        inside ^= text.count('"', end, place) & 1
        end = place + 1
        if not inside:
            return place + 2


def record_at(text: str, at: int) -> tuple[list[str], int]:
    """The fields of the record at a place, and where it ends. Raises ValueError if something in it is no field."""
    fields = []
    while found := FIELD.match(text, at):
        fields.append(found[1])
        at = found.end()
        if found[2] == "\r\n":
            return fields, at
    raise ValueError(f"no field begins with {text[at:at + 20]!r}")


def outlined(records: str) -> tuple[str, list[str]]:
    """The outline of whole records, in which a quote stands for each value in quotes, and these values. A quote within a value is doubled, so
    that nothing is between the two."""
    parts = records.split('"')
    outside = parts[::2]
    if "" in outside[1:]:
        parts[::2] = ["", *cast("Iterator[str]", map({"": '"'}.get, outside[1:], repeat(END)))]
        outside[1:] = filter(None, outside[1:])
        return '"'.join(outside), "".join(parts).split(END)[:-1]
    return '"'.join(outside), parts[1::2]


class LongField(NamedTuple):
    """A field whose value was read piece by piece."""

    value: Union[str, bytes]
    shape: Shape


class OpenField(NamedTuple):
    """A field whose value is still to be read: it comes in pieces."""

    pieces: Iterator[Union[str, bytes]]
    shape: Shape


LongRecord = list[Union[str, LongField]]  # and any other that is read field by field


class Records:
    """The whole records of a text, in blocks. What is left at its end is in `rest`."""

    def __init__(self, read: Read) -> None:
        self.rest = ""
        self.length = 0  #: bytes read so far
        self._read, self._decoder = read, codecs.getincrementaldecoder("utf-8")()
        self._scanned, self._is_inside = 0, 0  # how much of the rest was looked at, and whether that ends within quotes
        self._wrong: Optional[ValueError] = None

    def next(self) -> Optional[str]:
        """The records that have come since the last call; none of them if the next one is long, which is read in another way;
        None at the end of the text."""
        while True:
            end = self._end_of_records()
            if end:
                block, self.rest = self.rest[:end], self.rest[end:]
                self._scanned -= end
                return block
            if len(self.rest) > LONGEST:
                self._scanned = self._is_inside = 0
                return ""
            more = self._more()
            if not more:
                return None
            self.rest += more

    def _end_of_records(self) -> int:
        """Where the last whole record ends, among what wasn't looked at; 0 if none does. A quote within a value is doubled, so
        a line end with an odd number of quotes before it is within a value."""
        end, least = len(self.rest), max(self._scanned - 1, 0)
        self._is_inside ^= self.rest.count('"', self._scanned) & 1
        self._scanned, is_inside = end, self._is_inside
        while (place := self.rest.rfind(SEPARATOR, least, end)) >= 0:
            is_inside ^= self.rest.count('"', place, end) & 1
            if not is_inside:
                return place + len(SEPARATOR)
            end = place
        return 0

    def _more(self) -> str:
        """The next characters, at least one, or none at the end of the text. Raises ValueError at bytes that aren't UTF-8."""
        text, data = "", b"-"
        while data and not text:
            if self._wrong:
                raise self._wrong
            data = self._read(BLOCK)
            self.length += len(data)
            try:
                text = self._decoder.decode(data, final=not data)
            except UnicodeDecodeError as wrong:
                text = wrong.object[:wrong.start].decode()
                self._wrong = ValueError(f"bytes that aren't UTF-8: {wrong.object[wrong.start:wrong.start + 8].hex()}")
                data = b"-"
        return text

    def put_back(self, text: str) -> None:
        """Puts back records that weren't used up."""
        self.rest = text + self.rest
        self._scanned = self._is_inside = 0

    # A record, field by field. The end of the text before the end of the record is an EOFError.

    def long_record(self) -> LongRecord:
        """One record, whose long values are held once."""
        begun, record, end = self.rest[:LONGEST], list[Union[str, LongField]](), ","
        try:
            while end == ",":
                field = self.open_field()
                record.append(LongField(joined(field), field.shape) if isinstance(field, OpenField) else field)
                end = self.end_of_field()
        except EOFError:
            self.rest = begun
            raise
        return record

    def _need(self, length: int) -> None:
        """Sees to it that so many characters are there."""
        while len(self.rest) < length:
            more = self._more()
            if not more:
                raise EOFError
            self.rest += more

    def open_field(self) -> Union[str, OpenField]:
        """The next field, whose pieces have to be read before `end_of_field`."""
        self._need(2)
        if self.rest.startswith('"'):
            return OpenField(self._pieces('"', QUOTED, 1, lambda text: text.replace('""', '"')), TEXT)
        if self.rest.startswith("0x"):
            return OpenField(self._pieces("0x", DIGITS, 2, bytes.fromhex), BINARY)
        return self._short()

    def end_of_field(self) -> str:
        """A comma, or the end of the record."""
        self._need(2)
        for end in (",", SEPARATOR):
            if self.rest.startswith(end):
                self.rest = self.rest[len(end):]
                return end
        raise ValueError(f"{self.rest[:20]!r} after a field")

    def _short(self) -> str:
        """A field without quotes, which has some forty characters at most."""
        while SHORT.fullmatch(self.rest):
            self._need(len(self.rest) + 1)
        end = cast("re.Match[str]", SHORT.match(self.rest)).end()
        field, self.rest = self.rest[:end], self.rest[end:]
        return field

    def _pieces(self, begin: str, pattern: re.Pattern[str], unit: int, read: Callable[[str], Piece]) -> Iterator[Piece]:
        """The pieces of a text in quotes, or of a binary value, of so many characters each or a multiple, behind how it begins. A quote at the
        end of what is there may be the first of two."""
        self.rest = self.rest[len(begin):]
        is_over = False
        while not is_over:
            self._need(2)
            found = pattern.match(self.rest)
            end = (found.end() if found else 0) // unit * unit
            piece, self.rest = read(self.rest[:end]), self.rest[end:]
            is_over = len(self.rest) > 1
            self.rest = self.rest[is_over and begin == '"':]
            yield piece


def joined(field: OpenField) -> Union[str, bytes]:
    """The value of a field, from its pieces. Of bytes it is never held twice."""
    if field.shape is TEXT:
        return "".join(cast("Iterator[str]", field.pieces))
    value = io.BytesIO()
    value.writelines(cast("Iterator[bytes]", field.pieces))
    return value.getvalue()
