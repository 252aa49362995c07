"""The text that the program writes, read back: sets and their rows."""
from __future__ import annotations

import errno
import io
import os
import re
import sys
import threading
from functools import partial
from itertools import chain, islice, repeat
from operator import index, length_hint
from typing import Any, Callable, Iterator, NamedTuple, NoReturn, Optional, Sequence, TypeVar, Union, cast

from gavyreto.columns import FLOATS, Column
from gavyreto.errors import Error, Interrupted, MalformedText, NotOneSet, PassedOver, UnfinishedText, check_own, is_of
from gavyreto.payload import Descriptions
from gavyreto.program import CHANGED, Before, owned
from gavyreto.records import BLOCK, SEPARATOR, LongField, LongRecord, OpenField, Read, Records, end_of_set, joined, outlined, record_at
from gavyreto.rows import Row, row_type
from gavyreto.values import BINARY, FLOAT, NULL, QUOTE, Converter, Dates, Value, check_dates, value_of

TO_ZEROS, TO_COMMAS = bytes.maketrans(b"123456789", b"000000000"), bytes.maketrans(b"\n", b",")
SEVERAL = "several sets: split them first, as docs/RECIPES.md has it in \"Several result sets\""
T = TypeVar("T")
S = TypeVar("S", bound="Sets")
Columns = list[list[Value]]  # the values of some rows, by columns
Described = tuple[str, Optional[str], None, Optional[int], Optional[int], Optional[int], Optional[bool]]


class Parser:
    """The headers of a text and the rows under each. The end of the text within a row is an EOFError."""

    def __init__(self, read: Read, dates: Dates, floats: Callable[[int], Sequence[bool]] = lambda _: ()) -> None:
        self.records = Records(read)
        self.sets = self.rows = 0  #: so far
        self.is_over = False  #: nothing is left of the text but `records.rest`
        self.dates, self._floats = dates, floats
        self._converters: list[Converter] = []
        self._has_rows = False  # whether rows of the set have come, by which the shapes of its columns are known
        self._row: Optional[re.Pattern[bytes]] = None  # the outline of a row by these shapes, once it is needed
        self._known: set[bytes] = set()  # those of the last rows, which match
        self._block, self._at = "", 0  # whole records, and how much of them is used up
        self._is_long = False  # whether the next record is long
        self._wrong: Optional[ValueError] = None  # what is wrong after them
        self._before = ""  # the empty record before a header that hasn't come

    def next_header(self) -> Optional[list[str]]:
        """The names of the next set, or None at the end of the text. Raises ValueError if something else is there."""
        if not self._fill():
            self.records.rest = self._before + self.records.rest
            return None
        fields: LongRecord = []
        if self._is_long:
            fields = self._long_record()
        else:
            fields[:], self._at = record_at(self._block, self._at)
        self._has_rows, self._row, self._before = False, None, ""
        names = [it.value if isinstance(it, LongField) else value_of(it) if it.startswith(QUOTE) else None for it in fields]
        floats = self._floats(self.sets) or [False] * len(names)
        self._converters = [Converter(name, self.dates, is_float) for name, is_float in zip(names, floats) if isinstance(name, str)]
        if len(self._converters) != len(fields):
            raise ValueError("a header has something else than names in quotes")
        self.sets += 1
        return [it.name for it in self._converters]

    def next_rows(self) -> Optional[Columns]:
        """Some rows of the set, perhaps none, or None after the last of them. Raises ValueError if something else is there."""
        if not self._fill() or self._is_separated():
            return None
        if self._is_long:
            columns = [[value] for value in self._row_of(self._long_record())]
        else:
            end = end_of_set(self._block, self._at)
            columns = self._rows_up_to(end) or self._rows_one_by_one(end)
        self.rows += len(columns[0])
        return columns

    def _fill(self) -> bool:
        """Sees to it that a record is there. False at the end of the text."""
        if self._is_long or self._at < len(self._block):
            return True
        if self._wrong:
            raise self._wrong
        found = None if self.is_over else self.records.next()
        self._block, self._at, self._is_long, self.is_over = found or "", 0, found == "", found is None
        return not self.is_over

    def _is_separated(self) -> bool:
        """Whether the set is over, by the empty record before the next one, which is passed over."""
        is_separated = self._block.startswith(SEPARATOR, self._at)
        if is_separated:
            self._at += len(SEPARATOR)
            self._before = SEPARATOR
        return is_separated

    def _long_record(self) -> LongRecord:
        self._is_long = False
        return self.records.long_record()

    def _rows_up_to(self, end: int) -> Optional[Columns]:
        """The rows up to a place, if the columns of all of them have the shapes that are known."""
        if not self._has_rows:
            return None
        outline, values = outlined(self._block[self._at:end])
        try:
            records = outline[:-len(SEPARATOR)].encode("ascii")
            columns = self._columns(records, values) if self._are_rows(records) else None
        except ValueError as wrong:
            check_own(wrong)
            return None
        self._at = end if columns else self._at
        return columns

    def _are_rows(self, outline: bytes) -> bool:
        """Whether each record of an outline is a row. With 0 for each digit most of them are the same."""
        different = set(outline.translate(TO_ZEROS).split(SEPARATOR.encode()))
        if self._row is None:
            self._row, self._known = re.compile(",".join(it.pattern() for it in self._converters).encode()), set()
        are_rows = all(map(self._row.fullmatch, different - self._known))
        self._known = different if are_rows else set()
        return are_rows

    def _columns(self, outline: bytes, values: Sequence[Optional[str]]) -> Columns:
        """The rows of an outline by columns, with their values in quotes. Raises ValueError if one has no value."""
        fields = outline.translate(TO_COMMAS, b"\r").decode("ascii").split(",")
        width = len(self._converters)
        columns: list[Sequence[Optional[str]]] = [fields[place::width] for place in range(width)]
        quoted = [place for place, it in enumerate(self._converters) if it.is_quoted]
        if len(values) < len(columns[0]) * len(quoted):  # some are NULL
            left: dict[str, Iterator[Optional[str]]] = {QUOTE: iter(values), NULL: repeat(None)}
            in_turn = chain.from_iterable(zip(*(columns[place] for place in quoted)))
            taken = cast("Callable[[Iterator[Optional[str]]], Optional[str]]", next)
            values = list(map(taken, map(left.__getitem__, cast("Iterator[str]", in_turn))))
        for number, place in enumerate(quoted):
            columns[place] = values[number::len(quoted)]
        return [converter.values(fields) for converter, fields in zip(self._converters, columns)]

    def _rows_one_by_one(self, end: int) -> Columns:
        """The rows up to a place, or to the first that is none, after which nothing more comes."""
        columns: Columns = [[] for _ in self._converters]
        try:
            while self._at < end:
                fields, after = record_at(self._block, self._at)
                for column, value in zip(columns, self._row_of(fields)):
                    column.append(value)
                self._at = after
        except ValueError as wrong:
            check_own(wrong)
            self._wrong, self._block = wrong, self._block[:self._at]
        self._has_rows, self._row = True, None
        return columns

    def _row_of(self, fields: Sequence[Union[str, LongField]]) -> list[Value]:
        self._check_width(len(fields))
        return [it.value(field) if isinstance(field, str) else it.long_value(field.value, field.shape) for it, field in zip(self._converters, fields)]

    def _check_width(self, width: int) -> None:
        if width != len(self._converters):
            raise ValueError(f"a row has {width} fields, and its header {len(self._converters)}")

    # A row of which one value is read by somebody else, in pieces.

    def open_row(self, place: int) -> Union[None, Held, OpenField]:
        """Goes to a column of the next row, and returns its field, which has to be read before `close_row`; None after the last
        row. Raises ValueError if it isn't like those before it."""
        if not self._fill() or self._is_separated():
            return None
        self.records.put_back(self._block[self._at:])
        self._block, self._at, self._is_long = "", 0, False
        for passed in range(place):
            pass_over(self._opened(passed))
            if self.records.end_of_field() != ",":
                raise ValueError("a row has fewer fields than its header")
        return self._opened(place)

    def _opened(self, place: int) -> Union[Held, OpenField]:
        """The next field, which is that of a column. Raises ValueError if it isn't like those before it."""
        field, converter = self.records.open_field(), self._converters[place]
        if isinstance(field, str):
            return Held(converter.value(field))
        if converter.shape is FLOAT:
            return Held(converter.long_value(joined(field), field.shape))
        converter.accept(field.shape)
        return field

    def close_row(self, place: int) -> None:
        """Passes over what is left of a row after the column that was read."""
        width = place + 1
        while self.records.end_of_field() == ",":
            pass_over(self._opened(min(width, len(self._converters) - 1)))
            width += 1
        self._check_width(width)
        self.rows += 1


class Held(NamedTuple):
    """A value of a row that was opened, which is none of text or bytes, or NULL."""

    value: Value


def pass_over(field: Union[Held, OpenField]) -> None:
    for _ in field.pieces if isinstance(field, OpenField) else ():
        pass


class Single:
    """What has a place in a text that comes once: of two copies each would have a part of it."""

    def __reduce__(self) -> NoReturn:
        raise TypeError(f"{type(self).__name__} has no copies: what it reads comes once")


class Opened(Single, io.IOBase):
    """A value, read from the text while it comes."""

    _piece: Any  # of it, the last that came; empty of its type before the first

    def __init__(self, sets: Sets, place: int, field: OpenField) -> None:
        self._sets, self._place, self._pieces, self._at = sets, place, field.pieces, 0  # of the piece so much was handed out

    def readable(self) -> bool:
        return True

    def read(self, size: Optional[int] = -1) -> Any:
        """So much, or less at the end; all of it without a size."""
        most = sys.maxsize if size is None or size < 0 else index(size)
        return self._sets._guarded(partial(self._much, most))

    def _much(self, most: int) -> Any:
        taken = []
        while most and (piece := self._some(most)):
            taken.append(piece)
            most -= len(piece)
        return self._piece[:0].join(taken)

    def _some(self, most: int) -> Any:
        """What comes next, at most so much, and at least one byte or character; nothing at the end."""
        while self._at == len(self._piece):
            piece = self._sets._step(lambda: next(self._pieces, None))
            if piece is None:
                break
            self._piece, self._at = piece, 0
        taken = self._piece[self._at:self._at + most]
        self._at += len(taken)
        return taken

    def close(self) -> None:
        """Passes over what is left of the row."""
        if not self.closed:
            self._sets._guarded(self._close)

    def _close(self) -> None:
        super().close()
        self._sets._close_row(self._place, self._pieces)


class ValueFile(Opened, io.BufferedIOBase):
    """The bytes of a value."""

    _piece = b""

    def read1(self, size: int = -1) -> bytes:
        """The next bytes, at least one and at most so many, or none at the end."""
        most = BLOCK if size < 0 else index(size)
        return self._sets._guarded(lambda: bytes(self._some(most)))


class TextFile(Opened, io.TextIOBase):
    """The characters of a value."""

    _piece = ""


class ResultSet(Single):
    """An iterator over the rows of one set, each a tuple with a value for each column, which `row.name` gives too.

    All calls take rows from one buffer, from its one place on. A call that has fewer rows than it is asked for at an error raises that, and
    the rows before it are left for other calls, as for iteration. It is read from the same text as the set after it: asking for the next
    set passes over the rows left here, and asking for them after that raises `PassedOver`."""

    def __init__(self, sets: Sets, place: int, names: list[str]) -> None:
        self.names = names  #: of the columns, as the server gave them: some may be "" or equal
        self.arraysize = 1  #: how many rows `fetchmany` gives without a number
        self._row = row_type(tuple(names))
        self._sets, self._place = sets, place
        self._described: Optional[list[Column]] = None  # once the set is left
        self._values: Columns = []  # of the buffer
        self._places: list[Any] = []  # an iterator for each column of it, all of them at the place
        self._first: Iterator[Value] = iter(())  # that of the first column
        self._rows: Iterator[Row] = iter(())
        self._before = 0  # rows of the buffers before
        self._is_over = self._is_passed_over = False

    @property
    def columns(self) -> Optional[list[Column]]:
        """The columns with their types as SQL writes them; None if the packets weren't read here: of a text, or of a descriptor
        or socket that was handed to the program."""
        found = self._described or self._sets._guarded(lambda: self._sets._descriptions and self._sets._descriptions.of(self._place))
        return [column._replace(name=name) for column, name in zip(found, self.names)] if found else None

    @property
    def description(self) -> list[Described]:
        """The columns as Python's DB-API has them (PEP 249): name, type, no display size, size, precision, scale, and whether
        NULL is allowed; of a text the names alone."""
        columns = self.columns
        if columns is None:
            return [(name, None, None, None, None, None, None) for name in self.names]
        return [(it.name, it.type, None, it.length, it.precision, it.scale, it.nullable) for it in columns]

    def fetchone(self) -> Optional[Row]:
        """The next row, or None after the last one (PEP 249)."""
        return self._sets._guarded(lambda: next(self._rows, None) if self._gathered(1) else None)

    def fetchmany(self, size: Optional[int] = None) -> list[Row]:
        """The next rows: so many, or `arraysize` without a number, and fewer at the end alone (PEP 249): an error is raised in place of fewer
        rows, which are left. Raises ValueError for a number below 0."""
        count = min(index(self.arraysize if size is None else size), sys.maxsize)
        return self._sets._guarded(lambda: self._many(count))

    def _many(self, size: int) -> list[Row]:
        self._gathered(size)
        return list(islice(self._rows, size))

    def fetchall(self) -> list[Row]:
        """The rows that are left (PEP 249). An error is raised in place of rows that aren't all; those before it are left."""
        rows, places = list[Row](), range(len(self.names))
        return self.each(
            lambda columns: rows.extend(map(self._row, zip(*columns))), lambda: [[row[place] for row in rows] for place in places], lambda: rows)

    def frame(self) -> Any:
        """The rows that are left as a DataFrame of pandas, which has to be there. Whole numbers, bit and text have the types of
        pandas that hold NULL too; float and real are float64 and float32, whose NULL is NaN; with `dates=True` dates and times without
        an offset are datetime64 if pandas has all of them; all else are objects. An error is raised in place of a frame that isn't whole; the rows before it
        are left."""
        from gavyreto.frames import frame_of

        return frame_of(self)

    def arrow(self) -> Any:
        """The rows that are left as a Table of pyarrow, which has to be there beside pandas, with the types of `frame`."""
        import pyarrow  # type: ignore[import]

        from gavyreto.frames import frame_of

        return frame_of(self, lambda frame: pyarrow.Table.from_pandas(frame, preserve_index=False))

    def __iter__(self) -> Iterator[Row]:
        return chain(self._each_row(), iter(self.fetchone, None))  # the second raises again what has ended the first

    def _each_row(self) -> Iterator[Row]:
        is_more = True
        while is_more:
            try:
                yield from self._rows
            except BaseException as failure:
                self._sets._end_by(failure)
                raise
            is_more = self._sets._guarded(lambda: self._gathered(1)) > 0

    def __next__(self) -> Row:
        return self._sets._guarded(self._next)

    def _next(self) -> Row:
        self._gathered(1)
        return next(self._rows)

    def batches(self, size: int) -> Iterator[Columns]:
        """The rows by columns: a list for each column, with so many values each time, and fewer at the end alone, as `fetchmany` gives
        them. Raises ValueError if the size is less than 1."""
        if index(size) < 1:
            raise ValueError(f"a batch has at least 1 row, not {size}")
        return iter(lambda: self._sets._guarded(lambda: self._batch(size)), [])

    def _batch(self, size: int) -> Columns:
        """The next batch, or nothing after the last one."""
        if not self._gathered(size):
            return []
        at = len(self._values[0]) - length_hint(self._first)
        batch = [values[at:at + size] for values in self._values]
        self._go_to(at + len(batch[0]))
        return batch

    def each(self, take: Callable[[Columns], object], taken: Callable[[], Columns], made: Callable[[], T]) -> T:
        """Hands the rows that are left to a call, some at a time, by columns, and returns what is made of all of them. If an error comes it
        is raised, and `taken` gives them back: they are left then."""
        return self._sets._guarded(lambda: self._each(take, taken, made))

    def _each(self, take: Callable[[Columns], object], taken: Callable[[], Columns], made: Callable[[], T]) -> T:
        is_all = False
        try:
            while self._gathered(1):
                at = len(self._values[0]) - length_hint(self._first)
                take([values[at:] for values in self._values] if at else self._values)
                self._go_to(len(self._values[0]))
            is_all = True
            return made()
        except Exception as failure:
            if not is_all and not isinstance(failure, (Error, ValueError)):
                raise
            self._sets._kept = failure if is_all else None
            handed_out = self._handed_out()
            self._hold(taken())
            self._before = handed_out - len(self._values[0])
            if isinstance(failure, Error):
                failure.rows = self._sets.rows
            raise

    @property
    def is_dated(self) -> bool:
        """Whether dates and times are those of Python."""
        return bool(self._sets._parser.dates)

    def open(self, column: Union[int, str] = 0) -> Union[None, io.BytesIO, io.StringIO, ValueFile, TextFile]:
        """The value of a column in the next row, as a file of bytes or of text that is read once, in fixed memory however long
        the value is; None for NULL. Its `close` passes over the rest of the row, and is needed before anything else is read.

        Raises StopIteration after the last row, and ValueError if the value has neither bytes nor text, whose row is passed
        over then, or if the file before isn't closed."""
        place = self.names.index(column) if isinstance(column, str) else range(len(self.names))[column]
        return self._sets._guarded(lambda: self._open(place))

    def _open(self, place: int) -> Union[None, io.BytesIO, io.StringIO, ValueFile, TextFile]:
        if length_hint(self._first):
            return _file_of(self._next()[place])
        self._check_passed_over()
        field: Union[None, Held, OpenField] = None if self._is_over else self._sets._in_set(lambda: self._sets._parser.open_row(place))
        if field is None:
            self._is_over = True
            raise StopIteration
        if isinstance(field, Held):
            self._sets._close_row(place, iter(()))
            self._before += 1
            return _file_of(field.value)
        self._before += 1
        self._sets._is_within = True
        return ValueFile(self._sets, place, field) if field.shape is BINARY else TextFile(self._sets, place, field)

    def _check_passed_over(self) -> None:
        if self._is_passed_over:
            raise PassedOver("the rows of this set were passed over: read them before you ask for the next set")

    # The buffer: some rows by columns, and the place up to which they were handed out.

    def _gathered(self, count: int) -> int:
        """Sees to it that so many rows are in the buffer, or all that are left of a set that is whole, and returns how many are. Raises what
        ended the reading if it did before."""
        while length_hint(self._first) < count and not self._is_over:
            self._extend()
        left = length_hint(self._first)
        if not left:
            self._check_passed_over()
        return left

    def _extend(self) -> None:
        """Puts more rows into the buffer, in the place of those that were handed out."""
        more = self._sets._next_rows()
        if more is None:
            self._is_over = True
            return
        left = length_hint(self._first)
        handed_out = len(self._values[0]) - left if self._values else 0
        if left:
            for values, others in zip(self._values, more):
                del values[:handed_out]
                values += others
            self._go_to(0)
        else:
            self._hold(more)
        self._before += handed_out

    def _hold(self, values: Columns) -> None:
        """Has other rows in the buffer. Whoever iterates over those that it had finds no more of them."""
        self._go_to(sys.maxsize)
        self._values, self._places = values, [iter(column) for column in values]
        self._first, self._rows = self._places[0] if values else iter(()), map(self._row, zip(*self._places))

    def _go_to(self, place: int) -> None:
        """Goes to a place in the buffer, with all that iterate over it."""
        for it in self._places:
            it.__setstate__(place)

    def _handed_out(self) -> int:
        """How many rows were handed out."""
        return self._before + (len(self._values[0]) - length_hint(self._first) if self._values else 0)

    def _drop(self) -> None:
        """Hands out nothing more: which rows the caller has isn't known."""
        self._before, self._is_over = self._handed_out(), False
        self._hold([])

    def _leave(self) -> None:
        """Passes over the rows that are left."""
        handed_out, left = self._handed_out(), length_hint(self._first)
        while not self._is_over:
            more = self._sets._next_rows()
            self._is_over = more is None
            left += len(more[0]) if more else 0
        self._before, self._is_passed_over = handed_out, left > 0
        self._hold([])
        if self._sets._descriptions:
            self._described = self._sets._descriptions.take(self._place)


def _file_of(value: Value) -> Union[None, io.BytesIO, io.StringIO]:
    if value is None:
        return None
    if isinstance(value, bytes):
        return io.BytesIO(value)
    if isinstance(value, str):
        return io.StringIO(value)
    raise ValueError(f"{value!r} has neither bytes nor text")


class Sets(Single):
    """An iterator over result sets, and a context that closes what it reads from.

    A reading is open, ended, failed or closed. After an error each further call raises that error again, and `Interrupted` after an
    exception from elsewhere, as that of Ctrl-C; after `close` before the end it raises ValueError. What reads within another call, as a
    second thread or the handler of a signal, gets a ValueError, and so does a process that is forked off."""

    def __init__(self, read: Read, dates: Dates, descriptions: Optional[Descriptions] = None, adapts: bool = False) -> None:
        self.sets = 0  #: handed out so far
        self._descriptions, self._adapts = descriptions, adapts
        self._parser = Parser(read, dates, self._floats_of)
        self._current: Optional[ResultSet] = None
        self._is_within = False  # whether a value is open as a file, within its row; who drops one closes it
        self._rows_before = 0  # of the sets before the current one
        self._failure: Optional[BaseException] = None
        self._kept: Optional[BaseException] = None  # what came where all rows had come, which are there again
        self._is_closed = self._is_ended = self._is_only = False  # only: whether there may be one set alone
        self._lock, self._process, self._is_called = threading.RLock(), os.getpid(), False

    def _floats_of(self, place: int) -> list[bool]:
        """Which columns of a set have texts of floats; nothing if none has."""
        found = self._descriptions.of(place) if self._adapts and self._descriptions else None
        return [column.type in FLOATS for column in found or []]

    @property
    def rows(self) -> int:
        """How many rows were handed out so far, of all sets."""
        return self._rows_before + (self._current._handed_out() if self._current else 0)

    def __enter__(self: S) -> S:
        return self

    def __exit__(self, *_: object) -> None:
        self.close()

    def __iter__(self) -> Sets:
        return self

    def __next__(self) -> ResultSet:
        return self._guarded(lambda: self._next_set(False))

    def only(self) -> ResultSet:
        """The one set that is there. Raises NotOneSet: at once if there is none, after the last row if another set
        follows."""
        try:
            return self._guarded(lambda: self._next_set(True))
        except StopIteration:
            self._raise(NotOneSet("no result set"))

    def close(self) -> None:
        """Ends the reading where it is, and so a call that reads meanwhile, within which this comes. What is left isn't judged."""
        self._is_closed = True
        if self._is_called:
            self._stop()
        else:
            self._release()

    def _check_closed(self) -> None:
        """Sees to it that nothing is read past a value that is open."""
        if self._is_within and not self._failure and not self._is_closed:
            raise ValueError("the value that was opened before isn't closed")

    def _guarded(self, call: Callable[[], T]) -> T:
        """What a call gives, within which nothing else reads: neither another thread nor, in this one, what comes between, as the handler of
        a signal; nor a process that was forked off. What ends it from elsewhere ends the reading, up to the return: what it would have given
        is lost."""
        if os.getpid() != self._process:
            raise ValueError("another process reads from here")
        if self._is_called or not self._lock.acquire(blocking=False):
            raise ValueError("another call reads from here")
        try:
            try:
                self._is_called = True
                return call()
            finally:
                self._is_called = False
                self._lock.release()
                if self._is_closed:  # within the call
                    self._release()
        except BaseException as failure:
            self._is_called = False
            self._end_by(failure)
            raise

    def _next_set(self, is_only: bool) -> ResultSet:
        self._check_closed()
        if self._current:
            self._current._leave()
        self._is_only = is_only
        names = self._step(self._parser.next_header)
        if names is None:
            self._end()
            raise StopIteration
        self._rows_before = self.rows
        self._current = ResultSet(self, self.sets, names)
        self.sets += 1
        return self._current

    def _next_rows(self) -> Optional[Columns]:
        return self._in_set(self._parser.next_rows)

    def _in_set(self, step: Callable[[], T]) -> T:
        """What a step of the parser gives of the rows of a set; None after them: then the text is over, or another set follows."""
        self._check_closed()
        found = self._step(step)
        if found is None and self._parser.is_over:
            self._end()
        elif found is None and self._is_only:
            self._raise(NotOneSet(SEVERAL))
        return found

    def _close_row(self, place: int, pieces: Iterator[object]) -> None:
        """Passes over what is left of a value, and of its row. Where the reading was ended, nothing is left."""
        if not self._failure and not self._is_closed:
            self._step(lambda: [None for _ in pieces])
            self._step(lambda: self._parser.close_row(place))
            self._is_within = False

    def _step(self, step: Callable[[], T]) -> T:
        """What a step of the parser gives."""
        if self._failure:
            self._raise(self._failure)
        self._check_open()
        try:
            return step()
        except ValueError as wrong:
            check_own(wrong)
            self._raise(MalformedText(str(wrong)))
        except EOFError as end:
            check_own(end)
            self._parser.is_over = True
            self._end()
            self._raise(UnfinishedText(self._parser.records.rest))

    def _check_open(self) -> None:
        if self._is_closed and not self._is_ended:
            raise ValueError("the reading was closed")

    def _end(self) -> None:
        """The text is over: raises what is to be told of it."""
        if not self._is_ended:
            self._check_open()
            self._is_ended = True
            self._judge_end(self._parser.records.rest)
            self._release()

    def _judge_end(self, rest: str) -> None:
        if rest:
            self._raise(UnfinishedText(rest))

    def _raise(self, failure: BaseException) -> NoReturn:
        """Raises what makes the reading a failed one."""
        self._failure = failure
        if isinstance(failure, Error):
            failure.sets, failure.rows = self.sets, self.rows
        self._release()
        raise failure

    def _end_by(self, failure: BaseException) -> None:
        """What an exception means that came while rows were read: one that passed through elsewhere, as through a signal's handler, makes the
        reading a failed one."""
        is_own = isinstance(failure, (Error, StopIteration, GeneratorExit, ValueError)) and is_of(failure, __name__)
        if not self._failure and not is_own and failure is not self._kept:
            self._failure = Interrupted(f"the reading was ended by {type(failure).__name__}: rows may be missing")
            self._failure.sets, self._failure.rows = self.sets, self.rows
            if self._current:
                self._current._drop()
            self._release()

    def _stop(self) -> None:
        """Sees to it that a call ends that waits for more, which then closes what is read from."""

    def _release(self) -> None:
        """Closes what is read from."""


class Text(Sets):
    """The result sets of a text in a file."""

    def __init__(self, path: Union[str, os.PathLike[str]], dates: Dates) -> None:
        self._file = owned(open(path, "rb", buffering=0))
        self._before = Before(self._file.fileno())
        super().__init__(lambda most: self._file.read(most) or b"", dates)

    def _judge_end(self, rest: str) -> None:
        if self._before.has_changed():
            self._raise(OSError(errno.EBUSY, CHANGED))
        super()._judge_end(rest)

    def _release(self) -> None:
        self._file.close()


def read(text: Union[str, os.PathLike[str]], *, dates: Dates = False) -> Sets:
    """The result sets of a text that the program wrote, by the path of its file.

    Raises OSError if it can't be opened; while the sets and rows are read, once all before is handed out, MalformedText if
    it isn't such a text, UnfinishedText if it ends within a row, and OSError at its end if it changed meanwhile."""
    check_dates(dates)
    return Text(text, dates)
