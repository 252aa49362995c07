"""What ends a reading before its end."""
from __future__ import annotations

import re
from typing import Any, NamedTuple, Optional


class Report(NamedTuple):
    """What the program counted in a response that it read to its end."""

    sets: int  #: descriptions with columns
    rows: int
    errors: int  #: errors of the server
    infos: int  #: messages of the server
    written: int  #: bytes of the text
    return_values: int = 0  #: values that procedures returned
    return_status: Optional[int] = None  #: the last one that a procedure returned


# Characters that a terminal obeys, that change the direction or the place of others or aren't seen, or that no UTF-8 has.
CONTROLS = re.compile(
    "[\0-\x1F\x7F-\x9F\u061C\u200B-\u200F\u2028-\u202E\u2060-\u206F\uFEFF\uFFF9-\uFFFB\uD800-\uDFFF\U000E0000-\U000E007F]")


def escaped(text: str) -> str:
    """A text in which control characters are spelt, as `\\x1b`. A byte of a name that isn't UTF-8 is spelt too."""
    return CONTROLS.sub(lambda found: _spelt(ord(found[0])), text)


def _spelt(number: int) -> str:
    if 0xDC80 <= number <= 0xDCFF:  # as Python reads such a byte
        number -= 0xDC00
    return f"\\x{number:02x}" if number < 0x100 else f"\\u{number:04x}" if number < 0x10000 else f"\\U{number:08x}"


class Error(Exception):
    """What ended the reading. `sets` and `rows` count what was handed out before, rows of all sets together. Control characters of
    its message are spelt."""

    def __init__(self, message: str) -> None:
        super().__init__(escaped(message))
        self.sets = 0
        self.rows = 0

    def __reduce__(self) -> tuple[Any, ...]:
        """How pickle copies an error, whatever its constructor takes."""
        return Exception.__new__, (type(self), *self.args), self.__dict__


FAULT = re.compile(
    r"fault (?P<number>\d+) (?P<name>\w+)(?P<fields>(?: \w+)*) at (?P<where>wire|payload|text) (?P<place>\d+), "
    r"written (?P<written>\d+), unwritten (?P<unwritten>\d+)", re.ASCII)
SERVER_ERROR = re.compile(
    r"server error (?P<number>-?\d+), state (?P<state>\d+), class (?P<class>\d+), line (?P<line>-?\d+): (?P<message>[^\n]*)", re.ASCII)


def _found(pattern: re.Pattern[str], line: str) -> re.Match[str]:
    found = pattern.fullmatch(line)
    if not found:
        raise ValueError(f"not a line of tds_replay: {line!r}")
    return found


class Fault(Error):
    """The program stopped: at a fault of the input, or at a failed read or write. docs/PROTOCOL.md lists the faults."""

    def __init__(self, line: str) -> None:
        super().__init__(line)
        found = _found(FAULT, line)
        self.number = int(found["number"])  #: 1 to 21
        self.name = found["name"]  #: for example "InputEnded"
        self.fields = tuple(found["fields"].split())  #: what the fault tells besides, as text
        self.where = found["where"]  #: what `place` counts bytes of: "wire", "payload" or "text"
        self.place = int(found["place"])  #: bytes before the fault
        self.written = int(found["written"])  #: bytes of text written
        self.unwritten = int(found["unwritten"])  #: bytes of text that weren't written
        self.rest = ""  #: the text of the row that wasn't read to its end, its first million characters at most, or ""


class Warning(Exception):
    """What PEP 249 has under this name. It isn't raised."""


class DatabaseError(Error):
    """What PEP 249 has under this name: errors of the server, of its answer or of the connection."""


class InterfaceError(Error):
    """What PEP 249 has under this name: errors of the way in which the package is used or runs."""


class OperationalError(DatabaseError):
    """What PEP 249 has under this name."""


class InternalError(DatabaseError):
    """What PEP 249 has under this name."""


class ProgrammingError(DatabaseError):
    """What PEP 249 has under this name."""


class NotSupportedError(DatabaseError):
    """What PEP 249 has under this name."""


class DataError(DatabaseError):
    """What PEP 249 has under this name. It isn't raised."""


class IntegrityError(DatabaseError):
    """What PEP 249 has under this name. It isn't raised."""


class ServerError(DatabaseError):
    """The server reported an error. All rows that it sent were handed out."""

    def __init__(self, line: str, report: Optional[Report] = None) -> None:
        super().__init__(line)
        found = _found(SERVER_ERROR, line)
        self.number = int(found["number"])
        self.state = int(found["state"])
        self.severity = int(found["class"])
        self.line = int(found["line"])  #: of the statement or procedure
        self.message = found["message"]  #: at most 512 bytes of UTF-8
        self.report = report  #: None of a refused login


class UnfinishedAnswer(OperationalError):
    """The server ended its answer as cancelled or failed, and told no error. All rows that it sent were handed out."""

    def __init__(self, message: str, report: Optional[Report] = None) -> None:
        super().__init__(message)
        self.report = report


class ProgramFailed(InterfaceError):
    """The program couldn't do its work: its arguments were refused, memory wasn't to be had, or a signal ended it."""

    def __init__(self, status: int, notes: str) -> None:
        super().__init__(f"tds_replay ended with status {status}: {notes.strip()}")
        self.status = status  #: 2, 6, a signal's number below 0, or another program's
        self.notes = notes  #: what it wrote to standard error


class NotOneSet(Error):
    """There is no result set where one was asked for, or more than one."""


class UnfinishedText(Error):
    """A text ends within a row. `rest` is what there is of the row, its first million characters at most."""

    def __init__(self, rest: str) -> None:
        super().__init__("the text ends within a row")
        self.rest = rest


class MalformedText(Error):
    """A text isn't one that the program writes: a row with another number of fields than the header has names, a field
    that isn't like those before it in its column, bytes between fields. All rows before it were handed out."""


class PassedOver(Error):
    """Rows were asked for that were passed over, since the next set was asked for before them."""


class Interrupted(Error):
    """The reading was ended by an exception from elsewhere, as that of Ctrl-C, which was raised then: rows may be missing."""


class ConnectionFailed(OperationalError):
    """The server couldn't be reached or trusted, the connection broke, or it was closed before."""


class TimedOut(ConnectionFailed):
    """The server was silent for too long, or the login took too long."""


class CertificateRefused(ConnectionFailed):
    """The server's certificate isn't trusted."""


class EncryptionRefused(ConnectionFailed):
    """The server encrypts less than was asked for, or redirects in an answer that isn't encrypted."""


class LoginRefused(ServerError, ConnectionFailed):
    """The server refused the login: its error."""


class BadAnswer(InternalError):
    """What came over a connection isn't what a server of TDS 7.4 sends: to a greeting, to a login, or where nothing was asked."""


# What came from elsewhere.

def is_of(failure: BaseException, names: str) -> bool:
    """Whether an exception has passed through nothing but modules whose names begin so: not through the handler of a signal."""
    place = failure.__traceback__
    while place and str(place.tb_frame.f_globals.get("__name__")).startswith(names):
        place = place.tb_next
    return place is None


def check_own(failure: BaseException) -> None:
    """Raises an exception again that came from elsewhere, and so says nothing of a text."""
    if not is_of(failure, __name__.partition(".")[0] + "."):
        raise failure
