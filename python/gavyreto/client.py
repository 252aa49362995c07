"""A server asked from Python: its answers as result sets."""
from __future__ import annotations

import contextlib
import io
import threading
from functools import partial
from typing import Any, Iterable, Iterator, Optional

from gavyreto.adapting import Adapter, Blocks
from gavyreto.connection import ENCRYPT, LOGIN_SECONDS, SECONDS, Session, check_type, log_in_to
from gavyreto.errors import Error, NotSupportedError, ProgrammingError
from gavyreto.logins import hidden
from gavyreto.payload import Descriptions, NotedDescriptions, Payload, Write, columns_again
from gavyreto.program import CHARSETS, COLUMN_ROOM, MAX_WIRE, PACKET_SIZE_ASKED, PROGRAM, Program, command_of, path_of
from gavyreto.response import Feeding, Response, adapt_all
from gavyreto.rows import Row
from gavyreto.text import Described, ResultSet, Single
from gavyreto.values import Dates, check_dates
from gavyreto.where import PORT, where


class Connection(Single, contextlib.AbstractContextManager["Connection"]):
    """A connection to a server, on which statements are asked one after the other, by one thread at a time. A context that closes it.

    A transaction has to end in the statement that begins it: a statement after one that leaves a transaction open is refused
    by the server. Whatever goes wrong closes the connection for good; later calls raise ConnectionFailed and say what it was."""

    def __init__(self, session: Session) -> None:
        self._session = session
        self._answer: Optional[Answer] = None  # to the last statement
        self._program = Program([PROGRAM])
        self._lock = threading.Lock()

    def __exit__(self, kind: object, *_: object) -> None:
        answer, self._answer = self._answer, None
        try:
            if answer:
                answer.close()
            if not kind:
                self._session.end()
        finally:
            if answer is None or answer.is_left or answer.is_whole:  # else a call reads from it, and closes all of it
                self._session.close()
            if answer is None or answer.is_whole:  # else it was closed with the answer, or will be
                self._program.close()

    def close(self) -> None:
        """Closes the connection. Raises BadAnswer if the server sent more than it was asked for."""
        self.__exit__(None)

    def query(
        self, statement: str, *, dates: Dates = False, adapt: bool = False, column_room: int = COLUMN_ROOM, max_wire: int = MAX_WIRE,
        charset: str = CHARSETS[0], program: str = PROGRAM,
    ) -> Answer:
        """Asks, and returns an iterator over the result sets of the answer, as `export` does with the same arguments. The
        answer has to be read to its end before the next statement; a connection whose answer isn't is closed with it.

        Raises ValueError if the answer before isn't read, another thread asks, or the statement is no Unicode, TypeError if it is no
        text, OSError if the program can't be started, ConnectionFailed, and BadAnswer if bytes have come that weren't asked for."""
        if not self._lock.acquire(blocking=False):
            raise ValueError("another thread asks on this connection")
        try:
            if self._answer and not self._answer.is_left:
                raise ValueError("the answer before isn't read to its end")
            check_dates(dates)
            check_type(str, statement=statement)
            check_type(bool, adapt=adapt)
            self._program.command = command_of(program, self._session.packet_size, column_room, max_wire, charset)
            self._program.begin()
            self._session.send(statement)
            self._answer = Answer(self._session, self._program, dates, charset if adapt else None)
            return self._answer
        finally:
            self._lock.release()

    # Python's DB-API (PEP 249).

    def cursor(self) -> Cursor:
        """A cursor, with the answers' default arguments."""
        return Cursor(self)

    def commit(self) -> None:
        """Ends a transaction, if the statement before has left one open."""
        self._ask("IF @@TRANCOUNT > 0 COMMIT TRANSACTION")

    def rollback(self) -> None:
        """Ends a transaction and takes back what it changed, if the statement before has left one open."""
        self._ask("IF @@TRANCOUNT > 0 ROLLBACK TRANSACTION")

    def _ask(self, statement: str) -> None:
        for _ in self.query(statement, program=self._program.command[0]):
            pass


class Cursor(Single, contextlib.AbstractContextManager["Cursor"]):
    """A cursor of Python's DB-API (PEP 249) over the answer to one statement, set by set. A context that closes it."""

    def __init__(self, connection: Connection) -> None:
        self.connection = connection
        self.arraysize = 1
        self.rowcount = -1  #: how many rows there are isn't known before they have come
        self._answer: Optional[Answer] = None
        self._set: Optional[ResultSet] = None
        self._is_closed = False

    def __exit__(self, *_: object) -> None:
        self.close()

    def close(self) -> None:
        """Leaves the answer, of which no more is handed out; nothing is asked any more."""
        self._is_closed = True
        answer, self._answer, self._set = self._answer, None, None
        if answer:
            answer.close()

    def execute(self, statement: str, parameters: object = None, **options: Any) -> Cursor:
        """Asks, with the options of `Connection.query`. Parameters aren't filled in: they raise NotSupportedError."""
        if self._is_closed:
            raise ProgrammingError("the cursor is closed")
        if parameters:
            raise NotSupportedError("parameters aren't filled in: the statement has to have its values")
        self._answer = self._set = None  # a statement that fails has none
        self._answer = self.connection.query(statement, **options)
        self.nextset()
        return self

    def executemany(self, statement: str, parameters: Iterable[object]) -> None:
        """Asks once for each parameters, which raise NotSupportedError."""
        for each in parameters:
            self.execute(statement, each)

    def nextset(self) -> Optional[bool]:
        """Goes to the next set. None if there is none."""
        self._set = None
        self._set = next(self._answer, None) if self._answer else None
        return True if self._set else None

    @property
    def description(self) -> Optional[list[Described]]:
        """The columns of the set; None without one."""
        return self._set.description if self._set else None

    def _rows(self) -> ResultSet:
        if not self._set:
            raise ProgrammingError("there is no result set")
        return self._set

    def fetchone(self) -> Optional[Row]:
        return self._rows().fetchone()

    def fetchmany(self, size: Optional[int] = None) -> list[Row]:
        return self._rows().fetchmany(self.arraysize if size is None else size)

    def fetchall(self) -> list[Row]:
        return self._rows().fetchall()

    def __iter__(self) -> Iterator[Row]:
        return iter(self._rows())

    def setinputsizes(self, sizes: object) -> None:
        """Nothing: there are no parameters."""

    def setoutputsize(self, size: int, column: Optional[int] = None) -> None:
        """Nothing: values have room as they come."""


class Answer(Response):
    """The result sets of a server's answer, while it comes."""

    def __init__(self, session: Session, program: Program, dates: Dates, adapts: Optional[str]) -> None:
        self.owns: Optional[Connection] = None  # the connection that was made for this answer
        self.is_left = False  # whether no more of it is read
        self._session, self._is_begun, self._charset = session, False, adapts
        super().__init__(program, dates, None, lambda: session.unfinished, adapts=adapts is not None)

    def _read(self, most: int) -> bytes:
        if not self._is_begun:
            self._is_begun = True
            self._begin()
        return super()._read(most)

    def _begin(self) -> None:
        """Hands on an answer that has come whole with its first block; of a longer one a thread does that."""
        try:
            block = self._session.next()
        except Error as failure:
            self._raise(failure)
        if self._charset is None and self._session.is_ready() and self._program.offer(block):
            self._descriptions = Descriptions(columns_again(io.BytesIO(block).read))
        else:
            self._descriptions = found = NotedDescriptions()
            copy = partial(_hand_on, self._session, block, self._program.put, self._charset, found, 1 if self._is_only else None)
            self._feeding = Feeding(copy, self._program)

    def _judge_end(self, rest: str) -> None:
        super()._judge_end(rest)
        if self.owns:
            try:
                self._session.end()
            except Error as surplus:
                self._raise(surplus)

    def _stop(self) -> None:
        self._session.abandon()
        super()._stop()

    def _release(self) -> None:
        if not self.is_left:
            self.is_left = True
            if not self.is_whole:
                self._session.close(str(self._failure) if self._failure else "an answer that wasn't read to its end")
                self._program.kill()
            if self._feeding:
                self._feeding.join()
            if self.owns or not self.is_whole:
                self._session.close()
                self._program.close()


def _hand_on(session: Session, first: bytes, write: Write, charset: Optional[str], found: NotedDescriptions, most: Optional[int]) -> bool:
    """Hands an answer to the program, and notes the descriptions that may be asked for, at most so many. Returns whether it was whole."""
    blocks = _blocks(session, first, write if charset is None else lambda _: None)
    read = Blocks(lambda: next(blocks, b"")).read
    if charset is not None:
        return adapt_all(Adapter(read, write, charset, found.add), found)
    found.note(Payload(read), most)
    for _ in blocks:
        pass
    return session.is_ready()


def _blocks(session: Session, block: bytes, write: Write) -> Iterator[bytes]:
    """The blocks of an answer. Each is handed on only after it was parsed here, so the parser never lags behind the program."""
    while block:
        yield block
        write(block)
        block = session.next()


def connect(
    server: str, *, user: str = "", password: str = "", integrated: bool = False, access_token: Optional[str] = None, port: int = PORT,
    database: str = "", encrypt: str = ENCRYPT[0], certificates: Optional[str] = None, certificate_name: str = "", trust_server: bool = False,
    packet_size: int = PACKET_SIZE_ASKED, seconds: float = SECONDS, login_seconds: float = LOGIN_SECONDS,
    application_intent: str = "ReadWrite",
) -> Connection:
    """Connects to a server, and logs in: by user and password, by Kerberos, or by an access token.

    server              the name that its certificate has, or an address; HOST,PORT; HOST\\INSTANCE, whose port is looked up; or a
                        URL, mssql://USER@HOST:PORT/DATABASE?NAME=VALUE&.., without a password: what it says goes before arguments
    integrated          whether the login is by Kerberos, for which Python's module gssapi and a ticket have to be there
    access_token        a token of Entra ID
    database            without it that of the user
    encrypt             minimum encryption: "all", "login" or "none"; a server that asks for more gets it
    certificates        a file of authorities to trust in place of the system's, in PEM
    certificate_name    the name that the certificate has, without it `server`; also that of a server to which it redirects
    trust_server        whether the certificate isn't verified: anyone between can read all then
    packet_size         bytes that are asked for, 512 to 32767
    seconds             the longest that the server may be silent
    login_seconds       the longest from the look-up of the name to the end of the login
    application_intent  "ReadOnly" asks an availability group for a readable secondary, by the database; another server ignores it

    Raises ConnectionFailed, of which TimedOut, CertificateRefused, EncryptionRefused and LoginRefused are kinds, BadAnswer if what
    answers is no such server, and ValueError or TypeError if an argument is none. A redirection is followed once, and only if it came
    encrypted. Neither a ticket nor a token is sent without encryption."""
    password, access_token = hidden(password), hidden(access_token)
    own: dict[str, Any] = {**locals()}  # all arguments, by their names
    if isinstance(server, str):
        own |= _said_by(server)
    return Connection(log_in_to(**own))


def _said_by(server: str) -> dict[str, Any]:
    """What the name of a server or its URL says, as arguments. Raises ValueError."""
    found = where(server)
    named = {"port": found.port, "user": found.user, "database": found.database, **dict(found.options)}
    numbers = ("packet-size", "seconds", "login-seconds")
    given: dict[str, Any] = {name.replace("-", "_"): int(value) if name in numbers else value for name, value in named.items() if value}
    if "trust-server" in named:
        given["trust_server"] = found.trusts()
    return {"server": found.name(), **given}


def query(
    statement: str, server: str, *, user: str = "", password: str = "", integrated: bool = False, access_token: Optional[str] = None,
    port: int = PORT, database: str = "", encrypt: str = ENCRYPT[0], certificates: Optional[str] = None, certificate_name: str = "",
    trust_server: bool = False, packet_size: int = PACKET_SIZE_ASKED, seconds: float = SECONDS, login_seconds: float = LOGIN_SECONDS,
    application_intent: str = "ReadWrite", dates: Dates = False, adapt: bool = False, column_room: int = COLUMN_ROOM,
    max_wire: int = MAX_WIRE, charset: str = CHARSETS[0], program: str = PROGRAM,
) -> Response:
    """Asks a server one statement, on a connection of its own, and returns an iterator over the result sets of the answer:
    what `connect` and `Connection.query` do with the same arguments."""
    password, access_token = hidden(password), hidden(access_token)
    path = path_of(program)
    connection = connect(
        server, user=user, password=password, integrated=integrated, access_token=access_token, port=port, database=database, encrypt=encrypt,
        certificates=certificates, certificate_name=certificate_name, trust_server=trust_server, packet_size=packet_size, seconds=seconds,
        login_seconds=login_seconds, application_intent=application_intent)
    try:
        answer = connection.query(
            statement, dates=dates, adapt=adapt, column_room=column_room, max_wire=max_wire, charset=charset, program=path)
    except BaseException:
        connection.close()
        raise
    answer.owns = connection
    return answer
