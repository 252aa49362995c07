"""A connection to a server: greeting, encryption, login, statements and the packets of their answers (MS-TDS)."""
from __future__ import annotations

import contextlib
import functools
import os
import select
import socket
import ssl
import struct
import threading
import time
from typing import Any, Callable, Iterator, NamedTuple, Optional, TypeVar, Union

from gavyreto import tds
from gavyreto.errors import BadAnswer, CertificateRefused, ConnectionFailed, EncryptionRefused, Error, TimedOut
from gavyreto.logins import Hidden, Proof, Proving, checked_token, hidden, proof_of
from gavyreto.program import owned
from gavyreto.tds import Encryption, PacketType
from gavyreto.where import BROWSER, port_of

SECONDS, LOGIN_SECONDS, MOST_SECONDS = 300, 15, 86400
ENCRYPT = ("all", "login", "none")
INTENTS = ("readwrite", "readonly")  # what an application may intend, in small letters
BLOCK = 1 << 18  # bytes that are received at once, at most
UNASKED = "the server sent bytes that weren't asked for"
LONGEST_MESSAGE = 1 << 20  # of those that are read whole: greetings and logins
MOST_TICKETS = 10  # messages with tickets of a server in a login
MOST_EMPTY = 1000  # packets without a body in an answer
SLICE = 0.5  # seconds after which it is looked again at how long is waited for, which a signal may change
AT_THE_END = 0.25  # seconds for which the other side's end is waited for at the end of a session
T = TypeVar("T")
Meanwhile = Callable[[int, float], float]  # waits until a descriptor can be read, for at most so many seconds: how long it waited


def wait_for(descriptor: int, seconds: float, event: int = select.POLLIN) -> float:
    """Waits until a descriptor can be read, or has another event, for at most so many seconds. Returns how long it waited."""
    began = time.monotonic()
    events = select.poll()
    events.register(descriptor, event)
    events.poll(max(0.0, seconds * 1000))
    return min(time.monotonic() - began, seconds)  # it's longer if this process was stopped meanwhile


class Channel:
    """The packets of a connection, through TLS once `encrypt` is done and until `uncover`.

    Nothing is waited for longer than `seconds`, counted anew for each message that is read whole, for each byte of a body of an
    answer, so that empty packets don't last for ever, and for bytes that the other side takes. Only time in which it is waited for
    counts, not what is spent on what came. Within `limit` all of it counts, and nothing renews it."""

    def __init__(self, connected: socket.socket, seconds: float) -> None:
        self.socket, self.seconds = owned(connected), seconds
        self.meanwhile: Meanwhile = wait_for  #: what is done while the other side is waited for
        connected.settimeout(None)
        self.tls: Optional[ssl.SSLObject] = None
        self._received, self._to_send = ssl.MemoryBIO(), ssl.MemoryBIO()
        self._block = b""  # received and not used
        self._is_within = False  # whether a part of a record of TLS has come, and not its rest
        self._left = float(seconds)
        self._until, self._why = 0.0, ""  # the end of a limit, and what is told then
        self._process = os.getpid()

    def wait(self) -> None:
        """Begins to wait for what comes next."""
        self._left = float(self.seconds)

    def limit(self, until: float, why: str) -> None:
        """Ends all waiting at a time of the monotonic clock; at none if that is 0."""
        self._until, self._why = until, why

    def _seconds_left(self) -> float:
        left = min(self._left, self._until - time.monotonic()) if self._until else self._left
        if left <= 0:
            raise TimeoutError(self._why if self._until and self._left > 0 else f"the server was silent for longer than {self.seconds} seconds")
        return left

    def _receive(self) -> bytes:
        """The next bytes of the socket, or none if the other side has closed. Raises TimeoutError."""
        while True:
            left = min(self._seconds_left(), SLICE)
            self._left -= self.meanwhile(self.socket.fileno(), left)
            with contextlib.suppress(BlockingIOError):
                return self.socket.recv(BLOCK, socket.MSG_DONTWAIT)

    def expect_nothing(self) -> None:
        """Sees to it that nothing has come that isn't used: what comes before encryption, a login or a statement doesn't count
        after it. Raises BadAnswer."""
        if self._block or self._has_come():
            raise BadAnswer(UNASKED)

    def _has_come(self) -> bool:
        """Whether bytes have come, in the socket or within TLS, that weren't asked for. That the other side has closed is none."""
        try:
            data = self.socket.recv(BLOCK, socket.MSG_DONTWAIT | (0 if self.tls else socket.MSG_PEEK))
        except BlockingIOError:
            data = b""
        if not self.tls:
            return bool(data or self._received.pending)
        self._received.write(data)
        return bool(self.tls.pending() or self._decrypted(1) or self._is_within)

    def is_over(self) -> bool:
        """Whether the other side has closed, where nothing more has come."""
        try:
            return not self.socket.recv(1, socket.MSG_DONTWAIT | socket.MSG_PEEK)
        except BlockingIOError:
            return False

    def finish(self, seconds: float) -> bool:
        """Says that nothing more is sent, and waits for the other side's end. Returns whether bytes came before it."""
        self.limit(time.monotonic() + seconds, "")
        self._left = seconds
        try:
            self.socket.shutdown(socket.SHUT_WR)
            return bool(self._block or self.receive() or self._is_within)
        except (ssl.SSLError, BadAnswer):
            return True
        except OSError:  # it is reset, or isn't ended
            return self._is_within

    def receive(self) -> bytes:
        """The next bytes, decrypted, or none if the other side has closed."""
        while self.tls:
            decrypted = self._decrypted(BLOCK)
            if decrypted is not None:
                return decrypted
            data = self._receive()
            if not data:
                return b""
            self._received.write(data)
        return self._receive()

    def _decrypted(self, most: int) -> Optional[bytes]:
        """The next bytes of those that have come, none at the end of TLS; None if they are no whole record. Raises BadAnswer if the server begins
        the handshake of TLS anew, to which nothing is answered."""
        assert self.tls
        self._is_within = self._is_within or self._received.pending > 0
        try:
            data = self.tls.read(most)
        except ssl.SSLZeroReturnError:
            data = b""
        except ssl.SSLWantReadError:
            if self._to_send.pending:
                raise BadAnswer("the server begins the handshake of TLS anew within the connection") from None
            return None
        self._is_within = False
        return data

    def read(self, most: int) -> bytes:
        """The next bytes, at least one and at most so many, or none if the other side has closed."""
        self._block = self._block or self.receive()
        data, self._block = self._block[:most], self._block[most:]
        return data

    def next_of(self, framing: tds.Framing) -> bytes:
        """The next bytes of the answer that the framing follows. Raises EOFError if the other side has closed before its end."""
        block = self._block or self.receive()
        if not block:
            raise EOFError
        before = framing.payload
        taken = framing.take(block)
        self._block = block[taken:]
        if framing.empty > MOST_EMPTY:
            raise BadAnswer(f"an answer with more than {MOST_EMPTY} packets without a body")
        if framing.payload > before:
            self.wait()
        return block if taken == len(block) else block[:taken]

    def write(self, data: bytes) -> None:
        """Sends bytes, encrypted. Raises TimeoutError if the other side doesn't take them."""
        if self.tls:
            self.tls.write(data)
            data = self._to_send.read()
        left = memoryview(data)
        self.wait()
        while left:
            try:
                left = left[self.socket.send(left, socket.MSG_DONTWAIT):]
                self.wait()
            except BlockingIOError:
                self._left -= wait_for(self.socket.fileno(), min(self._seconds_left(), SLICE), select.POLLOUT)

    def read_packet(self) -> tuple[bytes, bytes]:
        """A packet's header and its body. Raises EOFError if the other side has closed before its end."""
        header, body, length = tds.read_packet(self.read)
        if len(header) < tds.HEADER or len(body) != max(length, 0):
            raise EOFError
        return header, body

    def read_message(self) -> tuple[int, bytes]:
        """A message's type, and the joined bodies of its packets."""
        payload = bytearray()
        self.wait()
        while len(payload) < LONGEST_MESSAGE:
            header, body = self.read_packet()
            payload += body
            if header[1] & tds.LAST:
                return header[0], bytes(payload)
        raise BadAnswer("a message that is too long came")

    def write_message(self, kind: int, payload: bytes, size: int = tds.FIRST_PACKET_SIZE) -> None:
        """Writes a message in packets of at most `size` bytes, which may have a password."""
        for packet in map(Hidden, tds.packets([payload], size, kind)):
            self.write(packet)

    def encrypt(self, context: ssl.SSLContext, **side: Any) -> None:
        """The handshake of TLS, whose records go in packets of type PRELOGIN until it is done (MS-TDS, PRELOGIN)."""
        try:
            tls = context.wrap_bio(self._received, self._to_send, **side)
        except ValueError as wrong:
            raise ConnectionFailed(f"no certificate has the name that is asked for: {wrong}") from None
        is_done = False
        while not is_done:
            with contextlib.suppress(ssl.SSLWantReadError):
                tls.do_handshake()
                is_done = True
            if self._to_send.pending:
                self.write_message(PacketType.PRELOGIN, self._to_send.read())
            if not is_done:
                self._received.write(self.read_message()[1])
        self.tls = tls

    def uncover(self) -> None:
        """What follows isn't encrypted."""
        self.tls = None

    def is_own(self) -> bool:
        """Whether the connection is this process's, and not that of one which this was forked off from."""
        return os.getpid() == self._process

    def cut(self) -> None:
        """Ends the connection; who waits for it in another thread finds that. One of another process stays open there."""
        if self.is_own():
            with contextlib.suppress(OSError):  # it was closed before, or by the other side
                self.socket.shutdown(socket.SHUT_RDWR)

    def close(self) -> None:
        self.cut()
        self.socket.close()


# Logging in.

class Server(NamedTuple):
    """Where a server is, how it is trusted, and how long it may be silent and a login may take, in seconds."""

    host: str
    port: int
    certified: str  #: the name that its certificate has to have, if that is verified
    encrypt: str
    context: Callable[[], ssl.SSLContext]  #: reads files, as all authorities of the system or a FIFO, and so is waited for in time alone
    seconds: float
    login_seconds: float = LOGIN_SECONDS
    until: float = 0.0  #: the end of the login, by the monotonic clock
    instance: str = ""  #: whose port isn't known

    def reach(self) -> Channel:
        """A connection, before its greeting. Raises ConnectionFailed or OSError."""
        failure = OSError("no address")
        for family, kind, protocol, _, address in self._addresses():
            try:
                with contextlib.ExitStack() as stack:
                    connected = stack.enter_context(socket.socket(family, kind, protocol))
                    connected.settimeout(self._seconds_left())
                    connected.connect(address)
                    connected.setsockopt(socket.IPPROTO_TCP, socket.TCP_NODELAY, 1)
                    channel = Channel(connected, self.seconds)
                    channel.limit(self.until, self.too_long())
                    stack.pop_all()
                    return channel
            except OSError as wrong:
                failure = TimeoutError(self.too_long()) if isinstance(wrong, socket.timeout) and not wrong.errno else wrong
        raise failure

    def found(self) -> Server:
        """The server with the port of its instance. Raises ConnectionFailed."""
        if not self.instance:
            return self
        there = f"{self.host}\\{self.instance}"
        try:
            return self._replace(port=port_of(self._addresses(), self.instance, self.until), instance="")
        except ValueError as wrong:
            raise ConnectionFailed(f"{there}: {wrong}: write HOST,PORT") from None
        except TimeoutError:
            raise TimedOut(f"{there}: SQL Server Browser didn't answer at port {BROWSER} of UDP within {self.login_seconds:g} seconds: write HOST,PORT") from None
        except OSError as failure:
            raise ConnectionFailed(f"{there}: {failure.strerror or failure}") from None

    def _seconds_left(self) -> Optional[float]:
        """The seconds up to the end of the login; None without one."""
        return max(self.until - time.monotonic(), 0.001) if self.until else None

    def _addresses(self) -> list[Any]:
        """The addresses of the host."""
        with contextlib.suppress(socket.gaierror):
            return self._look_up(socket.AI_NUMERICHOST)
        return self.in_time(lambda: self._look_up(0))

    def in_time(self, ask: Callable[[], T]) -> T:
        """What is asked of the system, by a call that has no deadline, as the look-up of a name: a thread waits for it, which is left then.
        Raises TimeoutError."""
        found: list[T] = []
        failures: list[Exception] = []

        def wait() -> None:
            try:
                found.append(ask())
            except Exception as failure:
                failures.append(failure)

        thread = threading.Thread(target=wait, daemon=True)
        thread.start()
        thread.join(self._seconds_left())
        if failures:
            raise failures[0]
        if not found:
            raise TimeoutError(self.too_long())
        return found[0]

    def _look_up(self, flags: int) -> list[Any]:
        try:
            if "\0" in self.host:  # the system would look up what is before it
                raise ValueError("a NUL character")
            return socket.getaddrinfo(self.host, self.port, 0, socket.SOCK_STREAM, 0, flags)
        except ValueError as wrong:  # a name that is too long, say
            raise ConnectionFailed(f"{self.host}, port {self.port}: no host of a network ({wrong})") from None

    def too_long(self) -> str:
        """What is told of a login that isn't done in time."""
        return f"the login wasn't done within {self.login_seconds:g} seconds: --login-seconds allows more"


@contextlib.contextmanager
def told(server: Server) -> Iterator[None]:
    """Tells what goes wrong with a connection as ConnectionFailed."""
    try:
        yield
    except (EOFError, OSError) as failure:
        raise told_of(failure, server) from None


def told_of(failure: Union[EOFError, OSError], server: Server) -> ConnectionFailed:
    """What went wrong with a connection, in a line."""
    if isinstance(failure, ssl.SSLCertVerificationError):
        return CertificateRefused(f"the server's certificate isn't trusted: {failure.verify_message}. --certificates names its authority; -C trusts anyone")
    if isinstance(failure, (EOFError, BrokenPipeError, ConnectionResetError)):
        return ConnectionFailed("the server closed the connection")
    if isinstance(failure, TimeoutError) and not failure.errno:
        return TimedOut(str(failure))
    return ConnectionFailed(f"{server.host}, port {server.port}: {failure.strerror or failure}")


def context_of(certificates: Optional[str], trust_server: bool) -> ssl.SSLContext:
    """What a server has to show: a certificate for its name, of an authority that is trusted. Raises ValueError if the file of
    authorities can't be read, or has none, and ConnectionFailed if there is no memory."""
    try:
        context = ssl.create_default_context(cafile=certificates) if certificates or not trust_server else ssl.SSLContext(ssl.PROTOCOL_TLS_CLIENT)
    except OSError as failure:
        if not failure.filename and not certificates:
            raise ConnectionFailed(f"TLS can't be begun: {failure.strerror or failure}") from None
        what = f"SSLKEYLOGFILE: {failure.filename}" if failure.filename else f"the certificates of {certificates} can't be read"
        raise ValueError(f"{what}: {failure.strerror or failure}") from None
    context.maximum_version = ssl.TLSVersion.TLSv1_2  # the greatest within TDS 7.4
    if trust_server:
        context.check_hostname, context.verify_mode = False, ssl.CERT_NONE
    return context


# What is taken for an answer to a greeting, by the least that is to be encrypted. It isn't authenticated: a byte that is
# changed on the way could ask for less.
ENOUGH = {
    "all": (Encryption.ON, Encryption.REQUIRED),
    "login": (Encryption.OFF, Encryption.ON, Encryption.REQUIRED),
    "none": tuple(Encryption),
}
LACKING = {
    Encryption.OFF: "the server, or somebody between, encrypts the login alone: statements and rows would be readable on the way. "
                    "--encrypt login allows it",
    Encryption.NOT_SUPPORTED: "the server, or somebody between, doesn't encrypt: the password would be readable on the way. "
                              "--encrypt none allows it",
}
NO_TICKETS = "the server, or somebody between, doesn't encrypt: neither a ticket nor a token is sent to it"


def greet(channel: Channel, server: Server, proof: Proof) -> tuple[Encryption, bool]:
    """Greets, and begins the encryption that is agreed on. Returns what the server answered, and whether it requires a token."""
    channel.write_message(PacketType.PRELOGIN, tds.prelogin(Encryption.ON if server.encrypt == "all" else Encryption.OFF, proof.is_token))
    kind, payload = channel.read_message()
    channel.expect_nothing()
    try:
        options = tds.options_of(payload)
        answered, is_required = Encryption(options[tds.ENCRYPTION]), options.get(tds.TOKEN_REQUIRED) == 1
    except (ValueError, KeyError, struct.error):
        kind, answered, is_required = -1, Encryption.NOT_SUPPORTED, False
    if kind != PacketType.ANSWER:
        raise BadAnswer("what came isn't the answer of a server of TDS 7.4 to a greeting")
    if answered not in ENOUGH[server.encrypt]:
        raise EncryptionRefused(LACKING[answered])
    if answered == Encryption.NOT_SUPPORTED and proof.needs_encryption:
        raise EncryptionRefused(NO_TICKETS)
    if answered != Encryption.NOT_SUPPORTED:
        channel.encrypt(server.in_time(server.context), server_hostname=server.certified)
        channel.expect_nothing()
    return answered, is_required


def log_in(channel: Channel, server: Server, login: Callable[[bool], bytes], proof: Proof = Proof()) -> tds.Accepted:
    """Greets and logs in, by a message that is told whether a token is required. Returns what the server answered."""
    answered, is_required = greet(channel, server, proof)
    channel.write_message(PacketType.LOGIN, login(is_required))
    if answered == Encryption.OFF:
        channel.uncover()
    accepted = read_answer(channel)
    for _ in range(MOST_TICKETS):
        ticket = proof.answer(accepted.ticket) if accepted.ticket else b""
        if accepted.is_done:
            proof.check()
            return accepted
        if ticket and proof.needs_encryption and not channel.tls:
            raise EncryptionRefused(NO_TICKETS)
        if ticket:
            channel.write_message(PacketType.TICKET, ticket)
        accepted = read_answer(channel)
    raise BadAnswer("the server asks for tickets without end")


def read_answer(channel: Channel) -> tds.Accepted:
    """Reads the answer to a login, or to a ticket."""
    kind, payload = channel.read_message()
    try:
        accepted = tds.read_login_answer(payload)
    except (ValueError, IndexError, struct.error):
        kind = -1
    if kind != PacketType.ANSWER:
        raise BadAnswer("what came isn't the answer of a server of TDS 7.4 to a login")
    if accepted.routing and not channel.tls:
        host, port = accepted.routing
        raise EncryptionRefused(f"the server redirects to {host}, port {port}, in an answer that isn't encrypted: ask there, if you trust it")
    return accepted


# Statements.

class Session(contextlib.AbstractContextManager["Session"]):
    """A connection that is logged in: a statement is sent, and its answer handed on, one after the other. A context that closes it.

    Whatever goes wrong, an exception from elsewhere too, closes it for good: later calls raise ConnectionFailed, with what it was."""

    def __init__(self, channel: Channel, server: Server, packet_size: int) -> None:
        self.packet_size = packet_size  #: in bytes, as the server has it
        self.unfinished: Optional[str] = None  #: what there is to say of the last answer if it isn't whole, and has no ERROR
        self.closed_after: Optional[str] = None  #: why it was closed
        self._channel, self._server = channel, server
        self._framing: Optional[tds.Framing] = None  # of the answer under way
        self._unsent: Optional[OSError] = None  # what ended the sending of a statement whose answer may have come
        self._is_sending = self._is_interrupted = self._is_early = False  # early: before the statement was sent

    def __exit__(self, *_: object) -> None:
        self.close()

    def close(self, why: str = "a call of close") -> None:
        self.closed_after = self.closed_after or why
        self._channel.close()

    def abandon(self) -> None:
        """Cuts the connection, while somebody waits for it, who finds that it has ended, and closes it."""
        self.closed_after = self.closed_after or "a call of close"
        self._channel.cut()

    def end(self) -> None:
        """Closes the connection once all answers are read. Raises BadAnswer if more has come than them."""
        if self.closed_after is None and self.is_ready() and self._channel.is_own():
            surplus = self._channel.finish(AT_THE_END)
            self.close()
            if surplus:
                raise BadAnswer(UNASKED)
        elif self.closed_after is None:
            self.close()

    @contextlib.contextmanager
    def _open(self) -> Iterator[None]:
        """What is done while the connection is open. Whatever ends it early closes the connection; a process that was forked off is refused."""
        if not self._channel.is_own():
            raise ConnectionFailed("the connection is another process's")
        if self.closed_after is not None:
            raise ConnectionFailed(f"the connection was closed after: {self.closed_after}")
        try:
            with told(self._server):
                yield
        except BaseException as failure:
            self.close(str(failure) if isinstance(failure, Error) else type(failure).__name__)
            raise

    def meanwhile(self, wait: Meanwhile) -> None:
        """Sets what is done while the server is waited for."""
        self._channel.meanwhile = wait

    def is_ready(self) -> bool:
        """Whether no answer is under way."""
        return self._framing is None

    def expect_nothing(self) -> None:
        """Sees to it that nothing has come behind the last answer. Raises BadAnswer if something has, and closes the connection then, and
        where the server ended it."""
        with contextlib.suppress(ConnectionFailed), self._open():
            try:
                self._channel.expect_nothing()
            except ssl.SSLError:  # what came is no TLS
                raise BadAnswer(UNASKED) from None
            if self._channel.is_over():
                raise ConnectionFailed("the server closed the connection")

    def send(self, statement: str) -> None:
        """Sends a statement. Its answer has to be handed on next. Raises ValueError if it is no Unicode, and BadAnswer if something
        has come before."""
        message = tds.statement(statement)
        with self._open():
            if self._framing:
                raise ConnectionFailed("the answer before isn't read to its end")
            self._channel.expect_nothing()
            self._is_sending, self._framing, self.unfinished = True, tds.Framing(), None
            try:
                self._channel.write_message(PacketType.STATEMENT, message, self.packet_size)
            except (BrokenPipeError, ConnectionResetError) as failure:
                self._unsent = failure  # what the server says to it may have come
            self._is_sending = False
            self._channel.wait()
            if self._is_early:
                self._attend()

    def next(self) -> bytes:
        """The next bytes of the answer, or none after its last packet, or after an interrupt."""
        framing = self._framing
        if framing is None or framing.is_over or self._is_interrupted:
            return b""
        with self._open():
            block = self._channel.next_of(framing)
        if framing.is_whole and not self._is_interrupted:
            self._framing, self.unfinished = None, tds.unfinished(framing.tail)
            if self._unsent:
                self.close(str(told_of(self._unsent, self._server)))
        return block

    def interrupt(self) -> None:
        """Asks the server to stop answering, which may take as long as a login. It may be called while another call waits, as a handler
        of a signal is."""
        if not self._is_interrupted:
            self._is_interrupted, self._is_early = True, self._is_sending or self._framing is None
            self._channel.limit(time.monotonic() + self._server.login_seconds, f"the server didn't stop within {self._server.login_seconds:g} seconds")
            if not self._is_early:
                self._attend()

    def _attend(self) -> None:
        with told(self._server):
            self._channel.write_message(PacketType.ATTENTION, b"")

    def finish(self) -> None:
        """After an interrupt: passes over what the server still sends, up to the DONE that answers the attention (MS-TDS,
        Attention), which ends the answer under way or a message of its own."""
        framing = self._framing or tds.Framing()
        self._channel.wait()
        with self._open():
            while not framing.is_whole or not tds.is_cancelled(framing.tail):
                if framing.is_over and not framing.is_whole:
                    raise EOFError
                framing = tds.Framing() if framing.is_whole else framing
                self._channel.next_of(framing)


def check_type(kind: type, **given: object) -> None:
    """Raises TypeError if an argument isn't of a type."""
    for name, value in given.items():
        if not isinstance(value, kind):
            raise TypeError(f"{name} is a {kind.__name__}, not {type(value).__name__}")


def check_number(kind: type, least: int, most: int, **given: float) -> None:
    """Raises TypeError if an argument is no number, or no whole one if the type is `int`, and ValueError if it isn't in its range, or is 0."""
    for name, number in given.items():
        if isinstance(number, bool) or not isinstance(number, (int, kind)):
            raise TypeError(f"{name} is a {'whole ' if kind is int else ''}number, not {type(number).__name__}")
        if not least <= number <= most or number <= 0:
            raise ValueError(f"{name} is {'above 0' if least == 0 else least} to {most}, not {number}")


def log_in_to(
    server: str, *, user: str, password: str, port: int, database: str, encrypt: str, certificates: Optional[str], certificate_name: str,
    trust_server: bool, packet_size: int, seconds: float, login_seconds: float, integrated: bool, access_token: Optional[str],
    application_intent: str,
) -> Session:
    """Connects to a server, and logs in: what `gavyreto.connect` does with the same arguments."""
    token = "" if access_token is None else access_token
    check_type(str, server=server, user=user, password=password, database=database, certificate_name=certificate_name, access_token=token,
               application_intent=application_intent)
    check_type(bool, trust_server=trust_server, integrated=integrated)
    check_number(int, 1, 65535, port=port)
    check_number(int, tds.LEAST_PACKET_SIZE, tds.GREATEST_PACKET_SIZE, packet_size=packet_size)
    check_number(float, 0, MOST_SECONDS, seconds=seconds, login_seconds=login_seconds)
    if encrypt not in ENCRYPT:
        raise ValueError(f"encrypt is one of {', '.join(ENCRYPT)}, not {encrypt}")
    intent = application_intent.lower()
    if intent not in INTENTS:
        raise ValueError(f"application_intent is ReadWrite or ReadOnly, not {application_intent}")
    if integrated + (access_token is not None) + bool(user or password) > 1:
        raise ValueError("a login is by user and password, integrated, or by an access token: one of them")
    proving = functools.partial(proof_of, integrated, None if access_token is None else checked_token(access_token))
    host, _, instance = server.partition("\\")
    if certificates == "":
        raise ValueError("certificates is the name of a file, and empty: the system's authorities would be trusted")
    context = functools.lru_cache(functools.partial(context_of, certificates, trust_server))
    here = Server(host, port, certificate_name or host, encrypt, context, seconds, login_seconds, time.monotonic() + login_seconds, instance)
    if certificates:
        with told(here):
            here.in_time(context)  # what can't be read is told before anything is sent
    login = tds.Login(socket.gethostname(), user, hidden(password), "gavyreto", server, "", "", database, packet_size, intent == INTENTS[1])
    here = here.found()
    channel, accepted = _session(here, login, proving)
    if accepted.routing:
        channel.close()
        host, port = accepted.routing
        here = here._replace(host=host, port=port)
        if len(host) > tds.MOST_UNITS:
            raise BadAnswer(f"the server redirects to a name of more than {tds.MOST_UNITS} characters")
        channel, accepted = _session(here, login._replace(server=host), proving)
        if accepted.routing:
            channel.close()
            raise ConnectionFailed(f"the server {host}, port {port}, to which another one redirects, redirects too")
    channel.limit(0.0, "")
    return Session(channel, here, accepted.packet_size)


def _session(server: Server, login: tds.Login, proving: Proving) -> tuple[Channel, tds.Accepted]:
    """A connection that is logged in."""
    tds.login(login, 0)  # what is no login is refused before anything is sent
    proof = proving(server.host, server.port)
    with told(server):
        ticket = server.in_time(proof.ticket) if proof.asks_others else proof.ticket()

    def message(is_required: bool) -> bytes:
        sent = {"token": ticket, "echoes": is_required} if proof.is_token else {"ticket": ticket}
        return tds.login(login, os.getpid() & 0xFFFF, **sent)  # type: ignore[arg-type]

    with told(server):
        channel = server.reach()
        try:
            return channel, log_in(channel, server, message, proof)
        except BaseException:
            channel.close()
            raise
