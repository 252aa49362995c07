"""What clients and proxies write: the dump of a client of FreeTDS, and all that a server sent on one connection."""
from __future__ import annotations

import re
from collections.abc import Iterable, Iterator
from itertools import chain
from typing import NamedTuple

from gavyreto import tds
from gavyreto.capturing.accounts import Accounts
from gavyreto.capturing.answers import Answers
from gavyreto.capturing.desk import Desk, Sides
from gavyreto.capturing.files import BLOCK, Source
from gavyreto.capturing.messages import Asked, Requests, is_record
from gavyreto.capturing.streams import Piece
from gavyreto.tds import PacketType

# The whole line: before the file and line of the client's source there may be a time, and numbers of a process and a thread.
HEAD = re.compile(rb"(?:\d\d:\d\d:\d\d\.\d{1,6} )?(?:\d+ )*\(?[a-z0-9_]+\.c:\d+\)?:(Sending|Received) packet\r?$")
DUMPED = re.compile(rb"([0-9a-f]{4,8}) ((?:[0-9a-f]{2}[ -]){1,16})")


class Dumped(NamedTuple):
    """A packet of a dump: whether a server sent it, its bytes, and the number of its line."""

    is_received: bool
    data: bytes
    line: int


def dumped(lines: Iterable[bytes]) -> Iterator[Dumped]:
    """The packets of a dump (the file that TDSDUMP names): lines of hexadecimal after one that says where they went. Each packet is
    decrypted there. A client of DB-Library writes its statements there too, as they are: whoever makes them can write such lines."""
    data, is_received, begun = bytearray(), None, 0
    for number, line in enumerate(chain(lines, (b"",)), 1):
        found = DUMPED.match(line) if is_received is not None else None
        if found and int(found[1], 16) == len(data):
            data += bytes.fromhex(found[2].decode().replace("-", " "))
            continue
        if data:
            yield Dumped(bool(is_received), bytes(data), begun)
            data = bytearray()
        head = HEAD.match(line)
        is_received, begun = (head[1] == b"Received" if head else None), number


class Mixed(Exception):
    """The packets of several connections are mixed, and nothing tells them apart."""


class _Connection:
    """One connection of a dump. A client asks once it has the whole answer, so packets that don't come so are of several."""

    def __init__(self, desk: Desk, accounts: Accounts) -> None:
        self.answers = Answers(Sides(), desk, accounts, is_numbered=True)
        self.answers.is_client_known = True
        self._desk, self._requests = desk, Requests()
        self._place, self._asked = 0, 0  # of the next byte of the server, and of the client
        accounts.connections += 1

    def is_waiting(self) -> bool:
        """Whether a request has no answer yet; the login, which a dump doesn't have, is one."""
        return bool(self.answers.pending) or self.answers.is_early()

    def is_idle(self) -> bool:
        """Whether all that was asked is answered."""
        return not self.answers.pending and self.answers.is_between() and self._requests.is_between()

    def take(self, packet: Dumped) -> None:
        """Takes a packet. Raises `Mixed`."""
        if packet.is_received:
            if not self._requests.is_between():
                raise Mixed(f"line {packet.line}: an answer within a request")
            self.answers.take(Piece(self._place, packet.data, self._asked, 0))
            self._place += len(packet.data)
            return
        piece = Piece(self._asked, packet.data, self._place, 0)
        self._asked += len(packet.data)
        for request in self._requests.take(piece):
            if not self._may_ask(request.kind):
                raise Mixed(f"line {packet.line}: a request before the end of the answer to the one before it")
            self.answers.request(request)

    def finish(self) -> None:
        """Nothing more comes."""
        self.answers.finish()
        if (complaint := self._requests.complaint()) and not self.answers.is_over:
            self._desk.tell(Sides(), 0, complaint)

    def _may_ask(self, kind: Asked) -> bool:
        """An attention may come at any time, and a login after the last message of TLS's handshake."""
        before = self.answers.pending.last()
        return kind is Asked.ATTENTION or self.answers.is_between() and (before is None or kind is Asked.LOGIN and before.kind is Asked.GREETING)


class Dump:
    """The packets of a dump, each in its connection: that of its SPID, as far as packets have one."""

    def __init__(self, desk: Desk, accounts: Accounts) -> None:
        self._desk, self._accounts = desk, accounts
        self._connections: dict[int, _Connection] = {}

    def take(self, packet: Dumped) -> None:
        """Takes a packet. Raises `Mixed`."""
        self._accounts.packets += 1
        if len(packet.data) < tds.HEADER:
            raise Mixed(f"line {packet.line}: a packet of {len(packet.data)} bytes")
        channel = packet.data[4] << 8 | packet.data[5]
        self._connection(channel, packet).take(packet)

    def _connection(self, channel: int, packet: Dumped) -> _Connection:
        """The connection of a packet. Up to its login a connection has no SPID; a client may write none later either."""
        connections, new = self._connections, self._connections.get(0)
        if not packet.is_received and packet.data[0] == PacketType.PRELOGIN and not is_record(packet.data[tds.HEADER:]) and new and new.is_idle():
            connections.pop(0).finish()
        elif channel and packet.is_received and new and new.is_waiting() and (channel not in connections or connections[channel].is_idle()):
            if channel in connections:
                connections[channel].finish()
            connections[channel] = connections.pop(0)
        elif not channel and not new and not packet.is_received and packet.data[0] != PacketType.PRELOGIN and connections:
            if len(connections) > 1:
                raise Mixed(f"line {packet.line}: a packet without a SPID, and {len(connections)} connections")
            return next(iter(connections.values()))
        if channel not in connections:
            connections[channel] = _Connection(self._desk, self._accounts)
        return connections[channel]

    def finish(self) -> None:
        """Nothing more comes."""
        for connection in self._connections.values():
            connection.finish()


def take_packets(first: Dumped, others: Iterable[Dumped], desk: Desk, accounts: Accounts) -> None:
    """Takes the packets of a dump. Raises `Mixed`."""
    dump = Dump(desk, accounts)
    try:
        dump.take(first)
        for packet in others:
            dump.take(packet)
    finally:
        dump.finish()


def take_recorded(source: Source, desk: Desk, accounts: Accounts) -> None:
    """Takes all that a server sent on one connection."""
    accounts.connections += 1
    answers, place = Answers(Sides(), desk, accounts), 0
    try:
        while data := source.read(BLOCK):
            answers.take(Piece(place, data, 0, 0))
            place += len(data)
    finally:
        answers.finish()
