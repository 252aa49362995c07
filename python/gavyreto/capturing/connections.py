"""The connections of a capture: each frame goes to its own, and is counted.

A connection is its two addresses and ports, and its numbers: what has other ones is another connection of the same ports. Tags and
tunnels only choose where the numbers are right for several, so that a frame that was captured with and without them is one frame."""
from __future__ import annotations

from collections import Counter, OrderedDict
from typing import Optional, Union

from gavyreto import tds
from gavyreto.capturing.accounts import Accounts
from gavyreto.capturing.conversations import Conversation
from gavyreto.capturing.desk import Desk, Sides
from gavyreto.capturing.endings import Ended, Endings, Revisit
from gavyreto.capturing.files import Frame
from gavyreto.capturing.frames import ETHERNET, segment_of
from gavyreto.capturing.internet import ACK, FIN, RESET, SYN, Foreign, Other, Segment, Unread, address_of, is_elsewhere, plain_header, port_of, segment_at
from gavyreto.capturing.memory import Memory
from gavyreto.capturing.messages import is_header, is_record
from gavyreto.capturing.runs import Run, is_plain
from gavyreto.capturing.streams import SPACE
from gavyreto.tds import PacketType

MOST_RESTING = 1024  # connections that are followed at once, some of which may rest; one that rests goes on by its numbers
MOST_OPEN = 8192  # of all
MOST_OF_A_KEY = 8  # of the same addresses and ports
MOST_REVISITED = 256  # that come again
MOST_PORTS = 64  # of other servers that are named
WRONG_CHECKSUM = "a wrong checksum of TCP"
GIVEN_UP = f"more than {MOST_OPEN} connections are open: this one, which was silent for longest, is given up"


class Connections:
    """All connections to the ports that are asked for."""

    def __init__(self, ports: set[int], desk: Desk, accounts: Accounts) -> None:
        self.others: Counter[int] = Counter()  #: further ports, by their segments that look like TDS
        self.cut = 0  #: frames that weren't captured whole
        self._ports, self._desk, self._accounts = ports, desk, accounts
        self._open: dict[bytes, list[Conversation]] = {}  # by client and server
        self._recent: OrderedDict[Conversation, bytes] = OrderedDict()  # the longest silent first
        self._silent: OrderedDict[Conversation, bytes] = OrderedDict()  # those that were silent for longer, with a message under way
        self._endings = Endings()
        self._again: OrderedDict[bytes, Revisit] = OrderedDict()
        self._memory = Memory()
        self._run: Optional[Run] = None

    def take(self, frame: Frame) -> None:
        """Takes a frame."""
        accounts, run = self._accounts, self._run
        accounts.frames += 1
        plain = plain_header(frame.data, frame.length) if frame.link == ETHERNET else None
        if plain and run and run.add_plain(frame.data, plain):
            accounts.in_connections += 1
            return
        if plain and is_elsewhere(frame.data, plain, self._ports):
            accounts.elsewhere += 1
            return
        try:
            segment = segment_at(frame.data, plain) if plain else segment_of(frame, self._ports)
        except Other:
            accounts.elsewhere += 1
            return
        except (Foreign, Unread) as why:
            accounts.count(accounts.foreign if isinstance(why, Foreign) else accounts.unread, str(why))
            return
        if run and run.add(segment):
            accounts.in_connections += 1
            return
        is_client = self._is_client(segment)
        if is_client is None:
            accounts.elsewhere += 1
            self._look(segment)
            return
        if segment.is_wrong:
            accounts.count(accounts.foreign, WRONG_CHECKSUM)
        else:
            accounts.in_connections += 1
        self.cut += segment.cut > 0
        self._end_run()
        if is_plain(segment):
            self._run = Run(segment, is_client, frame.time, plain[0] if plain else b"")
        else:
            self._take(segment, is_client, frame.time)

    def _end_run(self) -> None:
        run, self._run = self._run, None
        if run:
            self._take(run.segment(), run.is_client, run.time)
            acknowledgement = run.acknowledgement()
            if acknowledgement:
                self._take(acknowledgement, not run.is_client, run.time)

    def _is_client(self, segment: Segment) -> Optional[bool]:
        """Whether a client sent a segment, and not its server; None if it is of no connection that is asked for."""
        to_server, from_server = port_of(segment.target) in self._ports, port_of(segment.source) in self._ports
        if to_server and from_server:
            return segment.source + segment.target in self._open or segment.flags & (SYN | ACK) == SYN
        return to_server if to_server or from_server else None

    def _look(self, segment: Segment) -> None:
        """Notes the port of a server elsewhere whose segment looks like TDS: a greeting to it, or an answer from it, of one packet."""
        data = segment.data
        if len(data) >= tds.HEADER and tds.length_of(data) == len(data) and data[1] == tds.LAST:
            if is_header(data, (PacketType.PRELOGIN, PacketType.STATEMENT)) and not is_record(data[tds.HEADER:]):
                port = port_of(segment.target)
            elif is_header(data, (PacketType.ANSWER,)):
                port = port_of(segment.source)
            else:
                return
            if port in self.others or len(self.others) < MOST_PORTS:
                self.others[port] += 1

    # Whose segment it is.

    def _take(self, segment: Segment, is_client: bool, time: int) -> None:
        key = segment.source + segment.target if is_client else segment.target + segment.source
        conversation = self._find(key, is_client, segment, time)
        if conversation is None:
            return
        if self._silent.pop(conversation, None):
            self._recent[conversation] = key
        self._recent.move_to_end(conversation)
        self._memory.touch(conversation.share)
        conversation.take(is_client, segment, time)
        if segment.flags & (SYN | ACK) == SYN | ACK and self._endings.has_been(key, conversation.first()):
            self._desk.tell(conversation.sides, time, "a connection with these addresses and first numbers has been there: what follows may be the same")
        self._memory.shorten()
        if segment.flags & (FIN | RESET) or not segment.data:
            if conversation.is_over() or segment.flags & RESET and conversation.is_idle():
                self._end(key, conversation)  # all of it is there

    def _find(self, key: bytes, is_client: bool, segment: Segment, time: int) -> Optional[Conversation]:
        """The connection that a segment is of, which begins with it if it isn't there; None if it only comes again."""
        others = self._open.get(key)
        if others and len(others) == 1 and others[0].is_near(is_client, segment):
            conversation: Optional[Conversation] = others[0]
        else:
            conversation = self._of_open(key, is_client, segment)
            if conversation is None or conversation.is_far_ahead(is_client, segment):
                ended = self._endings.find(key, is_client, segment)
                if ended and not ended.is_new(is_client, segment):
                    self._compare(key, ended, is_client, segment, time)
                    return None
                conversation = conversation or self._begin(key, is_client, segment, ended)
        if conversation and conversation.comes_again(is_client, segment):
            self._compare(key, conversation, is_client, segment, time)
        return conversation

    def _of_open(self, key: bytes, is_client: bool, segment: Segment) -> Optional[Conversation]:
        """The open connection that a segment is of. One with the same tags that has other numbers has ended."""
        found = [it for it in self._open.get(key, ()) if not it.contradicts(is_client, segment)]
        if not found:
            return None
        return next((it for it in found if it.tags == segment.tags), found[0])

    def _begin(self, key: bytes, is_client: bool, segment: Segment, ended: Optional[Ended]) -> Optional[Conversation]:
        """A connection begins, or one that rested goes on. A reset alone shows nothing of one."""
        if segment.flags & RESET:
            return None
        for before in [it for it in self._open.get(key, ()) if it.tags == segment.tags and not segment.is_wrong]:
            before.disown(is_client, segment)  # its ports are used again
            self._end(key, before)
        if len(self._open.get(key, ())) >= MOST_OF_A_KEY:
            self._end(key, self._open[key][0], GIVEN_UP)
        conversation = Conversation(_sides_of(key), segment.tags, self._desk, self._accounts, self._memory)
        self._open.setdefault(key, []).append(conversation)
        self._recent[conversation] = key
        self._make_room()
        self._accounts.connections += ended is None
        if ended:
            self._endings.take(key, ended)
            conversation.go_on(ended.client, ended.server)
        return conversation

    def _make_room(self) -> None:
        """Ends those that were silent for longest: those that rest, or if there are too many, another one."""
        if len(self._recent) > MOST_RESTING:
            oldest, key = self._recent.popitem(last=False)
            self._silent[oldest] = key
            if oldest.is_idle():
                self._end(key, oldest)
        if len(self._recent) + len(self._silent) > MOST_OPEN:
            oldest, key = next(iter((self._silent or self._recent).items()))
            self._end(key, oldest, GIVEN_UP)

    # What comes again.

    def _compare(self, key: bytes, first: Union[Conversation, Ended], is_client: bool, segment: Segment, time: int) -> None:
        """A segment of a connection that was there: if its SYN or its first byte came again, it is compared."""
        again = self._again.get(key)
        begins = bool(segment.flags & SYN) or is_plain(segment) and segment.sequence == first.streams(is_client)[0].start % SPACE
        if again and (again.first is not first or begins and again.has_begun(is_client)):
            self._end_again(key)
            again = None
        if again is None:
            if not begins:
                return
            again = self._again[key] = Revisit(self._memory, first, time)
            if len(self._again) > MOST_REVISITED:
                self._end_again(next(iter(self._again)))
        self._again.move_to_end(key)
        again.take(is_client, segment)

    def _end_again(self, key: bytes) -> None:
        again = self._again.pop(key)
        if again.differs():
            self._desk.tell(_sides_of(key), again.time, "a connection comes again with the same first numbers, and not with the same bytes: those that came first count")
        again.close()

    # Ends.

    def _end(self, key: bytes, conversation: Conversation, why: str = "") -> None:
        self._recent.pop(conversation, None)
        self._silent.pop(conversation, None)
        others = self._open[key]
        others.remove(conversation)
        if not others:
            del self._open[key]
        conversation.finish(why)
        self._endings.add(key, conversation)

    def finish(self) -> None:
        """Nothing more comes."""
        self._end_run()
        for conversation, key in [*self._silent.items(), *self._recent.items()]:
            self._end(key, conversation)
        while self._again:
            self._end_again(next(iter(self._again)))


def _sides_of(key: bytes) -> Sides:
    """The names of a client and its server."""
    half = len(key) // 2
    return Sides(address_of(key[:half]), address_of(key[half:]))
