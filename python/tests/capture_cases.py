"""Captures by chance, of conversations whose answers are known, for the tests of `capture`.

It shares no code with the package: links, IP, TCP, packets and files of pcap are written here. What is there of each side is reckoned
from its segments: a capture is whole if all is there that any of them shows to be sent, if no message is under way at its end, and if
each request has an answer. Then all answers have to come, and nothing may be told; otherwise something has to be."""
from __future__ import annotations

import random
import struct
from dataclasses import dataclass, field, replace
from typing import Optional

SYN, FIN, RESET, PUSH, ACK = 2, 1, 4, 8, 16
SPACE = 1 << 32


def packets(kind: int, payload: bytes, size: int, channel: int) -> bytes:
    """A message in packets, numbered from 1 (MS-TDS, Packet Header)."""
    wire, number, at = b"", 1, 0
    while True:
        body = payload[at:at + size - 8]
        at += len(body)
        wire += struct.pack(">BBHHBB", kind, int(at >= len(payload)), 8 + len(body), channel, number % 256, 0) + body
        number += 1
        if at >= len(payload):
            return wire


def words(text: str) -> bytes:
    """The text of a statement after its headers."""
    return struct.pack("<IIHQI", 22, 18, 2, 0, 1) + text.encode("utf-16-le")


GREETING = bytes([0, 0, 6, 0, 6, 0xFF, 16, 0, 0x10, 0, 0, 0])
LOGIN_ANSWER = bytes([0xAD, 12, 0, 1, 0x74, 0, 0, 4, 1, 65, 0, 16, 0, 0, 0]) + bytes([0xFD]) + bytes(12)


@dataclass
class Segment:
    """A segment before it is in a frame."""

    is_client: bool
    sequence: int
    acknowledged: int
    flags: int
    data: bytes = b""
    is_wrong: bool = False  # whether its checksum is
    place: int = 0  # how many bytes its side has sent before it
    known: int = 0  # how many bytes of the other side it acknowledges
    is_other: bool = False  # whether its data isn't what was sent


@dataclass
class Message:
    """A request or an answer: where it is in the bytes of its side. An answer to a statement has its words."""

    is_client: bool
    start: int
    end: int
    words: str = ""


@dataclass
class Conversation:
    """A connection: its ends, its segments in order, its messages, and the answers to its statements."""

    client: tuple[bytes, int]
    server: tuple[bytes, int]
    segments: list[Segment] = field(default_factory=list)
    messages: list[Message] = field(default_factory=list)
    answers: list[bytes] = field(default_factory=list)
    names: list[str] = field(default_factory=list)


class Maker:
    """Makes the segments of a conversation."""

    def __init__(self, numbers: random.Random, made: Conversation, first: dict[bool, int]) -> None:
        self.made, self._numbers, self._first = made, numbers, first
        self.sent = {True: 0, False: 0}  # bytes
        self._ended = {True: False, False: False}
        self._most = numbers.choice([80, 536, 1460])

    def add(self, is_client: bool, flags: int, data: bytes = b"", back: int = 0) -> None:
        """A segment, or one that is so many bytes back."""
        sent, known = self.sent[is_client] - back, self.sent[not is_client] if flags & ACK else 0
        taken = {side: 0 if flags & SYN and side == is_client else 1 + self._ended[side] for side in (True, False)}  # numbers of SYN and FIN
        acknowledged = (self._first[not is_client] + known + taken[not is_client]) % SPACE if flags & ACK else 0
        sequence = (self._first[is_client] + sent + taken[is_client]) % SPACE
        self.made.segments.append(Segment(is_client, sequence, acknowledged, flags, data, False, sent, known))
        self.sent[is_client] += len(data)
        self._ended[is_client] = self._ended[is_client] or bool(flags & FIN)

    def open(self) -> None:
        for is_client, flags in (True, SYN), (False, SYN | ACK), (True, ACK):
            self.add(is_client, flags)

    def send(self, is_client: bool, data: bytes, words: str = "") -> None:
        start = self.sent[is_client]
        self.made.messages.append(Message(is_client, start, start + len(data), words))
        for at in range(0, len(data), self._most):
            self.add(is_client, ACK | (PUSH if at + self._most >= len(data) else 0), data[at:at + self._most])
            if self._numbers.random() < 0.4:
                self.add(not is_client, ACK)

    def end(self, how: str) -> None:
        """A connection is closed, reset, or goes on."""
        if how == "closed":
            for is_client in (True, False):
                self.add(is_client, FIN | ACK)
            self.add(True, ACK)
        elif how == "half closed":
            self.add(True, FIN | ACK)
            self.add(False, ACK)
        elif how == "reset":
            self.add(self._numbers.random() < 0.5, RESET | self._numbers.choice([0, ACK]))
        elif how == "asked":
            self.add(self._numbers.random() < 0.5, ACK, back=1)


ENDS = ("closed", "closed", "half closed", "reset", "asked", "open")


def conversation(numbers: random.Random, client: tuple[bytes, int], server: tuple[bytes, int], first: int, has_unanswered: bool = False) -> Conversation:
    """Greeting, login, and some statements with their answers; if asked, one of them without. Of two connections of the same ports each
    has first sequence numbers of its own, as RFC 9293, section 3.4.1, has it."""
    made = Conversation(client, server)
    ours = numbers.choice([0, 7, SPACE - 1, SPACE - 700, numbers.randrange(SPACE)])
    theirs = numbers.choice([5, SPACE - 2, SPACE - 3000, numbers.randrange(SPACE)])
    maker = Maker(numbers, made, {True: (ours + first) % SPACE, False: (theirs + first) % SPACE})
    channel, size = numbers.choice([0, 51, 300]), numbers.choice([512, 900, 4096])
    maker.open()
    maker.send(True, packets(0x12, GREETING, size, 0))
    maker.send(False, packets(4, GREETING, size, channel))
    maker.send(True, packets(0x10, numbers.randbytes(200), size, 0))
    maker.send(False, packets(4, LOGIN_ANSWER, size, channel))
    count = numbers.randint(has_unanswered, 4)
    unanswered = numbers.randrange(count) if has_unanswered else -1
    for number in range(count):
        text = f"SELECT {number} OF {client[1]}, {first % 1000}"
        payload = b"\x81" + numbers.randbytes(numbers.choice([20, 300, 2000, numbers.randint(1, 9000)])) + bytes([0xFD]) + bytes(12)
        maker.send(True, packets(1, words(text + " " * numbers.choice([0, 0, 900])), size, 0))
        if number != unanswered:
            made.answers.append(packets(4, payload, size, channel))
            made.names.append(text)
            maker.send(False, made.answers[-1], text)
    maker.end(numbers.choice(ENDS))
    return made


# Frames.

def checksum(data: bytes) -> int:
    data += bytes(len(data) % 2)
    total = int(sum(struct.unpack(f">{len(data) // 2}H", data)))
    while total >> 16:
        total = (total & 0xFFFF) + (total >> 16)
    return ~total & 0xFFFF


class Link:
    """How the segments of a case are put into frames."""

    def __init__(self, numbers: random.Random) -> None:
        self._numbers = numbers
        self.end = 0  # of the packet in the last frame
        self.kind = numbers.choice([1, 1, 1, 113, 276, 101])
        self.vlans = [numbers.randint(1, 4094) for _ in range(numbers.choice([0, 0, 1, 2]))] if self.kind == 1 else []
        self.padding = numbers.choice(["none", "short", "check sequence", "long"]) if self.kind == 1 else "none"
        self.is_offloaded = numbers.random() < 0.3
        self.has_extensions = numbers.random() < 0.3
        self.is_without_length = numbers.random() < 0.2 and self.padding == "none"

    def frame(self, segment: Segment, conversation: Conversation, is_tagged: bool = False) -> bytes:
        """The frame of a segment, if asked with one tag more than others."""
        ends = (conversation.client, conversation.server) if segment.is_client else (conversation.server, conversation.client)
        (source, from_port), (target, to_port) = ends
        tcp = struct.pack(">HHIIBBHHH", from_port, to_port, segment.sequence, segment.acknowledged, 5 << 4, segment.flags, 64000, 0, 0) + segment.data
        pseudo = source + target + struct.pack(">HH", 6, len(tcp))
        right = checksum(pseudo + tcp)
        written = (~checksum(pseudo) & 0xFFFF) if self.is_offloaded and not segment.is_client else right
        if segment.is_wrong:
            written = right ^ 0x1234
        packet = self._ip(source, target, tcp[:16] + struct.pack(">H", written) + tcp[18:])
        frame = self._head(len(source) == 16, is_tagged) + packet
        self.end = len(frame)
        return self._padded(frame)

    def _ip(self, source: bytes, target: bytes, tcp: bytes) -> bytes:
        if len(source) == 4:
            total = 0 if self.is_without_length and len(tcp) > 100 else 20 + len(tcp)
            head = struct.pack(">BBHHHBBH", 0x45, 0, total, 1, 0x4000, 64, 6, 0) + source + target
            return head[:10] + struct.pack(">H", checksum(head)) + head[12:] + tcp
        extension = struct.pack(">BB6x", 6, 0) if self.has_extensions else b""
        return struct.pack(">IHBB", 6 << 28, len(extension) + len(tcp), 60 if extension else 6, 64) + source + target + extension + tcp

    def _head(self, is_6: bool, is_tagged: bool) -> bytes:
        kind = 0x86DD if is_6 else 0x0800
        if self.kind == 113:
            return struct.pack(">HHHQH", 0, 1, 6, 0, kind)
        if self.kind == 276:
            return struct.pack(">HHIHBBQ", kind, 0, 2, 1, 0, 6, 0)
        if self.kind == 101:
            return b""
        tags = b"".join(struct.pack(">HH", 0x8100, vlan) for vlan in [4000] * is_tagged + self.vlans)
        return bytes(range(12)) + tags + struct.pack(">H", kind)

    def _padded(self, frame: bytes) -> bytes:
        if self.padding == "short":
            return frame + self._numbers.randbytes(max(60 - len(frame), 0))
        return frame + self._numbers.randbytes({"none": 0, "check sequence": 4, "long": 30}[self.padding])


# What happens to them.

@dataclass
class Case:
    """A capture, all answers with their names, those of them that are there, and whether it is whole, or None if nothing says."""

    data: bytes
    names: dict[bytes, str]
    answers: list[bytes]
    is_whole: Optional[bool]
    has_others: bool  # whether there are bytes that weren't sent
    what: str


HARMLESS = (
    "nothing", "doubled", "disordered", "probes", "two captures", "wrong checksum and again", "port reuse", "SYNs again", "tags by half", "joined",
    "two clients")
HARMFUL = (
    "lost", "lost", "lost at the end", "ends early", "ends early", "unanswered", "other copy after", "other copy before", "cut frames", "begins late",
    "cut file", "wrong checksum", "one side", "server's frames late", "equal numbers")


MANY = 250  # one case in so many has a thousand connections


def case(seed: int) -> Case:
    """The case of a number."""
    numbers = random.Random(seed)
    happening = numbers.sample(HARMLESS, numbers.randint(1, 2))
    if numbers.random() < 0.6:
        happening += numbers.sample(HARMFUL, numbers.randint(1, 2))
    is_6 = numbers.random() < 0.3
    hosts = [numbers.randbytes(16) if is_6 else numbers.randbytes(4) for _ in range(2)]
    client, server = (hosts[0], numbers.randint(40000, 50000)), (hosts[1], 1433)
    link = Link(numbers)
    made = [conversation(numbers, client, server, 0, "unanswered" in happening)]
    if "port reuse" in happening:
        made.append(conversation(numbers, client, server, numbers.randrange(1 << 25, SPACE - (1 << 25))))
    if "two clients" in happening or seed % MANY == 0:
        made += [conversation(numbers, (hosts[0], client[1] + number), server, 0) for number in range(1, 2 if seed % MANY else 1000)]
    there = [(it, _altered(numbers, it, happening)) for it in made]
    if "equal numbers" in happening:
        again = _other(numbers, there[0][1])
        there.append((made[0], again))
    frames, ends = _framed(numbers, link, there, happening)
    cut = numbers.choice([70, 100, 300]) if "cut frames" in happening else 1 << 20
    data = _file(numbers, link.kind, frames, cut)
    if "cut file" in happening:
        data = data[:len(data) - numbers.randint(1, min(len(frames[-1]), cut))]  # within the last frame
    verdicts = [verdict(it, segments) for it, segments in there]
    if "cut file" in happening or max(ends, default=0) > cut:
        verdicts.append(False)
    if "port reuse" in happening and any(is_late(segments) for _, segments in there):
        verdicts.append(None)
    is_other = "equal numbers" in happening and any(len(it.data) > 1 or it.data and it.flags & PUSH for it in again)
    is_whole = False if is_other else None if None in verdicts else all(verdicts)
    answers = [answer for it, segments in there for answer in _answers(it, segments)]
    names = {answer: name for it in made for answer, name in zip(it.answers, it.names)}
    has_others = any(it.is_other and not it.is_wrong for _, segments in there for it in segments)
    return Case(data, names, answers, is_whole, has_others, f"{seed}: {', '.join(happening)}")


def is_late(segments: list[Segment]) -> bool:
    """Whether the beginning of a side that is there isn't."""
    return any(not any(it.is_client == side and it.flags & SYN for it in segments) for side in (True, False))


def shown(made: Conversation, segments: list[Segment], side: bool) -> int:
    """How many bytes of a side the segments show to be sent."""
    sent = max((it.end for it in made.messages if it.is_client == side), default=0)
    return min(max([0, *(it.place + len(it.data) if it.is_client == side else it.known for it in segments)]), sent)


def lacking(segments: list[Segment], side: bool, length: int) -> int:
    """How many of the first bytes of a side aren't there."""
    found = place = 0
    for start, end in sorted((it.place, it.place + len(it.data)) for it in segments if it.is_client == side and not it.is_wrong):
        found += max(min(end, length) - max(start, place), 0)
        place = max(place, min(end, length))
    return length - found


def verdict(made: Conversation, segments: list[Segment]) -> Optional[bool]:
    """Whether a conversation is whole in a capture that has these segments; None if nothing says."""
    has = {side: any(it.is_client == side for it in segments) for side in (True, False)}
    sent = {side: shown(made, segments, side) for side in (True, False)}
    if any(it.is_other and not it.is_wrong for it in segments):
        return False if _has_both(segments) else None
    if not segments:
        return True
    if is_late(segments) and (not has[True] or not has[False] or all(it.flags & SYN == 0 for it in segments)):
        return None
    if any(has[side] and lacking(segments, side, sent[side]) for side in (True, False)):
        return False
    for place, message in enumerate(made.messages):
        if message.is_client and not has[True]:
            continue
        if message.start < sent[message.is_client] < message.end:
            return False
        following = made.messages[place + 1] if place + 1 < len(made.messages) else message
        if message.is_client and sent[True] >= message.end and (following.is_client or sent[False] <= following.start):
            return False
    return True


def _has_both(segments: list[Segment]) -> bool:
    """Whether each segment that wasn't sent has one beside it that was."""
    return all(any(it.is_client == other.is_client and it.place == other.place and it.data != other.data and not it.is_other for it in segments if it.data)
               for other in segments if other.is_other and not other.is_wrong)


def _answers(made: Conversation, segments: list[Segment]) -> list[bytes]:
    """The answers to statements of which something is shown, from the beginning of the capture on."""
    sent = shown(made, segments, False)
    begun = min((it.known if it.is_client else it.place + (not it.data) for it in segments if it.flags & ACK), default=sent)  # one may ask, a number back
    of_statements = [it for it in made.messages if not it.is_client and it.words]
    return [answer for answer, message in zip(made.answers, of_statements) if message.start < sent and (begun <= message.start or _has_some(message, segments))]


def _has_some(message: Message, segments: list[Segment]) -> bool:
    """Whether bytes of an answer are there."""
    return any(it.data and not it.is_client and it.place < message.end and message.start < it.place + len(it.data) for it in segments)


def _framed(numbers: random.Random, link: Link, there: list[tuple[Conversation, list[Segment]]], happening: list[str]) -> tuple[list[bytes], list[int]]:
    """The frames of all, and where the packet in each ends; those of several clients are mixed."""
    queues = [[(it, segment) for segment in segments] for it, segments in there]
    mixed = [place for place, queue in enumerate(queues) for _ in queue]
    if "two clients" in happening and "port reuse" not in happening and "equal numbers" not in happening:
        numbers.shuffle(mixed)
    places = [0] * len(queues)
    frames, ends = [], []
    for which in mixed:
        it, segment = queues[which][places[which]]
        places[which] += 1
        tags = numbers.choice([[True], [False], [True, False]]) if "tags by half" in happening and link.kind == 1 else [False]
        for is_tagged in tags * (2 if "two captures" in happening else 1):
            frames.append(link.frame(segment, it, is_tagged))
            ends.append(link.end)
    return (frames * 2, ends) if "joined" in happening else (frames, ends)


def _other(numbers: random.Random, segments: list[Segment]) -> list[Segment]:
    """Another connection with the same numbers, that has other data."""
    return [replace(it, data=numbers.randbytes(len(it.data)), is_other=bool(it.data)) for it in segments]


def _altered(numbers: random.Random, made: Conversation, happening: list[str]) -> list[Segment]:
    """The segments as they are captured."""
    segments = list(made.segments)
    with_data = [it for it in segments if len(it.data) > 1 or it.data and it.flags & PUSH]
    for what in happening:
        chosen = numbers.choice(with_data)
        at = segments.index(chosen) if chosen in segments else 0
        other = replace(chosen, data=bytes(byte ^ 1 for byte in chosen.data), is_other=True)
        if what == "doubled":
            segments = [it for one in segments for it in [one] * numbers.choice([1, 1, 1, 2, 3])]
        elif what == "disordered":
            # A frame may be late by a few others, but no SYN, and no FIN is early.
            middle = segments[3:-3]
            late = sorted(range(len(middle)), key=lambda place: place + numbers.choice([0, 0, 0, 2.5, 4.5]))
            segments = segments[:3] + [middle[place] for place in late] + segments[-3:]
        elif what == "SYNs again":
            first = segments[:3] + numbers.choices(segments[:2], k=numbers.randint(0, 3))
            segments[:3] = numbers.sample(first, len(first))
            for it in numbers.sample(first, numbers.randint(0, 2)):
                segments.insert(numbers.randint(0, 8), it)
        elif what == "probes":
            data = numbers.choice([b"", b"\0"])
            segments.insert(at, replace(chosen, sequence=(chosen.sequence - 1) % SPACE, flags=ACK, data=data, place=chosen.place - len(data)))
        elif what == "wrong checksum and again":
            segments.insert(at, replace(other, is_wrong=True))
        elif what == "lost":
            for _ in range(min(numbers.randint(1, 3), len(segments) - 1)):
                segments.remove(numbers.choice(segments))
        elif what == "lost at the end":
            segments = [it for it in segments if not it.data or it.place < chosen.place or it.is_client != chosen.is_client]
        elif what == "ends early":
            segments = segments[:max(at, 1)]
        elif what == "other copy after":
            segments.insert(at + 1, other)
        elif what == "other copy before":
            segments.insert(at, other)
        elif what == "begins late":
            segments = segments[numbers.randint(1, len(segments) - 1):] if len(segments) > 1 else segments
        elif what == "wrong checksum":
            segments[at] = replace(other, is_wrong=True)
        elif what == "one side":
            side = numbers.random() < 0.5
            segments = [it for it in segments if it.is_client == side]
        elif what == "server's frames late":
            segments = [it for it in segments if it.is_client] + [it for it in segments if not it.is_client]
        with_data = [it for it in segments if len(it.data) > 1 or it.data and it.flags & PUSH] or with_data
    return segments


def pcap(link: int, frames: list[bytes]) -> bytes:
    """A file of pcap with whole frames."""
    data = struct.pack("<IHHiIII", 0xA1B2C3D4, 2, 4, 0, 0, 65535, link)
    return data + b"".join(struct.pack("<IIII", 1_700_000_000, number, len(it), len(it)) + it for number, it in enumerate(frames))


def _file(numbers: random.Random, link: int, frames: list[bytes], cut: int) -> bytes:
    """A file of pcap or pcapng, in either order of bytes."""
    order, times = numbers.choice("<>"), range(1_700_000_000_000_000, 1_700_000_000_000_000 + len(frames))
    if numbers.random() < 0.5:
        blocks = [struct.pack(order + "IHHiIII", 0xA1B2C3D4, 2, 4, 0, 0, 65535, link)]
        for time, frame in zip(times, frames):
            blocks += [struct.pack(order + "IIII", time // 10**6, time % 10**6, len(frame[:cut]), len(frame)), frame[:cut]]
        return b"".join(blocks)
    blocks = [struct.pack(order + "IIIHHqI", 0x0A0D0D0A, 28, 0x1A2B3C4D, 1, 0, -1, 28), struct.pack(order + "IIHHII", 1, 20, link, 0, 0, 20)]
    for time, frame in zip(times, frames):
        kept = frame[:cut]
        padded = kept + bytes(-len(kept) % 4)
        length = 32 + len(padded)
        head = struct.pack(order + "IIIIIII", 6, length, 0, time >> 32, time & 0xFFFFFFFF, len(kept), len(frame))
        blocks += [head, padded, struct.pack(order + "I", length)]
    return b"".join(blocks)
