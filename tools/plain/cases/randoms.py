"""Responses at random: of every token and kind, whole, cut, or with a byte changed, in packets of random sizes."""
from __future__ import annotations

import random

from plain import reader as plain
from lib.packing import joined, random_pieces

from .spelling import (
    CHUNKED_NULL, DONE, NO_METADATA, SHORT_NULL, UNKNOWN, Case, chunked, counted, description, little, nbc_row, row,
    sized, units_name,
)

UNLIMITED = [0xA5, 0xA7, 0xE7]
NAMES = ["", "a", "id", 'a "b"', "größe", "\U0001F600", "x" * 40]
CHARACTERS = ["a", "b", '"', "é", "€", "\U0001F600", "\r\n"]
MESSAGES = ["", "no", "Ungültig\x07", "€" * 200]


class Maker:
    """Makes one response at random."""

    def __init__(self, seed: int) -> None:
        self.random = random.Random(seed)
        self.before: tuple[list[plain.Kind], list[bytes]] = [], []  # what the last set was described by

    def is_chosen(self, share: float) -> bool:
        return self.random.random() < share

    def any_bytes(self, length: int) -> bytes:
        return self.random.randbytes(length)

    def name(self) -> bytes:
        units = self.random.choice(NAMES).encode("utf-16-le")
        return units_name(units + b"\x00\xD8" * self.is_chosen(0.1))

    # kinds

    def kind(self) -> plain.Kind:
        """A type that is read, or at times one that is refused."""
        if self.is_chosen(0.003):
            return plain.Kind(self.random.choice([*plain.REFUSED, 0x1F, 0x2F, 0x01]), b"")
        byte = self.random.choice([*plain.FIXED, *plain.REST, *UNLIMITED])
        if byte in plain.LONG:
            is_unlimited = byte in UNLIMITED and self.is_chosen(0.5)
            return plain.Kind(byte, (b"\xFF\xFF" if is_unlimited else b"\x40\x1F") + self.any_bytes(plain.REST[byte] - 2))
        return plain.Kind(byte, self.rest_of_scalar(byte))

    def rest_of_scalar(self, byte: int) -> bytes:
        pick = self.random
        if byte == 0x24:
            return b"\x10"
        if byte == 0x68:
            return b"\1"
        if byte == 0x26:
            return bytes([pick.choice([1, 2, 4, 8])])
        if byte in (0x6E, 0x6F):
            return bytes([pick.choice([4, 8])])
        if byte in (0x6A, 0x6C):
            precision = pick.randint(1, 38)
            return bytes([pick.choice([5, 9, 13, 17]), precision, pick.randint(0, precision)])
        return bytes([pick.randint(0, 7)]) if byte in (0x29, 0x2A, 0x2B) else b""

    # values

    def scalar(self, kind: plain.Kind) -> bytes:
        """Bytes of a value of a scalar kind, mostly in range."""
        if kind.byte in plain.FIXED:
            length = plain.FIXED_LENGTH[kind.byte]
        else:
            length = self.random.choice([it for it in range(1, 18) if plain.is_allowed(kind, it)])
        for _ in range(200):
            data = self.any_bytes(length) if self.is_chosen(0.3) else self.any_bytes(length // 2) + bytes(length - length // 2)
            if plain.scalar_text(kind, data) is not None or self.is_chosen(0.0002):
                return data
        return bytes(length)

    def data(self, form: str) -> bytes:
        """Data of a long value: text with quotes and characters of several bytes, or any bytes; seldom longer than 65,536."""
        length = 16_000 if self.is_chosen(0.002) else self.random.choice([0, 1, 3, 20, 100, 700])
        text = "".join(self.random.choices(CHARACTERS, k=length))
        if form == "Wide":
            data = text.encode("utf-16-le")
            data = data[2:] if self.is_chosen(0.1) else data
            return data[1:] if self.is_chosen(0.01) else data
        if form == "Narrow" and self.is_chosen(0.8):
            return text.encode()[:-1] if self.is_chosen(0.15) else text.encode()
        return self.any_bytes(length)

    def chunks(self, data: bytes) -> list[bytes]:
        found = []
        while data:
            length = self.random.randint(1, len(data))
            found.append(data[:length])
            data = data[length:]
        return found

    def cell(self, kind: plain.Kind) -> bytes:
        if kind.byte in plain.FIXED:
            return self.scalar(kind)
        is_null = self.is_chosen(0.15)
        if kind.byte not in plain.LONG:
            return counted(b"" if is_null else self.scalar(kind))
        if is_null:
            return CHUNKED_NULL if kind.is_chunked() else SHORT_NULL
        data = self.data(plain.LONG[kind.byte])
        if kind.is_chunked():
            total = self.random.choice([UNKNOWN, little(len(data), 8), little(len(data), 8)])
            return chunked(self.chunks(data), total)
        return little(len(data), 2) + data[:0xFFFF]

    # tokens

    def notice(self) -> bytes:
        message = self.random.choice(MESSAGES).encode("utf-16-le")
        body = self.any_bytes(6) + little(len(message) // 2, 2) + message + self.name() + self.name() + self.any_bytes(4)
        return sized(self.random.choice([0xAA, 0xAB]), body + self.any_bytes(self.random.choice([0, 0, 3])))

    def row(self, kinds: list[plain.Kind]) -> bytes:
        if self.is_chosen(0.6):
            return row(*map(self.cell, kinds))
        nulls = [self.is_chosen(0.4) for _ in kinds]
        bits = sum(1 << at for at, is_null in enumerate(nulls) if is_null)
        values = [self.cell(kind) for kind, is_null in zip(kinds, nulls) if not is_null]
        return nbc_row(little(bits, (len(kinds) + 7) // 8), *values)

    def described(self) -> tuple[list[plain.Kind], list[bytes]]:
        """Kinds, and the columns that describe them: at times those of the set before."""
        if not self.before[0] or self.is_chosen(0.7):
            kinds = [self.kind() for _ in range(self.random.choice([1, 1, 2, 3, 8, 9, 20, 70]))]
            self.before = kinds, [self.any_bytes(6) + bytes([kind.byte]) + kind.rest + self.name() for kind in kinds]
        return self.before

    def result_set(self) -> bytes:
        if self.is_chosen(0.05):
            return NO_METADATA
        kinds, columns = self.described()
        read = [kind for kind in kinds if kind.byte in plain.FIXED or kind.byte in plain.REST]
        rows = [self.row(read) for _ in range(self.random.choice([0, 1, 1, 2, 5, 12]))]
        return description(*columns) + b"".join(rows)

    def return_value(self) -> bytes:
        kind = self.kind()
        cell = self.cell(kind) if kind.byte in plain.FIXED or kind.byte in plain.REST else b""
        return b"\xAC" + self.any_bytes(2) + self.name() + self.any_bytes(7) + bytes([kind.byte]) + kind.rest + cell

    def token(self) -> bytes:
        pick = self.random.random()
        if pick < 0.45:
            return self.result_set()
        if pick < 0.6:
            return self.notice()
        if pick < 0.7:
            return sized(self.random.choice([0xA9, 0xE3]), self.any_bytes(self.random.randint(0, 30)))
        if pick < 0.78:
            return b"\x79" + self.any_bytes(4)
        if pick < 0.86:
            return self.return_value()
        if pick < 0.99:
            return self.random.choice([b"\xFD", b"\xFE", b"\xFF"]) + self.any_bytes(12)
        return self.any_bytes(1)

    def payload(self, most: int = 6) -> bytes:
        """A payload of at most so many tokens."""
        tokens = [self.token() for _ in range(self.random.randint(0, most))]
        return b"".join(tokens) + DONE * self.is_chosen(0.9)

    # the wire

    def spoilt(self, data: bytes, share: float) -> bytes:
        """The data, with a byte changed in a share of cases, and cut in as many."""
        pick = self.random.random()
        if pick < share and data:
            at = self.random.randrange(len(data))
            return data[:at] + self.any_bytes(1) + data[at + 1:]
        return data[:self.random.randint(0, len(data))] if pick < 2 * share else data

    def packets(self, payload: bytes) -> bytes:
        """A payload in packets of random sizes; a long one isn't put into thousands of them."""
        most = self.random.choice([7, 60, 500, 4_088, 32_759] if len(payload) < 20_000 else [500, 4_088, 32_759])
        return joined(random_pieces(payload, most, self.random))

    def options(self, wire: bytes) -> tuple[str, ...]:
        """Options, some of them with limits that few responses keep."""
        found = ["--packet-size", self.random.choice(["512", "4096", "4096", "32767", "32767"])]
        found += ["--charset", self.random.choice(["windows-1252", "utf-8"])]
        if self.is_chosen(0.1):
            found += ["--column-room", self.random.choice(["10", "22", "200"])]
        if self.is_chosen(0.1):
            found += ["--max-wire", str(max(8, len(wire) // 2))]
        return tuple(found)

    def case(self, name: str) -> Case:
        wire = self.packets(self.spoilt(self.payload(), 0.15))
        wire = self.spoilt(wire, 0.03) + self.any_bytes(self.random.choice([0, 0, 5]))
        return Case(name, wire, self.options(wire))

    def responses(self) -> tuple[list[bytes], tuple[str, ...]]:
        """Responses in packets, to be read one after another, and options; the last may be spoilt."""
        options = self.options(self.packets(self.payload()))
        wires = [self.accepted(options) for _ in range(self.random.randint(0, 9))]
        if wires and self.is_chosen(0.3):
            wires[-1] = self.spoilt(wires[-1], 0.3) + self.any_bytes(self.random.choice([0, 1, 9]))
        return wires, options

    def accepted(self, options: tuple[str, ...]) -> bytes:
        """A response in packets that is read whole under the options, if one of some tries is."""
        for _ in range(6):
            wire = self.packets(self.payload(2))
            if not plain.export(wire, list(options)).stop:
                break
        return wire


def cases(count: int, seed: int) -> list[Case]:
    """So many cases; the same seed gives the same ones."""
    return [Maker(seed * 1_000_003 + number).case(f"random: {number} of seed {seed}") for number in range(count)]


def lists(count: int, seed: int) -> list[tuple[list[bytes], tuple[str, ...]]]:
    """So many lists of responses, with their options; the same seed gives the same ones."""
    return [Maker(seed * 1_000_033 + number).responses() for number in range(count)]
