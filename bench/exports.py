"""Times the program on made-up responses, beside the other readers that are given, and prints what a cell costs, and what a
byte of a long value does.

The response is named as a FILE. The texts are compared, and a difference ends the run. If valgrind is there, the instructions are
counted too."""
from __future__ import annotations

import dataclasses
import hashlib
import os
import re
import resource
import shutil
import struct
import subprocess
import sys
import tempfile
from collections.abc import Callable
from typing import IO, cast

from lib.packing import in_packets

PACKET_SIZE = 4096
CHUNK = 8000
RUNS = 5
ROUNDS = 4
DONE = b"\xFD" + bytes(12)


def description_of(columns: list[tuple[bytes, str]]) -> bytes:
    """A COLMETADATA of these pairs of type information and name."""
    described = b"".join(bytes(6) + kind + bytes([len(name)]) + name.encode("utf-16-le") for kind, name in columns)
    return b"\x81" + struct.pack("<H", len(columns)) + described


def ints(columns: int, rows: int) -> bytes:
    """Rows of four-byte numbers of up to ten digits."""
    spread = [104729 * i for i in range(columns)]
    payload = bytearray(description_of([(b"\x38", f"column {i}") for i in range(columns)]))
    for row in range(rows):
        numbers = [(7919 * row + n) % 2_000_000_000 - 1_000_000_000 for n in spread]
        payload += b"\xD1" + struct.pack(f"<{columns}i", *numbers)
    return bytes(payload + DONE)


def mixed(rows: int) -> bytes:
    """Rows of eight kinds, with NULL in two of them at times."""
    kinds = [b"\x38", b"\x26\x08", b"\x6A\x09\x12\x04", b"\x2A\x07", b"\x68\x01", b"\x24\x10", b"\x6E\x08", b"\x28"]
    payload = bytearray(description_of([(kind, f"column {i}") for i, kind in enumerate(kinds)]))
    for row in range(rows):
        day = struct.pack("<I", 730_000 + row % 1000)[:3]
        payload += b"\xD1" + struct.pack("<i", row)
        payload += b"\0" if row % 10 == 3 else b"\x08" + struct.pack("<q", row * 1_234_567_891)
        payload += b"\x09\x01" + struct.pack("<q", row * 987_654_321 % 10**17)
        payload += b"\x08" + struct.pack("<q", row * 86_399_999 % 864_000_000_000)[:5] + day
        payload += b"\0" if row % 7 == 0 else b"\x01" + bytes([row % 2])
        payload += b"\x10" + struct.pack("<QQ", row * 0x9E3779B97F4A7C15 % 2**64, row * 0xC2B2AE3D27D4EB4F % 2**64)
        payload += b"\x08" + struct.pack("<iI", row % 1000, row * 12_345 % 2**32)
        payload += b"\x03" + day
    return bytes(payload + DONE)


TEXT = 'a quote " and É, €, 東 in plain text'
COLLATION = b"\x09\x04\xd0\x00\x34"
SHORT_KINDS = [
    b"\x26\x04",
    b"\x26\x08",
    b"\x6A\x09\x12\x04",
    b"\x2A\x07",
    b"\xE7\x64\x00" + COLLATION,
    b"\xA7\x32\x00" + COLLATION,
    b"\x24\x10",
    b"\xA5\x10\x00",
]


def short_cells(row: int) -> list[bytes]:
    """The eight cells of a row of numbers and short values, each after its length."""
    narrow = TEXT.encode("cp1252", "replace")
    start = row % 7
    wide = TEXT[start:].encode("utf-16-le")
    day = struct.pack("<I", 730_000 + row % 1000)[:3]
    return [
        b"\x04" + struct.pack("<i", row),
        b"\x08" + struct.pack("<q", row * 1_234_567_891),
        b"\x09\x01" + struct.pack("<q", row * 987_654_321 % 10**17),
        b"\x08" + struct.pack("<q", row * 86_399_999 % 864_000_000_000)[:5] + day,
        struct.pack("<H", len(wide)) + wide,
        struct.pack("<H", len(narrow) - start) + narrow[start:],
        b"\x10" + struct.pack("<QQ", row * 0x9E3779B97F4A7C15 % 2**64, row * 0xC2B2AE3D27D4EB4F % 2**64),
        struct.pack("<HQ", 8, row * 0x9E3779B97F4A7C15 % 2**64),
    ]


def described_short() -> bytes:
    """The description of those columns."""
    return description_of([(kind, f"column {i}") for i, kind in enumerate(SHORT_KINDS)])


def short_rows(rows: int) -> bytes:
    """Rows of numbers and short values without NULL."""
    payload = bytearray(described_short())
    for row in range(rows):
        payload += b"\xD1" + b"".join(short_cells(row))
    return bytes(payload + DONE)


def null_rows(rows: int) -> bytes:
    """The same as NBCROW, a quarter of the cells NULL."""
    payload = bytearray(described_short())
    for row in range(rows):
        nulls = [0x11, 0x22, 0x44, 0x88][row % 4]
        cells = short_cells(row)
        payload += b"\xD2" + bytes([nulls]) + b"".join(cell for i, cell in enumerate(cells) if not nulls >> i & 1)
    return bytes(payload + DONE)


def chunked(kind: bytes, data: bytes, chunks: int) -> bytes:
    """One row with one value in chunks."""
    payload = bytearray(description_of([(kind, "value")]) + b"\xD1" + struct.pack("<Q", CHUNK * chunks))
    chunk = struct.pack("<I", CHUNK) + (data * (CHUNK // len(data) + 1))[:CHUNK]
    return bytes(payload + chunk * chunks + bytes(4) + DONE)


def long_narrow(chunks: int) -> bytes:
    """A value of varchar(max): text with each hundredth byte a quote or beyond ASCII."""
    data = b"".join(b"plain text of ninety-nine bytes".ljust(99, b".") + care for care in [b'"', b"\xe9", b"\x80", b"\xa7"])
    return chunked(b"\xA7\xff\xff" + COLLATION, data, chunks)


def long_wide(chunks: int) -> bytes:
    """A value of nvarchar(max): text with each tenth character a quote or beyond ASCII."""
    data = "".join("ninechars" + care for care in "é東€\"").encode("utf-16-le")
    return chunked(b"\xE7\xff\xff" + COLLATION, data, chunks)


def long_binary(chunks: int) -> bytes:
    """A value of varbinary(max)."""
    return chunked(b"\xA5\xff\xff", bytes(range(250)), chunks)


def long_text(words: str, chunks: int) -> bytes:
    """A value of nvarchar(max) of these words, again and again."""
    return chunked(b"\xE7\xff\xff" + COLLATION, words.encode("utf-16-le"), chunks)


PEOPLE = ["Zoë Müller-Łukasz, née Fröhlich", "Анна Ивановна Соколова", "山田太郎と鈴木花子", "Ana Núñez – 12,50 €"]


def people(rows: int) -> bytes:
    """Rows of names in three scripts and in Windows-1252, a number and a decimal of 17 bytes, all of many lengths."""
    kinds = [b"\xE7\x78\x00" + COLLATION] * 3 + [b"\xA7\x3C\x00" + COLLATION, b"\x26\x04", b"\x6A\x11\x26\x0A"]
    payload = bytearray(description_of([(kind, f"column {i}") for i, kind in enumerate(kinds)]))
    for row in range(rows):
        payload += b"\xD1"
        for i, text in enumerate(PEOPLE):
            value = (text * 2)[row * (i + 3) % 11:][:3 + row * (i + 7) % 29].encode("cp1252" if i == 3 else "utf-16-le")
            payload += struct.pack("<H", len(value)) + value
        payload += b"\x04" + struct.pack("<i", row)
        payload += b"\x11\x01" + (row * 0x9E3779B97F4A7C15F39CC0605CED % 2**116).to_bytes(16, "little")
    return bytes(payload + DONE)


def seconds_of(command: list[str], path: str) -> float:
    """The processor time of one run, in the program and in the system."""
    before = resource.getrusage(resource.RUSAGE_CHILDREN)
    subprocess.run([*command, path], stdout=subprocess.DEVNULL, stderr=subprocess.DEVNULL, check=True)
    after = resource.getrusage(resource.RUSAGE_CHILDREN)
    return after.ru_utime - before.ru_utime + after.ru_stime - before.ru_stime


def text_of(command: list[str], path: str) -> tuple[str, int]:
    """A digest of what a program writes, and how many bytes that is."""
    digest, length = hashlib.sha256(), 0
    run = subprocess.Popen([*command, path], stdout=subprocess.PIPE, stderr=subprocess.DEVNULL)
    while piece := cast(IO[bytes], run.stdout).read(1 << 20):
        digest.update(piece)
        length += len(piece)
    run.wait()
    return digest.hexdigest(), length


def instructions_of(command: list[str], path: str) -> int:
    """How many instructions a run takes, which is the same on every machine."""
    said = subprocess.run(
        ["valgrind", "--tool=callgrind", "--callgrind-out-file=/dev/null", *command, path],
        stdout=subprocess.DEVNULL, stderr=subprocess.PIPE, text=True, check=True,
    ).stderr
    return int(re.findall(r"Collected : (\d+)", said)[0])


@dataclasses.dataclass
class Response:
    """What is read: rows, or chunks of one value, and how many cells or bytes each has."""

    name: str
    unit: str
    units: int
    count: int
    made: Callable[[int], bytes]

    def file(self, folder: str, count: int) -> str:
        """A file with this number of rows or chunks of it, in packets of the usual size."""
        path = os.path.join(folder, f"{self.name}, {count}.tds")
        if not os.path.exists(path):
            with open(path, "wb") as file:
                file.write(in_packets(self.made(count), PACKET_SIZE))
        return path


RESPONSES = [
    Response("4 columns of int", "cell", 4, 1_500_000, lambda rows: ints(4, rows)),
    Response("50 columns of int", "cell", 50, 150_000, lambda rows: ints(50, rows)),
    Response("8 columns of eight kinds", "cell", 8, 600_000, mixed),
    Response("8 columns of numbers and short values", "cell", 8, 300_000, short_rows),
    Response("the same as NBCROW, with NULL", "cell", 8, 300_000, null_rows),
    Response("6 columns of names in three scripts", "cell", 6, 200_000, people),
    Response("varchar(max)", "byte", CHUNK, 25_000, long_narrow),
    Response("nvarchar(max)", "byte", CHUNK, 25_000, long_wide),
    Response("nvarchar(max), Cyrillic", "byte", CHUNK, 25_000, lambda chunks: long_text("вот слова на каждый день ", chunks)),
    Response("nvarchar(max), Chinese", "byte", CHUNK, 25_000, lambda chunks: long_text("每天都有新的字和话，", chunks)),
    Response("varbinary(max)", "byte", CHUNK, 25_000, long_binary),
]


def least_seconds(best: dict[str, float], commands: dict[str, list[str]], path: str) -> None:
    """The least time of each program so far, run in turn."""
    for _ in range(RUNS):
        for who, command in commands.items():
            best[who] = min(best.get(who, float("inf")), seconds_of(command, path))


def instructions_a_unit(command: list[str], folder: str, response: Response) -> float:
    """What a cell or a byte costs, without what the start of the program does: the difference of two responses."""
    few, more = (100, 5_100) if response.unit == "cell" else (10, 510)
    counts = [instructions_of(command, response.file(folder, count)) for count in (few, more)]
    return (counts[1] - counts[0]) / ((more - few) * response.units)


def figures_of(response: Response, seconds: float, costs: dict[str, float], best: dict[str, float]) -> list[str]:
    """Seconds, nanoseconds and instructions, those of the other readers, and the seconds to theirs and to the floor's."""
    byte = response.unit == "byte"
    each = seconds / (response.count * response.units) * 1e9
    shown = [f"{costs[who]:.{2 if byte else 0}f}" if who in costs else "" for who in ("gavyreto", "expert", "native")]
    ratios = [f"{seconds / best[who]:.{digits}f}" if who in best else "" for who, digits in (("expert", 2), ("native", 2), ("floor", 1))]
    return [f"{seconds:.3f}", f"{each:.{2 if byte else 1}f}", *shown, *ratios]


def timed(folder: str, commands: dict[str, list[str]], floor: str | None, response: Response) -> dict[str, list[str]]:
    """The programs whose time is taken, after a look at their texts."""
    texts = {text_of(command, response.file(folder, response.count)) for command in commands.values()}
    if len(texts) > 1:
        sys.exit(f"{response.name}: the texts differ")
    return commands | ({"floor": [floor, str(texts.pop()[1])]} if floor else {})


def line_of(folder: str, commands: dict[str, list[str]], response: Response, best: dict[str, float], counts: bool) -> str:
    """One line of the table."""
    size = os.path.getsize(response.file(folder, response.count)) / 1e6
    costs = {who: instructions_a_unit(command, folder, response) for who, command in commands.items()} if counts else {}
    return f"| {response.name} | {size:.1f} | {' | '.join(figures_of(response, best['gavyreto'], costs, best))} |"


def run(program: str, expert: list[str], native: str | None, floor: str | None) -> None:
    """Prints the table of the program and, if there are such, an expert's reader, the native one and the least that any program does."""
    commands = {"gavyreto": [program, "export"]}
    if expert:
        commands["expert"] = expert
    if native:
        commands["native"] = [native]
    counts = shutil.which("valgrind") is not None
    with tempfile.TemporaryDirectory() as folder:
        programs = [timed(folder, commands, floor, response) for response in RESPONSES]
        best: list[dict[str, float]] = [{} for _ in RESPONSES]
        for _ in range(ROUNDS):
            for i, response in enumerate(RESPONSES):
                least_seconds(best[i], programs[i], response.file(folder, response.count))
        print("| response | MB | seconds | ns | instructions | an expert's | native reader's | seconds to an expert's | to the native's | to the floor's |")
        print("|---|---:|---:|---:|---:|---:|---:|---:|---:|---:|")
        for i, response in enumerate(RESPONSES):
            print(line_of(folder, commands, response, best[i], counts), flush=True)
    if not counts:
        print("instructions: valgrind isn't there")
