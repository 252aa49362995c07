"""Measures `capture` beside tshark, which looks for the packets of TDS, and tcpflow, which writes the bytes of each connection to a file.

Counted are the processor's seconds of all processes, the least of three runs, and the peak of the greatest process. Each packet of TDS has
4,096 bytes, each segment at most 1,460, and the client acknowledges each second one."""
from __future__ import annotations

import os
import shutil
import struct
import sys
import tempfile
from collections.abc import Iterable, Iterator
from itertools import chain

import beside
from lib import capture_builder as captures, requirements
from lib.packing import in_packets
from lib.served import done
from gavyreto import tds

RUNS = 3
HEAD = b"\x81\x01\0" + bytes(4) + b"\x08\0\x38\x01a\0"  # one column: a, an int
ROW = b"\xD1\x2A\0\0\0"
NEEDED = {"tshark": "tshark", "tcpflow": "tcpflow", "time": "time"}
COMMANDS = {
    "gavyreto capture": [requirements.DEBIAN_PYTHON, "-m", "gavyreto", "capture", "--program", "PROGRAM", "FILE", "OUT"],
    "tshark": ["tshark", "-r", "FILE", "-Y", "tds.type == 4", "-T", "fields", "-e", "tds.length"],
    "tcpflow": ["tcpflow", "-q", "-r", "FILE", "-o", "OUT"],
}


def exchanges(number: int, server: captures.Side, count: int, size: int) -> Iterator[bytes]:
    """The frames of a connection, in which so many answers have about so many bytes."""
    made = captures.Capture((bytes([192, 0, 2, 10 + number // 50_000]), 2000 + number % 50_000), server)
    made.open()
    for data, answer in ((captures.greeting(0x12), captures.greeting(4)), (tds.packet(tds.PacketType.LOGIN, bytes(200)), captures.login_answer())):
        made.send(made.client, data)
        made.send(server, answer)
    answer = in_packets(HEAD + ROW * (size // len(ROW)) + done(0x10), 4096)
    for _ in range(count):
        made.send(made.client, tds.packet(tds.PacketType.STATEMENT, tds.statement("SELECT a FROM t")))
        for at in range(0, len(answer), 2 * captures.SEGMENT):
            made.send(server, answer[at:at + 2 * captures.SEGMENT])
            made.frame(made.client, captures.ACK, made.sent[made.client])
        yield from made.frames
        made.frames.clear()
    for side in (made.client, server):
        made.frame(side, captures.FIN | captures.ACK, made.sent[side])
        made.sent[side] += 1
    made.frame(made.client, captures.ACK, made.sent[made.client])
    yield from made.frames


def write(path: str, frames: Iterable[bytes]) -> None:
    """A file of pcap."""
    with open(path, "wb") as out:
        out.write(struct.pack("<IHHiIII", 0xA1B2C3D4, 2, 4, 0, 0, 65535, 1))
        for number, frame in enumerate(frames):
            out.write(struct.pack("<IIII", 1_700_000_000 + number // 100_000, number % 100_000 * 10, len(frame), len(frame)) + frame)


def cost(words: list[str], path: str, folder: str, program: str) -> beside.Cost:
    """What a command costs, whose output is removed after each run."""
    out, found = os.path.join(folder, "out"), []
    command = [{"FILE": path, "OUT": out, "PROGRAM": program}.get(word, word) for word in words]
    for _ in range(RUNS):
        shutil.rmtree(out, ignore_errors=True)
        found.append(beside.cost_of(command, folder, PYTHONPATH=beside.compiled().name))
    return beside.Cost(min(it.seconds for it in found), max(it.peak for it in found))


def compare(program: str) -> None:
    """Makes the captures, and prints the table."""
    absent = beside.absent(NEEDED)
    if absent:
        sys.exit(f"Debian's packages of these are needed: {' '.join(absent)}")
    other = captures.SERVER[0], 5432
    made = {
        "200 MB in 19 answers": exchanges(0, captures.SERVER, 19, 10_700_000),
        "5,000 answers of 500 bytes": exchanges(0, captures.SERVER, 5_000, 500),
        "2,000 connections of 20 kB": chain.from_iterable(exchanges(number, captures.SERVER, 1, 20_000) for number in range(2_000)),
        "100 MB of another port": exchanges(0, other, 9, 10_700_000),
    }
    print("| capture | " + " | ".join(f"{name}: seconds | peak, MB" for name in COMMANDS) + " |")
    print("|---" * (1 + 2 * len(COMMANDS)) + "|")
    with tempfile.TemporaryDirectory() as folder:
        path = os.path.join(folder, "capture")
        for name, frames in made.items():
            write(path, frames)
            print(f"| {name} | " + " | ".join(cost(words, path, folder, program).cells() for words in COMMANDS.values()) + " |", flush=True)
