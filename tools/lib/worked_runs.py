"""The runs of the program that a worked row asks for, and how one is judged.

tools/worked makes all of them; tools/try-test makes the first of each row, before anything is proved."""
from __future__ import annotations

import subprocess
from collections.abc import Iterator
from dataclasses import dataclass
from typing import Optional

from lib.packing import headers_of, in_packets, in_single_bytes, packet
from lib.worked_rows import Row, reached, size_of


@dataclass
class Run:
    """What a run was given, and what is wanted of it; nothing is wanted of what isn't named."""

    what: str
    words: list[str]
    input: bytes
    text: Optional[bytes]
    said: str
    status: int
    left: Optional[int] = None


def split_runs(row: Row) -> Iterator[Run]:
    """A packet ends after each byte, and packets are of every size up to 80 bytes."""
    payload = row.input()
    wires = [packet(payload[:n], False) + packet(payload[n:], True, 2) for n in range(len(payload) + 1)]
    for n, wire in enumerate(wires + [in_packets(payload, size) for size in range(9, 81)]):
        yield Run(f"split {n}", row.words, wire, row.text(), row.said, row.status)


def cut_runs(row: Row) -> Iterator[Run]:
    """A message ends after each byte, and the input does."""
    payload = row.input()
    for n in range(len(payload)):
        said, text = reached(row, n)
        yield Run(f"a message of {n} bytes", row.words, packet(payload[:n], True), text, said, 4)
    for n in range(8 + len(payload)):
        said = "fault 2 InputEnded at wire 0, written 0, unwritten 0\n"
        yield Run(f"{n} bytes of a packet", row.words, packet(payload, True)[:n], b"", said, 4)
    for n in range(min(9 * len(payload), 300)):
        said = f"fault 2 InputEnded at wire {n // 9 * 9}, written 0, unwritten 0\n"
        yield Run(f"recut after {n} bytes", ["recut", "--packet-size", "512"], in_single_bytes(payload)[:n], b"", said, 4)


def recut_runs(payload: bytes) -> Iterator[Run]:
    """A payload in packets of one byte is written in packets of other sizes, and these in packets of a third."""
    for size, back in ((512, 4096), (4096, 512)):
        made = in_packets(payload, size)
        said = f"packets {len(headers_of(made))} payload {len(payload)}\n"
        yield Run(f"recut to {size}", ["recut", "--packet-size", str(size)], in_single_bytes(payload) + b"\xFF", made, said, 0, 1)
        said = f"packets {len(headers_of(in_packets(payload, back)))} payload {len(payload)}\n"
        yield Run(f"recut to {back} again", ["recut", "--packet-size", str(back)], made, in_packets(payload, back), said, 0)


def response_runs(row: Row) -> Iterator[Run]:
    """The runs of a row that is a payload."""
    payload, text = row.input(), row.text()
    wire = in_packets(payload, size_of(row))
    is_read = row.status != 4 or len(headers_of(wire)) == 1
    yield Run("in whole packets", row.words, wire + b"\xFF", text, row.said, row.status, 1 if is_read else None)
    yield Run("check", ["check", *row.words[1:]], wire, None, row.said, row.status)
    for size in (512, 513) if len(payload) > 504 else ():
        yield Run(f"in packets of {size} bytes", row.words, in_packets(payload, size), text, row.said, row.status)
    if len(payload) > 100_000:
        return
    yield Run("in packets of one byte", row.words, in_single_bytes(payload, packet(b"", False)), text, row.said, row.status)
    yield from recut_runs(payload)
    if row.is_refused:
        for byte in range(256):
            yield Run(f"{byte:02X} after it", row.words, packet(payload + bytes([byte]), True), text, row.said, row.status)
    if row.is_split or row.is_cut:
        yield from split_runs(row)
    if row.is_cut:
        yield from cut_runs(row)


def runs_of_all(row: Row) -> Iterator[Run]:
    """The runs of a row that is responses one after another."""
    wires = [[row.input()]] if row.is_wire else [[in_packets(it, size) for it in row.payloads()] for size in (size_of(row), 512, 9)]
    for wire in map(b"".join, wires):
        left = None if row.status == 4 else 0
        yield Run("as it stands", row.words, wire, row.text(), row.said, row.status, left)
        yield Run("check", ["check", *row.words[1:]], wire, None, row.said, row.status, left)


def runs_of(row: Row) -> Iterator[Run]:
    """All runs of a row."""
    data = row.input()
    if row.shown:
        yield Run("arguments", row.words, b"\x04", None, "", row.status, 1)
    elif row.is_of_all():
        yield from runs_of_all(row)
    elif row.words[:1] == ["recut"] and not row.is_wire:
        made = in_packets(data, size_of(row))
        for size in (109, 32767):
            yield Run(f"from packets of {size} bytes", row.words, in_packets(data, size), made, row.said, row.status)
    elif row.is_wire:
        yield Run("as it stands", row.words, data, row.text(), row.said, row.status, row.left)
        if row.words[:1] == ["export"]:
            yield Run("check", ["check", *row.words[1:]], data, None, row.said, row.status, row.left)
    else:
        yield from response_runs(row)


def explained(row: Row, ran: subprocess.CompletedProcess[bytes]) -> str:
    """What is wrong where arguments ask for help or are refused, if anything is."""
    came, other = (ran.stdout, ran.stderr) if row.status == 0 else (ran.stderr, ran.stdout)
    said = came.decode()
    missing = [it for it in row.shown if it not in said]
    if row.status and not (said.startswith("error: ") and ("Usage: tds_replay" in said or "'--help'" in said)):
        missing.append("error: .. and how the line would go")
    return f"{missing} isn't in {said!r}" if missing else "something on the other output" if other else ""


def wrong(row: Row, run: Run, ran: subprocess.CompletedProcess[bytes], left: Optional[int]) -> str:
    """What came otherwise, if anything did. `left` is how much of the input a run left, if that is known."""
    if ran.returncode != run.status:
        return f"status {ran.returncode}, not {run.status}, and {ran.stderr!r}"
    if None not in (run.left, left) and left != run.left:
        return f"{left} bytes are left, not {run.left}"
    if row.shown:
        return explained(row, ran)
    if run.text is not None and ran.stdout != run.text:
        return f"wrote {ran.stdout!r}, not {run.text!r}"
    return "" if ran.stderr.decode() == run.said else f"said {ran.stderr.decode()!r}, not {run.said!r}"
