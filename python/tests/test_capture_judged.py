"""Tests of `capture` beside tshark: of captures by chance that are whole, connections, bytes of each side and answers agree.

Three differences are known. tshark takes segments with wrong checksums, since adapters leave them to be filled in; so no capture here
has others. A segment whose acknowledgement was captured before it is one that tshark calls missing; so it counts as what it says. And
where a file is joined to itself in which a port is used twice, tshark takes the first connection, when it comes again, for a third."""
from __future__ import annotations

import itertools
import os
import re
import subprocess
import tempfile
import unittest
from collections import Counter
from typing import NamedTuple

from tests.beside import need
from tests.capture_cases import Case, case
from tests.test_capture_cases import read

JUDGED = int(os.environ.get("JUDGED", "20"))
MISSING = re.compile(rb"\[(\d+) bytes missing in capture file\]\x00")
UNLIKE = ({"wrong checksum and again"}, {"wrong checksum"}, {"joined", "port reuse"})  # what tshark reads otherwise


class Followed(NamedTuple):
    """The bytes of a connection as tshark has them: those of the client, and those of the server, and how many of these it calls
    missing."""

    asked: bytes
    answered: bytes
    missing: int


def followed(path: str, count: int) -> list[Followed]:
    """The first connections in a capture."""
    words = [it for number in range(count) for it in ("-z", f"follow,tcp,raw,{number}")]
    run = subprocess.run(["tshark", "-r", path, "-q", *words], capture_output=True, text=True, check=True)
    return [_followed(block) for block in re.findall(r"Node 0: .*?(?=\n=====)", run.stdout, re.DOTALL) if not block.startswith("Node 0: :0")]


def _followed(block: str) -> Followed:
    nodes = re.findall(r"^Node \d: (.*):(\d+)$", block, re.MULTILINE)
    sides = {tab: bytes.fromhex("".join(re.findall(rf"^{tab}([0-9a-f]+)$", block, re.MULTILINE))) for tab in ("", "\t")}
    client, server = ("", "\t") if nodes[1][1] == "1433" else ("\t", "")
    answered, missing = MISSING.sub(b"", sides[server]), sum(map(int, MISSING.findall(sides[server])))
    return Followed(sides[client], answered, missing)


def messages(data: bytes) -> list[bytes]:
    """The messages in the bytes of a server."""
    found, at, start = [], 0, 0
    while at + 8 <= len(data):
        length = int.from_bytes(data[at + 2:at + 4], "big")
        is_last, at = data[at + 1] & 1, at + max(length, 8)
        if is_last:
            found.append(data[start:at])
            start = at
    return found


def wholes(count: int) -> list[Case]:
    """So many captures by chance that are whole, with one connection at least."""
    made = (it for it in map(case, itertools.count(1)) if it.is_whole and len(it.data) < 1 << 20)
    return list(itertools.islice((it for it in made if not any(unlike <= happening(it) for unlike in UNLIKE)), count))


def happening(made: Case) -> set[str]:
    """What happens in a capture by chance."""
    return set(made.what.split(": ", 1)[1].split(", "))


class Judged(unittest.TestCase):
    def test_connections_bytes_and_answers(self) -> None:
        need(self, "tshark")
        with tempfile.TemporaryDirectory() as folder:
            for made in wholes(JUDGED):
                path = os.path.join(folder, "capture")
                with open(path, "wb") as file:
                    file.write(made.data)
                came = read(made.data)
                judged = followed(path, came.accounts.connections + 1)
                with self.subTest(made.what):
                    self.assertEqual(len(judged), came.accounts.connections)
                    self.assertEqual(sum(len(it.answered) + it.missing for it in judged), came.accounts.received)
                    answers = Counter(message for it in judged for message in messages(it.answered) if message in made.names)
                    if any(it.missing for it in judged):
                        self.assertLessEqual(answers, Counter(came.answers))
                    else:
                        self.assertEqual(answers, Counter(came.answers))


if __name__ == "__main__":
    unittest.main()
