"""The answers of servers in a capture of the network, in a client's dump, or in a server's bytes (MS-TDS, Packets).

`files` has the frames of a capture; `frames` and `internet` the segment in each; `streams` the order of a connection's bytes, and what is
shown of them; `messages`, `pending` and `answers` what they say; `conversations` a connection, `connections` all of them, `endings` those
that have ended, `memory` what they hold; `dumps` what clients and proxies write; `desk` and `keeping` where answers go; and `accounts`
the sums of it all."""
from __future__ import annotations
