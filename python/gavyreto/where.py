"""Where a server is: its name with a port or an instance, a URL, and the look-up of an instance's port (MC-SQLR)."""
from __future__ import annotations

import contextlib
import re
import selectors
import socket
import time
from typing import Any, NamedTuple, Optional
from urllib.parse import parse_qsl, unquote, urlsplit

PORT, BROWSER = 1433, 1434  # the second is that of SQL Server Browser, by UDP
SCHEME = "mssql://"
# What a URL may ask for behind its question mark, as options of `query` and arguments of `connect` are called.
OF_URL = ("encrypt", "certificates", "certificate-name", "trust-server", "packet-size", "seconds", "login-seconds", "application-intent")
YES, NO = ("", "1", "true", "yes"), ("0", "false", "no")  # what trust-server may be
NO_PASSWORD = "a password stands in it, where others see it: put it into the variable SQLCMDPASSWORD, or type it when it is asked for"
MORE = re.compile("[@;=]")  # what no name of a server has, and what stands before a password in texts that other programs connect by
LONGEST_INSTANCE = 32  # bytes of a name (MC-SQLR, CLNT_UCAST_INST)
ASK_ANEW = 1.0  # seconds after which a look-up is sent again: a datagram may be lost
LONGEST_ANSWER = 1 << 16


class Where(NamedTuple):
    """A host, and its port, or an instance whose port is looked up; of a URL also user, database and what else it asks for."""

    host: str
    port: Optional[int] = None
    instance: str = ""
    user: str = ""
    database: str = ""
    options: tuple[tuple[str, str], ...] = ()

    def name(self) -> str:
        """The host, with the instance if its port isn't given."""
        return f"{self.host}\\{self.instance}" if self.instance and not self.port else self.host

    def trusts(self) -> bool:
        """Whether a URL asks that any certificate is accepted."""
        return dict(self.options).get("trust-server") in YES


def where(text: str) -> Where:
    """Reads `[tcp:]HOST[\\\\INSTANCE][,PORT]`, or a URL. Raises ValueError, which doesn't show what may be a password."""
    if text.lower().startswith(SCHEME):
        return _of_url(text)
    name, comma, port = text[4 * (text[:4].lower() == "tcp:"):].partition(",")
    host, slash, instance = name.partition("\\")
    if not host or "/" in name or slash and not instance or MORE.search(text):
        raise ValueError(f"{'what is given' if MORE.search(text) else text} is not HOST, HOST,PORT or HOST\\INSTANCE")
    if host.startswith("[") and host.endswith("]"):
        host = host[1:-1]
    host = "localhost" if host.lower() in (".", "(local)") else host
    first, colon, digits = host.partition(":")
    if colon and digits.isdigit():  # an address of IPv6 has two colons at least
        raise ValueError(f"{text} is not HOST or HOST,PORT: write {first},{digits}")
    return Where(host, _port(port) if comma else None, instance)


def _port(text: str) -> int:
    if not re.fullmatch("0*[0-9]{1,5}", text) or not 1 <= int(text) <= 65535:
        raise ValueError(f"{text[:40]} is not in 1 to 65535")
    return int(text)


def _of_url(text: str) -> Where:
    """A URL: mssql://[USER@]HOST[:PORT][/DATABASE][?NAME=VALUE&..]"""
    try:
        parts = urlsplit(text)
        host, port = parts.hostname or "", parts.port
        asked = parse_qsl(parts.query, keep_blank_values=True, errors="strict")
        if any(it < " " for it in text):  # some of which `urlsplit` leaves out
            raise ValueError
        name, user, database = (unquote(it, errors="strict") for it in (host, parts.username or "", parts.path[1:]))
    except ValueError:
        raise ValueError("a URL without a host, with a port that is none, a control character, or what isn't UTF-8") from None
    if parts.password is not None or any(re.search("pass|pwd|token", name, re.IGNORECASE) for name, _ in asked):
        raise ValueError(NO_PASSWORD)
    if any(name == "trust-server" and value not in YES + NO for name, value in asked):
        raise ValueError(f"trust-server is one of {', '.join(YES[1:] + NO)}")
    named = next((value for name, value in asked if name == "instance"), "")
    rest = tuple((name, value) for name, value in asked if name != "instance")
    is_known = all(name in OF_URL for name, _ in rest) and all(value or name == "trust-server" for name, value in asked)
    is_more = MORE.search(parts.netloc.rpartition("@")[2] + parts.path) or "\\" in name
    if is_more or not host or port == 0 or parts.fragment or "/" in parts.path[1:] or not is_known or len(dict(asked)) < len(asked):
        raise ValueError(f"a URL is mssql://USER@HOST:PORT/DATABASE, and behind ? it may have instance, {', '.join(OF_URL)}, each once")
    return Where(name, port, named, user, database, rest)


# Named instances.

def port_of(addresses: list[Any], instance: str, until: float) -> int:
    """The port of an instance by TCP, as the first of some addresses tells it (MC-SQLR). Raises ValueError if there is none, and
    TimeoutError if none answers before that time of the monotonic clock."""
    name = instance.encode("utf-8")
    if len(name) > LONGEST_INSTANCE or not name.isascii():
        raise ValueError(f"the name of an instance has at most {LONGEST_INSTANCE} characters, of ASCII")
    with contextlib.ExitStack() as held, selectors.PollSelector() as asked:
        for family, _, _, _, address in addresses:
            with contextlib.suppress(OSError):
                connected = held.enter_context(socket.socket(family, socket.SOCK_DGRAM))
                connected.connect((address[0], BROWSER, *address[2:]))
                asked.register(connected, selectors.EVENT_READ, connected)
        while (left := until - time.monotonic()) > 0:
            answer = _asked(asked, b"\x04" + name + b"\0", min(left, ASK_ANEW))
            if answer:
                return port_in(answer, instance)
    raise TimeoutError


def _asked(asked: selectors.BaseSelector, request: bytes, seconds: float) -> bytes:
    """The first answer that comes by one of some sockets, or none within so many seconds."""
    for key in asked.get_map().values():
        with contextlib.suppress(OSError):
            key.data.send(request)
    until = time.monotonic() + seconds
    while (left := until - time.monotonic()) > 0:
        ready = asked.select(left)
        for key, _ in ready:
            with contextlib.suppress(OSError):  # nobody listens there
                return bytes(key.data.recv(LONGEST_ANSWER))
        if ready:
            time.sleep(min(left, 0.05))
    return b""


def port_in(answer: bytes, instance: str) -> int:
    """The port in an answer: names and values with semicolons between them, of one instance (MC-SQLR, SVR_RESP). Raises ValueError."""
    text = answer[3:].decode("ascii", "replace")
    fields = text.split(";;")[0].split(";")
    found = dict(zip(fields[::2], fields[1::2]))
    if answer[:1] != b"\x05" or int.from_bytes(answer[1:3], "little") != len(answer) - 3 or found.get("InstanceName", "").lower() != instance.lower():
        raise ValueError("what came isn't the answer of SQL Server Browser")
    if "tcp" not in found:
        raise ValueError(f"the instance {instance} isn't reached by TCP")
    return _port(found["tcp"])
