"""What the tests share: responses, the stand-in server, servers that answer what a test says, and the programs of others."""
from __future__ import annotations

import contextlib
import gc
import glob
import os
import random
import re
import shutil
import signal
import socket
import ssl
import subprocess
import sys
import tempfile
import threading
import time
import unittest
from collections.abc import Callable, Iterator
from typing import IO, Any, cast
from unittest import mock

ROOT = os.path.dirname(os.path.dirname(os.path.dirname(os.path.abspath(__file__))))
PROGRAM = os.path.abspath(os.environ.get("PROGRAM", os.path.join(ROOT, "bin", "tds_replay")))
STAND_IN, RESPONSE = (os.path.join(ROOT, "tools", name) for name in ("stand-in", "response"))
SECONDS = 300  # within which all that is waited for comes, however busy the machine is
sys.path[:0] = [os.path.join(ROOT, "tools")]
from lib import certificates, packing, sample_responses, served as served  # noqa: E402

from gavyreto import tds  # noqa: E402
from gavyreto.connection import Channel  # noqa: E402
from gavyreto.errors import Interrupted  # noqa: E402

responses = sample_responses  # by the names that tests call them
certificate_in, context_of = certificates.certificate_in, certificates.context_of
ORDERS = (
    '"id","customer","total","ordered","note"\r\n'
    '1,"Ann ""A"" Lee, Zürich",12.50,2024-02-29 12:34:56.1234567,"two\r\nlines"\r\n'
    '2,"NULL",-0.05,2024-03-01 00:00:00.0000000,""\r\n'
    '3,"東京",NULL,2024-03-02 23:59:59.9999999,NULL\r\n'
).encode()


def wire(name: str, count: int = 0, size: int = 4096) -> bytes:
    """A response of tools/lib/sample_responses.py in packets."""
    return packing.in_packets(b"".join(responses.RESPONSES[name](count)), size)


def answered(*pieces: bytes) -> bytes:
    """A response of these tokens in one packet."""
    return packing.in_packets(b"".join(pieces), 32767)


def exported(data: bytes, *words: str) -> tuple[int, bytes]:
    """What an export by hand gives of a response: the status and the text."""
    ran = subprocess.run([PROGRAM, "export", "--packet-size", "32767", *words], input=data, capture_output=True, check=False, timeout=SECONDS)
    return ran.returncode, ran.stdout


def need(test: unittest.TestCase, *programs: str) -> None:
    """Skips a test whose programs aren't there; if the variable CI is set, it fails."""
    lacking = [name for name in programs if not shutil.which(name)]
    if lacking:
        skip(test, f"{', '.join(lacking)} isn't there: `make needs` installs it")


def need_pymssql(test: unittest.TestCase) -> None:
    """The same of Python's module pymssql."""
    if subprocess.run(["/usr/bin/python3", "-c", "import pymssql"], capture_output=True, check=False).returncode != 0:
        skip(test, "Python's module pymssql isn't there: `make needs` installs it")


def skip(test: unittest.TestCase, reason: str) -> None:
    if os.environ.get("CI"):
        test.fail(reason)
    test.skipTest(reason)


def wait_for(holds: Callable[[], bool]) -> None:
    """Waits until something holds."""
    until = time.monotonic() + SECONDS
    while not holds():
        if time.monotonic() > until:
            raise AssertionError(f"what is waited for doesn't hold within {SECONDS} seconds")
        time.sleep(0.01)


def status_of(process: int) -> str:
    """What the system says of a process: a line for each thing, with its name."""
    with open(f"/proc/{process}/status", encoding="utf-8", errors="replace") as file:
        return file.read()


def is_waiting(process: int) -> bool:
    """Whether a process that was started here sleeps, with no signal left that it has to take, or has ended."""
    status = status_of(process)
    return bool(re.search(r"^State:\t[SZ]", status, re.M)) and len(re.findall(r"^S(?:ig|hd)Pnd:\t0+$", status, re.M)) == 2


def has_ended(process: int) -> bool:
    """Whether a process has ended, also if nobody has asked for its status yet."""
    try:
        return "State:\tZ" in status_of(process)
    except (FileNotFoundError, ProcessLookupError):
        return True


def running_in(folder: str) -> list[str]:
    """The processes that run in a folder, by the links to it."""
    found = []
    for link in glob.glob("/proc/[0-9]*/cwd"):
        with contextlib.suppress(OSError):  # it has ended, or is another user's
            found += [link] * os.path.samefile(link, folder)
    return found


def meanwhile(at: int, call: Callable[[], object], come: Callable[[], object]) -> bool:
    """Makes a call, and another one at a line of the package within it, by its number, if there are so many, as the handler of a signal
    does. Returns whether it came."""
    steps = 0

    def step(frame: Any, event: str, _: object) -> Any:
        nonlocal steps
        if event == "return" or f"{os.sep}gavyreto{os.sep}" not in frame.f_code.co_filename:
            return step
        steps += 1
        if steps == at:
            come()
        return step

    before = sys.gettrace()
    gc.disable()  # what is left of other tests doesn't end within the call
    with mock.patch.object(sys, "unraisablehook"):  # Python drops an exception where a generator ends that is left
        sys.settrace(step)
        try:
            call()
        finally:
            sys.settrace(before)
            gc.enable()
    return steps >= at


def interrupted(at: int, call: Callable[[], object], raised: BaseException = KeyboardInterrupt()) -> bool:
    """Makes a call, to which an interrupt, or what the handler of another signal raises, comes at a line of the package. Returns whether one
    came."""
    is_come = False

    def come() -> None:
        nonlocal is_come
        is_come = True
        raise raised

    with contextlib.suppress(type(raised), Interrupted):
        meanwhile(at, call, come)
    raised.__traceback__ = None
    return is_come


class StandIn:
    """A stand-in server that runs until it is closed."""

    def __init__(self, folder: str, options: tuple[str, ...], files: list[str]) -> None:
        python = sys.executable if "--keytab" not in options else "/usr/bin/python3"  # which has gssapi
        command = [python, STAND_IN, "--connections", "1000", "--seconds", "10000", *options, *files, "--", "sh", "-c", 'echo "$PORT"; echo "$CERTIFICATE"; cat']
        self.process = subprocess.Popen(command, cwd=folder, stdin=subprocess.PIPE, stdout=subprocess.PIPE, text=True)
        port, certificate = (cast(IO[str], self.process.stdout).readline().strip() for _ in range(2))
        self.variables = {"PORT": port, "CERTIFICATE": certificate, "SERVER": str(self.process.pid)}

    def close(self) -> None:
        cast(IO[str], self.process.stdin).close()
        self.process.wait(SECONDS)
        cast(IO[str], self.process.stdout).close()


class Live(unittest.TestCase):
    """Runs commands beside stand-in servers, in a folder of their own with the stored responses."""

    folder: str
    files: list[str]
    servers: dict[tuple[str, ...], StandIn]

    @classmethod
    def setUpClass(cls) -> None:
        folder = tempfile.TemporaryDirectory()
        cls.addClassCleanup(folder.cleanup)
        cls.folder, cls.servers = folder.name, {}
        for name, *number in (["kinds"], ["sets"], ["orders"], ["broken", "5000"], ["float"], ["refused"], ["variants"]):
            cls.store(name, *number)
        held = tds.packet(tds.PacketType.ANSWER, b"".join(responses.order_rows(0)), False)
        with open(cls.path("held.tds"), "wb") as file:
            file.write(held)
        cls.files = sorted(name for name in os.listdir(cls.folder) if name.endswith(".tds"))
        cls.addClassCleanup(cls.end)

    @classmethod
    def end(cls) -> None:
        for server in cls.servers.values():
            server.close()

    @classmethod
    def store(cls, name: str, *number: str) -> None:
        with open(cls.path(name + ".tds"), "wb") as file:
            subprocess.run([sys.executable, RESPONSE, name, *number], stdout=file, check=True)

    @classmethod
    def path(cls, name: str) -> str:
        return os.path.join(cls.folder, name)

    @classmethod
    def server(cls, options: tuple[str, ...]) -> StandIn:
        """The stand-in with these options, which is started once."""
        if options not in cls.servers:
            cls.servers[options] = StandIn(cls.folder, options, cls.files)
        return cls.servers[options]

    def text(self, name: str) -> bytes:
        with open(self.path(name), "rb") as file:
            return file.read()

    def script(self, name: str, text: str) -> None:
        """A script of the shell in the folder."""
        with open(self.path(name), "w", encoding="utf-8") as file:
            file.write("#!/bin/sh\n" + text)
        os.chmod(self.path(name), 0o755)

    def setUp(self) -> None:
        for name in os.listdir(self.folder):
            if not name.endswith(".tds"):
                os.remove(self.path(name))

    def beside(self, options: tuple[str, ...], command: str, **variables: str) -> subprocess.CompletedProcess[bytes]:
        """What a command of the shell gives beside a server with these options. It has no terminal."""
        own = {"PROGRAM": PROGRAM, "QUERY": f"{sys.executable} -m gavyreto query"}
        given = started(**own, **self.server(options).variables, **variables)
        return subprocess.run(["sh", "-euc", command], cwd=self.folder, check=False, capture_output=True, timeout=SECONDS, **given)

    def query(self, words: str, options: tuple[str, ...] = (), before: str = "", **variables: str) -> subprocess.CompletedProcess[bytes]:
        """What the command `query` gives; TRUSTED stands for trust in the server's certificate."""
        command = before + 'exec $QUERY -S 127.0.0.1,$PORT -U reader --program "$PROGRAM" ' + words
        return self.beside(options, command.replace("TRUSTED", '--certificates "$CERTIFICATE"'), **variables)

    def assert_ends(self, came: subprocess.CompletedProcess[bytes], status: int, text: bytes, *lines: str) -> None:
        self.assertEqual((came.returncode, came.stdout, came.stderr.decode().splitlines()), (status, text, list(lines)))


@contextlib.contextmanager
def listening(serve: Callable[[Channel], None]) -> Iterator[int]:
    """A server for one connection, which a function serves in a thread. Gives its port; what the function raises is raised."""
    raised: list[BaseException] = []

    def run() -> None:
        connected, _ = server.accept()
        with connected:
            try:
                serve(Channel(connected, SECONDS))
            except (ConnectionError, EOFError):
                pass  # the client may go first
            except BaseException as error:
                raised.append(error)

    with socket.create_server(("127.0.0.1", 0)) as server:
        thread = threading.Thread(target=run, daemon=True)
        thread.start()
        yield server.getsockname()[1]
        thread.join(SECONDS)
    if raised:
        raise raised[0]


@contextlib.contextmanager
def serving_each(serve: Callable[[socket.socket], None]) -> Iterator[int]:
    """A server for any number of connections, each of which a function serves in a thread. Gives its port."""
    def accept() -> None:
        with contextlib.suppress(OSError):
            while True:
                threading.Thread(target=serve, args=(server.accept()[0],), daemon=True).start()

    with socket.create_server(("127.0.0.1", 0)) as server:
        thread = threading.Thread(target=accept)
        thread.start()
        try:
            yield server.getsockname()[1]
        finally:
            server.shutdown(socket.SHUT_RDWR)
            thread.join()


LOGGED_IN = tds.packet(tds.PacketType.ANSWER, served.login_ack("Test") + served.done())


def log_in(channel: Channel, answer: bytes = LOGGED_IN) -> None:
    """The server's side of a login that isn't encrypted, with its answer."""
    channel.read_message()
    channel.write_message(tds.PacketType.ANSWER, tds.prelogin(tds.Encryption.NOT_SUPPORTED))
    channel.read_message()
    channel.write(answer)


def until_closed(channel: Channel) -> None:
    """Waits for the client's end."""
    channel.wait()
    while channel.receive():
        pass


def log_in_encrypted(channel: Channel, context: ssl.SSLContext) -> None:
    """The server's side of a login of which all is encrypted."""
    channel.read_message()
    channel.write_message(tds.PacketType.ANSWER, tds.prelogin(tds.Encryption.ON))
    channel.encrypt(context, server_side=True)
    channel.read_message()
    channel.write(LOGGED_IN)


def serving(*answers: bytes, behind: bytes = b"", pause: float = 0.0) -> contextlib.AbstractContextManager[int]:
    """A server that gives one answer after the other, and other bytes behind the last one, and ends with the client."""
    def serve(channel: Channel) -> None:
        log_in(channel)
        for place, answer in enumerate(answers, 1):
            channel.read_message()
            channel.write(answer + (behind if place == len(answers) and not pause else b""))
        if pause:
            time.sleep(pause)
            channel.write(behind)
        until_closed(channel)

    return listening(serve)


def saying_goodbye(test: Live, answer: bytes) -> contextlib.AbstractContextManager[int]:
    """A server that ends TLS right behind its one answer, with the certificate of a stand-in."""
    context = context_of(test.server(()).variables["CERTIFICATE"])

    def serve(channel: Channel) -> None:
        log_in_encrypted(channel, context)
        channel.read_message()
        channel.write(answer)
        assert channel.tls
        with contextlib.suppress(OSError):  # the client's end isn't waited for
            channel.tls.unwrap()
        channel.socket.sendall(channel._to_send.read())

    return listening(serve)


def ask_port(port: int, *words: str, **options: Any) -> subprocess.CompletedProcess[bytes]:
    """What the command `query` gives that asks a port of this machine, without encryption."""
    return subprocess.run(command_for(port, *words), capture_output=True, check=False, timeout=SECONDS, **started(), **options)


def command_for(port: int, *words: str) -> list[str]:
    own = ["-S", f"127.0.0.1,{port}", "-U", "reader", "--encrypt", "none", "--program", PROGRAM]
    return [sys.executable, "-m", "gavyreto", "query", *own, *(words or ("SELECT 1",))]


def started(**variables: str) -> dict[str, Any]:
    """How a command is started: with a password, without a terminal."""
    own = {"SQLCMDPASSWORD": "secret", "PYTHONPATH": os.path.join(ROOT, "python"), "PYTHONDONTWRITEBYTECODE": "1", "GAVYRETO_TRACEBACK": "1"} | variables
    return {"env": os.environ | own, "stdin": subprocess.DEVNULL, "start_new_session": True}


# Runs a command to which a signal comes at a line of Python, by its number among the lines while a function of the package handles it.
# Before, Python may drop what is raised: in the call of a weak reference, or in what it imports for others when it begins. If the
# signal doesn't come, the last line on standard error is how many of these lines there are.
STEPS = """
import runpy, sys
from _signal import getsignal, raise_signal  # the module signal is ten times as slow
number, at, steps, others = int(sys.argv[1]), int(sys.argv[2]), 0, sys.argv[3].split(",")
def step(*_):
    global steps
    if getattr(getsignal(number), "__name__", "") not in others:
        steps += 1
        if steps == at:
            raise_signal(number)
    return step
sys.argv = ["gavyreto", *sys.argv[4:]]
sys.settrace(step)
try:
    runpy.run_module("gavyreto", run_name="__main__", alter_sys=True)
finally:
    if steps < at or at == 0:
        print(steps, file=sys.stderr)
"""
SAID = {signal.SIGINT: b"interrupted", signal.SIGTERM: b"ended by SIGTERM"}


def stepped(number: signal.Signals, at: int, words: list[str], *others: str, **options: Any) -> subprocess.CompletedProcess[bytes]:
    """What a command gives to which a signal comes at a line, or to which none comes if that is 0. Lines don't count while the handler
    has one of the other names."""
    command = [sys.executable, "-c", STEPS, str(int(number)), str(at), ",".join(["", "default_int_handler", *others]), *words]
    return subprocess.run(command, check=False, capture_output=True, timeout=SECONDS, **started(PYTHONHASHSEED="0"), **options)


def lines_of(whole: subprocess.CompletedProcess[bytes], count: int) -> list[int]:
    """Numbers of lines of a command to which no signal came, the closer together the nearer to its end."""
    numbers, steps = random.Random(4), int(whole.stderr.splitlines()[-1])
    if steps < count:
        raise AssertionError(f"the signal is handled at {steps} lines")
    return [steps - int(100 * ((1 + steps / 100) ** ((place + numbers.random()) / count) - 1)) for place in range(count)]


def assert_signalled(
    test: unittest.TestCase, number: signal.Signals, came: subprocess.CompletedProcess[bytes], whole: subprocess.CompletedProcess[bytes],
) -> None:
    """A command ended with the line and the status of a signal, or as the whole one before it came. Only what Python drops has a traceback."""
    last = (came.stderr.splitlines() or [b""])[-1]
    if last.isdigit():
        test.assertEqual((came.returncode, came.stdout), (whole.returncode, whole.stdout), came.stderr)
    else:
        test.assertEqual((came.returncode, last.split(b":")[0]), (128 + number, SAID[number]), came.stderr)
    test.assertTrue(b"Traceback" not in came.stderr or b"Exception ignored" in came.stderr, came.stderr)
