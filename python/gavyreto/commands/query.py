"""Asks a SQL Server, and writes the rows of its answers as quoted CSV by tds_replay.

The statements are sent on one connection, one after the other. Without a STATEMENT they are read from the files of -i, or from
standard input; there a line GO ends a statement, and a line GO N sends it N times. On standard output an empty line separates two
answers, as it separates two result sets.

The login is by SQL authentication with -U, whose password is read from the variable SQLCMDPASSWORD, or asked for; by Kerberos with
-E; or by an access token of Entra ID, from the file of --access-token-file or the variable SQLCMDACCESSTOKEN. The server's
certificate is verified, and everything is encrypted unless --encrypt asks for less; tickets and tokens are never sent without.

With --tables each line of a file has a name, and behind it a statement, or a table of which all rows are read; alone it is a
table. Tables share connections, and a statement has one of its own, since what it sets would hold for others. The answer gets the
file NAME.csv in the folder of -o once it is whole, or NAME.csv.partial if it is refused, which ends nothing. The table
outcomes.csv there gets a line for each as it ends: name, status, line, text, its bytes and change, when it was begun, statement,
options and program. Begun again all are asked again. The status is the greatest of all.

Standard error gets the lines of tds_replay. The status is 0; 3 if the server reported an error, refused the login, or ended an
answer as cancelled or failed; 4 if an answer can't be read; 5 if the connection or a write failed; 2 if the arguments are
refused; 130 after Ctrl-C. No statement is sent after the first whose status isn't 0. A transaction has to end in the statement
that begins it."""
from __future__ import annotations

import argparse
import codecs
import os
import re
from io import BufferedReader
from itertools import chain
from typing import Callable, Iterable, Iterator, NamedTuple, NoReturn, Optional

from gavyreto import connection, program, tds
from gavyreto.asking import Asking, Interrupt
from gavyreto.commands import common
from gavyreto.commands.common import (
    STANDARD_INPUT, STANDARD_OUTPUT, Input, Once, Stopped, absolute, add_options_of_program, cause_of, check_input, checked_program, is_one_file, named, naming, needed,
    number_in, parser_of, tell,
)
from gavyreto.connection import Session
from gavyreto.errors import Fault
from gavyreto.logins import LONGEST_TOKEN, Secret
from gavyreto.places import Opened, Places, templates_of
from gavyreto.program import DONE, FAILED, REFUSED, SERVER_ERROR, Ending, Program
from gavyreto.where import PORT, Where, where

OF_PASSWORD, OF_TOKEN = "SQLCMDPASSWORD", "SQLCMDACCESSTOKEN"  # variables
SEPARATOR = b"\r\n"
GO = re.compile(r"\s*GO(?:\s+(\d+))?\s*;?\s*(?:--.*)?", re.IGNORECASE | re.ASCII | re.DOTALL)
MOST_TIMES = 2**31 - 1  # that a GO sends a statement
CHECKED_OUTPUTS = 1000  # outputs that are looked at before anything is sent
REFUSED_COLUMN = "--adapt reads a column of this type, or a CAST in the statement gives it another"
TYPED = "statements are read from this terminal: a line GO ends each, and Ctrl-D all of them"
UTF_16 = "is it UTF-16? iconv -f UTF-16 -t UTF-8 makes UTF-8 of it"


# Statements.

class Batch(NamedTuple):
    """A statement, and how often it is sent."""

    statement: str
    times: int


def batches(lines: Iterable[str]) -> Iterator[Batch]:
    """The texts before lines that are GO, and what follows the last of these lines. A comment or a semicolon may follow GO."""
    batch: list[str] = []
    for line in lines:
        found = GO.fullmatch(line)
        if found:
            yield Batch("".join(batch), times_of(found[1] or "1"))
            batch.clear()
        else:
            batch.append(line)
    yield Batch("".join(batch), 1)


def times_of(digits: str) -> int:
    """The number of a GO."""
    digits = digits.lstrip("0") or "0"
    if digits == "0":
        raise Stopped("GO 0: a statement is sent once at least", REFUSED)
    if len(digits) > len(str(MOST_TIMES)) or int(digits) > MOST_TIMES:
        raise Stopped(f"GO {digits[:20]}: a statement is sent {MOST_TIMES} times at most", REFUSED)
    return int(digits)


def lines_of(path: str) -> Iterator[str]:
    """The lines of a file of statements, or of standard input, in UTF-8, with or without a byte order mark."""
    source = Input(path)
    with BufferedReader(source) as file:
        for number, line in enumerate(file, 1):
            yield _text_of(line, f"{source.shown}, line {number}", number == 1)


def _text_of(line: bytes, where: str, is_first: bool) -> str:
    try:
        text = line.decode("utf-8-sig" if is_first else "utf-8")
    except UnicodeDecodeError:
        is_wide = is_first and line.startswith((codecs.BOM_UTF16_LE, codecs.BOM_UTF16_BE))
        raise Stopped(f"{where}: not UTF-8{'; ' + UTF_16 if is_wide else ''}", REFUSED) from None
    if "\0" in text:
        raise Stopped(f"{where}: a NUL character; {UTF_16}", REFUSED)
    lines = text.rstrip("\r\n").split("\r")
    if len(lines) > 1 and any(map(GO.fullmatch, lines)):
        raise Stopped(f"{where}: GO, and a line end that is neither LF nor CR LF", REFUSED)
    return text


def statements_of(asked: argparse.Namespace) -> Iterator[str]:
    """The statements to send, at least one. Those of arguments and files are read before the first is handed out, and those of
    standard input too where they go to one file, which has room for one."""
    if not asked.statements and not asked.input and os.isatty(STANDARD_INPUT):
        tell(TYPED)
    read = [Batch(it, 1) for it in asked.statements] or (batch for path in asked.input or ["-"] for batch in batches(lines_of(path)))
    found: Iterable[Batch] = (batch for batch in read if batch.statement.strip())
    if asked.statements or asked.input or any("{}" not in it for it in templates_of(asked)):
        found = list(found)
        check(found, asked)
    sent = (it.statement for it in found for _ in range(it.times))
    first = next(sent, None)
    if first is None:
        raise Stopped("no statement", REFUSED)
    return chain([first], sent)


def check(found: list[Batch], asked: argparse.Namespace) -> None:
    """Refuses what can be known before anything is sent: statements that are no text, and outputs that can't be opened."""
    for batch in found:
        encoded(batch.statement)
    count = sum(batch.times for batch in found)
    if count > 1 and any("{}" not in it for it in templates_of(asked)):
        raise Stopped(f"{count} statements, and one output: a name with {{}} gets the number of each", REFUSED)
    places = Places(asked)
    for number in range(1, min(count, CHECKED_OUTPUTS) + 1):
        places.take(number)


def encoded(statement: str) -> bytes:
    try:
        return tds.statement(statement)
    except ValueError as refused:
        raise Stopped(str(refused), REFUSED) from None


# Answers.

class Coming(common.Progress):
    """How much of an answer has come, as long as it comes."""

    def begin(self, number: int = 0) -> None:
        super().begin()
        self._number, self._bytes = number, 0

    def came(self, count: int) -> None:
        self._bytes += count
        self.show(lambda seconds: f"answer {self._number}: {self._bytes / 1e6:.1f} MB, {seconds:.0f} seconds")


def ask(asked: argparse.Namespace, statements: Iterator[str], password: str) -> int:
    """Sends the statements, each once the answer before it is read. Returns the first status that isn't 0, or 0."""
    places, progress, has_text = Places(asked), Coming(bool(asked.output) or not os.isatty(STANDARD_OUTPUT)), False
    outputs = [Opened(it) for it in places.take(1)]  # before the login: a pipe may have no reader yet
    try:
        with session_of(asked, password) as session, Program(common.command_for(asked, session.packet_size)) as run:
            asking = Asking(session, run, asked.charset if asked.adapt else None, Interrupt(session))
            for number, statement in enumerate(statements, 1):
                encoded(statement)
                outputs = outputs if number == 1 else [Opened(it) for it in places.take(number)]
                progress.begin(number)
                ending = answered(asking, statement, outputs, SEPARATOR if has_text else b"", progress)
                has_text = has_text or not asked.output and ending.written > 0
                tell(*filter(None, ending.notes.split("\n")))
                if isinstance(ending.said, Fault) and ending.said.name == "RefusedColumn":
                    tell(REFUSED_COLUMN)
                if ending.status:
                    return ending.status
            session.end()
        return DONE
    finally:
        for output in outputs:
            output.close(False)


def ask_tables(asked: argparse.Namespace, of_environment: str) -> int:
    """Sends the statements of a file, each with a text under its name. Returns the greatest status."""
    from gavyreto import outcomes, tables

    items = tables.items_of(lines_of(asked.tables), asked.tables)
    source = STANDARD_INPUT if asked.tables == "-" else asked.tables
    check_input(source, "the statements are")
    for item in items:
        encoded(item.statement)
        if any(is_one_file(os.path.join(asked.output, name), source) for name in outcomes.texts_of(item.name)):
            raise Stopped(f"{asked.tables} would be the text of {item.name}: name another folder", REFUSED)
    password = password_of(asked, of_environment)
    port = asked.server.port or asked.server.instance or PORT
    intent = " -K ReadOnly" if asked.application_intent == "readonly" else ""
    asked.options = f"-S {asked.server.host},{port} -d {asked.database}{intent} --charset {asked.charset}{' --adapt' if asked.adapt else ''}"
    return tables.export(asked, items, lambda: session_of(asked, password))


def answered(asking: Asking, statement: str, outputs: list[Opened], before: bytes, progress: Coming) -> Ending:
    """How the answer to a statement ends. Its text, behind other bytes, and its packets get their names if they are whole."""
    rows, *packets = outputs
    try:
        ending = asking.answer(statement, program.Output(rows.descriptor, before), progress.came, packets[0].write if packets else None)
    except program.OutputFailed as failed:
        raise Stopped(f"{rows.name}: {cause_of(failed.failure)}", FAILED) from None
    finally:
        progress.end()
    rows.close(ending.status in (DONE, SERVER_ERROR))
    for it in packets:
        it.close(asking.is_whole())
    return ending


def session_of(asked: argparse.Namespace, password: str) -> Session:
    found = asked.server
    try:
        return connection.log_in_to(
            found.name(), user=asked.user or "", password=password, port=found.port or PORT, integrated=asked.integrated,
            access_token=asked.token, database=asked.database, encrypt=asked.encrypt, certificates=asked.certificates,
            certificate_name=asked.certificate_name or "", trust_server=asked.trust_server, packet_size=asked.packet_size,
            seconds=asked.seconds, login_seconds=asked.login_seconds, application_intent=asked.application_intent)
    except ValueError as refused:
        raise Stopped(str(refused), REFUSED) from None


# Arguments.

# Flags of sqlcmd and bcp that aren't flags here, and what to write instead.
OF_SQLCMD = {
    **dict.fromkeys(("-Q", "-q"), "write the statement itself, as an argument"),
    **dict.fromkeys(("-P", "-Z", "-z", "--password"), "put the password into the variable SQLCMDPASSWORD, or type it when it is asked for"),
    "-T": "write -E", "-G": "write --access-token-file FILE", **dict.fromkeys(("-v", "-x"), "variables aren't replaced"),
    "-t": "write --seconds N", "-l": "write --login-seconds N", "-a": "write --packet-size N",
    "-f": "statements are read in UTF-8, and written so", "-b": "the first error ends the statements", "-r": "standard error has all lines",
    **dict.fromkeys(("-c", "-n", "-s", "-W", "-w", "-y", "-Y", "-k", "-u", "-R"), "the text is always CSV"),
}
HEADERS = re.compile("-h ?-?[0-9]")  # after how many rows sqlcmd repeats the names
# The values of -N, as sqlcmd has them.
ENCRYPTIONS = {"m": "all", "mandatory": "all", "true": "all", "o": "login", "optional": "login", "false": "login", "s": "", "strict": ""}


class OfSqlcmd(argparse.Action):
    """Refuses a flag of sqlcmd, and says what to write instead. What follows the flag, as a password, isn't repeated."""

    def __call__(self, parser: argparse.ArgumentParser, namespace: argparse.Namespace, values: object, option_string: Optional[str] = None) -> NoReturn:
        parser.error(f"{option_string} isn't an option here: {self.const}")


def with_encryption(words: list[str]) -> list[str]:
    """The words, in which each flag -N of sqlcmd that no value follows has one: m."""
    end = words.index("--") if "--" in words else len(words)
    following = [*words[1:end], ""]
    return ["-Nm" if word == "-N" and after.lower() not in ENCRYPTIONS else word for word, after in zip(words[:end], following)] + words[end:]


def encryption(text: str) -> str:
    """What a value of -N is for --encrypt. Raises `Stopped` for one that is none."""
    value = text.lstrip("=:") or "m"
    encrypt = ENCRYPTIONS.get(value.lower())
    if not encrypt:
        why = "strict encryption is of TDS 8.0, and isn't spoken here" if encrypt == "" else f"{value[:20]} is none of {', '.join(ENCRYPTIONS)}"
        raise Stopped(f"-N: {why}", REFUSED)
    return encrypt


def server(text: str) -> Where:
    """Where a server is, by the value of -S."""
    try:
        return where(text)
    except ValueError as wrong:
        raise argparse.ArgumentTypeError(str(wrong)) from None


def words_of(found: Where) -> list[str]:
    """What a URL asks for, as options."""
    named = [("user", found.user), ("database", found.database), *found.options]
    words = [f"--{name}={value}" for name, value in named if value and name != "trust-server"]
    return words + ["--trust-server"] * found.trusts()


def seconds_of_login() -> int:
    """The seconds for a login that the environment asks for, as of sqlcmd."""
    text = os.environ.get("SQLCMDLOGINTIMEOUT", "")
    try:
        return number_in(1, connection.MOST_SECONDS)(text) if text else connection.LOGIN_SECONDS
    except argparse.ArgumentTypeError as wrong:
        raise Stopped(f"SQLCMDLOGINTIMEOUT: {wrong}", REFUSED) from None


def add_login(add: Callable[..., object]) -> None:
    """The options of where a server is, and of the login."""
    add("-S", "--server", metavar="HOST[,PORT]", type=server, default=os.environ.get("SQLCMDSERVER") or None,
        help="name of the server, as in its certificate, or its address; or HOST\\INSTANCE, or mssql://USER@HOST:PORT/DATABASE?OPTION=VALUE (default: SQLCMDSERVER)")
    add("-U", "--user", metavar="NAME", type=named, help="login name (default: SQLCMDUSER)")
    add("-E", "--integrated", action="store_true", help="login by Kerberos, as the user of the ticket; needs Debian's python3-gssapi")
    add("--access-token-file", metavar="FILE", type=named, action=Once, help=f"login by the access token of Entra ID in this file (default: the variable {OF_TOKEN})")
    add("-d", "--database", metavar="NAME", type=named, default=os.environ.get("SQLCMDDBNAME") or None, help="database to use (default: SQLCMDDBNAME, else the user's)")


def add_outputs(add: Callable[..., object]) -> None:
    """The options of statements, and of what is written."""
    add("-i", "--input", metavar="FILE", type=named, action="append", help="file of statements, in UTF-8; repeat it for several; - is standard input")
    add("-o", "--output", metavar="FILE", type=named, action=Once, help="file to write (default: standard output, as -); {} is the number of the statement, from 1")
    add("--tables", metavar="FILE", type=named, action=Once, help="on each line a name, then a statement or a table; each answer gets the file NAME.csv in the folder of -o")
    add("-j", "--jobs", metavar="N", type=number_in(1, 1024), default=1, help="with --tables, the connections (default: 1)")
    add("--retries", metavar="N", type=number_in(0, 1000), default=0,
        help="with --tables, how often a statement is sent again whose connection broke (default: 0)")
    add("--packets", metavar="FILE", type=named, action=Once,
        help="keep the packets of each answer in a file, as they came, also with --adapt; {} is the number of the statement")


def add_connection(add: Callable[..., object]) -> None:
    """The options of a connection."""
    add("--encrypt", choices=connection.ENCRYPT, default=connection.ENCRYPT[0],
        help="minimum encryption (default: all); a server that asks for more gets it")
    add("-N", dest="encrypt", metavar="m|o", type=encryption, help="same as --encrypt all, with o as --encrypt login")
    add("-C", "--trust-server", action="store_true", help="accept any certificate: whoever is between can read everything")
    add("--certificates", metavar="FILE", type=named, help="authorities to trust instead of the system's, in PEM")
    add("--certificate-name", metavar="NAME", type=named, help="name in the certificate (default: HOST), also in that of a server to which HOST redirects")
    add("--seconds", metavar="N", type=number_in(1, connection.MOST_SECONDS), default=connection.SECONDS,
        help=f"longest time that the server may be silent, 1 to {connection.MOST_SECONDS} (default: {connection.SECONDS})")
    add("--login-seconds", metavar="N", type=number_in(1, connection.MOST_SECONDS), default=None,
        help=f"longest time from the look-up of HOST to the end of the login, 1 to {connection.MOST_SECONDS} (default: SQLCMDLOGINTIMEOUT, "
             f"else {connection.LOGIN_SECONDS})")
    add("-K", "--application-intent", metavar="INTENT", choices=connection.INTENTS, type=str.lower, default=connection.INTENTS[0],
        help="ReadOnly asks an availability group for a readable secondary, by the database of -d; another server ignores it (default: ReadWrite)")
    add("--packet-size", metavar="N", type=number_in(tds.LEAST_PACKET_SIZE, tds.GREATEST_PACKET_SIZE), default=program.PACKET_SIZE_ASKED,
        help=f"packet size to ask for, 512 to 32767 (default: {program.PACKET_SIZE_ASKED})")


def arguments(words: list[str]) -> argparse.Namespace:
    parser = parser_of("query", __doc__)
    for add in (add_login, add_outputs, add_connection):
        add(parser.add_argument)
    for flag, instead in OF_SQLCMD.items():
        parser.add_argument(flag, nargs="?", action=OfSqlcmd, const=instead, help=argparse.SUPPRESS)
    add_options_of_program(parser)
    parser.add_argument("statements", metavar="STATEMENT", nargs="*")
    if any(HEADERS.match(f"{word} {after}") for word, after in zip(words, [*words[1:], ""])):
        parser.error("-h takes nothing: the first line of a text has always the names")
    words = with_encryption(words)
    asked = parser.parse_args(words)
    if asked.server is None:
        parser.error("-S HOST is needed, or the variable SQLCMDSERVER")
    if own := words_of(asked.server):
        asked = parser.parse_args(own + words)
    asked.output, asked.database = None if asked.output == "-" else asked.output, asked.database or ""
    if wrong := wrong_in(asked):
        parser.error(wrong)
    asked.login_seconds = asked.login_seconds or seconds_of_login()
    return asked


def wrong_in(asked: argparse.Namespace) -> str:
    """Which arguments don't go together; "" if all do."""
    logins = asked.integrated + bool(asked.access_token_file) + bool(asked.user)
    wrong = (
        (logins > 1, "a login is by -U, by -E or by --access-token-file: one of them"),
        (asked.statements and asked.input, "statements are arguments, or in files: not both"),
        (asked.tables and not asked.output, "--tables needs the folder of the texts, -o FOLDER"),
        (asked.tables and (asked.statements or asked.input or asked.packets), "--tables has the statements, and keeps no packets"),
        (not asked.tables and (asked.jobs > 1 or asked.retries), "-j and --retries need --tables FILE"),
        (asked.packets == "-", "packets aren't text: --packets needs a FILE"),
    )
    return next((line for is_wrong, line in wrong if is_wrong), "")


def password_of(asked: argparse.Namespace, of_environment: str) -> str:
    """The password: that of the environment, or from the terminal; none for a login without one."""
    return Secret() if asked.integrated or asked.token else of_environment or asked_password(asked.user)


def token_of(asked: argparse.Namespace, of_environment: str) -> Optional[str]:
    """The access token that is asked for, from a file, in place of whose name it may stand itself, or from the environment."""
    if asked.access_token_file:
        with naming("--access-token-file"), open(asked.access_token_file, encoding="ascii", errors="replace") as file:
            return Secret(file.read(LONGEST_TOKEN + 2))  # a line end too
    return of_environment or None if not asked.user and not asked.integrated else None


def asked_password(user: str) -> str:
    """The password, from the terminal."""
    try:
        os.close(os.open("/dev/tty", os.O_RDWR | os.O_NOCTTY))
    except OSError:
        raise Stopped("no password: SQLCMDPASSWORD isn't set, and there is no terminal to ask at", REFUSED) from None
    import getpass  # once in a while

    try:
        return Secret(getpass.getpass(f"Password of {user}: "))
    except (EOFError, UnicodeError):
        raise Stopped("no password", REFUSED) from None


def run(words: list[str]) -> int:
    """The command `query`. Returns its exit status, or raises what ended it."""
    password, token = (Secret(os.environ.pop(name, "")) for name in (OF_PASSWORD, OF_TOKEN))  # processes that are started don't get them
    asked = arguments(words)
    asked.token = token_of(asked, token)
    if asked.token is None and not asked.integrated and not asked.user:
        asked.user = os.environ.get("SQLCMDUSER") or None
        if not asked.user:
            raise Stopped("a login is needed: -U NAME, -E, --access-token-file FILE, or the variable SQLCMDUSER", REFUSED)
    if not asked.output:
        needed(STANDARD_OUTPUT)
    asked.output = absolute(asked.output) if asked.tables else asked.output
    asked.program = checked_program(asked.program)
    if asked.tables:
        return ask_tables(asked, password)
    statements = statements_of(asked)
    return ask(asked, statements, password_of(asked, password))
