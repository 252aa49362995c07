"""How a client proves who it is: by the password of its login, by Kerberos, or by an access token (MS-TDS, LOGIN7, SSPI Message, FEDAUTH)."""
from __future__ import annotations

import importlib
from typing import Any, Callable, Optional

from gavyreto.errors import ConnectionFailed

LONGEST_TOKEN = 40_000  # characters
Proving = Callable[[str, int], "Proof"]  # by host and port


class Hidden(bytes):
    """Bytes with a password, a ticket or a token in them, which aren't shown where a frame's variables are."""

    def __repr__(self) -> str:
        return "b''"


class Waiting(bytearray):
    """Bytes that become more, which may have one in them."""

    def __repr__(self) -> str:
        return "bytearray()"


class Secret(str):
    """A password or a token, which isn't shown there either."""

    def __repr__(self) -> str:
        return "''"


def hidden(given: Any) -> Any:
    """A password or a token as it was given, of a type that isn't shown there; what is none stays, and is refused later."""
    return Secret(given) if isinstance(given, str) else Hidden(given) if isinstance(given, bytes) else given


class Proof:
    """A password, which the login has itself."""

    needs_encryption = False  #: whether it is sent to nobody but the other side of TLS
    is_token = False
    asks_others = False  #: whether a ticket is got elsewhere, which may take a while

    def ticket(self) -> bytes:
        """What the login has besides. Raises ConnectionFailed if there is none."""
        return b""

    def answer(self, came: bytes) -> bytes:
        """What is answered to a ticket of the server, or nothing. Raises ConnectionFailed if that proves nothing."""
        raise ConnectionFailed("the server answers a login by password as one by a ticket")

    def check(self) -> None:
        """Raises ConnectionFailed if the server has to prove who it is, and hasn't."""


class AccessToken(Proof):
    """A token of Entra ID."""

    needs_encryption = is_token = True

    def __init__(self, token: str) -> None:
        self._token = Hidden(token.encode("utf-16-le"))

    def ticket(self) -> bytes:
        return self._token


class Kerberos(Proof):
    """A ticket for a service, which proves itself too. Raises ValueError if Python's module gssapi isn't there."""

    needs_encryption = asks_others = True

    def __init__(self, service: str) -> None:
        try:
            gssapi: Any = importlib.import_module("gssapi")
        except ImportError:
            raise ValueError("integrated login needs Python's module gssapi: Debian's package python3-gssapi") from None
        self._gssapi, self._service = gssapi, service
        self._context: Any = None

    def answer(self, came: Optional[bytes]) -> bytes:
        try:
            if self._context is None:
                flags = self._gssapi.RequirementFlag
                name = self._gssapi.Name(self._service, self._gssapi.NameType.kerberos_principal)
                self._context = self._gssapi.SecurityContext(
                    name=name, mech=self._gssapi.MechType.kerberos, usage="initiate",
                    flags=flags.mutual_authentication | flags.replay_detection | flags.out_of_sequence_detection)
            return Hidden(self._context.step(came) or b"")
        except self._gssapi.exceptions.GSSError as failure:
            what = "the server didn't prove that it is" if came else "no Kerberos ticket for"
            raise ConnectionFailed(f"{what} {self._service}: {' '.join(str(failure).split())}") from None

    def ticket(self) -> bytes:
        return self.answer(None)

    def check(self) -> None:
        if not self._context.complete:
            raise ConnectionFailed(f"the server didn't prove that it is {self._service}")


def proof_of(integrated: bool, token: Optional[str], host: str, port: int) -> Proof:
    """What is shown to a server, by which of the three a login is. Raises ValueError if it can't be made."""
    if integrated:
        return Kerberos(f"MSSQLSvc/{host}:{port}")
    return AccessToken(token) if token is not None else Proof()


def checked_token(token: str) -> str:
    """A token, without the line end behind it. Raises ValueError, which doesn't show it, if it is none."""
    token = Secret(token.strip())
    if not token or not token.isascii() or len(token) > LONGEST_TOKEN or any(it <= " " for it in token):
        raise ValueError(f"an access token has letters, digits and signs of ASCII, {LONGEST_TOKEN} at most, and nothing between them")
    return token
