"""The requests of a connection that have no answer yet, each with the place where its answer begins.

A client asks, and waits for the whole answer before it asks again; only an attention may come within an answer. So the acknowledgement
number of a request says at which byte of the server its answer begins, and that of an answer which request the server had read: an
answer belongs to a request by its place, whatever became of other requests."""
from __future__ import annotations

from typing import Callable, Optional

from gavyreto.capturing.accounts import Accounts
from gavyreto.capturing.messages import Asked, Request

HANDSHAKE = (Asked.GREETING, Asked.LOGIN)
MOST_PENDING = 1024


class Pending:
    """Requests without an answer, in the order of their places."""

    def __init__(self, accounts: Accounts, tell: Callable[[Request], None]) -> None:
        self._accounts, self._tell = accounts, tell
        self._requests: list[Request] = []
        self._acknowledged = 0  # attentions that an answer has acknowledged before they came
        self.hole = (0, 0)  #: the last bytes of the client that are lacking: the place of the first, and that after them

    def __bool__(self) -> bool:
        return bool(self._requests)

    def last(self) -> Optional[Request]:
        """The request that came last."""
        return self._requests[-1] if self._requests else None

    def add(self, request: Request) -> None:
        """The client begins to ask."""
        self._accounts.requests += 1
        if request.kind is Asked.ATTENTION and self._acknowledged:
            self._acknowledged -= 1
            self._accounts.answered += 1
            return
        before = self.last()
        if before and before.kind in HANDSHAKE and request.kind in HANDSHAKE and before.acknowledged == request.acknowledged:
            self._requests.pop()  # several records, or the last message of TLS's handshake, and one answer
            self._accounts.answered += 1
        self._requests.append(request)
        if len(self._requests) > MOST_PENDING:
            self.pass_first()

    def find(self, place: int, acknowledged: int) -> Optional[Request]:
        """What the answer at a place answers: the last request that was sent when the client had all before that place, and that the
        server had begun to read. Only what acknowledges an attention answers it; so it is taken only if there is nothing else."""
        found: Optional[Request] = None
        start, end = self.hole
        for request in self._requests:
            if request.acknowledged > place or request.start >= acknowledged:
                break
            is_before_hole = request.is_whole and request.end <= start and end <= acknowledged
            if not is_before_hole and (request.kind is not Asked.ATTENTION or found is None):
                found = request
        return found

    def first_place(self, start: int, end: int, acknowledged: int) -> Optional[int]:
        """The first place in a range at which an answer begins that the server had begun to read the request of. Requests whose answers
        begin before it have none."""
        while self._requests and self._requests[0].acknowledged < start:
            self.pass_first()
        for request in self._requests:
            if request.acknowledged >= end or request.start >= acknowledged:
                break
            if request.kind is not Asked.ATTENTION:
                return request.acknowledged
        return None

    def answer(self, request: Request) -> None:
        """A request has its answer: those before it have none."""
        while self._requests[0] is not request:
            self.pass_first()
        self._requests.pop(0)
        self._accounts.answered += 1

    def acknowledge(self) -> None:
        """An answer has acknowledged an attention, which may come after it in the capture."""
        if self._requests and self._requests[0].kind is Asked.ATTENTION:
            self.answer(self._requests[0])
        else:
            self._acknowledged += 1

    def pass_first(self) -> None:
        """The first request has no answer."""
        self._accounts.unanswered += 1
        self._tell(self._requests.pop(0))

    def close(self) -> None:
        """Nothing more comes."""
        self._tell = lambda _: None

    def pass_all(self) -> None:
        """No request has an answer."""
        while self._requests:
            self.pass_first()
