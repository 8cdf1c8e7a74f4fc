"""The reversals that a gateway or a worker makes by itself (rule G4). Each is kept until it is answered."""

from collections.abc import Callable

from cardgate import iso8583
from cardgate.request import Headers, Request, request_of


class Reversals:
    """What was approved and reached nobody is reversed by a 0420, and by a 0421 as long as that has no answer."""

    def __init__(self, headers: Headers, submit: Callable[[Request], None], clock: Callable[[], float]) -> None:
        self.headers, self.submit, self.clock = headers, submit, clock
        self.kept: dict[bytes, Request] = {}
        self.made = self.repeated = 0

    def take_back(self, response: bytes) -> bool:
        """Reverses what a response approves; False if it approves nothing."""
        message = iso8583.reversal_of(response)
        if message is None:
            return False
        self.made += 1
        self.send(message)
        return True

    def send(self, message: bytes) -> None:
        request = request_of(self.headers.next(), message, self.clock(), is_own=True)
        self.kept[request.header] = request
        self.submit(request)

    def answered(self, header: bytes) -> None:
        self.kept.pop(header, None)

    def repeat(self, header: bytes) -> None:
        """The reversal was lost on its way: it is sent again, as a repeat."""
        request = self.kept.pop(header, None)
        if request is not None:
            self.repeated += 1
            self.send(b"0421" + request.message[4:])

    def repeat_after(self, seconds: float) -> None:
        """Sends again what has had no answer for so long."""
        before = self.clock() - seconds
        for header in [header for header, request in self.kept.items() if request.taken < before]:
            self.repeat(header)
