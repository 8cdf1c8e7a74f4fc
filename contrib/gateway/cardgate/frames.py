"""Frames: four ASCII digits of length, and that many bytes."""

# What is put before a message may not make its frame longer than four digits can say.
MOST = 9_999


class BadFrame(Exception):
    """A length that is not four digits. What follows it cannot be told apart, so the stream is over."""


class Framer:
    """Whole messages of a stream that comes in pieces."""

    def __init__(self) -> None:
        self.kept, self.at = b"", 0

    def push(self, data: bytes) -> None:
        self.kept, self.at = self.kept[self.at :] + data, 0

    def pop(self) -> bytes | None:
        """The next message; None while it is not whole."""
        begin = self.at + 4
        if len(self.kept) < begin:
            self.refuse_letters(self.kept[self.at :])
            return None
        digits = self.kept[self.at : begin]
        self.refuse_letters(digits)
        end = begin + int(digits)
        if len(self.kept) < end:
            return None
        self.at = end
        return self.kept[begin:end]

    def refuse_letters(self, digits: bytes) -> None:
        if digits and not digits.isdigit():
            # (what was found may be a part of a card number, and this goes to the log)
            raise BadFrame("a length of a frame that is not four digits")


def frame(message: bytes) -> bytes:
    return b"%04d" % len(message) + message


def all_messages(data: bytes) -> list[bytes]:
    """The messages of bytes that are whole frames."""
    framer = Framer()
    framer.push(data)
    found = []
    while (message := framer.pop()) is not None:
        found.append(message)
    return found
