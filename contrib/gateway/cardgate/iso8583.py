"""The little of ISO 8583:1987 in ASCII that a gateway has to know (docs/use/FORMATS.md, "Messages and frames").

A message that cannot be read would get no response and would hold a place at its engine. So the gateway reads each
message whole, by the forms that the switch has, and hands on only what can be read.
"""

import dataclasses
import functools

N, TEXT, HEX = "n", "text", "hex"


class Unreadable(Exception):
    """Why a message cannot be read. It names no bytes of the message."""


@dataclasses.dataclass(frozen=True)
class Form:
    """How a field is written: what it holds, how many digits of length come before it, and how long it is, or is at
    most."""

    content: str
    digits: int
    size: int


def _forms() -> dict[int, Form]:
    fixed = {3: 6, 4: 12, 5: 12, 6: 12, 7: 10, 9: 8, 10: 8, 11: 6, 12: 6, 13: 4, 14: 4, 15: 4, 16: 4, 17: 4, 18: 4}
    fixed |= {19: 3, 22: 3, 23: 3, 24: 3, 25: 2, 26: 2, 53: 16, 70: 3, 90: 42}
    made = {number: Form(N, 0, size) for number, size in fixed.items()}
    texts = {37: 12, 38: 6, 39: 2, 41: 8, 42: 15, 43: 40, 49: 3, 50: 3, 51: 3, 95: 42}
    made |= {number: Form(TEXT, 0, size) for number, size in texts.items()}
    made |= {number: Form(N, 2, most) for number, most in {2: 19, 32: 11, 33: 11, 100: 11}.items()}
    made |= {number: Form(TEXT, 2, most) for number, most in {35: 37, 44: 25, 45: 76, 102: 28, 103: 28}.items()}
    made |= {number: Form(TEXT, 3, 999) for number in (48, 55, 60, 61, 62, 63)} | {54: Form(TEXT, 3, 120)}
    return made | {number: Form(HEX, 0, 16) for number in (52, 64, 128)}


@dataclasses.dataclass(frozen=True)
class Layout:
    """The fields of a message, as its bitmaps have them, and where the first one begins."""

    fields: tuple[tuple[int, Form], ...]
    begin: int


FORMS = _forms()
HEX_DIGITS = frozenset("0123456789abcdefABCDEF")


@functools.lru_cache(maxsize=1024)
def _layout(bitmap: str) -> Layout:
    """The layout by 16 or 32 digits of bitmaps."""
    if not HEX_DIGITS.issuperset(bitmap):
        raise Unreadable("a bitmap that is not hexadecimal")
    bits = f"{int(bitmap, 16):0{4 * len(bitmap)}b}"
    numbers = [place + 1 for place, bit in enumerate(bits) if bit == "1" and place]
    if not FORMS.keys() >= set(numbers):
        raise Unreadable("a field that the switch does not have")
    return Layout(tuple((number, FORMS[number]) for number in numbers), 4 + len(bitmap))


def _is_of(content: str, value: str) -> bool:
    if content == N:
        return value.isdigit() or not value
    return value.isprintable() if content == TEXT else HEX_DIGITS.issuperset(value)


def read(message: bytes) -> tuple[str, dict[int, str]]:
    """The type and the fields of a message."""
    try:
        text = message.decode("ascii")
    except UnicodeDecodeError:
        raise Unreadable("bytes that are not ASCII") from None
    if len(text) < 20 or not text[:4].isdigit():
        raise Unreadable("no type of four digits and a bitmap")
    if text[4] in "89abcdefABCDEF" and len(text) < 36:
        raise Unreadable("no second bitmap")
    layout = _layout(text[4:36] if text[4] in "89abcdefABCDEF" else text[4:20])
    fields, at = {}, layout.begin
    for number, form in layout.fields:
        size = form.size
        if form.digits:
            length = text[at : at + form.digits]
            at += form.digits
            if not length.isdigit() or int(length) > size:
                raise Unreadable(f"a bad length of field {number}")
            size = int(length)
        value = fields[number] = text[at : at + size]
        at += size
        if len(value) < size or not _is_of(form.content, value):
            raise Unreadable(f"a bad field {number}")
    if at != len(text):
        raise Unreadable("bytes after the last field")
    return text[:4], fields


def write(mti: str, fields: dict[int, str]) -> bytes:
    """A message with these fields."""
    numbers = sorted(fields)
    bits = sum(1 << (128 - number) for number in numbers)
    has_second = bool(numbers) and numbers[-1] > 64
    bitmap = f"{bits | (1 << 127 if has_second else 0):032X}"[: 32 if has_second else 16]
    values = []
    for number in numbers:
        digits = FORMS[number].digits
        values.append((f"{len(fields[number]):0{digits}d}" if digits else "") + fields[number])
    return f"{mti}{bitmap}{''.join(values)}".encode("ascii")


def masked(card: str) -> str:
    """A card number as `cardswitch decode --mask` shows it."""
    if len(card) < 11:
        return "*" * len(card)
    return card[:6] + "*" * (len(card) - 10) + card[-4:]


def is_approved(response: bytes) -> bool:
    """Whether field 39 is 00."""
    try:
        return read(response)[1].get(39) == "00"
    except Unreadable:
        return False


def reversal_of(response: bytes) -> bytes | None:
    """The 0420 that reverses what this response approves; None if it approves nothing."""
    if response[:4] != b"0110":
        return None
    try:
        _, fields = read(response)
    except Unreadable:
        return None
    if fields.get(39) != "00" or not fields.keys() >= {2, 4, 7, 11, 41}:
        return None
    told = {number: value for number, value in fields.items() if number not in (38, 39, 70, 90)}
    original = "0100" + fields[11] + fields[7] + fields.get(32, "").rjust(11, "0") + "0" * 11
    return write("0420", told | {90: original})
