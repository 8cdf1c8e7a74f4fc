"""Messages of ISO 8583:1987 in the ASCII profile, their frames, and what `decode` prints. docs/use/FORMATS.md has them."""

import re

N, TEXT, BINARY = rb"[0-9]*", rb"[ -~]*", rb"[0-9a-fA-F]*"


def forms():
    """By number: what the content is, how many digits a variable length has (0: fixed), and the most bytes."""
    made = {}
    fixed = {3: 6, 4: 12, 5: 12, 6: 12, 7: 10, 9: 8, 10: 8, 11: 6, 12: 6, 13: 4, 14: 4, 15: 4, 16: 4, 17: 4, 18: 4}
    fixed |= {19: 3, 22: 3, 23: 3, 24: 3, 25: 2, 26: 2, 53: 16, 70: 3, 90: 42}
    made |= {number: (N, 0, size) for number, size in fixed.items()}
    fixed = {37: 12, 38: 6, 39: 2, 41: 8, 42: 15, 43: 40, 49: 3, 50: 3, 51: 3, 95: 42}
    made |= {number: (TEXT, 0, size) for number, size in fixed.items()}
    made |= {number: (N, 2, most) for number, most in {2: 19, 32: 11, 33: 11, 100: 11}.items()}
    made |= {number: (TEXT, 2, most) for number, most in {35: 37, 44: 25, 45: 76, 102: 28, 103: 28}.items()}
    made |= {number: (TEXT, 3, 999) for number in (48, 55, 60, 61, 62, 63)} | {54: (TEXT, 3, 120)}
    made |= {number: (BINARY, 0, 16) for number in (52, 64, 128)}
    return made


FORMS = forms()


class Refused(Exception):
    """The first fault of a message, by its name."""


class Parts:
    """The bytes of a message, taken from the left."""

    def __init__(self, text):
        self.text, self.at = text, 0

    def take(self, size):
        part = self.text[self.at : self.at + size]
        if len(part) < size:
            raise Refused("Short")
        self.at += size
        return part


def is_all(content, part):
    return re.fullmatch(content, part, re.DOTALL) is not None


def bitmap(parts, first):
    """The numbers of a bitmap whose bit 1 has this number."""
    digits = parts.take(16)
    if not is_all(BINARY, digits):
        raise Refused("BadBitmap")
    bits = f"{int(digits, 16):064b}"
    return [first + place for place, bit in enumerate(bits) if bit == "1"]


def field(parts, number):
    """The text of a field's value."""
    content, digits, size = FORMS[number]
    if digits:
        length = parts.take(digits)
        if not is_all(N, length) or int(length) > size:
            raise Refused("BadLength")
        size = int(length)
    value = parts.take(size)
    if not is_all(content, value):
        raise Refused("BadContent")
    return value.upper() if content == BINARY else value


def decode(text):
    """The type and the fields of a message, by their numbers."""
    parts = Parts(text)
    mti = parts.take(4)
    if not is_all(N, mti):
        raise Refused("BadMti")
    numbers = bitmap(parts, 1)
    if numbers[:1] == [1]:
        numbers = numbers[1:] + bitmap(parts, 65)
    if any(number not in FORMS for number in numbers):
        raise Refused("FieldNotInProfile")
    fields = {number: field(parts, number) for number in numbers}
    if parts.at < len(text):
        raise Refused("Trailing")
    return mti, fields


def is_message(text):
    try:
        decode(text)
    except Refused:
        return False
    return True


def framed(message):
    """The frame of a message: four digits of length, and the message."""
    return b"%04d" % len(message) + message


def frames(text):
    """The whole frames with which a text begins."""
    made, at = [], 0
    while len(text) >= at + 4 and len(text) >= (end := at + 4 + int(text[at : at + 4])):
        made.append(text[at:end])
        at = end
    return made


def shown(text):
    """Frames as lines, and what is left after them."""
    made = frames(text)
    return b"\n".join([*made, text[sum(map(len, made)) :]])


# The fields of which `--mask` shows only the length.
HIDDEN = {35, 45, 52, 55, 64, 128}


def line(number, value, is_masked=False):
    """A field's line."""
    if not is_masked or number not in HIDDEN | {2}:
        return b"%d %s\n" % (number, value)
    if number in HIDDEN:
        size = 8 if FORMS[number][0] == BINARY else len(value)
        return b"%d* %d bytes\n" % (number, size)
    seen = value[:6] + b"*" * (len(value) - 10) + value[-4:] if len(value) > 10 else b"*" * len(value)
    return b"2* %s\n" % seen


def paragraph(number, message, is_masked=False, header=b""):
    """What is printed for one message after its header, and whether the message is refused."""
    shown = b"header %s\n" % header.hex().upper().encode() if header else b""
    try:
        mti, fields = decode(message)
    except Refused as refused:
        return b"message %d refused %s\n" % (number, str(refused).encode()) + shown, True
    lines = [b"message %d\n" % number, shown, b"mti %s\n" % mti]
    return b"".join(lines + [line(*pair, is_masked) for pair in fields.items()]), False


def decoded(stream, is_masked=False, size=0):
    """What `decode` prints of a stream of messages with headers of this size, and whether anything is refused."""
    printed, is_refused, at, number = [], False, 0, 0
    while at < len(stream):
        length = stream[at : at + 4]
        if len(length) == 4 and not is_all(N, length):
            return b"".join([*printed, b"frame refused BadLength\n"]), True
        end = at + 4 + int(length) if len(length) == 4 else len(stream) + 1
        if end > len(stream):
            left = len(stream) - at
            return b"".join([*printed, b"frame refused Truncated %d\n" % left]), True
        number += 1
        content = stream[at + 4 : end]
        text, refused = paragraph(number, content[size:], is_masked, content[:size])
        printed.append(text)
        is_refused |= refused
        at = end
    return b"".join(printed), is_refused


def spelled(number, value):
    """A field as a message has it."""
    _, digits, _ = FORMS[number]
    return (b"%0*d" % (digits, len(value)) if digits else b"") + value


def encode(mti, fields):
    """The one spelling of a message."""
    bits = "".join("1" if number in fields else "0" for number in range(1, 129))
    bits = ("1" + bits[1:]) if "1" in bits[64:] else bits[:64]
    maps = b"%0*X" % (len(bits) // 4, int(bits, 2))
    return mti + maps + b"".join(spelled(number, fields[number]) for number in sorted(fields))


def fits(fields, line):
    """The number and the value of a field's line, if it may come after these fields; or None."""
    found = re.fullmatch(rb"([1-9][0-9]{0,2}) (.*)", line, re.DOTALL)
    if not found or int(found[1]) not in FORMS or int(found[1]) <= max(fields, default=0):
        return None
    number, value = int(found[1]), found[2]
    content, digits, size = FORMS[number]
    alike = rb"[0-9A-F]*" if content == BINARY else content
    length = len(value) <= size if digits else len(value) == size
    return (number, value) if length and is_all(alike, value) else None


def encoded(text, size=0):
    """The frames that `encode` writes for a text whose messages have headers of this size, and the number of the line that it
    refuses, or None."""
    *lines, rest = text.split(b"\n")
    written, begun, header = [], None, b""
    awaited = rb"header [0-9A-F]{%d}" % (2 * size)
    for at, line in enumerate(lines, 1):
        field = fits(begun[1], line) if isinstance(begun, tuple) else None
        if line.startswith(b"message ") and begun not in ("headed", "named"):
            written += [framed(header + encode(*begun))] if begun else []
            begun = None
            if line != b"message %d" % (len(written) + 1):
                return b"".join(written), at
            begun, header = "headed" if size else "named", b""
        elif begun == "headed" and re.fullmatch(awaited, line):
            begun, header = "named", bytes.fromhex(line[7:].decode())
        elif begun == "named" and re.fullmatch(rb"mti [0-9]{4}", line):
            begun = (line[4:], {})
        elif field:
            begun[1][field[0]] = field[1]
        else:
            return b"".join(written), at
    if rest or begun in ("headed", "named"):
        return b"".join(written), len(lines) + 1
    written += [framed(header + encode(*begun))] if begun else []
    return b"".join(written), None
