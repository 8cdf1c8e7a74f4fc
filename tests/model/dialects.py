"""Messages and frames as another system writes them, by its profile file. docs/use/FORMATS.md has the words."""

import re
from dataclasses import dataclass

# How a value is written: in ASCII, in EBCDIC, as packed digits, as bytes, or as hexadecimal digits of bytes; and amounts with a sign.
ASCII, EBCDIC, PACKED, BYTES, HEX, AMOUNT, PACKED_AMOUNT = range(7)

CONTENTS = {"CHAR": {"A": ASCII, "B": ASCII, "E": EBCDIC}, "NUM": {"A": ASCII, "B": PACKED, "E": EBCDIC}, "BINARY": dict.fromkeys("AB", BYTES)}
FIXED = {"IF_CHAR": ASCII, "IFA_NUMERIC": ASCII, "IFE_CHAR": EBCDIC, "IFE_NUMERIC": EBCDIC, "IFB_NUMERIC": PACKED, "IFB_BINARY": BYTES}
FIXED |= {"IFA_BINARY": HEX, "IFA_AMOUNT": AMOUNT, "IFB_AMOUNT": PACKED_AMOUNT}
BITMAPS = {"IFA_BITMAP": ASCII, "IFB_BITMAP": BYTES, "IFE_BITMAP": EBCDIC}
WIDTHS = {"ascii4": 4, "binary2": 2, "binary4": 4, "packed2": 2}

# The codes of page 1047 at which it is not page 037.
PAGE_1047 = {"[": 0xAD, "]": 0xBD, "^": 0x5F}


class NotWritable(Exception):
    """The number of a field that the profile cannot write."""


@dataclass
class Row:
    """How a field is written: the count before it (in which digits, and how many; in bytes, "H"), the value, its length, and the pad."""

    count: tuple | None
    content: int
    length: int
    pad_side: str
    pad: int
    is_kept: bool


def row_of(stated):
    name = stated["class"]
    if name in FIXED:
        count, content = None, FIXED[name]
    else:
        letter, sort, kind = re.fullmatch(r"IF([ABE])_(LL|LLL|LLH|LLLH)(NUM|CHAR|ECHAR|BINARY)", name).groups()
        digits = {"LL": 2, "LLL": 3, "LLH": 1, "LLLH": 2}[sort]
        count = ("H" if sort.endswith("H") else letter, digits)
        content = EBCDIC if kind == "ECHAR" else CONTENTS[kind][letter]
    pad = stated.get("pad", "left"), stated.get("pad_half", 0)
    return Row(count, content, stated["length"], *pad, stated.get("keep", True))


@dataclass
class Profile:
    """What a profile file states, read by tomllib."""

    stated: dict

    def __post_init__(self):
        self.rows = {it["number"]: row_of(it) for it in self.stated["field"]}
        self.page = self.stated["message"].get("page", "cp1047")
        self.frame = self.stated.get("frame", {"length": "ascii4"})

    def ebcdic(self, text):
        codes = PAGE_1047 if self.page == "cp1047" else {}
        return b"".join(bytes([codes[it]]) if it in codes else it.encode("cp037") for it in text)

    def packed(self, text, pad_side="left", pad=0):
        halves = text.replace("=", "D")
        if len(halves) % 2:
            halves = halves + f"{pad:X}" if pad_side == "right" else f"{pad:X}" + halves
        return bytes.fromhex(halves)

    def value(self, content, text, pad_side="left", pad=0):
        """The bytes of a text; that of bytes is their hexadecimal digits."""
        if content == PACKED:
            return self.packed(text, pad_side, pad)
        if content == BYTES:
            return bytes.fromhex(text)
        return self.ebcdic(text) if content == EBCDIC else text.encode("ascii")

    def count(self, count, size):
        sort, digits = count
        if sort == "H":
            return size.to_bytes(digits, "big")
        text = f"{size:0{digits}d}"
        return self.value({"A": ASCII, "B": PACKED, "E": EBCDIC}[sort], text)

    def field(self, number, text):
        """The bytes of a field's value in canonical text."""
        row = self.rows.get(number)
        if row is None:
            raise NotWritable(number)
        if not row.is_kept:
            return b""
        size = len(text) // 2 if row.content in (BYTES, HEX) else len(text)
        fits = size <= row.length if row.count else size == row.length
        if row.content in (BYTES, HEX):
            fits = fits and re.fullmatch("([0-9A-F]{2})*", text) is not None
        if row.content == PACKED:
            fits = fits and re.fullmatch("[0-9=]*", text) is not None
        if not fits:
            raise NotWritable(number)
        lead = self.count(row.count, size) if row.count else b""
        return lead + self.value(row.content, text, row.pad_side, row.pad)

    def passed_over(self, chosen, number):
        """Bytes in the place of a field that is not kept: its content is not looked at."""
        row = self.rows[number]
        size = chosen.randint(0, row.length) if row.count else row.length
        taken = {PACKED: (size + 1) // 2, HEX: 2 * size, PACKED_AMOUNT: 1 + size // 2}.get(row.content, size)
        return (self.count(row.count, size) if row.count else b"") + chosen.randbytes(taken)

    def message(self, mti, parts):
        """A message of fields by their numbers, each with its bytes."""
        bits = "".join("1" if number in parts else "0" for number in range(1, 129))
        bits = ("1" + bits[1:]) if "1" in bits[64:] else bits[:64]
        kind = BITMAPS[self.stated["message"]["bitmap"]]
        maps = self.value(kind, f"{int(bits, 2):0{len(bits) // 4}X}")
        front = self.value(FIXED[self.stated["message"]["type"]], mti) + maps
        return front + b"".join(parts[number] for number in sorted(parts))

    def encode(self, mti, fields):
        """The message of fields in canonical text, without those that are not kept; `NotWritable` with the lowest that has no bytes."""
        parts = {number: self.field(number, fields[number]) for number in sorted(fields)}
        return self.message(mti, {number: it for number, it in parts.items() if self.rows[number].is_kept})

    @property
    def most(self):
        return self.frame.get("most", 9999)

    def framed(self, message, header=None):
        """The frame of a message."""
        form, width = self.frame["length"], WIDTHS[self.frame["length"]]
        header = bytes.fromhex(self.frame.get("header", "")) if header is None else header
        size = len(header) + len(message) + (width if self.frame.get("counts_itself", False) else 0)
        if form == "ascii4":
            return b"%04d" % size + header + message
        if form == "packed2":
            return bytes.fromhex(f"{size:04d}") + header + message
        return size.to_bytes(width, "big") + header + message
