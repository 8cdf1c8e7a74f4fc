#!/usr/bin/env python3
"""Turns a packager of jPOS, a GenericPackager's XML, into a profile file (docs/use/FORMATS.md, "Profile files").

    packager.py FILE > profile.toml

A field that the switch cannot keep gets `keep = false`: one that its table does not have, a MAC (64 and 128), and an amount with a
sign. Standard error says which fields these are, and why. What a profile file cannot state is refused by its name, with status 1:
an `isofieldpackager`, a class that is none of the file's, a number without a field. The XML does not say how frames are written, so the
file has no table `frame`: add it by hand.
"""

import re
import sys
import xml.etree.ElementTree as tree
from dataclasses import dataclass

MTI = ("IFA_NUMERIC", "IFB_NUMERIC", "IFE_NUMERIC")
BITMAPS = ("IFA_BITMAP", "IFB_BITMAP", "IFE_BITMAP")
# The classes of packed digits: `pad` says on which side an odd number of them is padded.
PACKED = ("IFB_NUMERIC", "IFB_LLNUM", "IFB_LLLNUM", "IFB_LLHNUM")
AMOUNTS = ("IFA_AMOUNT", "IFB_AMOUNT")
CLASSES = (
    *("IF_CHAR", "IFA_NUMERIC", "IFA_LLNUM", "IFA_LLLNUM", "IFA_LLCHAR", "IFA_LLLCHAR", "IFA_BINARY", "IFA_LLBINARY", "IFA_LLLBINARY"),
    *("IFB_LLCHAR", "IFB_LLLCHAR", "IFB_LLHCHAR", "IFB_LLHECHAR", "IFB_LLHBINARY", "IFB_LLLHCHAR", "IFB_LLLHECHAR", "IFB_LLLHBINARY"),
    *("IFB_BINARY", "IFB_LLBINARY", "IFB_LLLBINARY"),
    *("IFE_CHAR", "IFE_NUMERIC", "IFE_LLNUM", "IFE_LLLNUM", "IFE_LLCHAR", "IFE_LLLCHAR"),
    *PACKED,
    *AMOUNTS,
)
# The classes that write characters in EBCDIC. jPOS has page 1047.
EBCDIC = re.compile(r"IFE_|IFB_LL?LHECHAR$")
MACS = (64, 128)
# The fields of the switch's table.
TABLE = {
    *(2, 3, 4, 5, 6, 7, 9, 10, 11, 12, 13, 14, 15, 16, 17, 18, 19, 22, 23, 24, 25, 26, 32, 33, 35, 37, 38, 39, 41, 42, 43, 44, 45, 48),
    *(49, 50, 51, 52, 53, 54, 55, 60, 61, 62, 63, 64, 70, 90, 95, 100, 102, 103, 128),
}


class Refused(Exception):
    """What the XML has and a profile file cannot state."""


@dataclass(frozen=True)
class Row:
    """A field: its class, its length, and what `pad` says."""

    number: int
    word: str
    length: int
    is_padded_left: bool

    def left_out(self) -> str | None:
        """Why the field is not kept, if it is not."""
        if self.number not in TABLE:
            return "the switch does not have the field"
        if self.number in MACS:
            return "a MAC is over the bytes of the wire, and does not hold for other bytes"
        if self.word in AMOUNTS:
            return "the switch has no amounts with a sign"
        return None

    def line(self) -> str:
        parts = [f"number = {self.number}", f'class = "{self.word}"', f"length = {self.length}"]
        if self.word in PACKED:
            parts.append(f'pad = "{"left" if self.is_padded_left else "right"}"')
        if self.left_out():
            parts.append("keep = false")
        return f"    {{ {', '.join(parts)} }},"


def attribute(place: str, element: tree.Element, name: str) -> str:
    value = element.get(name)
    if value is None:
        raise Refused(f"{place}: attribute {name} is missing")
    return value


def number_in(place: str, element: tree.Element, name: str, least: int, most: int) -> int:
    text = attribute(place, element, name)
    if not re.fullmatch("[0-9]{1,4}", text) or not least <= int(text) <= most:
        raise Refused(f"{place}: {name}: expected a number from {least} to {most}; found {text!r}")
    return int(text)


def word_in(place: str, element: tree.Element, words: tuple[str, ...]) -> str:
    """The class, without the package that it stands in."""
    name = attribute(place, element, "class")
    word = name.rsplit(".", 1)[-1]
    if word not in words:
        raise Refused(f"{place}: class: expected one of {', '.join(words)}; found {name!r}")
    return word


def elements_of(top: tree.Element) -> dict[int, tree.Element]:
    """The elements of the fields, by their numbers."""
    if top.tag != "isopackager":
        raise Refused(f"expected isopackager; found {top.tag}")
    if top.get("bitmapField", "1") != "1":
        raise Refused(f"isopackager: bitmapField: expected 1; found {top.get('bitmapField')!r}")
    found: dict[int, tree.Element] = {}
    for element in top:
        number = number_in(element.tag, element, "id", 0, 128)
        if element.tag != "isofield":
            raise Refused(f"field {number}: expected isofield; found {element.tag}")
        if number in found:
            raise Refused(f"field {number}: there are two")
        found[number] = element
    for number, name in (0, "the message type"), (1, "the bitmap"):
        if number not in found:
            raise Refused(f"field {number}, {name}, is missing")
    return found


def row_of(number: int, element: tree.Element) -> Row:
    place = f"field {number}"
    return Row(
        number,
        word_in(place, element, CLASSES),
        number_in(place, element, "length", 1, 9_999),
        element.get("pad") == "true",
    )


def profile_of(top: tree.Element) -> tuple[str, list[str]]:
    """The text of the profile, and a note for each reason for which fields are not kept."""
    elements = elements_of(top)
    mti = word_in("field 0", elements.pop(0), MTI)
    bitmap = word_in("field 1", elements.pop(1), BITMAPS)
    notes = []
    if elements.pop(65, None) is not None:
        notes.append("left out: 65: it tells of a third bitmap, which a profile does not have")
    rows = [row_of(number, element) for number, element in sorted(elements.items())]
    reasons: dict[str, list[str]] = {}
    for row in rows:
        if why := row.left_out():
            reasons.setdefault(why, []).append(str(row.number))
    notes += [f"keep = false: {', '.join(numbers)}: {why}" for why, numbers in reasons.items()]
    message = ["[message]", f'type = "{mti}"', f'bitmap = "{bitmap}"']
    if any(map(EBCDIC.match, [mti, bitmap, *(row.word for row in rows)])):
        message.append('page = "cp1047"')
    return "\n".join(["field = [", *(row.line() for row in rows), "]", "", *message, ""]), notes


def main() -> int:
    if len(sys.argv) != 2:
        print("usage: packager.py FILE > profile.toml", file=sys.stderr)
        return 2
    path = sys.argv[1]
    try:
        text, notes = profile_of(tree.parse(path).getroot())
    except (OSError, tree.ParseError, Refused) as fault:
        print(f"packager.py: {path}: {fault}", file=sys.stderr)
        return 1
    for note in notes:
        print(f"packager.py: {note}", file=sys.stderr)
    sys.stdout.write(text)
    return 0


if __name__ == "__main__":
    sys.exit(main())
