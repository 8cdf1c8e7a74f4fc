#!/usr/bin/env python3
"""An issuer's host: reads requests in frames from standard input, and writes its responses to standard output.

    host.py [--delay SECONDS]

A frame is four digits of length and a message of ISO 8583:1987 in ASCII. An authorization (0100, 0101) is declined if the last two
digits of its amount are 05, 51, 54 or 61, with that code. It gets no answer if they are 91. Otherwise it is approved, with its STAN as
approval code. Each advice (0120, 0121, 0420, 0421) and each network test (0800, 0801) is accepted.
"""

import argparse
import sys
import time

# The fields that this host reads: how many digits a variable length has, or how long a fixed field is.
VARIABLE = {2: 2, 32: 2, 33: 2, 35: 2, 44: 2, 45: 2, 48: 3, 54: 3, 55: 3, 60: 3, 61: 3, 62: 3, 63: 3, 100: 2, 102: 2, 103: 2}
FIXED = {3: 6, 4: 12, 5: 12, 6: 12, 7: 10, 9: 8, 10: 8, 11: 6, 12: 6, 13: 4, 14: 4, 15: 4, 16: 4, 17: 4, 18: 4, 19: 3, 22: 3, 23: 3}
FIXED |= {24: 3, 25: 2, 26: 2, 37: 12, 38: 6, 39: 2, 41: 8, 42: 15, 43: 40, 49: 3, 50: 3, 51: 3, 52: 16, 53: 16, 64: 16}
FIXED |= {70: 3, 90: 42, 95: 42, 128: 16}
ECHOED = (2, 3, 4, 7, 11, 41, 49, 70)
DECLINED, SILENT = (b"05", b"51", b"54", b"61"), b"91"


def numbers(bitmap, first):
    bits = f"{int(bitmap, 16):064b}"
    return [first + place for place, bit in enumerate(bits) if bit == "1"]


def read(message):
    """The type and the fields of a message."""
    mti, rest = message[:4], message[20:]
    found = numbers(message[4:20], 1)
    if found[:1] == [1]:
        found, rest = found[1:] + numbers(rest[:16], 65), rest[16:]
    fields = {}
    for number in found:
        digits = VARIABLE.get(number, 0)
        size = int(rest[:digits]) if digits else FIXED[number]
        fields[number], rest = rest[digits : digits + size], rest[digits + size :]
    return mti, fields


def written(mti, fields):
    """The frame of a message."""
    found = sorted(fields)
    bits = sum(1 << (128 - number) for number in found) | ((1 << 127) if found[-1] > 64 else 0)
    bitmap = f"{bits:032X}"[: 32 if found[-1] > 64 else 16].encode()
    values = (b"%0*d%b" % (VARIABLE[it], len(fields[it]), fields[it]) if it in VARIABLE else fields[it] for it in found)
    message = mti + bitmap + b"".join(values)
    return b"%04d" % len(message) + message


def answer(mti, fields):
    """The frame that answers a message; empty if there is no answer."""
    told = {it: fields[it] for it in ECHOED if it in fields}
    ending = fields.get(4, b"")[-2:]
    if mti in (b"0100", b"0101"):
        if ending == SILENT:
            return b""
        code = {39: ending} if ending in DECLINED else {38: fields[11], 39: b"00"}
        return written(b"0110", told | code)
    if mti in (b"0120", b"0121", b"0420", b"0421", b"0800", b"0801"):
        return written(mti[:2] + bytes([mti[2] + 1]) + b"0", told | {39: b"00"})
    return b""


def main():
    parser = argparse.ArgumentParser(description="Answers requests as an issuer's host.")
    parser.add_argument("--delay", type=float, default=0)
    delay = parser.parse_args().delay
    while length := sys.stdin.buffer.read(4):
        response = answer(*read(sys.stdin.buffer.read(int(length))))
        time.sleep(delay)
        sys.stdout.buffer.write(response)
        sys.stdout.buffer.flush()


if __name__ == "__main__":
    main()
