#!/usr/bin/env python3
"""Has tshark's reader of ISO 8583 read what `encode` and `recode` write, and `decode` and `recode` read it too.

    tests/tshark.py [--seed N] [--count N] [--program PATH]

Random messages are written as text. `cardswitch encode` makes frames of them, and `cardswitch decode` has to give the text back.
`text2pcap` puts each message into a packet, with the two bytes of length that tshark looks for, and `tshark` reads the packets.
The type and each field that it shows have to be those that the text has, and it may show no others.

Then `cardswitch recode` writes the messages in two other spellings that tshark knows: bitmaps and bytes in binary, and digits in ASCII or
packed. tshark has to read the same of these, and `recode` has to turn them back.

Both readers have to know a field alike: field 53 is left out (the profile has digits there, tshark has binary data), values are not
empty, texts are upper-case letters and digits, and field 35 has the form of track 2. In the other spellings field 35 is left out too, and
field 128 is the last one of each message, since tshark does not read a message of a few bytes, nor a short field at the end. Some messages
with digits in ASCII and a binary bitmap tshark does not take for messages, and shows nothing of them: at most one in ten may be such.
Without tshark the test says that it is skipped.
"""

import argparse
import os
import random
import shutil
import subprocess
import sys
import tempfile

sys.dont_write_bytecode = True

from model import messages  # noqa: E402

TOP = os.path.dirname(os.path.dirname(os.path.abspath(__file__)))
BUILT = os.path.join(TOP, "crates", "cardswitch", "out", "cardswitch")

TYPES = [b"0100", b"0110", b"0400", b"0401", b"0410", b"0420", b"0421", b"0430", b"0800", b"0810"]
NUMBERS = sorted(messages.FORMS.keys() - {53})
DIGITS, UPPER, HEX = b"0123456789", b"ABCDEFGHIJKLMNOPQRSTUVWXYZ", b"0123456789ABCDEF"
ALPHABETS = {messages.N: DIGITS, messages.TEXT: UPPER + DIGITS, messages.BINARY: HEX}

# A packet has at most this many bytes of a message.
MOST = 1_300

# What stands between the cells that tshark shows. No message has it.
SEPARATOR = "\x01"

# The spellings, by the letter that their classes have for digits, with what tshark is told of them.
BYTES = ["-o", "iso8583.binencode:Bin data not encoded"]
SPELLINGS = {"A": BYTES, "B": [*BYTES, "-o", "iso8583.charset:Digits represented in nibbles"]}


def drawn(chosen, alphabet, size):
    return bytes(chosen.choices(alphabet, k=size))


def value(chosen, number):
    """A value of a field, not empty."""
    content, digits, size = messages.FORMS[number]
    if number == 35:
        return drawn(chosen, DIGITS, chosen.randint(1, 19)) + b"=" + drawn(chosen, DIGITS, chosen.randint(1, 17))
    return drawn(chosen, ALPHABETS[content], chosen.randint(1, size) if digits else size)


def message(seed):
    """The type and the fields of a random message."""
    chosen = random.Random(seed)
    mti, fields = chosen.choice(TYPES), {}
    for number in chosen.sample(NUMBERS, chosen.randint(1, 20)):
        made = fields | {number: value(chosen, number)}
        if len(messages.encode(mti, made)) <= MOST:
            fields = made
    return mti, dict(sorted(fields.items()))


def paragraph(number, mti, fields):
    """What `decode` prints for a message."""
    lines = [b"message %d\n" % number, b"mti %s\n" % mti]
    return b"".join(lines + [messages.line(*field) for field in fields.items()])


def paragraphs(text):
    """The text of each message."""
    return [b"message " + it for it in text.split(b"message ")[1:]]


def called(command, given):
    """What a command prints."""
    done = subprocess.run(command, input=given, capture_output=True, check=False)
    if done.returncode != 0:
        raise RuntimeError(f"{os.path.basename(command[0])} ends with {done.returncode}: {done.stderr.decode(errors='replace')}")
    return done.stdout


def packet_of(frame):
    """Two bytes of length and the message."""
    body = frame[4:]
    return len(body).to_bytes(2, "big") + body


def packets_in(stream):
    """The packets of a stream of such."""
    made, at = [], 0
    while at < len(stream):
        end = at + 2 + int.from_bytes(stream[at : at + 2], "big")
        made.append(stream[at:end])
        at = end
    return made


def dumped(packet):
    """A packet for text2pcap, in hexadecimal."""
    return b"000000 " + packet.hex(" ").encode() + b"\n"


def dissected(packets, told):
    """The cells that tshark shows for each packet: the type, and the fields from 2 to 128. After binary data it shows a backtick."""
    columns = ["iso8583.mti", *(f"iso8583.bit{number}" for number in range(2, 129))]
    with tempfile.TemporaryDirectory() as room:
        path = os.path.join(room, "packets")
        called(["text2pcap", "-q", "-T", "1234,5678", "-", path], b"".join(map(dumped, packets)))
        words = ["tshark", "-r", path, "-d", "tcp.port==5678,iso8583", "-o", "iso8583.len_endian:Big endian"]
        words += [*told, "-T", "fields", "-E", f"separator={SEPARATOR}"]
        shown = called([*words, *(word for column in columns for word in ("-e", column))], b"")
    return [[cell.rstrip(b"`") for cell in line.upper().split(SEPARATOR.encode())] for line in shown.splitlines()]


def cells(mti, fields):
    """What tshark has to show of a message."""
    return [mti, *(fields.get(number, b"") for number in range(2, 129))]


def differences(came, wanted):
    """Which cells of tshark's are not those of a message."""
    names = ["mti", *map(str, range(2, 129))]
    if len(came) != len(wanted):
        return [f"tshark shows {len(came)} cells, wanted {len(wanted)}"]
    return [f"tshark has {name} {a}, wanted {b}" for name, a, b in zip(names, came, wanted) if a != b]


def row(number, letter):
    """The table of a field in a profile file."""
    content, digits, size = messages.FORMS[number]
    lead, kind = {0: "", 2: "LL", 3: "LLL"}[digits], "NUM" if content == messages.N else "CHAR"
    if content == messages.BINARY:
        name, size = "IFB_BINARY", size // 2
    elif digits:
        name = f"IF{letter}_{lead}{kind}"
    else:
        name = f"IF{letter}_NUMERIC" if content == messages.N else "IF_CHAR"
    return f'{{ number = {number}, class = "{name}", length = {size} }},\n'


def profile(letter):
    """The text of the profile file of a spelling."""
    rows = "".join(row(number, letter) for number in sorted(messages.FORMS))
    return f'field = [\n{rows}]\nmessage = {{ type = "IF{letter}_NUMERIC", bitmap = "IFB_BITMAP" }}\nframe = {{ length = "binary2" }}\n'


def spelled(program, letter, sent):
    """What is wrong with the messages in a spelling, by the number of the message."""
    sent = [(mti, {number: it for number, it in fields.items() if number != 35} | {128: b"0123456789ABCDEF"}) for mti, fields in sent]
    stream = b"".join(messages.framed(messages.encode(*it)) for it in sent)
    with tempfile.NamedTemporaryFile("w", suffix=".toml") as file:
        file.write(profile(letter))
        file.flush()
        made = called([program, "recode", "--to", file.name], stream)
        back = messages.frames(called([program, "recode", "--from", file.name], made))
    shown = dissected(packets_in(made), SPELLINGS[letter])
    if not len(back) == len(shown) == len(sent):
        raise RuntimeError(f"spelling {letter}: {len(sent)} messages; recode gives {len(back)} back, tshark shows {len(shown)}")
    unread = {number for number, line in enumerate(shown) if not any(line)}
    if len(unread) > max(1, len(sent) // 10):
        raise RuntimeError(f"spelling {letter}: tshark shows nothing of {len(unread)} messages of {len(sent)}")
    for number, (frame, it) in enumerate(zip(messages.frames(stream), sent)):
        found = [] if number in unread else differences(shown[number], cells(*it))
        found += [] if back[number] == frame else [f"{back[number]} is back, wanted {frame}"]
        if found:
            yield number, f"spelling {letter}: " + "; ".join(found)


def faults(program, sent):
    """What is wrong, by the number of the message, 0 for the first."""
    texts = [paragraph(number, *it) for number, it in enumerate(sent, 1)]
    stream = called([program, "encode"], b"".join(texts))
    read, frames = paragraphs(called([program, "decode"], stream)), messages.frames(stream)
    shown = dissected(map(packet_of, frames), [])
    if not len(read) == len(frames) == len(shown) == len(sent):
        raise RuntimeError(f"{len(frames)} frames of {len(sent)} messages; decode has {len(read)}, tshark {len(shown)}")
    for number, (text, it) in enumerate(zip(texts, sent)):
        found = differences(shown[number], cells(*it))
        found += [] if read[number] == text else [f"decode has {read[number]}, wanted {text}"]
        if found:
            yield number, "; ".join(found)
    for letter in SPELLINGS:
        yield from spelled(program, letter, sent)


def main():
    parser = argparse.ArgumentParser(description="Has tshark read messages.")
    parser.add_argument("--seed", type=int, default=random.SystemRandom().randrange(10**9))
    parser.add_argument("--count", type=int, default=2_000)
    parser.add_argument("--program", default=BUILT)
    given = parser.parse_args()
    if not shutil.which("tshark") or not shutil.which("text2pcap"):
        print("skipped: messages need tshark, with its `text2pcap`")
        print("0 passed, 0 failed")
        return 0
    sent = [message(given.seed + number) for number in range(given.count)]
    try:
        found = [*{number: fault for number, fault in faults(given.program, sent)}.items()]
    except (RuntimeError, OSError) as fault:
        print(f"FAILED tshark --seed {given.seed} --count {given.count}: {fault}")
        found = [None] * given.count
    for it in filter(None, found):
        print(f"FAILED tshark --seed {given.seed + it[0]} --count 1: {it[1]}")
    print(f"{given.count - len(found)} passed, {len(found)} failed")
    return 1 if found else 0


if __name__ == "__main__":
    sys.exit(main())
