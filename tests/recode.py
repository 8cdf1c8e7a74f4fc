#!/usr/bin/env python3
"""Has `recode` turn messages into the spellings of other systems and back.

    tests/recode.py [--seed N] [--count N] [--program PATH]

For each profile of examples/profiles random messages are written by the model, as the other system would write them, and `recode --from`
has to write what `model/messages.py` writes for their fields without those that the profile does not keep. `recode --to` has to write what the
model writes for messages of the switch. Each proper beginning of a message has to be refused as too short. The frames are sent in pieces
of several sizes, and a frame has to come back before the next one is sent. Each form of a frame is tried with a profile of this test. The
characters of both pages of EBCDIC are compared with iconv's.
"""

import argparse
import glob
import os
import random
import shutil
import subprocess
import sys
import tempfile
import time
import tomllib

sys.dont_write_bytecode = True

from model import dialects, messages  # noqa: E402

TOP = os.path.dirname(os.path.dirname(os.path.abspath(__file__)))
BUILT = os.path.join(TOP, "crates", "cardswitch", "out", "cardswitch")
PROFILES = sorted(glob.glob(os.path.join(TOP, "examples", "profiles", "*.toml")))

TYPES = ["0100", "0110", "0400", "0401", "0410", "0420", "0421", "0430", "0800", "0810"]
DIGITS, PRINTABLE, UPPER_HEX = "0123456789", "".join(map(chr, range(0x20, 0x7F))), "0123456789ABCDEF"
SHORT = "the message is too short; expected a type, a bitmap and every field that the bitmap lists"
REFUSED = "cardswitch: standard input: a message or a frame is refused (see the lines before); expected frames of messages that can be recoded\n"

# The forms of frames.
FORMS = [{"length": form, "counts_itself": own, "header": header} for form in dialects.WIDTHS for own in (False, True) for header in ("", "60000001")]


def called(program, way, path, given):
    """What the program writes and reports, and its status."""
    done = subprocess.run([program, "recode", f"--{way}", path], input=given, capture_output=True, check=False)
    return done.stdout, done.stderr.decode(errors="replace"), done.returncode


def drawn(chosen, alphabet, size):
    return "".join(chosen.choices(alphabet, k=size))


def value(chosen, profile, number):
    """A value of a field that both sides have, in canonical text."""
    content, digits, size = messages.FORMS[number]
    row = profile.rows[number]
    if content == messages.BINARY or row.content in (dialects.BYTES, dialects.HEX):
        most = min(size, 2 * row.length) // 2
        return drawn(chosen, UPPER_HEX, 2 * (chosen.randint(0, most) if digits else size // 2))
    alphabet = DIGITS if content == messages.N else PRINTABLE
    if row.content == dialects.PACKED and number == 35:
        alphabet = DIGITS + "="
    most = min(size, row.length)
    return drawn(chosen, alphabet, chosen.randint(0, most) if digits else size)


def kept(profile):
    return sorted(number for number, row in profile.rows.items() if row.is_kept)


def message(chosen, profile):
    """The type, the fields that both sides have, and the message with some more that are passed over."""
    mti, fields, parts = chosen.choice(TYPES), {}, {}
    numbers = kept(profile)
    for number in chosen.sample(numbers, chosen.randint(0, min(20, len(numbers)))):
        made = fields | {number: value(chosen, profile, number)}
        if len(profile.encode(mti, made)) < profile.most - 600:
            fields = made
    parts = {number: profile.field(number, text) for number, text in fields.items()}
    others = sorted(set(profile.rows) - set(numbers))
    for number in chosen.sample(others, chosen.randint(0, min(2, len(others)))):
        more = parts | {number: profile.passed_over(chosen, number)}
        if len(profile.message(mti, more)) <= profile.most:
            parts = more
    return mti, fields, profile.message(mti, parts)


def ours(mti, fields):
    return messages.framed(messages.encode(mti.encode(), {number: text.encode() for number, text in fields.items()}))


def compare(name, came, wanted):
    """What is wrong with an outcome."""
    for part, a, b in zip(("output", "report", "status"), came, wanted):
        if a != b:
            yield f"{name}: {part}: came {a!r}, wanted {b!r}"


def both_ways(program, path, profile, seed, count):
    """Random messages of a profile, in both directions."""
    chosen = random.Random(seed)
    made = [message(chosen, profile) for _ in range(count)]
    header = bytes.fromhex(profile.frame.get("header", ""))
    theirs = b"".join(profile.framed(it, chosen.randbytes(len(header))) for _, _, it in made)
    own = b"".join(ours(mti, fields) for mti, fields, _ in made)
    yield from compare("--from", called(program, "from", path, theirs), (own, "", 0))
    back = b"".join(profile.framed(profile.encode(mti, fields)) for mti, fields, _ in made)
    yield from compare("--to", called(program, "to", path, own), (back, "", 0))


def beginnings(program, path, profile, seed):
    """Each proper beginning of a message is too short, and the message after them is read."""
    chosen = random.Random(seed)
    made = (message(chosen, profile) for _ in range(60))
    mti, fields, whole = max((it for it in made if len(it[2]) <= 1200), key=lambda it: len(it[1]))
    cut = [whole[:size] for size in range(len(whole))]
    stream = b"".join(map(profile.framed, [*cut, whole]))
    lines = "".join(f"cardswitch: message {number}: {SHORT}\n" for number in range(1, len(cut) + 1))
    yield from compare("beginnings", called(program, "from", path, stream), (ours(mti, fields), lines + REFUSED, 1))


def unread(pipe):
    """Whether the program has not read all that a pipe has."""
    import array
    import fcntl
    import termios

    held = array.array("i", [0])
    fcntl.ioctl(pipe, termios.FIONREAD, held)
    return held[0] > 0


def in_pieces(program, path, stream, size):
    """What the program writes for a stream that it reads in pieces of this size."""
    words = [program, "recode", "--from", path]
    with subprocess.Popen(words, stdin=subprocess.PIPE, stdout=subprocess.PIPE, bufsize=0) as running:
        for at in range(0, len(stream), size):
            running.stdin.write(stream[at : at + size])
            while unread(running.stdin):
                time.sleep(0)
        running.stdin.close()
        return running.stdout.read()


def pieces(program, path, profile, seed):
    """Two short messages in pieces of one size."""
    chosen = random.Random(seed)
    made = sorted((message(chosen, profile) for _ in range(40)), key=lambda it: len(it[2]))[:2]
    stream = b"".join(profile.framed(it) for _, _, it in made)
    wanted = b"".join(ours(mti, fields) for mti, fields, _ in made)
    for size in [*range(1, 9), 13, 25, len(stream) - 1]:
        if (came := in_pieces(program, path, stream, size)) != wanted:
            yield f"in pieces of {size}: came {came!r}, wanted {wanted!r}"


def one_by_one(program, path, profile, seed):
    """A frame comes back before the next one is sent."""
    chosen = random.Random(seed)
    words = [program, "recode", "--from", path]
    with subprocess.Popen(words, stdin=subprocess.PIPE, stdout=subprocess.PIPE, bufsize=0) as running:
        for _ in range(5):
            mti, fields, made = message(chosen, profile)
            running.stdin.write(profile.framed(made))
            wanted, came = ours(mti, fields), b""
            while len(came) < len(wanted) and (more := running.stdout.read(len(wanted) - len(came))):
                came += more
            if came != wanted:
                yield f"one by one: came {came!r}, wanted {wanted!r}"
        running.stdin.close()


SMALL = """
field = [
    { number = 2, class = "IFB_LLNUM", length = 19, pad = "right", pad_half = 15 },
    { number = 3, class = "IFE_NUMERIC", length = 6 },
    { number = 4, class = "IFA_NUMERIC", length = 12 },
    { number = 7, class = "IFB_NUMERIC", length = 10 },
    { number = 11, class = "IFB_NUMERIC", length = 6 },
    { number = 35, class = "IFB_LLHNUM", length = 37, pad = "right" },
    { number = 39, class = "IFE_CHAR", length = 2 },
    { number = 41, class = "IFE_CHAR", length = 8 },
    { number = 43, class = "IFE_CHAR", length = 40 },
    { number = 48, class = "IFB_LLLHECHAR", length = 999 },
    { number = 55, class = "IFA_LLLBINARY", length = 255 },
    { number = 62, class = "IFB_LLLNUM", length = 900, keep = false },
    { number = 64, class = "IFA_BINARY", length = 8, keep = false },
]
[message]
type = "IFE_NUMERIC"
bitmap = "IFE_BITMAP"
page = "%s"
"""


def written(room, text):
    path = os.path.join(room, "profile.toml")
    with open(path, "w", encoding="utf-8") as file:
        file.write(text)
    return path, dialects.Profile(tomllib.loads(text))


def frame_text(form):
    lines = [f'{key} = "{it}"' if isinstance(it, str) else f"{key} = {str(it).lower()}" for key, it in form.items()]
    return "[frame]\n" + "\n".join(lines) + "\n"


def forms(program, room, seed):
    """The forms of frames: a message, one over `most`, and a length that counts less than it has to."""
    for form in FORMS:
        path, profile = written(room, SMALL % "cp037" + frame_text(form | {"most": 300}))
        mti, fields = "0800", {7: "1130123456", 11: "000042"}
        made = profile.encode(mti, fields)
        good = profile.framed(made, bytes(len(form["header"]) // 2))
        bad = "cardswitch: after message 1: no frame begins here; expected the length of a message that is not too long\n" + REFUSED
        for name, more in (("over most", profile.framed(bytes(301))), ("below its header", bytes(4) if form["length"] != "ascii4" else b"0000")):
            if name == "over most" or form["counts_itself"] or form["header"]:
                came = called(program, "from", path, good + more + good)
                yield from compare(f"{form}, {name}", came, (ours(mti, fields), bad, 1))
        cut = f"cardswitch: after message 1: found {len(good) - 1} bytes; expected a whole frame\n" + REFUSED
        yield from compare(f"{form}, cut", called(program, "from", path, good + good[:-1]), (ours(mti, fields), cut, 1))
        yield from compare(f"{form}, back", called(program, "to", path, ours(mti, fields)), (profile.framed(made), "", 0))
        long = {48: "A" * 299}
        over = "cardswitch: message 1: the message is too long; expected at most 300 bytes\n" + REFUSED
        came = called(program, "to", path, ours(mti, long) + ours(mti, fields))
        yield from compare(f"{form}, too long", came, (profile.framed(made), over, 1))


def refusals(program, room):
    """Messages that are left out, by what is wrong with them."""
    path, profile = written(room, SMALL % "cp037")
    good = ours("0800", {7: "1130123456"})
    own = [ours("0800", {5: "000000000001"}), ours("0800", {55: "A"}), messages.framed(b"0800zz"), messages.framed(b"08")]
    unwritable = "the profile cannot write it; expected a row that takes the value"
    lines = [f"field 5, amount in the currency of settlement: {unwritable}", f"field 55, chip data: {unwritable}"]
    came, report, status = called(program, "to", path, b"".join([*own, good]))
    wanted = profile.framed(profile.encode("0800", {7: "1130123456"}))
    yield from compare("left out", (came, status), (wanted, 1))
    numbers = [line.split(":")[1] for line in report.splitlines()[:-1]]
    if numbers != [f" message {number}" for number in range(1, 5)] or lines[0].split(",")[0] not in report or unwritable not in report:
        yield f"left out: report: {report!r}"
    for words in (["recode"], ["recode", "--from", path, "--to", path]):
        done = subprocess.run([program, *words], input=b"", capture_output=True, check=False)
        wanted = (b"", b"error: expected one of '--from <FILE>' and '--to <FILE>'\n", 2)
        yield from compare(" ".join(words), (done.stdout, done.stderr, done.returncode), wanted)
    path, _ = written(room, SMALL % "cp500")
    came = called(program, "from", path, b"")
    if came[0] or came[2] != 1 or not came[1].startswith(f"cardswitch: {path}: message: key page has a bad value: expected"):
        yield f"a bad profile file: {came}"
    came = called(program, "from", os.path.join(room, "none"), b"")
    if came[0] or came[2] != 1 or not came[1].startswith(f"cardswitch: {os.path.join(room, 'none')}: cannot open: "):
        yield f"no profile file: {came}"


def pages(program, room):
    """The characters of both pages, compared with iconv's."""
    texts = [PRINTABLE[:40], PRINTABLE[40:80], PRINTABLE[80:].ljust(40, "Z")]
    for page, name in (("cp037", "IBM037"), ("cp1047", "IBM1047")):
        path, profile = written(room, SMALL % page)
        for text in texts:
            done = subprocess.run(["iconv", "-f", "ISO-8859-1", "-t", name], input=text.encode(), capture_output=True, check=True)
            if done.stdout != profile.ebcdic(text):
                yield f"{page}: the model has {profile.ebcdic(text)!r} for {text!r}, iconv {done.stdout!r}"
            made = profile.framed(profile.message("0800", {43: done.stdout}))
            yield from compare(page, called(program, "from", path, made), (ours("0800", {43: text}), "", 0))
            yield from compare(page, called(program, "to", path, ours("0800", {43: text})), (made, "", 0))


def tried(program, given, room):
    """The tests by name, each with what is wrong."""
    for path in PROFILES:
        with open(path, "rb") as file:
            profile = dialects.Profile(tomllib.load(file))
        name = os.path.basename(path)
        for test in (beginnings, pieces, one_by_one):
            yield f"{name}, {test.__name__}", test(program, path, profile, given.seed)
        yield f"{name}, both ways", both_ways(program, path, profile, given.seed, given.count)
    yield "forms of frames", forms(program, room, given.seed)
    for form in FORMS:
        path, profile = written(room, SMALL % "cp1047" + frame_text(form))
        yield f"{form}, both ways", both_ways(program, path, profile, given.seed, given.count)
    yield "refusals", refusals(program, room)
    if shutil.which("iconv"):
        yield "pages", pages(program, room)
    else:
        print("skipped: pages need iconv")


def main():
    parser = argparse.ArgumentParser(description="Has recode turn messages into other spellings and back.")
    parser.add_argument("--seed", type=int, default=random.SystemRandom().randrange(10**9))
    parser.add_argument("--count", type=int, default=200)
    parser.add_argument("--program", default=BUILT)
    given = parser.parse_args()
    passed = failed = 0
    with tempfile.TemporaryDirectory() as room:
        for name, found in tried(os.path.abspath(given.program), given, room):
            wrong = list(found)
            passed, failed = passed + (not wrong), failed + bool(wrong)
            for it in wrong[:3]:
                print(f"FAILED {name} --seed {given.seed} --count {given.count}: {it[:2000]}")
    print(f"{passed} passed, {failed} failed")
    return 1 if failed else 0


if __name__ == "__main__":
    sys.exit(main())
