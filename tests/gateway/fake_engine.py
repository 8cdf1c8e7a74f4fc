#!/usr/bin/python3
"""An engine for tests of the gateway where there is no `cardswitch run --header`: it knows as much of it as these
tests need.

    fake_engine.py run [OPTION ..] --header N

It asks the host alpha over the named pipes of its folder, keeps what is unfinished and its advices in fake.journal,
recovers them as the program does, and ends with status 3 while another one has that file. Other options of `run` are
passed over.
"""

import fcntl
import json
import os
import sys
import threading
import time

sys.dont_write_bytecode = True
sys.path.insert(0, os.path.dirname(os.path.dirname(os.path.abspath(__file__))))

from model import messages  # noqa: E402

ECHOED = (2, 3, 4, 7, 11, 12, 13, 32, 37, 41, 42, 49, 70, 90)
HELP = "Options:\n      --header <N>\n      --unordered\n      --threads\n      --sessions <N>\n"
TIMEOUT, ADVICES = 3.0, 8


def frames_of(stream):
    """The contents of a stream's frames, as they come."""
    kept = b""
    while data := os.read(stream, 65_536):
        kept += data
        found = messages.frames(kept)
        kept = kept[sum(map(len, found)) :]
        yield [it[4:] for it in found]
        if len(kept) >= 4 and not kept[:4].isdigit():
            sys.exit(1)


class Journal:
    """What is unfinished, in a file."""

    def __init__(self):
        self.file = open("fake.journal", "a+b", buffering=0)
        try:
            fcntl.flock(self.file, fcntl.LOCK_EX | fcntl.LOCK_NB)
        except BlockingIOError:
            sys.exit(3)
        self.under_way, self.advices, self.number, self.old = {}, {}, 0, set()
        self.file.seek(0)
        for line in self.file.read().splitlines():
            self.apply(json.loads(line))
        for number, message in list(self.under_way.items()):
            self.note("done", number)
            self.note("advice", self.next(), messages.encode(*reversal(message)).decode())
        self.old = set(self.advices)

    def next(self):
        self.number += 1
        return self.number

    def note(self, what, number, message=None):
        self.file.write(json.dumps([what, number, message]).encode() + b"\n")
        self.apply([what, number, message])

    def apply(self, line):
        what, number, message = line
        self.number = max(self.number, number)
        if what == "take":
            self.under_way[number] = message
        elif what == "advice":
            self.advices[number] = message
        else:
            self.under_way.pop(number, None) if what == "done" else self.advices.pop(number, None)


def reversal(message):
    """The 0420 of an authorization."""
    mti, fields = messages.decode(message.encode())
    told = {number: fields[number] for number in ECHOED if number in fields and number != 70}
    return b"0420", told | {90: mti + fields[11] + fields[7] + b"0" * 22}


class Fake:
    def __init__(self, header):
        self.header, self.lock, self.journal = header, threading.RLock(), Journal()
        self.out, self.pending, self.sent = None, {}, set()

    def answer(self, header, mti, fields, code, auth=None):
        told = {number: fields[number] for number in ECHOED if number in fields}
        told |= {39: code} | ({38: auth} if auth else {})
        response = messages.encode(mti[:2] + b"%c0" % (mti[2] | 1), told)
        os.write(1, messages.framed(header + response))

    def take(self, content):
        header, message = content[: self.header], content[self.header :]
        if not messages.is_message(message):
            return
        mti, fields = messages.decode(message)
        if mti[:2] == b"08":
            self.answer(header, mti, fields, b"00")
        elif mti[:2] == b"04":
            self.journal.note("advice", self.journal.next(), messages.encode(b"0420", fields).decode())
            self.answer(header, mti, fields, b"00")
        else:
            number = self.journal.next()
            self.journal.note("take", number, message.decode())
            self.pending[fields[11], fields[41], fields[2]] = number, header, mti, fields, time.monotonic() + TIMEOUT
            if not self.send(message):
                self.decide((fields[11], fields[41], fields[2]), b"91")

    def send(self, message):
        try:
            return self.out is not None and os.write(self.out, messages.framed(message)) > 0
        except OSError:
            return False

    def decide(self, key, code, auth=None):
        """A transaction ends."""
        number, header, mti, fields, _ = self.pending.pop(key)
        if code == b"91":
            message = self.journal.under_way[number]
            self.journal.note("advice", self.journal.next(), messages.encode(*reversal(message)).decode())
        self.journal.note("done", number)
        self.answer(header, mti, fields, code, auth)

    def send_advices(self, most):
        for number, message in list(self.journal.advices.items())[:most]:
            is_repeat = number in self.sent or number in self.journal.old
            if self.send(b"0421" + message[4:].encode() if is_repeat else message.encode()):
                self.sent.add(number)

    def came(self, message):
        """A message of the host."""
        mti, fields = messages.decode(message)
        key = fields.get(11), fields.get(41), fields.get(2)
        if 2 not in fields:
            key = next(
                (it for it in self.pending if it[:2] == key[:2] and self.pending[it][3][4] == fields.get(4)), key
            )
        if mti == b"0110" and key in self.pending:
            self.decide(key, fields[39], fields.get(38))
        elif mti == b"0430":
            for number, advice in self.journal.advices.items():
                told = messages.decode(advice.encode())[1]
                if all(told.get(it) == fields.get(it) for it in (2, 11, 41, 90)):
                    self.journal.note("accepted", number)
                    return

    def host(self):
        """The pipes of the host, opened again when they are closed."""
        while os.path.exists("alpha.to"):
            out = os.open("alpha.to", os.O_WRONLY)
            back = os.open("alpha.from", os.O_RDONLY)
            with self.lock:
                self.out = out
            for contents in frames_of(back):
                with self.lock:
                    for message in contents:
                        self.came(message)
            with self.lock:
                self.out = None
                for key in list(self.pending):
                    self.decide(key, b"91")
            os.close(out)
            os.close(back)
            time.sleep(0.1)

    def watch(self):
        """Ends what the host does not answer."""
        while True:
            time.sleep(0.1)
            with self.lock:
                for key in [it for it, (*_, until) in self.pending.items() if until < time.monotonic()]:
                    self.decide(key, b"91")

    def run(self):
        for work in self.host, self.watch:
            threading.Thread(target=work, daemon=True).start()
        for contents in frames_of(0):
            with self.lock:
                for content in contents:
                    self.take(content)
                self.send_advices(ADVICES)
        until = time.monotonic() + TIMEOUT + 1
        while self.pending and time.monotonic() < until:
            time.sleep(0.01)
        with self.lock:
            self.send_advices(len(self.journal.advices))
        until = time.monotonic() + 1
        while self.journal.advices and time.monotonic() < until:
            time.sleep(0.01)


def main():
    if "--help" in sys.argv:
        print(HELP)
        return
    fake = Fake(int(sys.argv[sys.argv.index("--header") + 1]))
    print("fake: ready", file=sys.stderr, flush=True)
    fake.run()
    sys.stdout.flush()
    os._exit(0)


if __name__ == "__main__":
    main()
