"""How a program gets its input: a file, a pipe in pieces, or a talk. The result is both streams and the status, which is
None if the program was killed after the given number of seconds."""

import contextlib
import os
import select
import signal
import subprocess
import tempfile
import threading
import time

PIPES = {"stdout": subprocess.PIPE, "stderr": subprocess.PIPE}


def cut(random, text, most=8):
    """A text in pieces, cut at random places."""
    cuts = sorted(random.randrange(len(text) + 1) for _ in range(random.randint(1, most)))
    return [text[begin:end] for begin, end in zip([0, *cuts], [*cuts, len(text)])]


def run_on_file(words, path, seconds, how):
    """Runs a command whose input is a file."""
    with open(path, "rb") as file, subprocess.Popen(words, stdin=file, **PIPES, **how) as process:
        return ended(process, seconds)


def run_in_packets(words, pieces, seconds, how):
    """Runs a command so that each read of its input gives one piece: over a pipe that keeps packets apart."""
    return run_on_pipe(words, [(0, piece) for piece in pieces if piece], seconds, how, os.O_DIRECT)


def run_on_pipe(words, pieces, seconds, how, flags=0):
    """Runs a command whose input comes in pieces: pairs of the seconds before a piece, and the piece."""
    to_read, to_write = os.pipe2(flags | os.O_CLOEXEC)
    with subprocess.Popen(words, stdin=to_read, **PIPES, **how) as process:
        os.close(to_read)
        feeding = threading.Thread(target=feed, args=(to_write, pieces))
        feeding.start()
        try:
            return ended(process, seconds)
        finally:
            feeding.join()


def run_on_open_pipe(words, text, seconds, how):
    """Runs a command whose input comes at once, and is not closed before the command has ended."""
    with tempfile.TemporaryFile() as out, tempfile.TemporaryFile() as told:
        with subprocess.Popen(words, stdin=subprocess.PIPE, stdout=out, stderr=told, bufsize=0, **how) as process:
            with contextlib.suppress(BrokenPipeError):
                process.stdin.write(text)
            try:
                status = process.wait(seconds)
            except subprocess.TimeoutExpired:
                kill(process)
                status = None
        return *(file.seek(0) or file.read() for file in (out, told)), status


def feed(to_write, pieces):
    # (once the program has read what it wanted, nobody takes the rest)
    with contextlib.suppress(BrokenPipeError), os.fdopen(to_write, "wb", buffering=0) as pipe:
        for pause, piece in pieces:
            time.sleep(pause)
            pipe.write(piece)


def ended(process, seconds):
    """What comes of a process."""
    try:
        return *process.communicate(timeout=seconds), process.returncode
    except subprocess.TimeoutExpired:
        kill(process)
        return *process.communicate(), None


def kill(process):
    """Kills a process, and its group if it leads one: otherwise what it has started would keep its pipes open."""
    try:
        os.killpg(process.pid, signal.SIGKILL)
    except ProcessLookupError:
        process.kill()


def run_in_talk(words, turns, count, seconds, how):
    """Runs a command in turns: pairs of a piece, and of how much output has to come before the next one is sent, by `count`."""
    until, out = time.monotonic() + seconds, b""
    with tempfile.TemporaryFile() as told:
        streams = {"stdin": subprocess.PIPE, "stdout": subprocess.PIPE, "stderr": told, "bufsize": 0}
        with subprocess.Popen(words, **streams, **how) as process:
            with contextlib.suppress(BrokenPipeError), process.stdin as pipe:
                for piece, wanted in turns:
                    pipe.write(piece)
                    while count(out) < wanted and (came := next_of(process.stdout, until)):
                        out += came
            while came := next_of(process.stdout, until):
                out += came
            is_late = time.monotonic() > until
            if is_late:
                process.kill()
        told.seek(0)
        return out, told.read(), None if is_late else process.returncode


def next_of(pipe, until):
    """The next bytes; none at the end, or if none come until then."""
    ready, _, _ = select.select([pipe], [], [], max(until - time.monotonic(), 0))
    return os.read(pipe.fileno(), 65_536) if ready else b""
