#!/usr/bin/env python3
"""Sits at `cardswitch step`: sends it each line of a script only once the line before it is answered.

    tests/prompt.py [--seed N] [--count N] [--program PATH]

Random scripts come over a pipe, one line after the other. After each line, what the plain model prints for it has to come within a few
seconds, and nothing more. A line that the model refuses has to end the run with status 1, before another line is sent.

With `--prompt` each line is asked for by a prompt, a line that the model refuses is reported and changes nothing, and the run goes on.
The lines `help`, `list` and `info`, empty ones, comments, further spaces and refused lines come among the others, and `quit` may end it.
The sessions that docs/use/DEBUGGER.md shows are typed on a pseudo-terminal, and what is on the screen has to be what the page shows.
"""

import argparse
import os
import pty
import random
import re
import select
import subprocess
import sys
import termios
import time

sys.dont_write_bytecode = True

from model import flows, generate, script  # noqa: E402

TOP = os.path.dirname(os.path.dirname(os.path.abspath(__file__)))
BUILT = os.path.join(TOP, "crates", "cardswitch", "out", "cardswitch")
PAGE = os.path.join(TOP, "docs", "use", "DEBUGGER.md")

# How many seconds an answer may take, and how long nothing more may come after it.
SECONDS, QUIET = 20, 0.002


def came(stream, seconds):
    """The next bytes of a stream, none at its end; `None` if none come in this many seconds."""
    ready, _, _ = select.select([stream], [], [], seconds)
    return os.read(stream, 65_536) if ready else None


def answer(stream, wanted):
    """What came on a stream up to the length of what is wanted, and shortly after that."""
    text, until = b"", time.monotonic() + SECONDS
    while len(text) < len(wanted):
        piece = came(stream, until - time.monotonic())
        if not piece:
            return text
        text += piece
    return text + (came(stream, QUIET) or b"")


def printed(run, line):
    """What the model prints for a line, and whether the run goes on."""
    try:
        return "".join(f"{it}\n" for it in run.line(line)).encode(), True
    except (script.Malformed, flows.Fault):
        return b"", False


def pipe_faults(program, text):
    """What is wrong with a script whose lines come one after the other over a pipe."""
    streams = {"stdin": subprocess.PIPE, "stdout": subprocess.PIPE, "stderr": subprocess.PIPE, "bufsize": 0}
    run = script.Script()
    with subprocess.Popen([program, "step"], **streams) as process:
        for number, line in enumerate(script.lines_of(text), 1):
            wanted, goes_on = printed(run, line)
            process.stdin.write(line + b"\n")
            got = answer(process.stdout.fileno(), wanted)
            if got != wanted:
                process.kill()
                yield f"line {number}, {line}: {got}, wanted {wanted}"
                return
            if not goes_on:
                break
        else:
            process.stdin.close()
            number = 0
        try:
            status = process.wait(SECONDS)
        except subprocess.TimeoutExpired:
            process.kill()
            yield f"it had not ended after {SECONDS} seconds"
            return
        told = process.stderr.read()
        begins = f"cardswitch: line {number}: ".encode() if number else b""
        if status != (number > 0) or not told.startswith(begins) or bool(told) != bool(number):
            yield f"status {status}, {told}, wanted {begins}"


PROMPT = script.Prompt.TEXT.encode()


def spoilt(chosen, text):
    """The lines of a script, with some that only a prompt has, and some that are refused."""
    for line in script.lines_of(text):
        while chosen.random() < 0.2:
            yield chosen.choice([b"help", b"list", b"info", b"", b"  ", b"# a comment", b"#"]) if chosen.random() < 0.5 else refused_line(chosen)
        yield typed(chosen, line)
        if chosen.random() < 0.005:
            yield b" quit"


def typed(chosen, line):
    """A line with further spaces around and between its words, sometimes."""
    return line.replace(b" ", b" " * chosen.randrange(1, 4)) + b" " * chosen.randrange(2) if chosen.random() < 0.2 else line


def refused_line(chosen):
    words = [*generate.SPOILT, *generate.SPOILT_ACTIONS, "help me", "lists", "Info", "quit now", "retries 101", "sessions 17"]
    return chosen.choice(words).encode()


def told(stream, begins):
    """None if a line that begins like this comes on standard error (if nothing comes, for None); otherwise what came."""
    text = b""
    until = time.monotonic() + SECONDS
    while begins is not None and not text.endswith(b"\n"):
        piece = came(stream, until - time.monotonic())
        if not piece:
            break
        text += piece
    right = text == b"" if begins is None else text.startswith(begins.encode()) and text.count(b"\n") == 1
    return None if right else text


def prompt_faults(program, lines):
    """What is wrong with a session of such lines at a prompt, each sent once the one before it is answered."""
    streams = {"stdin": subprocess.PIPE, "stdout": subprocess.PIPE, "stderr": subprocess.PIPE, "bufsize": 0}
    run = script.Prompt()
    with subprocess.Popen([program, "step", "--prompt"], **streams) as process:
        out, err = process.stdout.fileno(), process.stderr.fileno()
        if answer(out, PROMPT) != PROMPT:
            process.kill()
            yield "no prompt came"
            return
        for number, line in enumerate(lines, 1):
            text, begins = run.answer(line)
            process.stdin.write(line + b"\n")
            wanted = text.encode() + PROMPT * (not run.has_quit)
            got, message = answer(out, wanted), told(err, begins)
            if got != wanted or message is not None:
                process.kill()
                yield f"line {number}, {line}: {got}, {message}, wanted {wanted}, {begins}"
                return
            if run.has_quit:
                break
        else:
            process.stdin.close()
        end = b"" if run.has_quit else b"\n"
        last = answer(out, end)
        status = process.wait(SECONDS)
        if (last, status, process.stderr.read()) != (end, 0, b""):
            yield f"at the end {last}, status {status}"


def screens():
    """The sessions that the page shows: the command of each, what is typed, and the whole screen."""
    with open(PAGE, encoding="utf-8") as page:
        for block in re.findall(r"^```\n\$ (.*?)\n(.*?)^```$", page.read(), re.MULTILINE | re.DOTALL):
            command, screen = block
            typed = re.findall(r"^cardswitch> (.+)$", screen, re.MULTILINE)
            yield command.split(" "), typed, screen


def read_to(terminal, text, end, seconds=SECONDS):
    """What is on the screen once it ends like this, or after some seconds."""
    until = time.monotonic() + seconds
    while not text.endswith(end):
        piece = came(terminal, until - time.monotonic())
        if not piece:
            break
        text += piece
    return text


def terminal_faults(program, words, typed, screen):
    """What is wrong with a session on a pseudo-terminal."""
    ours, theirs = pty.openpty()
    settings = termios.tcgetattr(theirs)
    settings[3] |= termios.ECHO | termios.ICANON
    termios.tcsetattr(theirs, termios.TCSANOW, settings)
    streams = {"stdin": theirs, "stdout": theirs, "stderr": theirs}
    with subprocess.Popen([program, *words[1:]], start_new_session=True, **streams) as process:
        text = read_to(ours, b"", PROMPT)
        for line in typed:
            os.write(ours, line.encode() + b"\n")
            # The echo ends in no prompt, so the next one is the program's.
            text = read_to(ours, text + os.read(ours, 1), b"\n" + PROMPT)
        os.write(ours, b"\x04")
        text = read_to(ours, text, b"\n")
        try:
            status = process.wait(SECONDS)
        except subprocess.TimeoutExpired:
            process.kill()
            status = "none"
    os.close(theirs)
    os.close(ours)
    shown = text.decode().replace("\r\n", "\n")
    if shown != screen or status != 0:
        yield f"status {status}, the screen:\n{shown}\nwanted:\n{screen}"


def main():
    parser = argparse.ArgumentParser(description="Sends a script line by line, each once the last one is answered.")
    parser.add_argument("--seed", type=int, default=random.SystemRandom().randrange(10**9))
    parser.add_argument("--count", type=int, default=100)
    parser.add_argument("--program", default=BUILT)
    given = parser.parse_args()
    chosen, passed, failed = random.Random(given.seed), 0, 0
    for number in range(given.count):
        text = generate.whole_script(chosen, (5, 10, 20, 40))
        faults = list(pipe_faults(given.program, text))
        passed, failed = passed + (not faults), failed + bool(faults)
        for fault in faults:
            print(f"pipe {number} of seed {given.seed}: {fault}")
        faults = list(prompt_faults(given.program, spoilt(chosen, generate.whole_script(chosen, (5, 10, 20, 40)))))
        passed, failed = passed + (not faults), failed + bool(faults)
        for fault in faults:
            print(f"prompt {number} of seed {given.seed}: {fault}")
    for session in screens():
        faults = list(terminal_faults(given.program, *session))
        passed, failed = passed + (not faults), failed + bool(faults)
        for fault in faults:
            print(f"terminal: {fault}")
    print(f"{passed} passed, {failed} failed")
    sys.exit(failed > 0)


if __name__ == "__main__":
    main()
