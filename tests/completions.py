#!/usr/bin/env python3
"""Has bash complete command lines of `cardswitch` with contrib/cardswitch.bash.

    tests/completions.py [--program PATH]

What bash offers has to be what the program's own help lists: the subcommands, and the options of each one. After an option that
takes a path it has to be the files that are there, and after `--trace=` the forms of the trace. The last line has the counts; the
status is 1 if something is wrong.
"""

import argparse
import os
import re
import shutil
import subprocess
import sys
import tempfile

TOP = os.path.dirname(os.path.dirname(os.path.abspath(__file__)))
BUILT = os.path.join(TOP, "crates", "cardswitch", "out", "cardswitch")
SCRIPT = os.path.join(TOP, "contrib", "cardswitch.bash")
# Sets what bash itself would set when Tab is pressed at the end of these words, and prints what is offered.
ASK = """
source "$1" || exit 1
shift
COMP_WORDS=("$@") COMP_CWORD=$(($# - 1))
$(complete -p cardswitch | sed 's/.*-F \\([^ ]*\\) .*/\\1/')
printf '%s\\n' "${COMPREPLY[@]}"
"""


def offered(folder, *words):
    """What bash offers for the last of these words."""
    words = ["bash", "--norc", "-c", ASK, "bash", SCRIPT, "cardswitch", *words]
    made = subprocess.run(words, cwd=folder, capture_output=True, text=True, check=True)
    if made.stderr:
        raise RuntimeError(made.stderr)
    return sorted(filter(None, made.stdout.split("\n")))


def helped(program, *words):
    """The help of the program, or of one subcommand."""
    return subprocess.run([program, *words, "--help"], capture_output=True, text=True, check=True).stdout


def options_in(text):
    return sorted(re.findall(r"^ +(?:-\w, )?(--[a-z]+)", text, re.MULTILINE))


def commands_in(text):
    return sorted(re.findall(r"^  ([a-z]+)  ", text.split("Commands:")[1].split("Options:")[0], re.MULTILINE))


def cases(program, folder):
    """Each completion that is asked for: its words, and what is wanted."""
    whole = helped(program)
    commands = commands_in(whole)
    yield [""], sorted([*commands, *options_in(whole)])
    yield ["r"], [it for it in commands if it.startswith("r")]
    yield ["help", ""], [it for it in commands if it != "help"]
    for command in commands:
        if command == "help":
            continue
        text = helped(program, command)
        usage = text.split("Usage:")[1].split("\n")[0]
        options, files = options_in(text), sorted(os.listdir(folder)) if re.search(r"(cardswitch \w+|\]) <PATH>", usage) else []
        yield [command, ""], sorted([*options, *files])
        yield [command, "--"], options
        yield [command, "--h"], [it for it in options if it.startswith("--h")]
        for option in {"--flow", "--journal", "--log"} & set(options):
            yield [command, option, ""], sorted(os.listdir(folder))
            yield [command, option, "sw"], ["switch.toml"]
            yield [command, option, "=", "sw"], ["switch.toml"]
    yield ["run", "--sessions", "1"], ["1", "16"]
    yield ["run", "--limit", ""], []
    yield ["run", "--trace", "="], ["json", "text"]
    yield ["run", "--trace", "=", "j"], ["json"]
    yield ["run", "--stats", "e"], ["end"]
    yield ["run", "--stats", "--tr"], ["--trace"]


def main():
    parser = argparse.ArgumentParser(description="Has bash complete command lines.")
    parser.add_argument("--program", default=BUILT)
    given = parser.parse_args()
    if not shutil.which("bash"):
        print("skipped: there is no bash\n0 passed, 0 failed")
        return 0
    passed, failed = 0, 0
    with tempfile.TemporaryDirectory() as folder:
        for name in "switch.toml", "journal.db":
            open(os.path.join(folder, name), "w").close()
        for words, wanted in cases(os.path.abspath(given.program), folder):
            came = offered(folder, *words)
            passed, failed = passed + (came == wanted), failed + (came != wanted)
            if came != wanted:
                print(f"FAILED completions of {words}: wanted {wanted}, came {came}")
    print(f"{passed} passed, {failed} failed")
    return 1 if failed else 0


if __name__ == "__main__":
    sys.exit(main())
