#!/usr/bin/python3
"""An engine that answers at once and keeps nothing, for measuring what the gateway costs (measure.py --fast).

    fast_engine.py run [OPTION ..] --header N
"""

import os
import sys


def answers(header, contents):
    """The frames that answer these contents: authorizations with the fields of the tests, and network tests."""
    for content in contents:
        head, message = content[:header], content[header:]
        if message[:4] == b"0100" and message[4:20] == b"7220000000808000":
            text = head + b"01107220000006808000" + message[20:-11] + message[-17:-11] + b"00" + message[-11:]
        elif message[:4] == b"0800":
            text = head + b"08108020000002000000" + b"0400000000000000" + message[36:42] + b"00" + message[42:]
        elif message[:4] in (b"0400", b"0420", b"0421"):
            text = (
                head
                + message[:2]
                + b"%c0" % (message[2] | 1)
                + b"F220000002808000"
                + message[20:-53]
                + b"00"
                + message[-53:]
            )
        else:
            continue
        yield b"%04d" % len(text) + text


def main():
    if "--help" in sys.argv:
        print("      --header <N>\n      --unordered\n      --threads\n      --sessions <N>\n")
        return
    header, kept = int(sys.argv[sys.argv.index("--header") + 1]), b""
    while data := os.read(0, 65_536):
        kept += data
        contents, at = [], 0
        while len(kept) >= at + 4 and len(kept) >= (end := at + 4 + int(kept[at : at + 4])):
            contents.append(kept[at + 4 : end])
            at = end
        kept = kept[at:]
        os.write(1, b"".join(answers(header, contents)))


if __name__ == "__main__":
    main()
