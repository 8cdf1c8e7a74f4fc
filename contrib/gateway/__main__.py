#!/usr/bin/python3
"""The command: python3 contrib/gateway [COMMAND] [OPTIONS]. `--help` has all of it."""

import os
import sys

sys.path.insert(0, os.path.dirname(os.path.abspath(__file__)))

from cardgate.command import main  # noqa: E402

if __name__ == "__main__":
    sys.exit(main(sys.argv[1:]))
