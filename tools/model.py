#!/usr/bin/env python3
"""The model of the encrypted volume, as a command.

    tools/model.py < SCRIPT

It reads requests from standard input, one to a line, runs them in order on one
fresh volume, and writes the answers to standard output, each at once. The
volume itself is `Volume` in bulwarkle_model/volume.py.

It needs Debian's python3, 3.11, and python3-cryptography.
"""

import argparse
import os
import sys

sys.dont_write_bytecode = True

from bulwarkle_model.script import answer  # noqa: E402
from bulwarkle_model.volume import Volume  # noqa: E402


def main():
    parser = argparse.ArgumentParser(
        description=__doc__, formatter_class=argparse.RawDescriptionHelpFormatter)
    parser.parse_args()
    volume = Volume()
    try:
        for line in sys.stdin.buffer:
            text = answer(volume, line.removesuffix(b"\n"))
            if text is not None:
                sys.stdout.buffer.write(text + b"\n")
                sys.stdout.buffer.flush()
    except BrokenPipeError:
        # The reader has gone; nothing is left to say, not even at exit.
        os.dup2(os.open(os.devnull, os.O_WRONLY), sys.stdout.fileno())


if __name__ == "__main__":
    main()
