#!/usr/bin/env python3
"""Turns hex text into bytes, so that commands of the program `moves` can be typed.

    tools/unhex.py < commands.txt | target/bin/moves

Digits come in pairs, a pair for each byte; spaces and line ends may stand between bytes, and a # begins a remark up to the line's end.
"""
import re
import sys


def bytes_of(text):
    """The bytes, or the number of a line from 1 and what is wrong there."""
    found = bytearray()
    for number, line in enumerate(text.splitlines(), 1):
        for word in line.split("#")[0].split():
            if not re.fullmatch("([0-9a-fA-F]{2})+", word):
                return None, f"{number}: `{word}` isn't pairs of hex digits"
            found += bytes.fromhex(word)
    return bytes(found), None


def main():
    if len(sys.argv) != 1:
        sys.exit(__doc__)
    found, fault = bytes_of(sys.stdin.buffer.read().decode("utf-8", "replace"))
    if fault is not None:
        print(f"standard input:{fault}", file=sys.stderr)
        return 2
    sys.stdout.buffer.write(found)
    return 0


if __name__ == "__main__":
    sys.exit(main())
