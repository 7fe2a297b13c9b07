#!/usr/bin/env python3
"""Runs a program that checks the upload on its standard input on each stored upload, the portions
joined, and compares its line with the answer at the end that is stored.

    tests/upload_programs.py PROGRAM [WORD ..]    the words are the program's arguments

The input is the announced length in four bytes, high first, and the bytes; the line is
`passed N elements, level L`, or `refused N at P after B bytes`.
"""
import subprocess
import sys

import stored


def uploads():
    """Each stored upload, as a program reads it, and the line that is due."""
    frames = (stored.TEST_UPLOADS / "stdin").read_bytes()
    for line in (stored.TEST_UPLOADS / "stdout").read_text().splitlines():
        size = int.from_bytes(frames[:4], "big")
        content, frames = frames[4:4 + size], frames[4 + size:]
        if line == "cut":
            return
        joined, rest = content[:4], content[4:]
        while rest:
            past = 2 + int.from_bytes(rest[:2], "big")
            joined, rest = joined + rest[2:past], rest[past:]
        end = line.split("end: ")[1]
        yield joined, end + (" bytes" if end.startswith("refused") else "")


def main(command):
    count = differing = 0
    for data, due in uploads():
        printed = subprocess.run(command, input=data, capture_output=True).stdout.decode()
        count += 1
        if printed != due + "\n":
            differing += 1
            print("%s...\n  due:     %s\n  printed: %s" % (data[:40].hex(" "), due, printed.strip()))
    print("%s: %d uploads, %d differ" % (" ".join(command).split("/")[-1], count, differing))
    return 1 if differing or not count else 0


if __name__ == "__main__":
    sys.exit(main(sys.argv[1:]) if len(sys.argv) > 1 else 2)
