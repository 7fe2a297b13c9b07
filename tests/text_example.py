#!/usr/bin/env python3
"""Runs the example over texts (examples/c/text.c) on what tests/text_programs.py gives to `unwrap`, and with -w on
what it gives to `wrap`, and compares.

    tests/text_example.py PROGRAM

What is given is due on standard output, with exit status 0; the line of a refusal on standard error, with 1.
"""
import re
import subprocess
import sys

from models.text import EXPORT, IMPORT
from text_programs import due_unwrap, due_wrap, vectors


def compare(command, inputs, due):
    """How many outputs differ from what is due."""
    differing = 0
    for given in inputs:
        done = subprocess.run(command, input=given, capture_output=True)
        output, _ = due(given)
        refusal = re.fullmatch(rb"refused \d+ at \d+\n", output)
        expected = (b"", output, 1) if refusal else (output, b"", 0)
        printed = done.stdout, done.stderr, done.returncode
        if printed != expected:
            differing += 1
            print("%d bytes, %s..." % (len(given), given[:80]))
            for what, (out, error, status) in (("due:    ", expected), ("printed:", printed)):
                print("  %s %s, standard error %s, status %d" % (what, out[:200], error, status))
    print("%s: %d inputs, %d differ" % (" ".join(command).split("/")[-1], len(inputs), differing))
    return differing if inputs else 1


def main(program):
    differing = compare([program], vectors(IMPORT), due_unwrap) + compare([program, "-w"], vectors(EXPORT), due_wrap)
    return 1 if differing else 0


if __name__ == "__main__":
    sys.exit(main(sys.argv[1]) if len(sys.argv) == 2 else 2)
