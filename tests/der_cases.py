#!/usr/bin/env python3
"""Writes the stored input and output of the program over `der` (stored.DER) from two lists of
cases: der_cases.txt, whose answers are written by hand, and der_generated.txt, whose answers are
the model's (models/der.py).

    tests/der_cases.py            writes both files
    tests/der_cases.py --check    says whether they are what the cases give
"""
import sys

import stored


def octets(words):
    out = bytearray()
    for word in words:
        value, _, times = word.partition("*")
        out += bytes([int(value, 16)]) * int(times or 1)
    return bytes(out)


def frame(line):
    call, answer = line.split("=", 1)
    letter, argument, at, end, *words = call.split()
    data = octets(words)
    end = len(data) if end == "." else int(end)
    numbers = b"".join(n.to_bytes(2, "big") for n in (int(at), end, len(data)))
    return letter.encode() + bytes([int(argument, 16)]) + numbers + data, answer.strip() + "\n"


def main():
    lines = [x for name in ("der_cases.txt", "der_generated.txt") for x in (stored.TESTS / name).read_text().splitlines()]
    cases = [frame(x) for x in lines if x.strip() and not x.startswith("#")]
    made = {
        "stdin": b"".join(c[0] for c in cases),
        "stdout": "".join(c[1] for c in cases).encode(),
    }
    differs = 0
    for name, data in made.items():
        path = stored.DER / name
        if "--check" in sys.argv:
            differs += path.read_bytes() != data
        else:
            path.write_bytes(data)
    print(f"{len(cases)} cases, {len(made['stdin'])} bytes" + (", differs" if differs else ""))
    return 1 if differs or len(made["stdin"]) > 65536 else 0


sys.exit(main())
