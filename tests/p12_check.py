#!/usr/bin/env python3
"""Checks models/reader.py: against the answers that p12_make.py states, and, for
accepted files, against `openssl asn1parse`.

    p12_check.py [FILE ..]     FILE: further files, such as the sources' ones
"""
import pathlib
import re
import shutil
import subprocess
import sys
import tempfile
from collections import Counter

import p12_make
import p12_pairs_make
import p12_tools
import p12_vectors
from models import reader
from stored import FILES

LINE = re.compile(r" *(\d+):d=(\d+) +hl=(\d+) +l= *(\d+) (cons|prim): (.*)")


def parse(arguments, data=None, base=0):
    """openssl's elements: (at, depth, start, end, text), offsets from base."""
    run = subprocess.run(["openssl", "asn1parse", "-inform", "DER", "-i"]
                         + arguments, input=data, capture_output=True)
    if run.returncode:
        raise ValueError(run.stderr.decode().strip())
    result = []
    for line in run.stdout.decode("latin-1").splitlines():
        found = LINE.match(line)
        if found:
            at, depth, header, size = (int(found[n]) for n in range(1, 5))
            result.append((base + at, depth, base + at + header,
                           base + at + header + size, found[6].strip()))
    return result


def elements(path, data):
    """All elements: the outer ones, then those in the data OCTET STRINGs."""
    outer = parse(["-in", str(path)])
    string = next(e for e in outer
                  if e[1] == 3 and e[4].startswith("OCTET STRING"))
    safes = parse([], data[string[2]:string[3]], string[2])
    result, plain = outer + safes, False
    for at, depth, start, end, text in safes:
        if depth == 2 and text.startswith("OBJECT"):
            plain = text.endswith(":pkcs7-data")
        if depth == 3 and plain and text.startswith("OCTET STRING"):
            result += parse([], data[start:end], start)
    return result, string


def agree(path, data, reading):
    """The faults of a reading as openssl sees it."""
    found, string = elements(path, data)
    bodies = {(data[e[0]], e[2], e[3]) for e in found}
    wholes = {(e[0], e[3]) for e in found}
    faults = []

    def ask(kept, what):
        if not kept:
            faults.append(what)

    def body(tag, pair, what):
        ask((tag, *pair) in bodies, what)

    def cipher(row, tag, what):
        body(0x06, row.algorithm, what + " algorithm")
        parent = next((e for e in found if data[e[0]] == 0x30
                       and e[2] + 2 == row.algorithm[0]), None)
        ask(parent and row.parameters == (row.algorithm[1], parent[3])
            and (row.parameters in wholes
                 or row.parameters[0] == row.parameters[1]),
            what + " parameters")
        for name in tag:
            body(tag[name], getattr(row, name), what + " " + name)

    ask(len(found) == reading.opened, "opened count")
    ask(2 * reading.opened <= len(data), "at most half")
    ask(reading.mac_input == (string[2], string[3]), "mac input")
    cipher(reading.mac, {"digest": 0x04, "salt": 0x04}, "mac")
    for row in reading.safes:
        if row.kind == "encrypted":
            cipher(row, {"ciphertext": 0x80}, "safe")
    for row in reading.bags:
        if row.kind == "shrouded key":
            cipher(row, {"ciphertext": 0x04}, "bag")
        elif row.kind == "key":
            ask(row.key in wholes, "key")
        elif row.kind != "nested":
            body(0x06, row.type, "type")
            ask(row.value in wholes, "value")
    for row in reading.attributes:
        body(0x06, row.type, "attribute type")
        body(0x31, row.values, "attribute values")
    return faults


def main(arguments):
    wrong, numbers, with_openssl = 0, Counter(), 0
    files = [(pathlib.Path(name).name, pathlib.Path(name).read_bytes(), "none")
             for name in arguments]
    # damaged files have no answer of their own: of those that are accepted, the offsets are compared
    files += [(name, data, "damaged") for name, data
              in p12_make.damaged(1, 200) + p12_make.mended(1, 200) + list(p12_pairs_make.damaged(1, 2))]
    stored = [path.read_bytes() for path in sorted(FILES.glob("source-*.p12"))]
    stored += [data for _, data, _ in p12_tools.stored()]
    files += [("stored_damaged_%d" % n, data, "damaged")
              for n, data in enumerate(p12_vectors.changed(stored))]
    if not shutil.which("openssl"):
        print("openssl isn't here: nothing to compare with")
        return 2
    for name, data, expected in p12_make.cases() + files:
        result = reader.read(data)
        refused = isinstance(result, reader.Refusal)
        got = tuple(result) if refused else None
        numbers[got[0] if got else "accepted"] += 1
        if expected not in ("none", "damaged") and got != expected:
            wrong += 1
            print("%s: expected %s, got %s" % (name, expected, got))
        if expected == "none":
            print("%s: %s" % (name, "refused %d at %d" % got if got
                              else "accepted"))
        if not refused:
            with tempfile.NamedTemporaryFile() as file:
                file.write(data)
                file.flush()
                try:
                    faults = agree(file.name, data, result)
                    with_openssl += 1
                except ValueError as error:
                    faults = []
                    print("%s: openssl can't: %s" % (name, error))
            wrong += bool(faults)
            for fault in faults:
                print("%s: openssl differs: %s" % (name, fault))
    print("answers: " + ", ".join("%s %d" % (n, numbers[n])
                                  for n in sorted(numbers, key=str)))
    print("%d accepted files compared with openssl, %d files wrong"
          % (with_openssl, wrong))
    return 1 if wrong else 0


if __name__ == "__main__":
    sys.exit(main(sys.argv[1:]))
