#!/usr/bin/env python3
"""Takes the whole PFX files out of the source texts.

    p12_sources.py FOLDER DOCUMENT ..

The texts give each file as lines of base64, 64 characters each but the last.
In 000 they stand between <![CDATA[ and ]]>, in 001 they are indented and may
be cut by the foot and head of a page, in 002 they stand bare.  They also hold
base64 of a certificate and of bare keys: those are no PFX and are passed over.
A PFX is a SEQUENCE that begins with INTEGER 3; its length must be that of
the decoded bytes exactly.  Files are written as 000_1.p12 and so on, from the
document's number and the order in which they stand.
"""
import base64
import binascii
import pathlib
import re
import sys

LINE = re.compile(r"[A-Za-z0-9+/]{1,64}={0,2}\Z")
PAGE = re.compile(r".*\[Page \d+\]\Z|Internet-Draft .*\d{4}\Z")


def blocks(text):
    """Every run of base64 lines: full lines of 64, then the last one.  Blank
    lines and the foot and head of a page don't end a run."""
    run = []
    for line in text.splitlines():
        line = line.strip(" \t\f\r")
        if not line or PAGE.match(line):
            continue
        if LINE.match(line) and len(line) <= 64:
            run.append(line)
            if len(line) == 64 and not line.endswith("="):
                continue
        if run:
            yield "".join(run)
        run = []
    if run:
        yield "".join(run)


def sequence_body(data):
    """Where the body of a SEQUENCE starts and its length, or None."""
    if len(data) < 4 or data[0] != 0x30:
        return None
    if data[1] < 0x80:
        return 2, data[1]
    more = data[1] - 0x80
    return 2 + more, int.from_bytes(data[2:2 + more], "big")


def pfx_files(text):
    """(data, whole) for each block that decodes to a PFX."""
    for block in blocks(text):
        try:
            data = base64.b64decode(block, validate=True)
        except binascii.Error:
            data = base64.b64decode(block[:len(block) // 4 * 4])
        header = sequence_body(data)
        if header and data[header[0]:header[0] + 3] == b"\x02\x01\x03":
            yield data, sum(header) == len(data)


def main(arguments):
    folder, documents = pathlib.Path(arguments[0]), arguments[1:]
    folder.mkdir(parents=True, exist_ok=True)
    cut = 0
    for document in documents:
        path = pathlib.Path(document)
        found = list(pfx_files(path.read_text(encoding="utf-8")))
        print("%s: %d files" % (path.name, len(found)))
        for number, (data, whole) in enumerate(found, 1):
            name = "%s_%d.p12" % (path.name[:3], number)
            (folder / name).write_bytes(data)
            cut += not whole
            print("  %s: %d bytes, %s" % (
                name, len(data),
                "decodes completely" if whole else "NOT complete"))
    return 1 if cut else 0


if __name__ == "__main__":
    sys.exit(main(sys.argv[1:]))
