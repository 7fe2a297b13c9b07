#!/usr/bin/env python3
"""Writes the stored input and output of the program over tables (stored.TEST_TABLES), a frame for
each table and the answers that models/writer.py gives, and tests/tables.txt, the name and the
answer of each frame, in order.

    p12_tables.py            writes these files
    p12_tables.py --check    says whether they are what the tables give

Every answer is also compared with models/reader.py, but for files of more than 65,535 bytes, which
it doesn't read: a table whose ranges lie in the bytes is sound if and only if the file that is
written without any test is read back as what the table shows. docs/TESTS.md has the frame. The element
count and the MAC input range aren't in it.
"""
import sys
from collections import Counter

import p12_tables_make
import stored
from models import reader, writer
from models.numbers import FILE_BYTES, NOT_SOUND, SHORT_BUFFER, TOO_LONG
from models.writer import Table
from p12_tables_make import ranges_of
from p12_tables_random import at_random

NUMBERS = (TOO_LONG, SHORT_BUFFER, NOT_SOUND)   # those that writing gives
GROUPS = p12_tables_make.GROUPS + (at_random,)


def pair(*numbers):
    return b"".join(number.to_bytes(2, "big") for number in numbers)


def safe_row(row):
    return bytes([writer.SAFE_KINDS.index(row.kind)]) + pair(*row.identifier, *row.parameters, *row.value)


def bag_row(row):
    enclosing = bytes(3) if row.enclosing is None else b"\x01" + pair(row.enclosing)
    return (bytes([writer.BAG_KINDS.index(row.kind)]) + pair(row.safe) + enclosing
            + pair(*row.identifier, *row.parameters, *row.value) + bytes([row.has_set]))


def attribute_row(row):
    return pair(row.bag, *row.identifier, *row.values)


def mac_fields(mac):
    return pair(*mac.identifier, *mac.parameters, *mac.value, *mac.salt) + mac.iterations.to_bytes(4, "big")


def frame(case):
    table = case.table
    body = case.capacity.to_bytes(4, "big") + pair(table.safe_count, table.bag_count, table.attribute_count)
    body += bytes([len(table.safes), len(table.bags), len(table.attributes)])
    body += b"".join([*map(safe_row, table.safes), *map(bag_row, table.bags), *map(attribute_row, table.attributes)])
    body += mac_fields(table.mac) + case.data
    return len(body).to_bytes(4, "big") + body


def lines(answer):
    what, value = answer
    if what == "refused":
        return "refused %d at 0, buffer as before\n" % value
    return "length %d, rest as before\n%s\n" % (len(value), value.hex())


def by_reader(table, data):
    """Whether a table is sound as the reader sees it; None of a file that is too long for it."""
    if any(not start <= end <= len(data) for start, end in used_ranges(table)):
        return False
    file = writer.unasked(table, data)
    if len(file) > FILE_BYTES:
        return None
    reading = reader.read(file)
    if isinstance(reading, reader.Refusal):
        return False
    return writer.values(writer.of_reading(reading), file) == writer.values(table, data)


def used_ranges(table):
    """The ranges of the rows below the counts."""
    counted = Table(table.safes[:table.safe_count], table.bags[:table.bag_count], table.attributes[:table.attribute_count], table.mac)
    return [getattr(row, part) for row, part in ranges_of(counted)]


# A frame with too few bytes for its rows: the program ends there, so it is the last one.
CUT = (33).to_bytes(4, "big") + bytes(10) + b"\x01\x00\x00" + bytes(20)


def main(arguments):
    frames, answers, names, numbers, wrong = [], [], [], Counter(), 0
    for group in GROUPS:
        cases = list(group())
        print("%s: %d" % (group.__name__.replace("_", " "), len(cases)))
        for case in cases:
            answer = writer.write(case.table, case.data, case.capacity)
            if by_reader(case.table, case.data) not in (None, answer != ("refused", NOT_SOUND)):
                wrong += 1
                print("%s: the reader says otherwise than %s" % (case.name, answer[1]))
            frames.append(frame(case))
            answers.append(lines(answer))
            said = "%d bytes" % len(answer[1]) if answer[0] == "length" else str(answer[1])
            names.append("%s: %s\n" % (case.name, said))
            numbers["length" if answer[0] == "length" else answer[1]] += 1
    frames.append(CUT)
    answers.append("cut\n")
    names.append("a row more than the frame has: cut\n")
    for path, data in ((stored.TEST_TABLES / "stdin", b"".join(frames)),
                       (stored.TEST_TABLES / "stdout", "".join(answers).encode()),
                       (stored.TESTS / "tables.txt", "".join(names).encode())):
        if arguments == ["--check"]:
            wrong += path.read_bytes() != data
        else:
            path.write_bytes(data)
    print("frames: %d, written: %d, refused: %s, cut: 1" % (
        len(frames), numbers["length"], ", ".join("%d: %d" % (n, numbers[n]) for n in NUMBERS)))
    wrong += sum(not numbers[n] for n in ("length", *NUMBERS))
    if wrong:
        print("wrong: %d" % wrong)
    return 1 if wrong else 0


if __name__ == "__main__":
    sys.exit(main(sys.argv[1:]))
