#!/usr/bin/env python3
"""Writes the stored input and output of the program over uploads (stored.TEST_UPLOADS), the answers
by models/upload.py.

    upload_vectors.py            writes these files
    upload_vectors.py --check    says whether they are what the uploads have

A frame is a length in four bytes, high first, and that many bytes, at most 65,536. These are the
announced length in four bytes, high first, and portions: each a length in two bytes, high first, and
that many bytes. The line of a frame has the status after the announcement and after each portion,
then the answer at the end. The last frame is cut, and its line is `cut`. The last lines count the
answers at the end; it fails unless 1, 2, 3, 6, 8, 9, 15, 19 and 20 are among them.
"""
import random
import sys
from collections import Counter

import p12_make
import stored
from der_check import damaged, tree
from models.numbers import FILE_BYTES, LEFT_OVER, LENGTH_FORM, MISSING, OVERRUN, TAG_FORM, TOO_LONG, TOO_MANY
from models.upload import EARLY, SURPLUS, UPLOAD_LEVELS, line, whole
from p12_parts import length_of
from upload_check import CASES, header, levels

NUMBERS = (MISSING, TAG_FORM, LENGTH_FORM, LEFT_OVER, TOO_MANY, TOO_LONG, OVERRUN, SURPLUS, EARLY)
SEED = 1
SMALL, SMALL_BYTES = 400, 12  # uploads of random bytes, and the greatest announced length of one
TREES, TREE_BYTES = 120, 400  # random elements, and the greatest length of one
FILE_LONGEST = 3000  # of the stored files that are taken
FRAME_BYTES = 65536  # of the longest frame
OFTEN = bytes.fromhex("00 00 01 02 03 04 04 05 06 08 30 30 30 31 A0 1F 80 81 82")  # in headers

MADE = dict(p12_make.files())
M = MADE["bench_a"]


def one_by_one(data):
    return [data[k:k + 1] for k in range(len(data))]


def cut(dice, data, count):
    """The data in `count` portions and as many as two empty ones more."""
    ends = sorted(dice.randrange(len(data) + 1) for _ in range(count - 1))
    portions = [data[a:b] for a, b in zip([0] + ends, ends + [len(data)])]
    for _ in range(dice.randrange(3)):
        portions.insert(dice.randrange(len(portions) + 1), b"")
    return portions


# ---- The uploads: (the announced length, the portions).

def bench():
    """Every cut of M and of cases (b) to (h) into two; byte by byte; with empty portions. Cases (i)
    and (j) byte by byte."""
    for letter in "abcdefgh":
        data = MADE["bench_" + letter]
        n, half = len(data), len(data) // 2
        yield from ((n, [data[:k], data[k:]]) for k in range(n + 1))
        yield n, one_by_one(data)
        yield n, [part for byte in one_by_one(data) for part in (b"", byte)] + [b""]
        yield n, [b"", b"", data[:half], b"", data[half:], b"", b""]
    for name in sorted(MADE):
        if name.startswith(("bench_i", "bench_j")):
            yield len(MADE[name]), one_by_one(MADE[name])


def other_lengths():
    """Announced lengths that aren't the number of bytes that come."""
    for n in (0, 1, 2, 3, 23, 46, 48, 49, 100, 303, 12288, FILE_BYTES, FILE_BYTES + 1, 2 ** 31, 2 ** 32 - 1):
        yield n, []
        yield n, [b""]
        yield n, [M]
        yield n, one_by_one(M[:5]) + [M[5:], b"", M]
    for k in range(len(M)):  # an early end
        yield len(M), [M[:k]]
    yield FILE_BYTES, [b"\x04\x82\xFF\xFB", b"\xFF" * 9]
    more = b"\x30\x00\xFF"  # 19, kept by what follows
    yield len(M), [M, more]
    yield len(M), [M + more]
    yield len(M), one_by_one(M + more)
    yield len(M), [M[:20], b"", M[20:] + more[:1], b"", more, M]
    yield len(M), [M, b"", more[:1], M[:1]]
    yield 2, one_by_one(b"\x05\x00" + M[:4])
    yield 2, [b"\x05\x00\x05\x00", b"\x05\x00", b""]
    for k in (0, 5, 6, 30, 44, 45):  # a fault lies before the bytes that are too many, and is kept
        for byte in b"\x00\xFF":
            data = M[:k] + bytes([byte]) + M[k + 1:]
            yield len(M), [data, more, M]
            yield len(M), [data[:k], data[k:k + 1], data[k + 1:] + more, b"", more]


def by_hand():
    """The cases of upload_check.py byte by byte, and two bytes after them."""
    for rows in CASES.values():
        for n, text, _ in rows:
            yield n, one_by_one(bytes.fromhex(text)) + [b"\x04\x00"]


def grown(dice, size):
    """Random elements, all lengths in one byte, that have `size` bytes; a byte left alone is a tag."""
    made = b""
    while len(made) < size:
        tag, left = dice.choice(b"\x04\x05\x30\x31\xA0"), size - len(made)
        if left == 1:
            return made + bytes([tag])
        body = dice.choice([left - 2, dice.randrange(left - 1)])
        made += bytes([tag, body]) + (grown(dice, body) if tag & 0x20 else dice.randbytes(body))
    return made


def small():
    """Random bytes as headers have them, and random elements, half of them with a byte changed; some
    are fewer or more than announced."""
    dice = random.Random(SEED)
    for k in range(SMALL):
        n = dice.randrange(1, SMALL_BYTES + 1)
        data = bytearray(dice.choices(OFTEN, k=n) if k % 4 == 0 else grown(dice, n))
        if k % 4 > 1:
            data[dice.randrange(n)] = dice.choice(OFTEN)
        yield n, one_by_one((bytes(data) + b"\x05\x00")[:n + dice.choice([-1, 0, 0, 0, 0, 0, 0, 0, 1, 2])])


def nested():
    """Elements one inside the other to the last level and past it, their lengths in one, two and three
    bytes; byte by byte, and in three portions."""
    for count in (UPLOAD_LEVELS - 1, UPLOAD_LEVELS, UPLOAD_LEVELS + 1):
        for body in (0, 0x80, 0x100):
            size = body + count * (1 + len(length_of(body)))
            data = bytes.fromhex(levels(count - 1, size)) + b"\x04" + length_of(body) + bytes(body)
            yield size, one_by_one(data)
            yield size, [data[:7], data[7:70], data[70:]]
            yield size + 1, [data[:7], data[7:70], data[70:], b"\x00"]


def trees():
    """Random elements in random portions, as they are and damaged; half of them so far inside others
    that they reach the last levels."""
    dice = random.Random(SEED)
    for k in range(TREES):
        data = tree(dice, 5)
        for _ in range(dice.randrange(14, 20) if k % 4 > 1 else 0):
            data = b"\x30" + length_of(len(data)) + data
        data = (damaged(dice, data) if k % 2 else data)[:TREE_BYTES]
        yield len(data), cut(dice, data, dice.randrange(1, 20))


def files():
    """The stored files in random portions; and with one byte changed so that they are refused, if
    they were not."""
    dice = random.Random(SEED)
    for path in sorted(stored.FILES.glob("*.p12")):
        data = path.read_bytes()
        if len(data) > FILE_LONGEST:
            continue
        yield len(data), cut(dice, data, dice.randrange(1, 40))
        changed = data
        while whole(changed) == whole(data):
            at = dice.randrange(len(data))
            changed = data[:at] + bytes([data[at] ^ dice.randrange(1, 256)]) + data[at + 1:]
        yield len(data), cut(dice, changed, dice.randrange(1, 40))


def long():
    """Near the greatest length: one that passes, and one with a fault in the last bytes that come."""
    dice = random.Random(SEED)
    size = FRAME_BYTES - 4 - 2 * 12
    data = header(0x30, size) + header(0x04, size - 8)
    data += b"\xFF" * (size - 4 - len(data)) + b"\x31\x02\x05\x00"
    yield size, cut(dice, data, 10)
    data = header(0x30, FILE_BYTES) + header(0x04, size - 10)
    data += b"\xFF" * (size - 6 - len(data)) + b"\x05\x00\x00\x05\x00\x00"
    yield FILE_BYTES, cut(dice, data, 10)


GROUPS = (bench, other_lengths, by_hand, small, nested, trees, files, long)


# ---- The stored files.

def frame(n, portions):
    content = n.to_bytes(4, "big") + b"".join(len(part).to_bytes(2, "big") + part for part in portions)
    assert len(content) <= FRAME_BYTES
    return len(content).to_bytes(4, "big") + content


def main(arguments):
    frames, lines, answers = [], [], Counter()
    for group in GROUPS:
        uploads = list(group())
        print("%s: %d" % (group.__name__, len(uploads)))
        frames += [frame(*upload) for upload in uploads]
        lines += [line(*upload) for upload in uploads]
    for one in lines:
        words = one.split("end: ")[1].split()
        answers[int(words[1]) if words[0] == "refused" else "passed"] += 1
    last = frame(len(M), [M[:3], M[3:9]])
    frames.append((len(last) - 4 - 1).to_bytes(4, "big") + last[4:-1])
    lines.append("cut")
    differs = 0
    for name, data in (("stdin", b"".join(frames)), ("stdout", "".join(one + "\n" for one in lines).encode())):
        path = stored.TEST_UPLOADS / name
        print("%s: %d bytes" % (name, len(data)))
        if arguments == ["--check"]:
            differs += path.read_bytes() != data
        else:
            path.parent.mkdir(exist_ok=True)
            path.write_bytes(data)
    print("uploads: %d, passed: %d" % (len(lines) - 1, answers["passed"]))
    print("refused: " + ", ".join("%d: %d" % (number, answers[number]) for number in NUMBERS))
    missing = [number for number in NUMBERS if not answers[number]]
    if missing or differs:
        print("missing: %s" % missing if missing else "the stored files differ")
    return 1 if missing or differs else 0


if __name__ == "__main__":
    sys.exit(main(sys.argv[1:]))
