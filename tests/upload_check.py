#!/usr/bin/env python3
"""Compares the model models/upload.py with two other ways to find out what is certain, and with
answers by hand.

    tests/upload_check.py           for n = 3 the first bytes of TAGS
    tests/upload_check.py --all     for n = 3 every first byte

All words   The whole check on every word of n bytes over an alphabet, one by one, and from that the
            fault that all completions of a prefix have in common. It is compared with `certain` and
            with the samples below, at each prefix that is one byte longer than one with no such
            fault: after the others nothing new can come. Up to n = 3 the alphabet has all 256 bytes,
            and `alphabet` says why fewer are enough from 4 to 7. For n = 8 it lacks some of these,
            which can only make more faults certain, and none is.
Samples     Longer uploads, `certain` compared with some completions. Samples err to one side only:
            two that differ show that nothing is certain, but if all agree another could differ.
By hand     The fault, and the byte with which it is certain and without which it isn't; whole runs.
"""
import functools
import itertools
import multiprocessing
import random
import sys

import p12_make
from der_check import damaged, tree
from models.upload import agreed, certain, fault, line, refused, whole
from p12_parts import length_of
from stored import FILES

SEED = 1
TREES, LONGEST = 150, 400  # random elements that samples are tried on, and the greatest length of one
COPIES = 2  # damaged copies of each stored file
TAGS = bytes.fromhex("00 01 04 1F 30 3F 80 FF")  # first bytes of words of 3 bytes: of each form of a tag

MADE = dict(p12_make.files())
M = MADE["bench_a"]

# -- some completions

EDGES = bytes.fromhex("00 01 04 05 1F 30 3F 7F 80 81 82 83 FF")
FILLS = [bytes.fromhex(fill) for fill in ("00", "04", "FF", "04 00", "00 04", "05 00", "30 00")]

def header(tag, size):
    """The header of an element of `size` bytes, or None: no element has 0, 1, 130 or 259."""
    for body in range(max(size - 4, 0), size - 1):
        if 1 + len(length_of(body)) + body == size:
            return bytes([tag]) + length_of(body)
    return None

def elements(size, depth=2):
    """Some runs of elements of `size` bytes: one primitive element, one constructed element around
    such a run, and an empty element before such a run."""
    if size == 0:
        yield b""
    elif header(0x04, size):
        body = size - len(header(0x04, size))
        yield header(0x04, size) + bytes(body)
        if depth > 0:
            yield from (header(0x30, size) + run for run in elements(body, depth - 1))
    if depth > 0 and size > 2:
        yield from (b"\x05\x00" + run for run in elements(size - 2, depth - 1))

def filled(fill, size):
    return (fill * size)[:size]

@functools.lru_cache(maxsize=8)
def samples(size):
    """Completions by `size` bytes: every two of EDGES before each fill; each fill before the last few
    bytes of another; and runs of elements, after up to three bytes of a fill."""
    heads = [filled(bytes(two), size)[:2] + filled(fill, size - 2)
             for two in itertools.product(EDGES, repeat=2) for fill in FILLS]
    tails = [filled(fill, size - last) + filled(other, last)
             for fill in FILLS for other in FILLS for last in range(1, min(size, 8) + 1)]
    runs = [filled(fill, ahead) + run
            for fill in FILLS for ahead in range(min(size, 3) + 1) for run in elements(size - ahead)]
    return list(dict.fromkeys(heads + tails + runs))

def sampled(n, prefix):
    """The same as `certain`, by samples."""
    return agreed(whole(prefix + more) for more in samples(n - len(prefix)))

def sampled_uploads():
    """(the announced length, the bytes)"""
    rng = random.Random(SEED)
    yield from ((n, bytes.fromhex(data)) for rows in CASES.values() for n, data, _ in rows if n <= LONGEST)
    yield from ((len(M), M[:k] + bytes([rng.randrange(256)]) + M[k + 1:]) for k in range(len(M)))
    for _ in range(TREES):
        data = damaged(rng, tree(rng, 4))[:LONGEST]
        yield len(data) + rng.choice([0, 0, 0, 1, 5]), data
    for path in sorted(FILES.glob("*.p12")):
        for _ in range(COPIES):
            data = path.read_bytes()
            yield len(data), damaged(rng, data[:80]) + data[80:]

def check_samples():
    """At some lengths of each upload, and on both sides of the byte with which its fault is certain."""
    rng, compared, differing = random.Random(SEED), 0, 0
    for n, data in sampled_uploads():
        data = data[:n]
        found = fault(n, data)
        sizes = {rng.randrange(len(data) + 1) for _ in range(3)}
        for size in sorted(sizes | ({max(found[2] - 1, 0), found[2]} if found else set())):
            due, by_samples = certain(n, data[:size]), sampled(n, data[:size])
            compared += 1
            if due != by_samples or due != (found[:2] if found and size >= found[2] else None):
                differing += 1
                print(f"n = {n}, {data[:size].hex(' ')}: certain {due}, samples {by_samples}, the first {found}")
    print(f"samples: {compared} prefixes, {differing} differ")
    return differing

# -- all words

def alphabet(n):
    """Bytes of which the words of n bytes are made. In one word a byte is a tag, a first length byte,
    a later one or one of a body, and the check tells no more apart than these, for n from 4 to 7:
    as a tag 00 (not allowed), 01 (primitive) and 30 (constructed); as a first length byte each length
    to n - 2, 30 (too long), 80 (not allowed), 81 and 82; after 81 the bytes 00 (not the shortest form)
    and 80 (too long), and the same after 82 with 00 and 01. For n = 8 the lengths 3 and 5 and the byte
    80 are left out."""
    if n <= 3:
        return bytes(range(256))
    return bytes([*range(n - 1), 0x30, 0x80, 0x81, 0x82]) if n <= 7 else bytes([0, 1, 2, 4, 6, 0x30, 0x81, 0x82])

def common(n, prefix, letters, seen):
    """The answer that all completions of the prefix over the alphabet have in common, or None. Puts
    into `seen` the answers of all prefixes that are one byte longer than one without such an answer."""
    if len(prefix) == n:
        return whole(prefix)
    longer = [prefix + bytes([byte]) for byte in letters]
    below = [common(n, one, letters, seen) for one in longer]
    if below[0] is not None and below.count(below[0]) == len(below):
        return below[0]
    seen.update(zip(longer, below))
    return None

def compare_words(beginning):
    """How many prefixes of words with this beginning were compared, and how many of them differ."""
    n, prefix = beginning
    seen, differing = {}, 0
    seen[prefix] = common(n, prefix, alphabet(n), seen)
    for longer, answer in seen.items():
        due = answer[1:] if answer and answer[0] == "refused" else None
        by_model, by_samples = certain(n, longer), sampled(n, longer)
        if not due == by_model == by_samples:
            differing += 1
            print(f"n = {n}, {longer.hex(' ')}: all words {due}, certain {by_model}, samples {by_samples}", flush=True)
    return len(seen), differing

def check_words():
    """Words of 3 bytes and more by their first byte, which is a tag; those of 8 begin with 30."""
    tags = range(256) if "--all" in sys.argv else TAGS
    beginnings = [(n, b"") for n in range(3)] + [(3, bytes([tag])) for tag in tags]
    beginnings += [(n, bytes([tag])) for n in range(4, 8) for tag in (0x00, 0x01, 0x30)] + [(8, b"\x30")]
    with multiprocessing.Pool() as pool:
        counts = list(pool.imap_unordered(compare_words, reversed(beginnings)))
    compared, differing = map(sum, zip(*counts))
    print(f"all words: {compared} prefixes, {differing} differ")
    return differing

# -- by hand

def levels(count, size):
    """The headers of `count` constructed elements, one inside the other, that all end at `size`, in
    hex."""
    made = b""
    while count > 0:
        made, count = made + header(0x30, size - len(made)), count - 1
    return made.hex()

CASES = {  # (the announced length, the bytes in hex, the status after them)
    "certain with the announcement": [
        (0, "", "1 at 0 after 0"),
        (65536, "", "9 at 0 after 0"),
        (4294967295, "30 82", "9 at 0 after 0"),
        (1, "", "none"),
        (65535, "", "none"),
    ],
    "a tag in its parent's last byte": [
        (1, "04", "15 at 0 after 1"),
        (1, "30", "15 at 0 after 1"),
        (1, "00", "2 at 0 after 1"),
        (1, "FF", "2 at 0 after 1"),
        (2, "04", "none"),
        (5, "30 03 05 00 04", "15 at 4 after 5"),
        (9, "30 03 05 00 04", "15 at 4 after 5"),
        (9, "30 03 05 00 1F", "2 at 4 after 5"),
        (9, "30 01 A0", "15 at 2 after 3"),
        (9, "30 07 30 01 30", "15 at 4 after 5"),
    ],
    "81 or 82 with too few bytes left": [
        (2, "04 81", "15 at 0 after 2"),
        (2, "04 82", "15 at 0 after 2"),
        (3, "04 82", "15 at 0 after 2"),
        (3, "04 81", "none"),
        (3, "04 81 7F", "3 at 0 after 3"),
        (3, "04 81 80", "15 at 0 after 3"),
        (9, "30 02 04 81", "15 at 2 after 4"),
        (9, "30 02 04 82", "15 at 2 after 4"),
        (9, "30 03 04 82", "15 at 2 after 4"),
        (9, "30 03 04 82 00", "15 at 2 after 4"),
        (9, "30 03 04 81", "none"),
        (9, "30 03 04 81 00", "3 at 2 after 5"),
        (9, "30 02 04 80", "3 at 2 after 4"),
        (9, "30 02 04 83", "3 at 2 after 4"),
    ],
    "82 00": [
        (4, "04 82", "none"),
        (4, "04 82 00", "3 at 0 after 3"),
        (9, "30 04 04 82 00", "3 at 2 after 5"),
        (65535, "30 82 00", "3 at 0 after 3"),
    ],
    "82 and a first octet whose smallest length runs past the parent": [
        (4, "04 82 01", "15 at 0 after 3"),
        (259, "04 82 01", "15 at 0 after 3"),
        (260, "04 82 01", "none"),
        (260, "04 82 01 01", "15 at 0 after 4"),
        (515, "04 82 02", "15 at 0 after 3"),
        (516, "04 82 02", "none"),
        (600, "30 82 02 54 30 82 01 03 04 82 01", "15 at 8 after 11"),
        (600, "30 82 02 54 30 82 01 04 04 82 01", "none"),
        (65283, "04 82 FF", "15 at 0 after 3"),
        (65284, "04 82 FF", "none"),
        (65535, "04 82 FF FB", "none"),
        (65535, "04 82 FF FC", "15 at 0 after 4"),
    ],
    "the same on level 21": [
        (595, levels(20, 595) + "04 82 01", "8 at 80 after 83"),
        (595, levels(20, 595) + "30 82 01", "8 at 80 after 83"),
        (595, levels(20, 595) + "04 82 02", "15 at 80 after 83"),
        (594, levels(20, 594) + "04 82 01", "none"),
        (594, levels(20, 594) + "04 82 01 00", "8 at 80 after 84"),
        (594, levels(20, 594) + "04 82 01 FE", "8 at 80 after 84"),
        (594, levels(20, 594) + "04 82 01 FF", "15 at 80 after 84"),
        (595, levels(19, 595) + "04 82 01", "none"),
    ],
    "level 21": [
        (594, levels(20, 594) + "1F", "2 at 80 after 81"),
        (594, levels(20, 594) + "04 80", "3 at 80 after 82"),
        (594, levels(20, 594) + "30 00", "8 at 80 after 82"),
        (594, levels(20, 594) + "04 81", "none"),
        (594, levels(20, 594) + "04 81 7F", "3 at 80 after 83"),
        (594, levels(20, 594) + "04 81 80", "8 at 80 after 83"),
        (594, levels(20, 594) + "04 82 00", "3 at 80 after 83"),
        (41, levels(20, 41) + "05", "15 at 40 after 41"),
        (42, levels(20, 42) + "05 00", "8 at 40 after 42"),
        (42, levels(20, 42) + "05 01", "15 at 40 after 42"),
        (42, levels(20, 42) + "05 81", "15 at 40 after 42"),
        (42, levels(20, 42) + "05", "none"),
    ],
    "no header inside the outermost element can follow": [
        (3, "05 00", "6 at 2 after 2"),
        (3, "30 00", "6 at 2 after 2"),
        (5, "04 02", "6 at 4 after 2"),
        (5, "30 02", "none"),
        (4, "04 02", "none"),
        (9, "30 02 05 00", "6 at 4 after 4"),
        (9, "30 02 30 00", "6 at 4 after 4"),
        (9, "30 05 30 03 04 01", "6 at 7 after 6"),
        (9, "30 05 30 03 04 00", "none"),
        (9, "30 06 30 02 05 00", "none"),
        (9, "30 06 30 02 05 00 04 00", "6 at 8 after 8"),
        (200, "04 81 80", "6 at 131 after 3"),
        (300, "04 82 01", "none"),
        (300, "04 82 01 00", "6 at 260 after 4"),
        (48, M.hex(), "6 at 47 after 46"),
        (65535, M.hex(), "6 at 47 after 46"),
    ],
}

RUNS = [  # (the announced length, the portions, the statuses, the answer at the end)
    (47, [M], "none, none", "passed 12 elements, level 5"),
    (47, [M[:1], b"", M[1:], b""], "none, none, none, none, none", "passed 12 elements, level 5"),
    (8, [bytes.fromhex("30 06 30 02 05 00 05 00")], "none, none", "passed 4 elements, level 3"),
    (40, [bytes.fromhex(levels(20, 40))], "none, none", "passed 20 elements, level 20"),
    (47, [], "none", "refused 20 at 0 after 0"),
    (47, [M[:46], b""], "none, none, none", "refused 20 at 0 after 46"),
    (47, [M, b"\x00"], "none, none, refused 19 at 0 after 48", "refused 19 at 0 after 48"),
    (2, [b"\x05\x00" + M, b""], "none, refused 19 at 0 after 3, refused 19 at 0 after 3", "refused 19 at 0 after 3"),
    (46, [M[:1], M[1:]], "none, none, refused 15 at 0 after 2", "refused 15 at 0 after 2"),
    (0, [M], "refused 1 at 0 after 0, refused 1 at 0 after 0", "refused 1 at 0 after 0"),
    (65536, [M], "refused 9 at 0 after 0, refused 9 at 0 after 0", "refused 9 at 0 after 0"),
]

def check_by_hand():
    lines = []  # what it is, the answer due, the model's
    for shows, rows in CASES.items():
        for n, text, due in rows:
            data = bytes.fromhex(text)
            found = fault(n, data)
            first = next((size for size in range(len(data) + 1) if certain(n, data[:size])), None)
            given = "none" if found is None else refused(*found).removeprefix("refused ")
            lines.append((f"{shows}: n = {n}, {data.hex(' ')}", (due, found and found[2]), (given, first)))
    for n, portions, statuses, end in RUNS:
        lines.append((f"a run: n = {n}, {portions}", f"{statuses}, end: {end}", line(n, portions)))
    differing = [one for one in lines if one[1] != one[2]]
    for what, due, given in differing:
        print(f"{what}\n  due:   {due}\n  model: {given}")
    print(f"by hand: {len(lines)} answers, {len(differing)} differ")
    return len(differing)

if __name__ == "__main__":
    sys.exit(1 if check_by_hand() + check_samples() + check_words() else 0)
