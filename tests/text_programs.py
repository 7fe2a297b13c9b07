#!/usr/bin/env python3
"""Runs the programs over texts, and those that list and pair files, and compares what they print with
what models/text.py, models/reader.py and models/pairs.py have.

    tests/text_programs.py WRAP UNWRAP LIST PAIRS    the four programs

wrap      reads at most 65,536 bytes and writes their text.
unwrap    reads at most 88,791 bytes, one more than the longest text that is imported, and writes the
          bytes that are wrapped. Where so many were read and a text could go on with them, the line is
          that of 9 at 0: no text that begins so could be imported.
list, pairs
          read at most 88,791 bytes. Where these are a text that is imported, they do with the bytes
          that are wrapped what they do with a file, and standard error has the line
          `unwrapped N bytes of text: ranges are of these bytes`. Where not, they take the bytes as
          they are, and standard error is empty.

A refusal is the line `refused N at P`, whatever the program.
"""
import random
import subprocess
import sys

import p12_make
import stored
import text_vectors
from models import pairs, reader
from models.numbers import FILE_BYTES, NOT_TEXT, TOO_LONG
from models.text import EXPORT, IMPORT, exported, imported, wrap
from text_check import damaged

SEED = 1
LONGEST_TEXT = len(wrap(bytes(FILE_BYTES)))
EACH = 8  # of the groups of vectors with more calls than MANY, each eighth one
MANY = 400
DAMAGED = 2  # damaged texts of each stored file
MADE = ("bench_a", "bench_b", "pairs_all", "bytes_65535", "bytes_65536", "length_due_65235")  # of p12_make.py


# ---- What is due: (standard output, standard error).

def written(answer):
    return (answer[1] if answer[0] == "given" else b"refused %d at %d\n" % answer[1:]), b""


def due_wrap(given):
    return written(exported(given[:FILE_BYTES + 1], LONGEST_TEXT))


def due_unwrap(given):
    answer = imported(given[:LONGEST_TEXT + 1], FILE_BYTES)
    if answer == ("refused", NOT_TEXT, LONGEST_TEXT + 1):
        answer = "refused", TOO_LONG, 0
    return written(answer)


def opened(given):
    """The bytes that are listed, and what standard error has."""
    given = given[:LONGEST_TEXT + 1]
    answer = imported(given, FILE_BYTES)
    if answer[0] == "refused":
        return given, b""
    return answer[1], b"unwrapped %d bytes of text: ranges are of these bytes\n" % len(answer[1])


def due_list(given):
    data, error = opened(given)
    return reader.listing(reader.read(data)).encode(), error


def due_pairs(given):
    data, error = opened(given)
    return pairs.pairs(data, reader.read(data)).encode(), error


# ---- What the programs are given.

def vectors(kind):
    """Texts or bytes, each once: those of text_vectors.py and the long cases, and longer ones than any
    program reads."""
    calls = []
    for _, made in text_vectors.calls():
        calls += made if len(made) <= MANY else made[::EACH]
    calls += text_vectors.long_calls()
    longest = random.Random(SEED).randbytes(100000)
    calls += [(EXPORT, 0, longest[:FILE_BYTES + more]) for more in (-1, 0, 1, 2)] + [(EXPORT, 0, longest)]
    text = wrap(longest)
    calls += [(IMPORT, 0, text[:LONGEST_TEXT + more]) for more in (-1, 0, 1, 2, 3, 4, 1000)]
    calls += [(IMPORT, 0, text), (IMPORT, 0, text[:-1]), (IMPORT, 0, text[:LONGEST_TEXT + 1] + b"*" + text[:1000])]
    for k in (0, 60, LONGEST_TEXT - 1, LONGEST_TEXT, LONGEST_TEXT + 1):
        calls.append((IMPORT, 0, text[:k] + b"*" + text[k + 1:]))
    for more in (b"\n", wrap(b"\x00"), text):  # 88,790 bytes are a text, and others follow
        calls.append((IMPORT, 0, wrap(longest[:FILE_BYTES]) + more))
    return dict.fromkeys(data for call, _, data in calls if call == kind)


def files():
    """Files and their texts, as they are and damaged; texts of texts; long ones; and what is neither."""
    dice, made = random.Random(SEED), dict(p12_make.files())
    yield from (b"", b"\n", wrap(b"\x00"), wrap(b"\x30\x00"), b"-----BEGIN PKCS12-----\n")
    for path in sorted(stored.FILES.glob("*.p12")):
        data = path.read_bytes()
        text = wrap(data)
        yield from (data, text, wrap(text), data + text)
        yield from (text[:-1], text + b"\n", b"\n" + text, text.replace(b"\n", b"\r\n"))
        yield from (damaged(dice, text) for _ in range(DAMAGED))
        yield wrap(damaged(dice, data))
    for name in MADE:
        data = made[name]
        text = wrap(data)
        yield from (data, text, text[:-1], text + b"\n", text + text)
    text = wrap(bytes(70000))
    yield from (text, text[:LONGEST_TEXT], text[:LONGEST_TEXT + 1])
    yield from (bytes(FILE_BYTES), bytes(FILE_BYTES + 1), bytes(LONGEST_TEXT), bytes(100000))


# ---- The comparison.

def run(program, given):
    done = subprocess.run([program], input=given, capture_output=True)
    return done.stdout, done.stderr


def compare(program, inputs, due):
    """How many outputs of the program differ from what is due."""
    count = differing = 0
    for given in inputs:
        printed, expected = run(program, given), due(given)
        count += 1
        if printed != expected:
            differing += 1
            print("%d bytes, %s..." % (len(given), given[:80]))
            for what, (output, error) in (("due:    ", expected), ("printed:", printed)):
                print("  %s %s, standard error %s" % (what, output[:200], error))
    print("%s: %d inputs, %d differ" % (program.split("/")[-1], count, differing))
    return differing if count else 1


def compare_files(program):
    """How many files the program lists otherwise than their texts."""
    paths, differing = sorted(stored.FILES.glob("*.p12")), 0
    for path in paths:
        data = path.read_bytes()
        if run(program, wrap(data))[0] != run(program, data)[0]:
            differing += 1
            print("%s: another output for its text" % path.name)
    print("%s: %d files and their texts, %d differ" % (program.split("/")[-1], len(paths), differing))
    return differing if paths else 1


def main(wrapper, unwrapper, lister, pairer):
    differing = compare(wrapper, vectors(EXPORT), due_wrap) + compare(unwrapper, vectors(IMPORT), due_unwrap)
    differing += compare(lister, files(), due_list) + compare(pairer, files(), due_pairs)
    differing += compare_files(lister) + compare_files(pairer)
    return 1 if differing else 0


if __name__ == "__main__":
    sys.exit(main(*sys.argv[1:]) if len(sys.argv) == 5 else 2)
