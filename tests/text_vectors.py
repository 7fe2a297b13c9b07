#!/usr/bin/env python3
"""Writes the stored input and output of the programs over texts, by models/text.py. In stored.py:

    TEST_TEXTS    calls of import and export, and their answers
    WRAP          a file of a common tool, and its text
    UNWRAP        the same the other way round

    text_vectors.py                  writes these files
    text_vectors.py --check          says whether they are what the calls have
    text_vectors.py --long FOLDER    writes input and output of the same form for the long cases

In TEST_TEXTS a frame is a length in four bytes, high first, and that many bytes. These are the call in
one byte, 0 for import and 1 for export; the length of the buffer in four bytes, high first; and the
text that is imported, or the bytes that are exported. The buffer is full of A5 before the call. The
line of a frame is `N: HEX, rest kept`, with the N bytes that are given, or `refused N at P, kept`;
`changed` in place of `kept` would say that the buffer has another byte than A5 where it should have
that. The last frame is cut, and its line is `cut`. The last lines count the answers; it fails unless
10 and 16 are among them. 9 is among those of the long cases.
"""
import pathlib
import random
import sys
from collections import Counter

import stored
from models.numbers import FILE_BYTES, NOT_TEXT, SHORT_BUFFER, TOO_LONG
from models.text import COLUMNS, EXPORT, FIRST, IMPORT, LAST, answer, line, shown, wrap
from text_check import ALPHABET, CALLS, IMPORTS, body, damaged

NUMBERS = (TOO_LONG, SHORT_BUFFER, NOT_TEXT)
SEED = 1
LENGTHS = range(1, 201)  # of bytes, each exported and imported
NEAR = (1439, 1440, 1441, 2181)  # longer ones: around 30 full lines, and the most with LONGEST_BUFFER
SMALL = (1, 2, 3, 48, 49, 50)  # of bytes whose text is damaged at every offset
VALUES = b"\n\r =-A/_\x00\xFF"  # that are put into a text
LETTERS = ALPHABET.encode()
LONGEST_FRAME, LONGEST_BUFFER = 4000, 3000
LONG = (65534, 65535, 65536, 65537, 70000)
WRAPPED = "openssl-unencrypted"


def dice_of(group):
    return random.Random("%s %d" % (group, SEED))


def letters(dice, count):
    return bytes(dice.choices(LETTERS, k=count))


def small(dice):
    """(how many bytes, their text)"""
    for size in SMALL:
        yield size, wrap(dice.randbytes(size))


# ---- The calls: (the call, the length of the buffer, the text or the bytes).

def by_hand():
    """Those of text_check.py that a frame has room for, RFC 4648's among them."""
    for rows in IMPORTS.values():
        yield from ((IMPORT, 100, text) for text, _ in rows)
    for text, due in IMPORTS["RFC 4648, section 10"]:
        data = bytes.fromhex(due.split(": ")[1])
        yield from ((EXPORT, room, data) for room in (len(text) - 1, len(text), len(text) + 4))
        yield from ((IMPORT, room, text) for room in (len(data) - 1, len(data)))
    yield from ((kind, room, data) for kind, room, data, _ in CALLS if len(data) < 1000)


def lengths():
    """Each length, the buffer exact, one byte short and longer."""
    dice = dice_of("lengths")
    for size in LENGTHS:
        data = dice.randbytes(size)
        text = wrap(data)
        for kind, given, result in ((EXPORT, data, text), (IMPORT, text, data)):
            yield kind, len(result), given
            yield kind, len(result) - 1, given
            yield kind, len(result) + dice.randrange(1, 9), given


def longer():
    dice = dice_of("longer")
    for size in NEAR:
        data = dice.randbytes(size)
        text = wrap(data)
        for kind, given, result in ((EXPORT, data, text), (IMPORT, text, data)):
            yield kind, len(result), given
            yield kind, len(result) - 1, given
        yield IMPORT, LONGEST_BUFFER, text
        yield IMPORT, 0, text[:dice.randrange(len(text))]
        yield IMPORT, size, damaged(dice, text)
    for fill in (b"\x00", b"\xFF", b"\x10\x41\x08", bytes(range(256))):  # all letters among them
        data = (fill * 256)[:256]
        yield EXPORT, 1000, data
        yield IMPORT, 1000, wrap(data)


def buffers():
    """Buffers of no byte and up to one more than is needed, and far longer ones; texts that are refused
    whatever the buffer is."""
    dice = dice_of("buffers")
    for size in (1, 2, 3, 7):
        data = dice.randbytes(size)
        text = wrap(data)
        yield from ((IMPORT, room, text) for room in [*range(size + 2), 64, LONGEST_BUFFER])
        yield from ((EXPORT, room, data) for room in [*range(0, len(text), 7), len(text) + 1, 1000])
        yield from ((IMPORT, room, text[:-1]) for room in (0, size - 1, size, size + 1))
        yield from ((IMPORT, room, b"+" + text) for room in (0, size - 1, size, size + 1))
    yield from ((kind, room, b"") for kind in (IMPORT, EXPORT) for room in (0, 1, 48, 49, LONGEST_BUFFER))


def beginnings():
    """Every beginning of small texts but the whole."""
    for size, text in small(dice_of("beginnings")):
        yield from ((IMPORT, size, text[:k]) for k in range(len(text)))


def without_a_byte():
    for size, text in small(dice_of("without a byte")):
        yield from ((IMPORT, size, text[:k] + text[k + 1:]) for k in range(len(text)))


def with_a_byte_more():
    """One of VALUES, or the byte that follows once more, at every offset; in short texts two of them."""
    dice = dice_of("with a byte more")
    for size, text in small(dice):
        for k in range(len(text) + 1):
            for byte in dice.sample(VALUES + text[k:k + 1], 2 if size <= 3 else 1):
                yield IMPORT, size + 1, text[:k] + bytes([byte]) + text[k:]


def with_another_byte():
    """At every offset the value that is one greater, or some of VALUES; in short texts both."""
    dice = dice_of("with another byte")
    for size, text in small(dice):
        for k in range(len(text)):
            others = [(text[k] + 1) % 256] + dice.sample([byte for byte in VALUES if byte != text[k]], 4)
            for byte in others if size <= 3 else dice.sample(others, 2):
                yield IMPORT, size, text[:k] + bytes([byte]) + text[k + 1:]


def every_byte():
    """Each of the 256 values as each letter of a group."""
    for k in range(4):
        yield from ((IMPORT, 3, body(b"AQIE"[:k] + bytes([byte]) + b"AQIE"[k + 1:] + b"\n")) for byte in range(256))


def unused_bits():
    """All values of the four unused bits and of the two, on a short line, at the end of one of 64 characters
    and behind such a line."""
    dice = dice_of("unused bits")
    for front in (b"", letters(dice, 60), letters(dice, COLUMNS) + b"\n"):
        yield from ((IMPORT, 60, body(front + b"x" + bytes([letter]) + b"==\n")) for letter in LETTERS)
        yield from ((IMPORT, 60, body(front + b"xy" + bytes([letter]) + b"=\n")) for letter in LETTERS[20:36])


def lines():
    """Lines of 1 to 68 letters, as the only line, the first, the second and one between two."""
    dice = dice_of("lines")
    full = letters(dice, COLUMNS) + b"\n"
    for count in range(1, 69):
        one = letters(dice, count) + b"\n"
        yield IMPORT, 150, body(one)
        yield IMPORT, 150, body(one + b"QUJD\n")
        yield IMPORT, 150, body(full + one)
        if count % 4 == 0:
            yield IMPORT, 150, body(one + full)
            yield IMPORT, 150, body(full + one + b"QUI=\n")


def padded():
    """Padding in the middle, and behind a padded line another one."""
    dice = dice_of("padded")
    for count in (4, 8, 60, 64):
        for padding in (b"QQ==", b"QUI="):
            one = letters(dice, count - 4) + padding
            yield IMPORT, 150, body(one + b"\n")
            for more in (b"QUJD", b"QQ==", letters(dice, COLUMNS), b"", b"=", b"==", b"====", b" "):
                yield IMPORT, 150, body(one + b"\n" + more + b"\n")
                yield IMPORT, 150, body(one + more + b"\n")
    for columns in range(5):  # as many letters, then as many `=`
        yield from ((IMPORT, 150, body(b"QUJD"[:columns] + b"=" * count + b"\n")) for count in range(5))


def around():
    """What mail adds or changes, here in texts of one, two and three lines."""
    dice = dice_of("around")
    for size in (10, 60, 100):
        text = wrap(dice.randbytes(size))
        other = wrap(dice.randbytes(5))
        changed = [text + other, text + text, text + b"\n", text + b"\r\n", text + b"\x00", text + b"-", text[:-1]]
        changed += [b"\n" + text, b" " + text, b"> " + text, b"\xEF\xBB\xBF" + text, b"Subject: a file\n\n" + text]
        for end in (b"\r\n", b"\r", b"\n\n", b" \n", b"=\n", b"", b" ", b"\n ", b"\n> "):
            changed.append(text.replace(b"\n", end))
        changed += [text.replace(b"\n", b"\r\n", 1), text[:-1] + b"\r\n", text.lower(), text.upper(), text.swapcase()]
        for label in (b"PKCS7", b"PKCS12 ", b" PKCS12", b"pkcs12", b"Pkcs12", b"PKCS 12", b"PKCS#12", b"PFX", b"P12",
                      b"CERTIFICATE", b"", b"PKCS12-", b"PKCS1", b"PKCS123"):
            changed += [text.replace(b"PKCS12", label), label.join(text.rsplit(b"PKCS12", 1))]
        for word in (b"begin", b"Begin", b"END", b"BEGIN ", b" BEGIN", b""):
            changed.append(text.replace(b"BEGIN", word))
        for word in (b"end", b"End", b"BEGIN", b"END ", b" END", b""):
            changed.append(text.replace(b"END", word))
        for dashes in (b"----", b"------", b"=====", b""):
            changed.append(text.replace(b"-----", dashes))
        changed += [text[len(FIRST):], text[:-len(LAST)], text[len(FIRST):-len(LAST)], FIRST + text, text + LAST]
        for more in (b"\n", b"=\n", b"Proc-Type: 4,ENCRYPTED\n\n"):
            changed.append(FIRST + more + text[len(FIRST):])
        yield from ((IMPORT, 150, one) for one in changed)


def at_random():
    """Texts with up to three bytes changed, put in or taken out, or cut; some with the bytes of a line moved to
    another one."""
    dice = dice_of("at random")
    for k in range(160):
        text = wrap(dice.randbytes(dice.randrange(1, 160)))
        if k % 4 == 0:  # 0A somewhere else
            inner = text[len(FIRST):-len(LAST)].replace(b"\n", b"")
            columns = dice.choice([4, 16, 48, 60, 63, 64, 65, 68, 72, 76])
            text = body(b"".join(inner[at:at + columns] + b"\n" for at in range(0, len(inner), columns)))
            yield IMPORT, 160, text
        else:
            yield IMPORT, 160, damaged(dice, text)


GROUPS = (by_hand, lengths, longer, buffers, beginnings, without_a_byte, with_a_byte_more, with_another_byte,
          every_byte, unused_bits, lines, padded, around, at_random)


def calls():
    """All of them, each once: (the group's name, the calls)"""
    seen = set()
    for group in GROUPS:
        made = [call for call in dict.fromkeys(group()) if call not in seen]
        seen.update(made)
        yield group.__name__.replace("_", " "), made


# ---- The long cases.

def long_calls():
    """Bytes and texts around the greatest length. The buffer is exact, one byte short, and of no byte."""
    dice = dice_of("long")
    for size in LONG:
        data = dice.randbytes(size)
        text = wrap(data)
        yield from ((EXPORT, room, data) for room in (len(text), len(text) - 1))
        yield from ((IMPORT, room, text) for room in (size, size - 1))
        if size > FILE_BYTES:
            yield EXPORT, 0, data
            yield IMPORT, 0, text
        far, end = len(FIRST) + 1000 * (COLUMNS + 1), text.index(LAST) - 1  # where a line begins, and the last ends
        changed = [text[:-1], text[:end], text[:-1] + b"\r", b" " + text, text.replace(b"\n", b"\r\n")]
        changed += [text + more for more in (b"\n", text)]
        changed += [text[:k] + b"\n" + text[k:] for k in (far, far + 60)]
        changed += [text[:k] + b"*" + text[k + 1:] for k in (len(FIRST), far - 1, far + 10, end - 3, end, end + 6)]
        padding = text.find(b"=")
        if padding >= 0:  # unused bits, and a padding that isn't exact
            bits = LETTERS.index(text[padding - 1]) + 1
            changed += [text[:padding - 1] + LETTERS[bits:][:1] + text[padding:], text[:end - 1] + text[end:]]
        yield from ((IMPORT, size, one) for one in changed)
    data = dice.randbytes(LONG[-1])
    text = wrap(data)
    near = len(wrap(bytes(FILE_BYTES)))  # of the longest text that is imported
    yield from ((IMPORT, FILE_BYTES, text[:k]) for k in (near - 1, near, near + 1))
    yield IMPORT, FILE_BYTES, wrap(bytes(FILE_BYTES))
    yield IMPORT, FILE_BYTES, bytes(FILE_BYTES)
    yield IMPORT, FILE_BYTES, FIRST + b"A" * FILE_BYTES
    yield EXPORT, near, bytes(FILE_BYTES)


def long_cases():
    """(the call, the length of the buffer, the text or the bytes, the answer). An answer is that of
    models/text.py: ("given", bytes) or ("refused", number, offset)."""
    for call in long_calls():
        yield *call, answer(*call)


# ---- The stored files.

def frame(kind, room, data):
    content = bytes([kind]) + room.to_bytes(4, "big") + data
    return len(content).to_bytes(4, "big") + content


def write_long(folder):
    cases = list(long_cases())
    folder.mkdir(parents=True, exist_ok=True)
    (folder / "stdin").write_bytes(b"".join(frame(*call) for *call, _ in cases))
    (folder / "stdout").write_text("".join(shown(due) + "\n" for *_, due in cases))
    print("long cases: %d" % len(cases))
    return 0


def contents(frames, printed):
    """(the folder, its input, its output) of each program"""
    data = (stored.FILES / (WRAPPED + ".p12")).read_bytes()
    yield stored.TEST_TEXTS, b"".join(frames), "".join(one + "\n" for one in printed).encode()
    yield stored.WRAP, data, wrap(data)
    yield stored.UNWRAP, wrap(data), data


def main(arguments):
    if arguments[:1] == ["--long"]:
        return write_long(pathlib.Path(arguments[1]))
    frames, printed, answers = [], [], Counter()
    for name, made in calls():
        print("%s: %d" % (name, len(made)))
        frames += [frame(*call) for call in made]
        printed += [line(*call) for call in made]
        assert all(len(frame(*call)) <= LONGEST_FRAME and call[1] <= LONGEST_BUFFER for call in made), name
    for one in printed:
        words = one.split()
        answers[int(words[1]) if words[0] == "refused" else "given"] += 1
    frames.append(b"\x00\x00\x00\x04" + frame(IMPORT, 3, b"")[4:8])  # it ends within the length of the buffer
    printed.append("cut")
    differs = 0
    for folder, given, due in contents(frames, printed):
        for path, data in ((folder / "stdin", given), (folder / "stdout", due)):
            if arguments == ["--check"]:
                differs += path.read_bytes() != data
            else:
                path.parent.mkdir(exist_ok=True)
                path.write_bytes(data)
    print("calls: %d, done: %d" % (len(printed) - 1, answers["given"]))
    print("refused: " + ", ".join("%d: %d" % (number, answers[number]) for number in NUMBERS))
    missing = [number for number in NUMBERS if not answers[number] and number != TOO_LONG]
    if missing or differs:
        print("missing: %s" % missing if missing else "the stored files differ")
    return 1 if missing or differs else 0


if __name__ == "__main__":
    sys.exit(main(sys.argv[1:]))
