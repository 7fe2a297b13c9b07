#!/usr/bin/env python3
"""Compares the model models/text.py with other ways to find out what a text can begin with, and with
answers by hand.

    tests/text_check.py

By hand     Texts and bytes, and what import and export answer; RFC 4648's test vectors.
Letters     The text of bytes, compared with letters that are worked out bit by bit, and with those
            of `openssl base64`; and back.
All bytes   The texts of all bytes of certain forms, made by `wrap` alone. After beginnings of some
            of them each of the 256 bytes is tried: `begins` must be True if one of the texts begins
            so, and False if not.
All words   Every word of up to 6 bytes over WORD_BYTES, put between a beginning and the last line;
            those that are texts by the regular expression FORM. `unwrapped` must know the same, and
            `begins` is compared for all words of up to 4 bytes.
Damaged     Random texts with some bytes changed, put in, taken out or cut: the place that halving
            finds is the first one of all.
"""
import bisect
import itertools
import multiprocessing
import random
import re
import subprocess
import sys

from models.text import COLUMNS, EXPORT, FIRST, IMPORT, LAST, begins, line, place, unwrapped, wrap

SEED = 1
LENGTHS = range(1, 201)  # of bytes whose letters are compared
SIZES = (0, 3, 45, 48, 93)  # of bytes that have others behind them
DAMAGED = 400

# -- by hand

FULL = b"A" * COLUMNS + b"\n"
Z3 = wrap(bytes(3))  # 49 bytes: letters from 23 to 26, 0A at 27, the last line from 28

def body(lines):
    return FIRST + lines + LAST

IMPORTS = {  # (the text, the answer; the buffer has 100 bytes)
    "RFC 4648, section 10": [
        (body(b"Zg==\n"), "1: 66"),
        (body(b"Zm8=\n"), "2: 666f"),
        (body(b"Zm9v\n"), "3: 666f6f"),
        (body(b"Zm9vYg==\n"), "4: 666f6f62"),
        (body(b"Zm9vYmE=\n"), "5: 666f6f6261"),
        (body(b"Zm9vYmFy\n"), "6: 666f6f626172"),
    ],
    "nothing, or no more than a beginning": [
        (b"", "16 at 0"),
        (b"-", "16 at 1"),
        (b"-----BEGIN PKCS12-----", "16 at 22"),
        (FIRST, "16 at 23"),
        (FIRST + b"A", "16 at 24"),
        (FIRST + b"AA", "16 at 25"),
        (FIRST + b"AA=", "16 at 26"),
        (FIRST + b"AA==", "16 at 27"),
        (FIRST + b"AAAA\n", "16 at 28"),
        (FIRST + b"AAAA\n-----EN", "16 at 35"),
        (FIRST + FULL[:-1], "16 at 87"),
        (FIRST + FULL, "16 at 88"),
        (FIRST + FULL + b"-", "16 at 89"),
        (FIRST + FULL + b"AAAAA", "16 at 93"),
        (Z3[:-1], "16 at 48"),
    ],
    "no letters": [
        (body(b""), "16 at 23"),
        (body(b"\n"), "16 at 23"),
        (body(b"====\n"), "16 at 23"),
    ],
    "ends of lines": [
        (Z3.replace(b"\n", b"\r\n"), "16 at 22"),
        (body(b"AAAA\r\n"), "16 at 27"),
        (Z3[:-1] + b"\r\n", "16 at 48"),
        (Z3.replace(b"\n", b"\r"), "16 at 22"),
        (body(b"AAAA"), "16 at 27"),
        (body(b"AAAA\n\n"), "16 at 28"),
        (body(FULL + b"\n"), "16 at 88"),
    ],
    "before and after": [
        (b" " + Z3, "16 at 0"),
        (b"\n" + Z3, "16 at 0"),
        (b"\xEF\xBB\xBF" + Z3, "16 at 0"),
        (b"A line above\n" + Z3, "16 at 0"),
        (Z3 + b"\n", "16 at 49"),
        (Z3 + b" ", "16 at 49"),
        (Z3 + b"\x00", "16 at 49"),
        (Z3 + Z3, "16 at 49"),
        (wrap(bytes(50)) + b"A", "16 at 114"),
    ],
    "spaces": [
        (Z3.replace(b"-\n", b"- \n"), "16 at 22"),
        (Z3.replace(b"BEGIN ", b"BEGIN  "), "16 at 11"),
        (body(b" AAAA\n"), "16 at 23"),
        (body(b"AA AA\n"), "16 at 25"),
        (body(b"AAAA \n"), "16 at 27"),
        (body(b"AAAA\t\n"), "16 at 27"),
        (body(b"AAAA\n "), "16 at 28"),
        (Z3[:-1] + b" \n", "16 at 48"),
    ],
    "other words": [
        (Z3.replace(b"PKCS12", b"PKCS7"), "16 at 15"),
        (Z3.replace(b"PKCS12", b"CERTIFICATE"), "16 at 11"),
        (Z3.replace(b"PKCS12", b"PKCS12 FILE"), "16 at 17"),
        (Z3.replace(b"PKCS12", b"pkcs12"), "16 at 11"),
        (Z3.replace(b"BEGIN", b"Begin"), "16 at 6"),
        (Z3.lower(), "16 at 5"),
        (Z3[1:], "16 at 4"),
        (b"-" + Z3, "16 at 5"),
        (Z3[:28] + b"-----END PKCS7-----\n", "16 at 41"),
        (Z3[:28] + b"-----end PKCS12-----\n", "16 at 33"),
        (Z3[:28] + FIRST, "16 at 33"),
        (Z3[:28] + b"----END PKCS12----\n", "16 at 32"),
        (body(b"Proc-Type: 4,ENCRYPTED\n"), "16 at 27"),
    ],
    "lengths of lines": [
        (body(b"A\n"), "16 at 24"),
        (body(b"AA\n"), "16 at 25"),
        (body(b"AAA\n"), "16 at 26"),
        (body(b"AAAAA\n"), "16 at 28"),
        (body(b"A" * 60 + b"\n"), "45: " + "00" * 45),
        (body(b"A" * 62 + b"\n"), "16 at 85"),
        (body(b"A" * 63 + b"\n"), "16 at 86"),
        (body(b"A" * 64 + b"\n"), "48: " + "00" * 48),
        (body(b"A" * 65 + b"\n"), "16 at 87"),
        (body(b"A" * 68 + b"\n"), "16 at 87"),
        (body(b"A" * 76 + b"\nAAAA\n"), "16 at 87"),
        (body(FULL + b"AAAA\n"), "51: " + "00" * 51),
        (body(FULL + FULL), "96: " + "00" * 96),
        (body(FULL + b"A" * 68 + b"\n"), "16 at 152"),
        (body(b"AAAA\nAAAA\n"), "16 at 28"),
        (body(b"A" * 60 + b"\nAAAA\n"), "16 at 84"),
        (body(FULL + b"AAAA\nAAAA\n"), "16 at 93"),
        (body(b"AAAA\n" + FULL), "16 at 28"),
    ],
    "padding": [
        (body(b"AA==\n"), "1: 00"),
        (body(b"AAA=\n"), "2: 0000"),
        (body(b"/w==\n"), "1: ff"),
        (body(b"//8=\n"), "2: ffff"),
        (body(b"////\n"), "3: ffffff"),
        (body(b"A===\n"), "16 at 24"),
        (body(b"AA=A\n"), "16 at 26"),
        (body(b"AA=\n"), "16 at 26"),
        (body(b"AA===\n"), "16 at 27"),
        (body(b"AAA==\n"), "16 at 27"),
        (body(b"AA\n"), "16 at 25"),
        (body(b"AA==A\n"), "16 at 27"),
        (body(b"AA==AAAA\n"), "16 at 27"),
        (body(b"AAAA=\n"), "16 at 27"),
        (body(b"AAAA====\n"), "16 at 27"),
        (body(FULL[:-1] + b"==\n"), "16 at 87"),
        (body(b"A" * 62 + b"==\n"), "46: " + "00" * 46),
        (body(b"AA==\nAAAA\n"), "16 at 28"),
        (body(b"AAA=\nAAAA\n"), "16 at 28"),
        (body(b"A" * 62 + b"==\nAAAA\n"), "16 at 88"),
        (body(b"A" * 63 + b"=\n" + FULL), "16 at 88"),
        (body(b"AA==\n===="), "16 at 28"),
    ],
    "unused bits": [
        (body(b"AQ==\n"), "1: 01"),
        (body(b"AB==\n"), "16 at 25"),
        (body(b"AP==\n"), "16 at 25"),
        (body(b"AR==\n"), "16 at 25"),
        (body(b"A/==\n"), "16 at 25"),
        (body(b"AAE=\n"), "2: 0001"),
        (body(b"AAB=\n"), "16 at 26"),
        (body(b"AAD=\n"), "16 at 26"),
        (body(b"AA/=\n"), "16 at 26"),
        (body(b"AAAAAB==\n"), "16 at 29"),
    ],
    "other bytes": [
        (body(b"AA-A\n"), "16 at 25"),
        (body(b"A_AA\n"), "16 at 24"),
        (body(b"AAA.\n"), "16 at 26"),
        (body(b"\x00AAA\n"), "16 at 23"),
        (body(b"A\x80AA\n"), "16 at 24"),
        (body(b"AA\xFFA\n"), "16 at 25"),
        (body(b"AAA\xC1\n"), "16 at 26"),
    ],
}

LONGEST = 65535
CALLS = [  # (the call, the buffer's length, the text or the bytes, the answer)
    (IMPORT, 3, Z3, "3: 000000"),
    (IMPORT, 2, Z3, "10 at 0"),
    (IMPORT, 0, Z3, "10 at 0"),
    (IMPORT, 0, Z3[:-1], "16 at 48"),
    (IMPORT, 0, b"", "16 at 0"),
    (IMPORT, 65535, wrap(bytes(LONGEST)), "65535: " + "00" * LONGEST),
    (IMPORT, 65534, wrap(bytes(LONGEST)), "10 at 0"),
    (IMPORT, 65536, wrap(bytes(LONGEST + 1)), "9 at 0"),
    (IMPORT, 0, wrap(bytes(LONGEST + 1)), "9 at 0"),
    (IMPORT, 0, wrap(bytes(LONGEST + 1))[:-1], "16 at 88793"),
    (IMPORT, 0, wrap(bytes(LONGEST + 1)) + b"\n", "16 at 88794"),
    (IMPORT, 0, wrap(bytes(70000))[:88791], "16 at 88791"),
    (EXPORT, 49, b"\x66", "49: " + body(b"Zg==\n").hex()),
    (EXPORT, 50, b"\x66\x6F", "49: " + body(b"Zm8=\n").hex()),
    (EXPORT, 48, b"\x66", "10 at 0"),
    (EXPORT, 0, b"\x66", "10 at 0"),
    (EXPORT, 109, bytes(48), "109: " + body(FULL).hex()),
    (EXPORT, 108, bytes(48), "10 at 0"),
    (EXPORT, 114, bytes(49), "114: " + body(FULL + b"AA==\n").hex()),
    (EXPORT, 113, bytes(49), "10 at 0"),
    (EXPORT, 100, b"", "16 at 0"),
    (EXPORT, 0, b"", "16 at 0"),
    (EXPORT, 88790, bytes(LONGEST), "88790: " + body(FULL * 1365 + b"A" * 20 + b"\n").hex()),
    (EXPORT, 88789, bytes(LONGEST), "10 at 0"),
    (EXPORT, 88794, bytes(LONGEST + 1), "9 at 0"),
    (EXPORT, 0, bytes(LONGEST + 1), "9 at 0"),
]

def check_by_hand():
    calls = [(shows, IMPORT, 100, text, due) for shows, rows in IMPORTS.items() for text, due in rows]
    calls += [("a call", *row) for row in CALLS]
    differing = 0
    for shows, kind, room, data, due in calls:
        due = f"{due}, rest kept" if ":" in due else f"refused {due}, kept"
        given = line(kind, room, data)
        if given != due:
            differing += 1
            print(f"{shows}: {data[:200]}\n  due:   {due[:200]}\n  model: {given[:200]}")
    print(f"by hand: {len(calls)} answers, {differing} differ")
    return differing

# -- letters

ALPHABET = "ABCDEFGHIJKLMNOPQRSTUVWXYZabcdefghijklmnopqrstuvwxyz0123456789+/"

def spelled(data):
    """The letters of the bytes as one line: their bits are one number, and zeros behind it make them a
    multiple of six."""
    bits = 8 * len(data)
    unused = -bits % 6
    number = int.from_bytes(data, "big") << unused
    letters = "".join(ALPHABET[number >> k & 63] for k in range(bits + unused - 6, -1, -6))
    return letters + "=" * (-len(letters) % 4)

def openssl(data, *words):
    return subprocess.run(["openssl", "base64", *words], input=data, capture_output=True, check=True).stdout

def check_letters():
    """The lines of `openssl base64` have 64 letters too, and 0A behind each."""
    rng, differing = random.Random(SEED), 0
    for size in LENGTHS:
        data = rng.randbytes(size)
        text, letters = wrap(data), spelled(data)
        lines = [letters[k:k + 64] + "\n" for k in range(0, len(letters), 64)]
        middle = openssl(data)
        back = openssl(middle, "-d")
        if not (text == body("".join(lines).encode()) == body(middle) and unwrapped(text) == back == data):
            differing += 1
            print(f"letters of {data.hex()}: {text}")
    print(f"letters: {len(LENGTHS)} texts, {differing} differ")
    return differing

# -- all bytes

def known(texts, prefix):
    """Whether one of the texts begins so; they are sorted."""
    at = bisect.bisect_left(texts, prefix)
    return at < len(texts) and texts[at].startswith(prefix)

def compare(texts, prefixes):
    differing = 0
    for prefix in prefixes:
        if begins(prefix) != known(texts, prefix):
            differing += 1
            print(f"{prefix}: begins a text: {begins(prefix)}, one of those tried: {known(texts, prefix)}", flush=True)
    return differing

Z = bytes.fromhex("A5 5A C3")  # `pQ==`, `pVo=` and `pVrD` are the letters of its first byte, of two and of all

def compare_bytes(size):
    """Bytes that are whole groups, and behind them: nothing, any byte, any two, the first of Z and any two,
    Z and any two. So each letter stands behind the group, behind `p`, behind `pQ`, behind `pV`, behind
    `pVo`, behind `pVr` and behind `pVrD`, and whatever else can. How many beginnings were tried, and for
    how many of them the answers differ."""
    front = random.Random(SEED + size).randbytes(size)
    two = [bytes(pair) for pair in itertools.product(range(256), repeat=2)]
    behind = [bytes([byte]) for byte in range(256)] + two + [Z[:1] + pair for pair in two] + [Z + pair for pair in two]
    texts = sorted(wrap(front + more) for more in behind + ([b""] if size else []))
    start = wrap(front).index(LAST) - 1 if size else len(FIRST)
    tried = {wrap(front + Z[:k])[:end] for k in (1, 2, 3) for end in range(start, start + 8)}
    if size in (0, 48):  # the first line and the last one too
        whole = wrap(front + Z)
        tried |= {whole[:end] for end in [*range(len(FIRST)), *range(start, len(whole) + 1)]}
    tried |= {prefix + bytes([byte]) for prefix in tried for byte in range(256)}
    return len(tried), compare(texts, tried)

# -- all words

LETTER = b"[A-Za-z0-9+/]"
LINES = b"(L{64}\n)*(L{4}){0,15}(L{4}|L{2}[AEIMQUYcgkosw048]=|L[AQgw]==)\n".replace(b"L", LETTER)
FORM = re.compile(FIRST + LINES + LAST)

# Letters with no bit, with a bit among the last two of six, among the last four alone, and above these;
# and bytes that are no letters.
WORD_BYTES = b"A/EQ=\n- "
WORD, SHORT = 6, 4  # the greatest length of a word, and of one that is tried as a beginning

def beginnings():
    """Beginnings that end with whole groups: words of 4 bytes behind them have no more than one group that
    is to be filled up, and a word of 6 is long enough for that and for 0A on both sides."""
    rng = random.Random(SEED)
    letters = "".join(rng.choices(ALPHABET, k=2 * COLUMNS)).encode()
    one, two = letters[:COLUMNS], letters[COLUMNS:]
    yield from (FIRST + one[:k] for k in (0, 4, 56, 60, 64))
    yield from (FIRST + one + b"\n" + two[:k] for k in (0, 60, 64))

def words(longest):
    for size in range(longest + 1):
        yield from map(bytes, itertools.product(WORD_BYTES, repeat=size))

def compare_words(beginning):
    """How many words were tried behind a beginning, and how many answers differ."""
    texts, differing = [], 0
    for word in words(WORD):
        text = beginning + word + LAST
        is_text = FORM.fullmatch(text) is not None
        if is_text:
            texts.append(text)
        if is_text != (unwrapped(text) is not None):
            differing += 1
            print(f"{text}: a text by FORM: {is_text}", flush=True)
    return sum(1 for _ in words(WORD)), differing + compare(sorted(texts), (beginning + word for word in words(SHORT)))

def check_all(what, function, cases):
    with multiprocessing.Pool() as pool:
        tried, differing = map(sum, zip(*pool.imap_unordered(function, cases)))
    print(f"{what}: {tried} tried, {differing} differ")
    return differing

# -- damaged texts

OFTEN = b"\n\n\r  ==--AAQ/_\x00\xFF"

def damaged(rng, text):
    """One to three bytes put in, taken out or changed; or a cut."""
    if rng.random() < 0.2:
        return text[:rng.randrange(len(text) + 1)]
    for _ in range(rng.choice([1, 1, 2, 3])):
        k = rng.randrange(len(text) + 1)
        one = bytes([rng.choice(OFTEN)])
        text = text[:k] + rng.choice([one + text[k:], text[k + 1:], one + text[k + 1:]])
    return text

def check_damaged():
    rng, differing = random.Random(SEED), 0
    for _ in range(DAMAGED):
        text = damaged(rng, wrap(rng.randbytes(rng.randrange(1, 120))))
        first = next((k for k in range(len(text)) if not begins(text[:k + 1])), len(text))
        is_text = FORM.fullmatch(text) is not None
        if place(text) != first or is_text != (unwrapped(text) is not None) or is_text and first != len(text):
            differing += 1
            print(f"{text}: halving gives {place(text)}, the first is {first}; a text by FORM: {is_text}")
    print(f"damaged: {DAMAGED} texts, {differing} differ")
    return differing

if __name__ == "__main__":
    found = check_by_hand() + check_letters() + check_damaged()
    found += check_all("all bytes", compare_bytes, SIZES) + check_all("all words", compare_words, list(beginnings()))
    sys.exit(1 if found else 0)
