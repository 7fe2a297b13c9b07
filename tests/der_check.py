#!/usr/bin/env python3
"""Compares the model models/der.py with answers by hand, and the program over `der` with the
model.

    tests/der_check.py                        the model against every line of der_cases.txt
    tests/der_check.py --random N --seed S    the program against the model, on N random frames
    tests/der_check.py --store N --seed S     prints N short random cases, as der_cases.txt has them
"""
import argparse
import collections
import itertools
import random
import subprocess
import sys

import stored
from models.der import answer

BATCH = 65535  # bytes at most that the program is given at once

# -- random cases

def mixed(rng, count, often):
    return bytes(rng.choice(often + [rng.randrange(256)]) for _ in range(count))

def wrapped(rng, tag, body, faults=0.03):
    """An element; a few have a length in a form that isn't allowed."""
    two = len(body).to_bytes(2, "big")
    length = two[1:] if len(body) < 0x80 else b"\x81" + two[1:] if len(body) < 0x100 else b"\x82" + two
    if rng.random() < faults:
        length = rng.choice([b"\x80", b"\x81" + two[1:], b"\x82" + two, b"\x83\x00" + two])
    return bytes([tag]) + length + body

def leaf(rng, tag):
    if tag == 0x02:
        body = mixed(rng, rng.choice([0, 1, 1, 2, 2, 3, 3, 4, 4, 5]), [0x00, 0x01, 0x7F, 0x80])
    elif tag == 0x06:
        body = mixed(rng, rng.randrange(9), [0x2A, 0x01, 0x7F, 0x80, 0x86, 0xF7])
        body += bytes([rng.randrange(128)] * rng.choice([0, 1, 1]))
    elif rng.random() < 0.15:  # its length, or that of what stands around it, is near a change of form
        return wrapped(rng, tag, mixed(rng, rng.choice([124, 252]) + rng.randrange(8), []), 0.2)
    else:
        body = mixed(rng, rng.randrange(5), [0x00, 0x1F, 0x80])
    return wrapped(rng, tag, body)

def tree(rng, depth):
    if depth == 0 or rng.random() < 0.4:
        return leaf(rng, rng.choice([0x01, 0x02, 0x04, 0x05, 0x06, 0x80, 0x9E, 0xC1]))
    body = b"".join(tree(rng, depth - 1) for _ in range(rng.randrange(4)))
    return wrapped(rng, rng.choice([0x20, 0x24, 0x30, 0x31, 0xA0, 0xBE, 0xE1]), body)

def content(rng, letter):
    chance = rng.random()
    if chance < 0.1:
        return mixed(rng, rng.randrange(24), [0x00, 0x02, 0x04, 0x06, 0x1F, 0x30, 0x80, 0x81, 0x82])
    if chance < 0.102:  # near the largest lengths
        size = rng.choice([4096, 32768, 65515]) + rng.randrange(-6, 7)
        return wrapped(rng, rng.choice([0x04, 0x30]), (b"\x05\x00" * size)[:size])
    if letter in "sin" and chance < 0.9:
        return leaf(rng, {"s": 0x04, "i": 0x06, "n": 0x02}[letter])
    made = b"".join(tree(rng, 3) for _ in range(rng.choice([1, 1, 2, 3])))
    for _ in range(rng.randrange(19) if chance < 0.35 else 0):  # one inside the other, to around the last level
        made = wrapped(rng, rng.choice([0x30, 0xA0]), made, 0)
    return made

def damaged(rng, data):
    k = rng.randrange(len(data) + 1)
    one = mixed(rng, 1, [0x00, 0x05, 0x1F, 0x7F, 0x80, 0x81, 0x82, 0xFF])
    flipped = bytes(b ^ 1 << rng.randrange(8) for b in data[k:k + 1])
    return data[:k] + rng.choice([b"", data[k + 1:], one + data[k:], one + data[k + 1:], flipped + data[k + 1:]])

def random_case(rng):
    letter = rng.choice("teeddddssssiiiiinnnnnoooooorrrrrrffw")
    inner = content(rng, letter)
    for _ in range(rng.choice([0, 0, 0, 0, 0, 1, 1, 2])):
        inner = damaged(rng, inner)
    before, after = (mixed(rng, rng.choice([0, 0, 0, 0, 1, 2, 5]), [0x05, 0x00]) for _ in range(2))
    data = (before + inner + after)[:BATCH - 8]
    size, chance = len(data), rng.random()
    at, end = len(before), min(len(before + inner), size)
    if chance < 0.5:
        at, end = 0, size
    elif chance < 0.6:
        at, end = sorted(rng.randrange(size + 1) for _ in range(2))
    elif chance < 0.68:
        odd = [0, 1, max(size - 1, 0), size, size + 1, size + 8, 65534, 65535, rng.randrange(65536), at, end]
        at, end = rng.choice(odd), rng.choice(odd)
    argument = rng.choice([16, rng.randrange(18)]) if letter in "or" else rng.randrange(256)
    if letter == "d" and at < size and rng.random() < 0.8:
        argument = data[at]
    return letter, argument, at, end, data

# -- the three uses

def frame(letter, argument, at, end, data):
    return letter.encode() + bytes([argument]) + b"".join(n.to_bytes(2, "big") for n in (at, end, len(data))) + data

def written(letter, argument, at, end, data):
    """The case without its answer, as a line of tests/der_cases.txt has it."""
    return " ".join([letter, f"{argument:02X}", str(at), "." if end == len(data) else str(end)] + [f"{b:02X}" for b in data])

def kind(line):
    return line.split(" at ")[0] if line.startswith("refused") else line.split()[0]

def check_cases():
    lines = [x for x in (stored.TESTS / "der_cases.txt").read_text().splitlines() if x.strip() and not x.startswith("#")]
    differing = 0
    for line in lines:
        call, due = line.split("=", 1)
        letter, argument, at, end, *words = call.split()
        parts = (word.partition("*") for word in words)
        data = b"".join(bytes([int(value, 16)]) * int(times or 1) for value, _, times in parts)
        given = answer(letter, int(argument, 16), int(at), len(data) if end == "." else int(end), data)
        if given != due.strip():
            differing += 1
            print(f"differs: {line}\n  model: {given}")
    print(f"{len(lines) - differing} of {len(lines)} lines agree")
    return differing

def check_random(count, rng, seed):
    kinds, differing, cases = collections.Counter(), 0, collections.deque(random_case(rng) for _ in range(count))
    while cases:
        batch, size = [], 0
        while cases and size + 8 + len(cases[0][4]) <= BATCH:
            batch.append(cases.popleft())
            size += 8 + len(batch[-1][4])
        frames = b"".join(frame(*case) for case in batch)
        done = subprocess.run([stored.program(stored.DER)], input=frames, capture_output=True)
        given = done.stdout.decode("latin-1").splitlines()
        if done.returncode != 0 or len(given) != len(batch):
            differing += 1
            print(f"seed {seed}: {len(batch)} frames, {len(given)} lines, exit code {done.returncode}")
        for case, line in itertools.zip_longest(batch, given[:len(batch)]):
            due = answer(*case)
            kinds[kind(due)] += 1
            if line != due:
                differing += 1
                print(f"seed {seed}: frame {frame(*case).hex()}\n  program: {line}\n  model:   {due}")
    print("\n".join(f"{times:7} {name}" for name, times in sorted(kinds.items())))
    print(f"{count} frames, seed {seed}: {differing} differences")
    return differing

def store(count, rng):
    """Cases sorted into groups by what they show, then taken from the groups in turn."""
    groups = collections.defaultdict(dict)
    for case in (random_case(rng) for _ in range(60 * count + 3000)):
        line = answer(*case)
        words = line.replace(",", "").split()
        group = f"{case[0]} {kind(line)}" + (" none" if line == "tag 00" else "")
        group += f" {min(int(words[1]), 2)}" if words[0] == "passed" else ""
        if words[0] == "refused" and words[1] in ("1", "2", "3", "4", "15") and int(words[3]) in case[2:4]:
            group = f"first header {words[1]}"  # one group for all calls
        if len(case[4]) <= 40:
            groups[group][f"{written(*case)} = {line}"] = None
    turns = itertools.zip_longest(*(groups[name] for name in sorted(groups)))
    lines = [line for turn in turns for line in turn if line][:count]
    print("\n".join(sorted(lines, key=lambda line: "tedsinorfw".index(line[0]))))

if __name__ == "__main__":
    options = argparse.ArgumentParser()
    for name in ("--random", "--store", "--seed"):
        options.add_argument(name, type=int, default=0)
    chosen = options.parse_args()
    rng = random.Random(chosen.seed)
    if chosen.store:
        sys.exit(store(chosen.store, rng))
    sys.exit(1 if (check_random(chosen.random, rng, chosen.seed) if chosen.random else check_cases()) else 0)
