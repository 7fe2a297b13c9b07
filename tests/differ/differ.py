#!/usr/bin/env python3
"""Compares the library with the models: feeds files to driver.c and compares its records with those of expect.py.

    differ.py --driver COMMAND [--seed N | --random-seed] [--seconds N | --files N] [--made-only]

Files, in order: the stored ones, every prefix of the samples, then random ones made by the seed (files.py). --seconds and --files bound the
random ones, by the time that the script has run in all or by their number; without either there are 5,000. --made-only leaves the others out.

Where a record differs, or the driver stops, it prints the file in hex, the seed and the first lines that differ, and gives exit status 1. So it does
where library and models agree on a file's number but its maker says another, and if 15 or a number from 1 to 9 never occurred, but with --made-only.
"""
import argparse
import itertools
import random
import shlex
import subprocess
import sys
import tempfile
import time
from collections import Counter

sys.dont_write_bytecode = True
import files                # noqa: E402  (sets the path of the models)
import expect               # noqa: E402
from models import reader   # noqa: E402
from models.numbers import MISSING, OK, OVERRUN, TOO_LONG   # noqa: E402

BATCH_FILES, BATCH_BYTES = 2000, 8_000_000      # for one run of the driver
MADE = 5000
TIMEOUT = 900       # seconds for a batch
NUMBERS = (*range(MISSING, TOO_LONG + 1), OVERRUN)          # those that reading gives


class Differs(Exception):
    pass


# ---- Batches.

def batches(source, until=None):
    """Lists of (name, bytes), none begun after a time."""
    batch, size = [], 0
    for name, data in source:
        batch.append((name, data))
        size += len(data)
        if len(batch) == BATCH_FILES or size > BATCH_BYTES or until is not None and time.monotonic() > until:
            yield batch
            batch, size = [], 0
            if until is not None and time.monotonic() > until:
                return
    if batch:
        yield batch


def start(command, batch, out, errors):
    """A driver that reads the batch from a file, while the models work."""
    with tempfile.TemporaryFile() as source:
        for _, data in batch:
            source.write(files.frame(data))
        source.seek(0)
        return subprocess.Popen(command, stdin=source, stdout=out, stderr=errors)


def finish(driver, out, errors):
    """The driver's exit status, what it wrote, and what it said of errors."""
    try:
        status = driver.wait(TIMEOUT)
    except subprocess.TimeoutExpired:
        driver.kill()
        status = "none after %d seconds" % TIMEOUT
    texts = []
    for file in (out, errors):
        file.seek(0)
        texts.append(file.read().decode("utf-8", "replace"))
    return status, *texts


def run(command, batch):
    """(what finish gives, the records and results of the models)"""
    with tempfile.TemporaryFile() as out, tempfile.TemporaryFile() as errors:
        driver = start(command, batch, out, errors)
        try:
            models = [expect.record(number, data) for number, (_, data) in enumerate(batch)]
        finally:
            said = finish(driver, out, errors)
    return said, models


# ---- A failing case.

def first_difference(got, due):
    pairs = itertools.zip_longest(got.splitlines(), due.splitlines(), fillvalue="(nothing)")
    return next((pair for pair in pairs if pair[0] != pair[1]), ("(no difference)", ""))


def fail(name, data, lines):
    raise Differs("\n".join(["%s, %d bytes:" % (name, len(data)), data.hex(), *lines]))


def explain(command, batch):
    """Runs each file of a batch by itself, and fails with the first one that isn't as it should be."""
    for name, data in batch:
        (status, got, errors), [(due, _)] = run(command, [(name, data)])
        if status != 0 or got != due:
            got_line, due_line = first_difference(got, due)
            fail(name, data, ["library: " + got_line, "models:  " + due_line, "status of the driver: %s" % status, errors[:4000]])
    raise Differs("a batch differs, and none of its files by itself; it begins with: " + batch[0][0])


# ---- The whole.

def answer(result):
    """The number of a refusal, 0 for an accepted file."""
    return result.number if isinstance(result, reader.Refusal) else OK


class Tally:
    def __init__(self):
        self.files, self.answers, self.again = Counter(), Counter(), 0

    def add(self, kind, models):
        for record, result in models:
            self.files[kind] += 1
            self.answers[answer(result)] += 1
            self.again += record.endswith(expect.WRITTEN)

    def show(self, seconds):
        total = sum(self.files.values())
        print("files: %d (%s), %.0f a second" % (total, ", ".join("%s: %d" % pair for pair in self.files.items()), total / seconds))
        print("accepted: %d, written and read again: %d" % (self.answers[OK], self.again))
        print("refused: " + ", ".join("%d: %d" % (n, self.answers[n]) for n in NUMBERS))
        return [n for n in NUMBERS if not self.answers[n]]


def hold(command, kind, source, tally):
    for batch in source:
        (status, got, _), models = run(command, batch)
        if status != 0 or got != "".join(record for record, _ in models):
            explain(command, batch)
        for (name, data), (_, result) in zip(batch, models):
            if answer(result) not in files.allowed(name):
                fail(name, data, ["library and models give %d" % answer(result)])
        tally.add(kind, models)


def sources(options, begun):
    """(kind, batches)"""
    if not options.made_only:
        yield "stored", batches(files.stored())
        yield "prefixes", batches(files.prefixes())
    made, until = files.made(options.seed), None
    if options.seconds is not None:
        until = begun + options.seconds
    if options.files is not None or until is None:
        made = itertools.islice(made, MADE if options.files is None else options.files)
    yield "made", batches(made, until)


def parsed():
    parser = argparse.ArgumentParser(description="Holds the library against the models in Python.")
    parser.add_argument("--driver", required=True, help="the command that runs driver.c")
    parser.add_argument("--seed", type=int, default=files.SEED)
    parser.add_argument("--random-seed", action="store_true", help="draw a seed")
    parser.add_argument("--seconds", type=float)
    parser.add_argument("--files", type=int)
    parser.add_argument("--made-only", action="store_true")
    options = parser.parse_args()
    if options.random_seed:
        options.seed = random.SystemRandom().randrange(1 << 32)
    return options


def main():
    options, begun, tally = parsed(), time.monotonic(), Tally()
    print("seed %d" % options.seed, flush=True)
    try:
        for kind, source in sources(options, begun):
            hold(shlex.split(options.driver), kind, source, tally)
    except Differs as case:
        print("%s\nseed %d\ndiffer: a file differs" % (case, options.seed))
        return 1
    never = tally.show(time.monotonic() - begun)
    if never and not options.made_only:
        print("differ: refusals that never occurred: %s" % never)
        return 1
    print("differ: the library and the models agree")
    return 0


if __name__ == "__main__":
    sys.exit(main())
