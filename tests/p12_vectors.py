#!/usr/bin/env python3
"""Writes the stored input and output of four programs. stored.py has their folders:

    TEST_FILES  a frame for each file; its listing by models/reader.py and, if it is accepted, its
                pairs by models/pairs.py, what models/runs.py gives for calls on its table, and the
                line that it is written back the same
    LIST        M, and its listing
    REWRITE     a file of a common tool, twice
    PAIRS       a file, and its pairs

    p12_vectors.py                          writes these files
    p12_vectors.py --check                  says whether they are what the files give
    p12_vectors.py --sources DOCUMENT ..    takes the files out of the documents first, and keeps
                                            them as tests/files/source-N.p12

A frame is the file's length in four bytes, high first, and its bytes. The last lines count the
kinds of file and the answers; it fails unless 15 and every number from 1 to 9 are among them.
"""
import pathlib
import random
import sys
from collections import Counter

import p12_make
import p12_pairs_make
import p12_sources
import p12_tools
import stored
from models import pairs, reader, runs
from models.numbers import MISSING, OVERRUN, TOO_LONG
from stored import FILES

NUMBERS = (*range(MISSING, TOO_LONG + 1), OVERRUN)  # those that reading gives
SEED, DAMAGED = 1, 200  # as many damaged and as many mended ones
EACH = 6  # damaged copies of each stored file
EACH_PAIRED = 2  # damaged copies of each file for pairs
REWRITTEN = "openssl-default"  # the tool's file that is read and written back by itself
PAIRED = "pairs_all"  # the made file whose pairs are printed by themselves


def keep_sources(documents):
    """Each file that the documents list, once."""
    found = [data for name in documents for data, _ in p12_sources.pfx_files(pathlib.Path(name).read_text(encoding="utf-8"))]
    for number, data in enumerate(dict.fromkeys(found), 1):
        (FILES / ("source-%d.p12" % number)).write_bytes(data)


def changed(files):
    """Copies of each file with one byte changed, at offsets that a fixed seed gives."""
    dice = random.Random(SEED)
    for data in files:
        for _ in range(EACH):
            at = dice.randrange(len(data))
            yield data[:at] + bytes([data[at] ^ dice.randrange(1, 256)]) + data[at + 1:]


def kinds():
    """(what they are, the files)"""
    made = p12_make.files()
    bench = [data for name, data in made if name.startswith("bench_")]
    m = dict(made)["bench_a"]
    sources = [path.read_bytes() for path in sorted(FILES.glob("source-*.p12"))]
    tools = [data for _, data, _ in p12_tools.stored()]
    yield "listed in the documents", sources
    yield "M and its variants", bench + [m[:n] for n in range(1, len(m) - 1)]
    yield "made", [data for name, data in made if not name.startswith(("bench_", "pairs_"))]
    yield "of common tools", tools
    yield "damaged", [data for _, data in p12_make.damaged(SEED, DAMAGED)]
    yield "damaged with lengths mended", [data for _, data in p12_make.mended(SEED, DAMAGED)]
    yield "of documents and tools, damaged", list(changed(sources + tools))
    yield "made for pairs", [data for name, data in made if name.startswith("pairs_")]
    yield "made for pairs, damaged", [data for _, data in p12_pairs_make.damaged(SEED, EACH_PAIRED)]


def lines(data, result):
    """What the program prints of a file. Reading and writing undo each other, so an accepted one
    comes back as it was."""
    listed = reader.listing(result)
    if isinstance(result, reader.Refusal):
        return listed
    return listed + pairs.pairs(data, result) + runs.lines(data, result) + "written back, the same\n"


def contents(frames, listings):
    """(the folder, its input, its output) of each program"""
    made = dict(p12_make.files())
    m, paired = made["bench_a"], made[PAIRED]
    tool = (FILES / (REWRITTEN + ".p12")).read_bytes()
    yield stored.TEST_FILES, b"".join(frames), "".join(listings).encode()
    yield stored.LIST, m, reader.listing(reader.read(m)).encode()
    yield stored.REWRITE, tool, tool
    yield stored.PAIRS, paired, pairs.pairs(paired, reader.read(paired)).encode()


def main(arguments):
    if arguments[:1] == ["--sources"]:
        keep_sources(arguments[1:])
    frames, listings, answers = [], [], Counter()
    for what, files in kinds():
        print("%s: %d" % (what, len(files)))
        for data in files:
            result = reader.read(data)
            answers[result.number if isinstance(result, reader.Refusal) else "accepted"] += 1
            frames.append(len(data).to_bytes(4, "big") + data)
            listings.append(lines(data, result))
    differs = 0
    for folder, given, due in contents(frames, listings):
        for path, data in ((folder / "stdin", given), (folder / "stdout", due)):
            if arguments == ["--check"]:
                differs += path.read_bytes() != data
            else:
                path.parent.mkdir(exist_ok=True)
                path.write_bytes(data)
    print("files: %d, accepted: %d" % (len(frames), answers["accepted"]))
    print("refused: " + ", ".join("%d: %d" % (n, answers[n]) for n in NUMBERS))
    missing = [n for n in NUMBERS if not answers[n]]
    if missing or differs:
        print("missing: %s" % missing if missing else "the stored files differ")
    return 1 if missing or differs else 0


if __name__ == "__main__":
    sys.exit(main(sys.argv[1:]))
