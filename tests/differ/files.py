"""The files of the differential tests.

    stored()        (name, bytes): the test files (stored.TEST_FILES), the files of tests/files, M, M with iterations around 16 and 32 bits
    prefixes()      (name, bytes): every prefix of M and of each file of tests/files, shorter than the whole
    made(seed)      (name, bytes), without end: random files by generate.py, each with damaged copies by damage.py; damaged copies of stored files
    allowed(name)   the answers that a file of this name may get, by how it was made: refusal numbers, or 0 for an accepted one
    frame(data)     the bytes of a frame: the length in four bytes, high first, and the file

    files.py --frames N [--seed N]      stored files and N made ones as frames on standard output
"""
import argparse
import itertools
import pathlib
import random
import sys

sys.path.insert(0, str(pathlib.Path(__file__).resolve().parents[1]))
sys.dont_write_bytecode = True
import damage               # noqa: E402
import generate             # noqa: E402
import p12_parts            # noqa: E402
from models import reader   # noqa: E402
from models.numbers import CONTENT, MISSING, OK, OVERRUN, TOO_LONG, TOO_MANY   # noqa: E402
from stored import FILES, TEST_FILES   # noqa: E402

SEED = 1
FLAT, MENDED, AIMED = 4, 4, 3   # damaged copies of a made file


def frame(data):
    return len(data).to_bytes(4, "big") + data


def frames(data):
    at = 0
    while at < len(data):
        end = at + 4 + int.from_bytes(data[at:at + 4], "big")
        yield data[at + 4:end]
        at = end


def samples():
    """M and the files of tests/files."""
    yield "M", p12_parts.pfx().encode()
    for path in sorted(FILES.glob("*.p12")):
        yield path.name, path.read_bytes()


def with_iterations():
    """M with iterations. Above 2,147,483,647 none are allowed."""
    for number in (65535, 65536, 65537, 100000, 0x7FFF0000, 0x7FFFFFFF, 0x80000000, 0xFFFFFFFF):
        yield "M, iterations %d" % number, p12_parts.pfx(mac_data=p12_parts.mac(number)).encode()


def stored():
    held = (TEST_FILES / "stdin").read_bytes()
    yield from (("test file %d" % n, data) for n, data in enumerate(frames(held)))
    yield from samples()
    yield from with_iterations()


def prefixes():
    for name, data in samples():
        for length in range(len(data)):
            yield "%d bytes of %s" % (length, name), data[:length]


def damaged(dice, tree, flat, mended, aimed=0):
    """(how, bytes) of so many copies of a tree's file."""
    data, nodes = tree.encode(), damage.nodes_of(tree)
    nodes += 2 * [node for node in nodes if node.name]     # rather those that the rules name than those in opaque elements
    headers = damage.headers_of(data)
    for _ in range(flat):
        how, other = damage.flat(dice, data, headers)
        if other and dice.random() < 0.1:
            how, other = how + " and a byte changed", damage.changed(dice, other, dice.randrange(len(other)))
        yield how, other
    for change in [damage.mended] * mended + [damage.aimed] * aimed:
        how, other = change(dice, tree, nodes)
        if other is not None:
            yield how, other


def trees():
    """Those of the samples that are accepted."""
    return [(name, damage.tree_of(data)) for name, data in samples() if not isinstance(reader.read(data), reader.Refusal)]


def group(dice, known):
    """(name, bytes) of a few files that are made together."""
    kind = dice.random()
    if kind < 0.05:
        what, tree = generate.at_limit(dice)
        yield "limit of " + what, tree.encode()
        yield from damaged(dice, tree, 1, 1)
    elif kind < 0.15:
        what, tree = generate.past(dice)
        yield "past the limit of " + what, tree.encode()
    elif kind < 0.25:
        name, tree = dice.choice(known)
        yield from (("%s: %s" % (name, how), data) for how, data in damaged(dice, tree, FLAT, MENDED))
    else:
        for make in (generate.paired, generate.made, generate.made):
            tree = make(dice)
            yield make.__name__, tree.encode()
        yield from damaged(dice, tree, FLAT, MENDED, AIMED)


def made(seed):
    known = trees()
    for number in itertools.count():
        for n, (name, data) in enumerate(group(random.Random("%d/%d" % (seed, number)), known)):
            yield "%d.%d: %s" % (number, n, name), data


def allowed(name):
    """Whoever made the file knows; no reader is asked."""
    how = name.split(": ", 1)[-1]
    if how in ("made", "paired") or how.startswith("limit of "):
        return (OK,)
    if name.startswith("M, iterations "):
        return (OK,) if int(name.split()[-1]) <= 0x7FFFFFFF else (CONTENT,)
    if how.startswith("past the limit of "):
        return (TOO_LONG,) if how.endswith(" bytes") else (TOO_MANY,)
    refused = (*range(MISSING, TOO_LONG + 1), OVERRUN)
    return refused if " bytes of " in name else (OK, *refused)      # a prefix, or anything


def main():
    parser = argparse.ArgumentParser(description="Files as frames on standard output.")
    parser.add_argument("--frames", type=int, required=True, help="how many made files")
    parser.add_argument("--seed", type=int, default=SEED)
    options = parser.parse_args()
    for _, data in itertools.chain(stored(), itertools.islice(made(options.seed), options.frames)):
        sys.stdout.buffer.write(frame(data))


if __name__ == "__main__":
    main()
