"""A model of judging an upload while it arrives (document 02, Item 10). It knows only the check of
the whole and tries completions; it keeps no state from one byte to the next.

    whole(data)         the check of all bytes: ("passed", elements, level) or ("refused", number, offset)
    certain(n, prefix)  the fault (number, offset) by which every completion of the prefix to n bytes
                        is refused, or None
    fault(n, data)      the first fault that is certain within n bytes: (number, offset, after), or None
    run(n, portions)    the status after the announcement of n and after each portion, and the answer
                        at the end
    line(n, portions)   the same as one line

A status is `none` or `refused N at P after B`; the answer at the end is `passed N elements, level L`
or `refused N at P after B`. tests/upload_check.py compares `certain` with trying completions one by
one, and the answers with some that were written by hand.
"""
import bisect
import functools
import itertools

from models.der import Refused, element, need
from models.numbers import EARLY, FILE_BYTES, LEFT_OVER, SURPLUS, TOO_LONG, TOO_MANY, UPLOAD_LEVELS

# -- the whole check

def opaque(data, at, end, level):
    """The number of elements of the opaque element at `at`, itself and all inside it, the greatest
    level that they reach, and the offset past it; the element itself is on `level`."""
    tag, body, past = element(data, at, end)
    need(level <= UPLOAD_LEVELS, TOO_MANY, at)
    elements, deepest = 1, level
    at = body
    while tag & 0x20 and at < past:
        more, reached, at = opaque(data, at, past, level + 1)
        elements, deepest = elements + more, max(deepest, reached)
    return elements, deepest, past

def whole(data):
    """Requires of `data` only its length and its items."""
    try:
        need(len(data) <= FILE_BYTES, TOO_LONG, 0)
        elements, level, past = opaque(data, 0, len(data), 1)
        need(past == len(data), LEFT_OVER, past)
    except Refused as refusal:
        return ("refused", *refusal.args)
    return "passed", elements, level

# -- all completions

class Unknown(Exception):
    """A byte is needed that isn't known. Its argument: the offset."""

class Partly:
    """n bytes of which only these are known: those of `prefix`, and of the dictionary `chosen` from
    offsets to bytes."""

    def __init__(self, n, prefix, chosen):
        self.n, self.prefix, self.chosen = n, prefix, chosen

    def __len__(self):
        return self.n

    def __getitem__(self, at):
        if isinstance(at, slice):
            return bytes(self[k] for k in range(at.start, at.stop))
        if at < len(self.prefix):
            return self.prefix[at]
        if at not in self.chosen:
            raise Unknown(at)
        return self.chosen[at]

def answers(n, prefix, chosen):
    """The answers of the whole check on all completions to n bytes. The check is run on the known
    bytes alone: if it ends, its answer is that of every completion, since no other byte was asked
    for; if it asks for one more byte, each of the 256 values is tried there."""
    try:
        found = whole(Partly(n, prefix, chosen))
    except Unknown as asked:
        at, = asked.args
    else:
        yield found
        return
    for byte in range(256):
        yield from answers(n, prefix, {**chosen, at: byte})

def agreed(every):
    """The fault that all of these answers are, or None."""
    first = next(every)
    if first[0] == "passed" or any(other != first for other in every):
        return None
    return first[1:]

def certain(n, prefix):
    """Requires a prefix of at most n bytes. No completion is left out: None is returned because one
    passes or two are refused differently, and a fault because all 256 ** (n - len(prefix)) have it."""
    return agreed(answers(n, prefix, {}))

# -- whole runs

@functools.lru_cache(maxsize=None)
def fault(n, data):
    """`after` is the length of the shortest beginning of `data` after which the fault is certain. A
    fault that is certain stays so, as longer beginnings have fewer completions: so it is searched
    for by halving."""
    came = min(n, len(data))
    if certain(n, data[:came]) is None:
        return None
    after = bisect.bisect_left(range(came + 1), True, key=lambda size: certain(n, data[:size]) is not None)
    return (*certain(n, data[:after]), after)

def refused(number, offset, after):
    return f"refused {number} at {offset} after {after}"

def run(n, portions):
    """The statuses, one more than there are portions, and the answer at the end."""
    data = b"".join(portions)
    found = fault(n, data)
    if found is None and len(data) > n:
        found = SURPLUS, 0, n + 1
    came = itertools.accumulate(map(len, portions), initial=0)
    statuses = [refused(*found) if found and size >= found[2] else "none" for size in came]
    if found:
        return statuses, refused(*found)
    if len(data) < n:
        return statuses, refused(EARLY, 0, len(data))
    _, elements, level = whole(data)
    return statuses, f"passed {elements} elements, level {level}"

def line(n, portions):
    statuses, end = run(n, portions)
    return ", ".join(statuses) + ", end: " + end
