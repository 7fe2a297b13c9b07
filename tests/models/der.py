"""A model of reading one DER element, written from the text of the rules.

    answer(letter, argument, at, end, data)    the line of one call

docs/TESTS.md has the letters of the calls and the lines. tests/der_check.py holds the model
against answers by hand, and the program over `der` against the model.
"""
from models.numbers import CONTENT, LEFT_OVER, LENGTH_FORM, MISSING, OTHER_TAG, OVERRUN, TAG_FORM, TOO_MANY

class Refused(Exception):
    """Its arguments: the number and the offset."""

def need(holds, number, offset):
    if not holds:
        raise Refused(number, offset)

def byte_left(data, at, end):
    return at < end <= len(data)

def element(data, at, end, due=None):
    """Tag and range of the body of the element at `at` in a parent that ends at `end`; `due` is
    the tag due, if any."""
    need(byte_left(data, at, end), MISSING, end)
    tag = data[at]
    need(tag != 0x00 and tag & 0x1F != 0x1F, TAG_FORM, at)
    need(at + 1 < end, OVERRUN, at)
    first = data[at + 1]
    need(first <= 0x7F or first in (0x81, 0x82), LENGTH_FORM, at)
    more = 0 if first <= 0x7F else first - 0x80  # length bytes after the first
    body = at + 2 + more
    need(body <= end, OVERRUN, at)
    size = int.from_bytes(data[at + 2:body], "big") if more else first
    need(size >= (0, 0x80, 0x100)[more], LENGTH_FORM, at)  # no shorter form could give it
    need(body + size <= end, OVERRUN, at)
    need(due is None or tag == due, OTHER_TAG, at)
    return tag, body, body + size

def identifier(data, at, end):
    tag, body, past = element(data, at, end, 0x06)
    need(body < past and data[past - 1] < 0x80, CONTENT, at)
    for k in range(body, past):
        begins_part = k == body or data[k - 1] < 0x80
        need(not (begins_part and data[k] == 0x80), CONTENT, at)
    return tag, body, past

def integer(data, at, end):
    """The value of the INTEGER at `at` and the offset past it."""
    _, body, past = element(data, at, end, 0x02)
    octets = data[body:past]
    need(1 <= len(octets) <= 4, CONTENT, at)
    need(octets[0] < 0x80, CONTENT, at)  # not negative
    need(len(octets) == 1 or octets[0] != 0x00 or octets[1] >= 0x80, CONTENT, at)  # minimal
    return int.from_bytes(octets, "big"), past

def opaque(data, at, end, levels):
    """How many elements the opaque element at `at` is, itself and all inside it, and the offset
    past it."""
    tag, body, past = element(data, at, end)
    need(levels > 0, TOO_MANY, at)
    inside = run(data, body, past, levels - 1)[0] if tag & 0x20 else 0
    return 1 + inside, past

def run(data, at, end, levels):
    """The same for zero or more opaque elements up to `end`."""
    count = 0
    while at < end:
        more, at = opaque(data, at, end, levels)
        count += more
    return count, at

def answer(letter, argument, at, end, data) -> str:
    try:
        if letter == "w":
            return f"cursor 0..{len(data)}"
        if letter == "t":
            return f"tag {data[at] if byte_left(data, at, end) else 0:02x}"
        if letter == "f":
            need(at >= end, LEFT_OVER, at)
            return f"passed 0, next {at}..{end}"
        if letter == "n":
            value, past = integer(data, at, end)
            return f"value {value}, next {past}..{end}"
        if letter in "or":
            count, past = (opaque if letter == "o" else run)(data, at, end, argument)
            return f"passed {count}, next {past}..{end}"
        if letter == "i":
            tag, body, past = identifier(data, at, end)
        else:
            tag, body, past = element(data, at, end, {"e": None, "d": argument, "s": 0x04}[letter])
        return f"found {tag:02x}, body {body}..{past}, next {past}..{end}"
    except Refused as fault:
        return "refused {} at {}".format(*fault.args)
