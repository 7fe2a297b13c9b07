"""What the program over the test files prints of the calls on the table of an accepted file, by
the models alone: rows by reader.py, ids by pairs.py, soundness by writer.py. docs/TESTS.md has the
form of the lines; the comments quote the rules (document 01).

    lines(data, result)     for a file and what reader.read gave for it
"""
from models import pairs, writer
from models.numbers import FILE_BYTES, NO_ROW, NOT_SOUND

CALLS = 3
DIVISOR = 65521


def is_sound(result, lent):
    return writer.write(writer.of_reading(result), lent, FILE_BYTES) != ("refused", NOT_SOUND)


def refusal(result, lent, bag):
    """What a bag's row is refused by, or None."""
    # "Opening it with a table not sound for the lent bytes is 11, then on a row that isn't there
    # 12."
    if not is_sound(result, lent):
        return "refused %d" % NOT_SOUND
    return None if bag < len(result.bags) else "refused %d" % NO_ROW


def own(result, bag):
    return [row for row in result.attributes if row.bag == bag]


def calls(result, lent, bag):
    refused = refusal(result, lent, bag)
    if refused:
        return ", ".join([refused] * CALLS)
    # "gives the attributes in turn, then says it is done, at every further call too"
    given = ["attribute %d..%d values %d..%d" % (*row.type, *row.values) for row in own(result, bag)]
    return ", ".join((given + ["done"] * CALLS)[:CALLS])


def id_text(result, lent, bag):
    refused = refusal(result, lent, bag)
    if refused:
        return refused
    # "identity rows: kind, whether an id is there, and the id's bytes"
    span = pairs.id_range(lent, result, bag)
    kind = writer.BAG_KINDS.index(result.bags[bag].kind)
    return "%s, kind %d, filled" % ("none" if span is None else "%d..%d" % span, kind)


def fill(result, lent):
    # 11 as above; the array has as many rows as a table has bags, so that 10 is never due
    answer = "rows %d" % len(result.bags) if is_sound(result, lent) else "refused %d" % NOT_SOUND
    return answer + ", rest as before"


def type_lines(data, result, bag):
    for row in own(result, bag)[:1]:
        part = data[slice(*row.type)]
        yield "bag %d type: %d bytes, remainder %d" % (bag, len(part), int.from_bytes(part, "big") % DIVISOR)


def bag_lines(data, result, bag):
    yield "bag %d calls: %s" % (bag, calls(result, data, bag))
    yield from type_lines(data, result, bag)
    yield "bag %d id: %s" % (bag, id_text(result, data, bag))


def over_lines(result, lent):
    """The calls for bag 0 over the front of the file."""
    over = "over %d bytes " % len(lent)
    yield over + "calls: " + calls(result, lent, 0)
    yield over + "id: " + id_text(result, lent, 0)
    yield over + "fill: " + fill(result, lent)


def lines(data, result):
    made = [line for bag in range(len(result.bags) + 1) for line in bag_lines(data, result, bag)]
    made += ["fill: " + fill(result, data), *over_lines(result, b""), *over_lines(result, data[:-1])]
    return "".join(line + "\n" for line in made)
