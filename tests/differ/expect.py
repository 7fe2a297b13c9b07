"""The record that driver.c should write of a file, by the models alone: rows and listing by
models/reader.py, pairs by models/pairs.py, and attributes and elements worked out here from the
reader's rows. driver.c has the form of the lines.

record(number, data) gives the text and the reader's result.
"""
from itertools import groupby

from models import pairs, reader, writer
from models.numbers import ATTRIBUTE_ROWS, BAG_ROWS, DONE, NO_ROW, OK, SAFE_ROWS, TABLE_LENGTH
from models.writer import BAG_KINDS, SAFE_KINDS

SHOWN = 32      # of many elements the first and the last so many
HALF = 65536    # the iterations are two words: their remainder by this, and their quotient
WRITTEN = "written and read again\n"


def parts(row):
    return [*row.identifier, *row.parameters, *row.value]


def padded(rows, size, count):
    """The words of the rows, and zeros for those that aren't there."""
    return [word for row in rows for word in row] + [0] * (size * (count - len(rows)))


def words(result):
    """Every word of the table, in the order of struct p12_table; for a refused file 1,408 zeros."""
    if isinstance(result, reader.Refusal):
        return [0] * TABLE_LENGTH
    table = writer.of_reading(result)
    mac = table.mac
    safes = [[SAFE_KINDS.index(row.kind), *parts(row)] for row in table.safes]
    bags = [[BAG_KINDS.index(row.kind), row.safe, 0 if row.enclosing is None else row.enclosing + 1, *parts(row), int(row.has_set)]
            for row in table.bags]
    attributes = [[row.bag, *row.identifier, *row.values] for row in table.attributes]
    return [result.opened, len(safes), len(bags), len(attributes), *result.mac_input, *parts(mac), *mac.salt, mac.iterations % HALF, mac.iterations // HALF,
            *padded(safes, 7, SAFE_ROWS), *padded(bags, 10, BAG_ROWS), *padded(attributes, 5, ATTRIBUTE_ROWS)]


def words_line(result):
    runs = [(word, len(list(same))) for word, same in groupby(words(result))]
    return "words: " + " ".join("%d" % word if count == 1 else "%d*%d" % (count, word) for word, count in runs) + "\n"


def elements(data, values):
    """The range of each element, header included."""
    walk, found = reader.Parent(data, reader.empty_reading(len(data)), *values), []
    while walk.left():
        found.append(walk.element().whole)
    return found


def attribute_line(data, bag, i, row):
    found = elements(data, row.values)
    shown = found if len(found) <= 2 * SHOWN else found[:SHOWN] + found[-SHOWN:]
    return "bag %d attribute %d: 0, bag %d, %d..%d, %d..%d, elements %d:%s\n" % (
        bag, i, row.bag, *row.type, *row.values, len(found), "".join(" %d..%d" % pair for pair in shown))


def certificate_line(data, result, bag):
    number, row = NO_ROW, 0
    if bag < len(result.bags) and result.bags[bag].kind in ("key", "shrouded key"):
        answer = pairs.answer(data, result, bag)
        number, row = (OK, int(answer.split()[-1])) if answer.startswith("certificate bag ") else (int(answer.split()[-1]), 0)
    return "bag %d certificate: %d, bag %d\n" % (bag, number, row)


def bag_lines(data, result, bag):
    own = [row for row in result.attributes if row.bag == bag]
    lines = [attribute_line(data, bag, i, row) for i, row in enumerate(own)]
    last = "%d, again %d" % (DONE, DONE) if bag < len(result.bags) else NO_ROW
    lines.append("bag %d attribute %d: %s\n" % (bag, len(own), last))
    return lines + [certificate_line(data, result, bag)]


def accepted_lines(data, result):
    lines = []
    for bag in range(len(result.bags) + 1):
        lines += bag_lines(data, result, bag)
    return lines + [WRITTEN]


def record(number, data):
    result = reader.read(data)
    refused = isinstance(result, reader.Refusal)
    answer, offset = result if refused else (OK, 0)
    listing, paired = reader.listing(result), pairs.pairs(data, result)
    lines = ["= %d, %d bytes\n" % (number, len(data)),
             "read: %d at %d\n" % (answer, offset),
             "mac input: %d, %d..%d\n" % (answer, *((0, 0) if refused else result.mac_input)),
             "list: %d, %d bytes\n" % (OK, len(listing)), listing,
             "pairs: %d, %d bytes\n" % (OK, len(paired)), paired, words_line(result)]
    return "".join(lines + ([] if refused else accepted_lines(data, result))), result
