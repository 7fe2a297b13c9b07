"""Tables for the writer: those of files, and such that each clause of soundness, each size and each
header is met and missed.

GROUPS are the functions that give the cases, one after another. A case has a name, a table, the
bytes that its ranges point into, and the capacity of the buffer.
"""
import copy
import random
from collections import namedtuple

import p12_make
from models import reader, writer
from models.numbers import ATTRIBUTE_ROWS, BAG_ROWS, FILE_BYTES, SAFE_ROWS
from models.writer import AttributeRow, BagRow, SafeRow, Table
from p12_make import E, NULL, key, nested, octets, pfx, plain, seq
from stored import FILES

SEED = 1
LONGEST = 3000  # of the files whose tables are written back
SHORT = 1000  # of those that are written into other buffers too
LARGEST = FILE_BYTES + 1  # of the program's buffers

Case = namedtuple("Case", "name table data capacity")


# ---- Tables to start from.

class Sketch:
    """A table and its bytes, to be changed. The buffer has three bytes more than the file, where no
    other capacity is given."""

    def __init__(self, file=b"", table=None):
        self.data, self.capacity = file, None
        self.table = table or writer.of_reading(reader.read(file))

    def put(self, data):
        """The range of bytes that are put behind the others."""
        start = len(self.data)
        self.data += data
        return start, len(self.data)

    def case(self, name):
        capacity = self.capacity
        if capacity is None:
            capacity = min(len(writer.unasked(self.table, self.data)) + 3, LARGEST)
        return Case(name, self.table, self.data, capacity)


MADE = dict(p12_make.files())


def made(name):
    """The table of a file of p12_make.py."""
    return Sketch(MADE[name])


def into(capacity, name, sketch):
    """A case with a buffer of that capacity."""
    sketch.capacity = capacity
    return sketch.case(name)


def changed(name, base, change):
    """A case: the base with change(sketch) done to a copy of it."""
    sketch = copy.deepcopy(base)
    change(sketch)
    return sketch.case(name)


def at(sketch, place):
    """What the table has at `place`, a path such as ("bags", 2, "value")."""
    row = sketch.table
    for step in place:
        row = row[step] if isinstance(step, int) else getattr(row, step)
    return row


def store(place, value):
    """A change: the value, or what value(sketch) returns, at `place` of the table."""
    def change(sketch):
        setattr(at(sketch, place[:-1]), place[-1], value(sketch) if callable(value) else value)
    return change


def bytes_at(sketch, place):
    return sketch.data[slice(*at(sketch, place))]


# The rows of p12_make.whole(), by what they are.
WHOLE = {
    "encrypted safe": ("safes", 0), "plain safe": ("safes", 1), "key": ("bags", 0), "shrouded key": ("bags", 1),
    "certificate": ("bags", 2), "crl": ("bags", 3), "secret": ("bags", 4), "nested bag": ("bags", 5), "attribute": ("attributes", 1),
    "MAC": ("mac",)}
PARTS = {
    "encrypted safe": "identifier parameters value", "key": "value", "shrouded key": "identifier parameters value",
    "certificate": "identifier value", "crl": "identifier value", "secret": "identifier value", "attribute": "identifier values",
    "MAC": "identifier parameters value salt"}
UNUSED = {
    "plain safe": "identifier parameters value", "key": "identifier parameters", "certificate": "parameters", "crl": "parameters",
    "secret": "parameters", "nested bag": "identifier parameters value"}
# Parts that may be empty.
FREE = ("encrypted safe value", "shrouded key value", "MAC value", "MAC salt", "attribute values", "encrypted safe parameters",
        "shrouded key parameters", "MAC parameters")


def places(parts):
    """(name, path in the table) of each range."""
    return [("%s %s" % (row, part), WHOLE[row] + (part,)) for row, names in parts.items() for part in names.split()]


# ---- (a) Tables of files.

def of_files():
    """Tables that reading gives, into a buffer that is exact, one short and larger; and with the
    parts elsewhere in the bytes."""
    # the files for pairs have no other parts than the rest, and the output has to stay short
    files = [("file " + name, data) for name, data in MADE.items() if not name.startswith("pairs_")]
    files += [("file " + path.stem, path.read_bytes()) for path in sorted(FILES.glob("*.p12"))]
    for name, data in files:
        if len(data) > LONGEST or isinstance(reader.read(data), reader.Refusal):
            continue
        for how, size in (("exact", 0), ("one short", -1), ("larger", 20)):
            if size == 0 or len(data) <= SHORT:
                yield into(len(data) + size, "%s, buffer %s" % (name, how), Sketch(data))
    for capacity in (0, 1, 46):
        yield into(capacity, "M, buffer of %d" % capacity, made("bench_a"))
    yield into(LARGEST, "M, the largest buffer", made("bench_a"))
    for name in ("whole", "two_in_nested_then_one", "parameters_absent", "empty_bodies"):
        yield scattered("parts of %s in another order" % name, made(name), 1)
        yield scattered("parts of %s overlap" % name, made(name), 0)


def ranges_of(table):
    """(row, name of its range) of each range that is used."""
    for row in table.safes + table.bags:
        for part in writer.USED.get(row.kind, ()):
            yield row, part
    for row in table.attributes:
        yield from ((row, part) for part in ("identifier", "values"))
    yield from ((table.mac, part) for part in ("identifier", "parameters", "value", "salt"))


def scattered(name, base, gap):
    """The same table over other bytes: parts in an order that a fixed seed gives, gaps between; or with no gap, and equal ones once."""
    parts = list(ranges_of(base.table))
    random.Random(SEED).shuffle(parts)
    data = b""
    for row, part in parts:
        body = base.data[slice(*getattr(row, part))]
        start = data.find(body) if gap == 0 else -1
        if start < 0:
            start, data = len(data), data + body + b"\xFF" * gap
        setattr(row, part, (start, start + len(body)))
    base.data = data
    return base.case(name)


# ---- (b) Each clause of soundness.

def counts():
    """Counts within the sizes; rows past them are ignored."""
    for name, rows, size in (("safes_16_plain", "safes", SAFE_ROWS), ("bags_64", "bags", BAG_ROWS),
                             ("attributes_128", "attributes", ATTRIBUTE_ROWS)):
        count = rows[:-1] + "_count"
        yield changed("%s %d, one more counted" % (rows, size), made(name), store((count,), size + 1))
        yield changed("%s %d, 65535 counted" % (rows, size), made(name), store((count,), 65535))
    yield full().case("all sizes full: 16 safes, 64 bags to level 8, 128 attributes")
    for rows in ("safe", "bag", "attribute"):
        count = rows + "_count"
        yield changed("an empty %s row counted" % rows, made("whole"), lambda sketch: one_more(sketch, count))
    whole = made("whole")
    yield changed("last attribute not counted", whole, store(("attribute_count",), 3))
    yield changed("no attribute counted", whole, store(("attribute_count",), 0))
    yield changed("last bag not counted, its attribute is", whole, store(("bag_count",), 6))
    yield changed("safe of the bags not counted", whole, store(("safe_count",), 1))
    yield changed("nothing counted", whole, lambda sketch: none_counted(sketch))
    yield changed("rubbish in rows past the counts", whole, rubbish)
    yield changed("rubbish in every row past the counts", made("bench_a"), rubbish_everywhere)
    yield Sketch(table=Table()).case("empty table, no bytes")
    yield Sketch(b"\x00" * 50, Table()).case("empty table")


def one_more(sketch, count):
    setattr(sketch.table, count, getattr(sketch.table, count) + 1)


def none_counted(sketch):
    sketch.table.safe_count = sketch.table.bag_count = sketch.table.attribute_count = 0


BAD = (65535, 65534)


def rubbish(sketch):
    sketch.table.safes.append(SafeRow("encrypted", BAD, BAD, BAD))
    sketch.table.bags.append(BagRow("key", 65535, 65535, BAD, BAD, BAD, True))
    sketch.table.attributes.append(AttributeRow(0, BAD, BAD))


def rubbish_everywhere(sketch):
    sketch.table.safes = [SafeRow("encrypted", BAD, BAD, BAD)] * SAFE_ROWS
    sketch.table.bags = [BagRow("nested", 0, 0, BAD, BAD, BAD, True)] * BAG_ROWS
    sketch.table.attributes = [AttributeRow(0, BAD, BAD)] * ATTRIBUTE_ROWS


def full():
    """16 safes; in the last 7 nested bags, each in the one before, and 57 keys in the last; two attributes each."""
    sketch = made("bench_a")
    null, secret = sketch.put(NULL), sketch.put(b"\x30\x00")
    table = sketch.table
    table.safes = [SafeRow("encrypted", table.mac.identifier, null, null) for _ in range(15)] + [SafeRow("plain")]
    table.bags = [BagRow("nested", 15, n - 1 if n else None, has_set=True) for n in range(7)]
    table.bags += [BagRow("key", 15, 6, value=secret, has_set=True) for _ in range(57)]
    order = list(range(7, 64)) + list(range(6, -1, -1))
    table.attributes = [AttributeRow(n, table.mac.identifier, null) for n in order for _ in range(2)]
    table.safe_count, table.bag_count, table.attribute_count = 16, 64, 128
    return sketch


def kinds():
    """Every row below the counts has a kind; fields that the kind doesn't use are ignored."""
    whole = made("whole")
    for name in ("encrypted safe", "plain safe", "key", "shrouded key", "certificate", "crl", "secret", "nested bag"):
        yield changed("%s of kind none" % name, whole, store(WHOLE[name] + ("kind",), "none"))
    yield changed("empty plain safe of kind none", made("bench_h"), store(("safes", 0, "kind"), "none"))
    yield changed("empty nested bag of kind none", made("bag_nested_no_set"), store(("bags", 0, "kind"), "none"))
    yield changed("plain safe with bags made encrypted", whole, made_encrypted)
    for name, place in places(UNUSED):
        for pair in ((65535, 0), (65535, 65535)):
            yield changed("unused %s %d..%d" % (name, *pair), whole, store(place, pair))
    yield changed("certificate made crl", whole, store(("bags", 2, "kind"), "crl"))
    yield changed("secret made certificate", whole, store(("bags", 4, "kind"), "certificate"))
    yield changed("shrouded key made secret, its value no element", whole, store(("bags", 1, "kind"), "secret"))
    yield changed("crl made nested", whole, store(("bags", 3, "kind"), "nested"))


def made_encrypted(sketch):
    sketch.table.safes[1] = sketch.table.safes[0]


def ranges():
    """Ranges lie in the bytes, wherever."""
    whole = made("whole")
    for name, place in places(PARTS):
        def last(sketch, more=0):
            start, end = sketch.put(bytes_at(sketch, place))
            return start, end + more
        start, end = at(whole, place)
        yield changed("%s at the end of the bytes" % name, whole, store(place, last))
        yield changed("%s ends one past the bytes" % name, whole, store(place, lambda sketch: last(sketch, 1)))
        yield changed("%s ends at 65535" % name, whole, store(place, (start, 65535)))
        yield changed("%s ends before it starts" % name, whole, store(place, (end, start)))
        if name in FREE:
            size = len(whole.data)
            for pair in ((0, 0), (size, size), (size + 1, size + 1), (65535, 65535), (size, size - 1)):
                yield changed("%s %d..%d of %d bytes" % (name, *pair, size), whole, store(place, pair))
    yield Sketch(b"", made("bench_a").table).case("M's table, no bytes")


def order_of_bags():
    """Bag rows stand in file order of their first bytes, each naming its safe and its enclosing bag or none."""
    three = made("plain_encrypted_plain")  # bag 0 in safe 0, bags 1 and 2 in safe 2; safe 1 is encrypted
    for bag, safe in ((0, 1), (0, 2), (0, 3), (1, 0), (1, 1), (2, 0), (2, 1), (2, 3), (2, 65535)):
        yield changed("bag %d of safes 0, 2, 2 names safe %d" % (bag, safe), three, store(("bags", bag, "safe"), safe))
    yield changed("bag rows of two safes swapped", three, swap("bags", 0, 1))
    yield changed("bag rows of one safe swapped", three, swap("bags", 1, 2))
    inner = made("two_in_nested_then_one")  # nested 0 (key 1, nested 2 (certificate 3), crl 4), secret 5
    yield changed("bag 5 of 0 (1 2 (3) 4) 5 put into bag 0, its attribute stays behind that of bag 0", inner,
                  store(("bags", 5, "enclosing"), 0))
    inner.table.attribute_count = 0
    for bag, enclosing in ((1, None), (1, 1), (1, 2), (2, None), (2, 1), (2, 2), (3, None), (3, 0), (3, 1), (3, 3), (3, 4), (3, 5),
                           (3, 6), (3, 65535), (4, None), (4, 1), (4, 2), (4, 3), (4, 4), (5, 0), (5, 1), (5, 2), (5, 5), (0, 0), (0, 2),
                           (0, 5)):
        yield changed("bag %d of 0 (1 2 (3) 4) 5 names enclosing bag %s" % (bag, "none" if enclosing is None else enclosing), inner,
                      store(("bags", bag, "enclosing"), enclosing))
    yield changed("an enclosing bag past the counts", inner, enclosed_past_the_counts)
    yield changed("nested bag made a crl, with bags in it", inner, store(("bags", 2, "kind"), "crl"))
    two = Sketch(pfx(plain(nested(key())), plain(nested(key()))).encode())
    for bag, safe, enclosing in ((1, 1, 0), (3, 0, 2), (3, 1, 0), (3, 0, 0), (1, 0, 2), (2, 0, None), (2, 0, 0)):
        def change(sketch):
            sketch.table.bags[bag].safe, sketch.table.bags[bag].enclosing = safe, enclosing
        yield changed("bag %d of 0 (1) in safe 0, 2 (3) in safe 1, names safe %d and enclosing bag %s"
                      % (bag, safe, "none" if enclosing is None else enclosing), two, change)
    yield changed("bags 0 (1) and 2 (3) of two safes, all name safe 1", two, move_all)


def enclosed_past_the_counts(sketch):
    sketch.table.bags.append(BagRow("nested"))
    sketch.table.bags[5].enclosing = 6


def move_all(sketch):
    for row in sketch.table.bags:
        row.safe = 1


def swap(rows, one, two):
    def change(sketch):
        held = getattr(sketch.table, rows)
        held[one], held[two] = held[two], held[one]
    return change


def levels():
    """Safe contents nest to level 8; those of a plain safe are level 1. A nested bag has contents, also empty ones."""
    for count in (1, 6, 7, 8, 9, 63):
        yield chain("%d nested bags, each in the one before, nothing in the last" % count, count, 0)
        yield chain("%d nested bags, each in the one before, a key in the last" % count, count, 1)


def chain(name, count, keys):
    sketch = made("bench_h")
    secret = sketch.put(b"\x30\x00")
    rows = [BagRow("nested", 0, n - 1 if n else None) for n in range(count)]
    rows += [BagRow("key", 0, count - 1, value=secret)] * keys
    sketch.table.bags, sketch.table.bag_count = rows, len(rows)
    return sketch.case(name)


def order_of_attributes():
    """Attribute rows stand in file order, a nested bag's before its enclosing bag's, and only of bags with a set."""
    whole = made("whole")  # of bags 2, 2, 6, 5; bag 6 lies in bag 5; bags 0 and 3 have no set, 1 and 4 an empty one
    for number in range(4):
        for bag in (0, 1, 2, 3, 4, 5, 6, 7, 65535):
            if bag != whole.table.attributes[number].bag:
                yield changed("attribute %d of bags 2 2 6 5 (6 lies in 5) names bag %d" % (number, bag), whole,
                              store(("attributes", number, "bag"), bag))
    yield changed("attribute rows of one bag swapped", whole, swap("attributes", 0, 1))
    yield changed("attribute rows of two bags swapped", whole, swap("attributes", 1, 2))
    yield changed("a nested bag's attribute after its enclosing bag's", whole, swap("attributes", 2, 3))
    yield changed("attributes of bags 2 4 2 5: another bag's between two of one bag", whole, between)
    for bag, row in enumerate(whole.table.bags):
        yield changed("bag %d, has set made %s" % (bag, not row.has_set), whole, store(("bags", bag, "has_set"), not row.has_set))
    inner = made("two_in_nested_then_one")  # of bags 1 3 0 0 5
    for one, two in ((0, 1), (1, 2), (2, 3), (3, 4), (0, 4)):
        yield changed("attribute rows %d and %d of bags 1 3 0 0 5 swapped" % (one, two), inner, swap("attributes", one, two))
    for number, bag in ((2, 2), (3, 2), (2, 1), (1, 2), (1, 4), (4, 0), (3, 5)):
        yield changed("attribute %d of bags 1 3 0 0 5 (0 holds 1 2 4, 2 holds 3) names bag %d" % (number, bag), inner,
                      store(("attributes", number, "bag"), bag))


def between(sketch):
    for number, bag in enumerate((2, 4, 2, 5)):
        sketch.table.attributes[number].bag = bag


def identifiers():
    """An identifier's body isn't empty, its last byte is below 80 hex, and no part begins with byte 80 hex."""
    whole = made("whole")
    for name, place in places(PARTS):
        if name.endswith("identifier"):
            for body in ("", "80", "2A80", "2A86", "8001", "2A8001", "2A7F8001", "2A81", "00", "7F", "81807F", "2A81808001", "FF7F"):
                yield changed("%s %s" % (name, body or "empty"), whole, put_at(place, bytes.fromhex(body)))
    base = made("bench_a")
    yield changed("identifier of 300 bytes", base, put_at(("mac", "identifier"), b"\x81" * 299 + b"\x01"))


def put_at(place, data):
    return store(place, lambda sketch: sketch.put(data))


# Whole elements, and others, by what they are.
OPAQUE = (
    ("NULL", NULL), ("empty SEQUENCE", b"\x30\x00"), ("nothing", b""), ("16 levels", p12_make.depth(16).encode()),
    ("17 levels", p12_make.depth(17).encode()), ("17 levels, the last primitive", p12_make.depth(17, E(0x04)).encode()),
    ("two elements", seq().encode() + NULL), ("an element and 00", seq().encode() + b"\x00"), ("a tag alone", b"\x30"),
    ("a body cut short", b"\x30\x03\x05\x00"), ("a child past its parent", b"\x30\x03\x04\x02\x00"), ("tag 00", b"\x00\x00"),
    ("tag 3F", b"\x3F\x00"), ("a child with tag 1F", b"\x30\x02\x1F\x00"), ("length 80", b"\x30\x80\x00\x00"),
    ("length 81 7F", b"\x30\x81\x7F" + b"\x04\x7D" + bytes(125)), ("length 81 80", b"\x30\x81\x80" + b"\x04\x7E" + bytes(126)),
    ("length 82 00 FF", b"\x30\x82\x00\xFF" + b"\x04\x81\xFC" + bytes(252)),
    ("length 82 01 00", b"\x30\x82\x01\x00" + b"\x04\x81\xFD" + bytes(253)), ("length 83", b"\x30\x83\x00\x00\x00"),
    ("rubbish in a constructed one", b"\x30\x02\x00\x00"), ("rubbish in a primitive one", b"\x04\x03\x30\x80\x00"),
    ("SET", b"\x31\x00"), ("10", b"\x10\x00"), ("OCTET STRING", octets(b"abc").encode()), ("24", b"\x24\x00"), ("A0", b"\xA0\x00"),
    ("BIT STRING", b"\x03\x01\x00"), ("84", b"\x84\x00"))


def opaque_parts():
    """Opaque elements: one where one is due, parameters none or one, values of an attribute any number."""
    whole = made("whole")
    for name, place in places(PARTS):
        kind, part = name.rsplit(" ", 1)
        if part in ("parameters", "values") or (part == "value" and kind in ("key", "certificate", "crl", "secret")):
            for what, data in OPAQUE:
                yield changed("%s: %s" % (name, what), whole, put_at(place, data))
    yield changed("attribute values: 300 elements", whole, put_at(WHOLE["attribute"] + ("values",), NULL * 300))


def certificates():
    """A certificate with x509Certificate holds an OCTET STRING; with another type, or in another bag, any element."""
    x509 = bytes.fromhex(p12_make.X509_CERT)
    types = (("x509Certificate", x509), ("sdsiCertificate", bytes.fromhex(p12_make.SDSI_CERT)), ("x509Certificate 00", x509 + b"\x00"),
             ("x509Certificate less its last byte", x509[:-1]))
    for kind in ("certificate", "crl", "secret"):
        row = WHOLE[kind]
        for name, body in types:
            for what, data in (("an OCTET STRING", octets(b"abc").encode()), ("a SEQUENCE", seq().encode()), ("24", b"\x24\x00"),
                               ("two OCTET STRINGs", octets().encode() * 2), ("nothing", b"")):
                def change(sketch):
                    put_at(row + ("identifier",), body)(sketch)
                    put_at(row + ("value",), data)(sketch)
                yield changed("%s of type %s holds %s" % (kind, name, what), made("whole"), change)


def iterations():
    """Iterations are 1 to 2,147,483,647, in an INTEGER of one to four bytes, and absent where they are 1."""
    for number in (0, 1, 2, 127, 128, 255, 256, 32767, 32768, 65535, 65536, 8388607, 8388608, 2147483646, 2147483647, 2147483648,
                   4294967295):
        yield changed("iterations %d" % number, made("bench_a"), store(("mac", "iterations"), number))


# ---- (c) Sizes of files.

def of_size(size):
    """A table whose file has that many bytes: sixteen encrypted safes over one range, the last one's longer."""
    sketch = made("bench_a")
    start, end = sketch.put(bytes(4000))
    table = sketch.table
    table.safes = [SafeRow("encrypted", table.mac.identifier, (start, start), (start, end)) for _ in range(SAFE_ROWS)]
    table.safe_count = SAFE_ROWS
    more = size - len(writer.unasked(table, sketch.data))
    sketch.data += bytes(more)
    table.safes[-1].value = (start, end + more)
    return sketch


def over(rows, size):
    """As many rows as there are of one kind, all over one large range."""
    sketch = made("bench_h")
    name = sketch.table.mac.identifier
    large = sketch.put(octets(bytes(size)).encode())
    table = sketch.table
    if rows == "safes":
        table.safes = [SafeRow("encrypted", name, large, large) for _ in range(SAFE_ROWS)]
    elif rows == "bags":
        table.bags = [BagRow("certificate", 0, None, name, BAD, large) for _ in range(BAG_ROWS)]
    else:
        table.bags = [BagRow("nested", 0, None, has_set=True)]
        table.attributes = [AttributeRow(0, name, large) for _ in range(ATTRIBUTE_ROWS)]
    table.safe_count, table.bag_count, table.attribute_count = len(table.safes), len(table.bags), len(table.attributes)
    return sketch


def sizes():
    """A file of 65,535 bytes is written, one of 65,536 isn't; 11 before 9 before 10."""
    for more, how in ((0, "exact"), (1, "one larger"), (-1, "one short"), (-FILE_BYTES, "of 0")):
        yield into(FILE_BYTES + more, "file of %d bytes, buffer %s" % (FILE_BYTES, how), of_size(FILE_BYTES))
    for size in (65536, 65537, 65600):
        for capacity in (LARGEST, 0):
            yield into(capacity, "file of %d bytes, buffer of %d" % (size, capacity), of_size(size))
            yield into(capacity, "file of %d bytes, not sound, buffer of %d" % (size, capacity), unsound(of_size(size)))
    yield into(0, "not sound, buffer of 0", unsound(made("whole")))
    for rows, size in (("safes", 300), ("safes", 5000), ("bags", 200), ("bags", 5000), ("attributes", 150), ("attributes", 5000),
                       ("attributes", 60000)):
        yield into(LARGEST, "all %s over one element of %d bytes" % (rows, size), over(rows, size))
    yield into(0, "all bags over one element of 5000 bytes, not sound", unsound(over("bags", 5000)))


def unsound(sketch):
    sketch.table.mac.iterations = 0
    return sketch


# The parts whose sizes are tried, of p12_make.whole() and of two_in_nested_then_one, and what makes a part of n bytes.
GROWN = (
    ("whole", ("safes", 0, "value"), bytes), ("whole", ("bags", 1, "value"), bytes), ("whole", ("mac", "value"), bytes),
    ("two_in_nested_then_one", ("bags", 3, "value"), lambda n: octets(bytes(n)).encode()),
    ("two_in_nested_then_one", ("attributes", 1, "values"), lambda n: octets(bytes(n)).encode()))


def headers():
    """Parts of a size at which a header of the file is one byte shorter than at the next, and the next."""
    for name, place, make in GROWN:
        base = made(name)
        grown = [changed("%s %s of %d bytes" % (name, " ".join(map(str, place)), n), base, put_at(place, make(n))) for n in range(300)]
        lengths = [len(writer.unasked(case.table, case.data)) for case in grown]
        for n in range(299):
            if lengths[n + 1] > lengths[n] + 1:
                yield from grown[n:n + 2]


GROUPS = (of_files, counts, kinds, ranges, order_of_bags, levels, order_of_attributes, identifiers, opaque_parts, certificates, iterations,
          sizes, headers)
