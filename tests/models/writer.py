"""An independent writer for PKCS #12 files, to compare the proved one with.

Written from the rules (document 01); the comments quote them.  Elements of DER are taken apart by
reader.py.

    write(table, data, capacity)    ("length", the file's bytes) or ("refused", the number)
    unasked(table, data)            the file with no test of the table, for a reader to judge
    of_reading(reading)             the table of what reader.read gives for an accepted file
    values(table, data)             what a table shows: its rows with bytes in place of ranges
"""
from dataclasses import dataclass, field, replace

from models import reader
from models.numbers import (ATTRIBUTE_ROWS, BAG_ROWS, FILE_BYTES, LEVELS, NOT_SOUND, SAFE_ROWS,
                            SHORT_BUFFER, TOO_LONG)
from models.reader import BAG_PREFIX, DATA, ENCRYPTED_DATA, X509_CERTIFICATE

EMPTY = (0, 0)
SAFE_KINDS = ("none", "plain", "encrypted")
BAG_KINDS = ("none", "key", "shrouded key", "certificate", "crl", "secret", "nested")
SEALED, TYPED = ("identifier", "parameters", "value"), ("identifier", "value")
# The ranges that a row's kind uses.
USED = {"encrypted": SEALED, "shrouded key": SEALED, "key": ("value",), "certificate": TYPED, "crl": TYPED, "secret": TYPED}


@dataclass
class SafeRow:
    kind: str = "none"
    identifier: tuple = EMPTY
    parameters: tuple = EMPTY
    value: tuple = EMPTY


@dataclass
class BagRow:
    kind: str = "none"
    safe: int = 0
    enclosing: int = None
    identifier: tuple = EMPTY
    parameters: tuple = EMPTY
    value: tuple = EMPTY
    has_set: bool = False


@dataclass
class AttributeRow:
    bag: int = 0
    identifier: tuple = EMPTY
    values: tuple = EMPTY


@dataclass
class Mac:
    identifier: tuple = EMPTY
    parameters: tuple = EMPTY
    value: tuple = EMPTY
    salt: tuple = EMPTY
    iterations: int = 0


@dataclass
class Table:
    """Rows past those that are listed are empty."""
    safes: list = field(default_factory=list)
    bags: list = field(default_factory=list)
    attributes: list = field(default_factory=list)
    mac: Mac = field(default_factory=Mac)
    safe_count: int = 0
    bag_count: int = 0
    attribute_count: int = 0


class Unsound(Exception):
    pass


# ---- DER, to be written.

def length_of(size):
    # "82 with 0100..FFFF" is the longest that a file has. What has a longer body is refused by 9,
    # whatever stands here.
    if size < 0x80:
        return bytes([size])
    octets = size.to_bytes((size.bit_length() + 7) // 8, "big")
    return bytes([0x80 + len(octets)]) + octets


def element(tag, *parts):
    body = b"".join(parts)
    return bytes([tag]) + length_of(len(body)) + body


def sequence(*parts):
    return element(0x30, *parts)


def integer(number):
    # "minimal, not negative"
    return element(0x02, number.to_bytes(number.bit_length() // 8 + 1, "big"))


def named(body):
    return element(0x06, body)


def content(*parts):
    return element(0xA0, *parts)


def opaques(data):
    """The tags of the opaque elements that the bytes are a row of; None if they are no such row."""
    # "checked through to the bottom, 16 levels at most"
    parent = reader.Parent(data, reader.empty_reading(len(data)), 0, len(data))
    tags = []
    try:
        while parent.left():
            tags.append(reader.opaque(parent).tag)
    except reader.Refused:
        return None
    return tags


def is_identifier(body):
    # "body not empty, last byte below 80 hex, no part beginning with byte 80 hex"
    begins = [0] + [n + 1 for n, byte in enumerate(body[:-1]) if byte < 0x80]
    return bool(body) and body[-1] < 0x80 and all(body[n] != 0x80 for n in begins)


# ---- The file of a table.

class Writer:
    """Writes the tree that the rows make, and notes the rows in the order in which a reading would
    meet them."""

    def __init__(self, table, data, asks=True):
        self.table, self.data, self.asks = table, data, asks
        self.safes = below(table.safes, table.safe_count, SAFE_ROWS, SafeRow())
        self.bags = below(table.bags, table.bag_count, BAG_ROWS, BagRow())
        self.attributes = below(table.attributes, table.attribute_count, ATTRIBUTE_ROWS, AttributeRow())
        self.bags_met, self.attributes_met = [], []

    def need(self, kept):
        if self.asks and not kept:
            raise Unsound

    def file(self):
        # "its counts are within the sizes"
        self.need(len(self.safes) == self.table.safe_count)
        self.need(len(self.bags) == self.table.bag_count)
        self.need(len(self.attributes) == self.table.attribute_count)
        safes = sequence(*[self.safe(number, row) for number, row in enumerate(self.safes)])
        # "its rows stand in the order a reading gives": all of them, each where its names place it
        self.need(self.bags_met == list(range(len(self.bags))))
        self.need(self.attributes_met == list(range(len(self.attributes))))
        # "PFX is SEQUENCE (30): version INTEGER 3; ContentInfo; MacData."
        outer = sequence(named(DATA), content(element(0x04, safes)))
        return sequence(integer(3), outer, self.mac_data(self.table.mac))

    def part(self, pair):
        # "its ranges lie anywhere in the bytes"
        start, end = pair
        self.need(start <= end <= len(self.data))
        return self.data[start:end]

    def identifier(self, pair):
        body = self.part(pair)
        self.need(is_identifier(body))
        return named(body)

    def opaque(self, pair, allowed):
        """The opaque elements of a range, whose tags have to be allowed."""
        body = self.part(pair)
        tags = opaques(body)
        self.need(tags is not None and allowed(tags))
        return body

    def algorithm(self, row):
        # "SEQUENCE of an identifier and at most one opaque element"
        return sequence(self.identifier(row.identifier), self.opaque(row.parameters, lambda tags: len(tags) <= 1))

    def safe(self, number, row):
        if row.kind == "plain":
            return sequence(named(DATA), content(element(0x04, self.contents(number, None, 1))))
        self.need(row.kind == "encrypted")
        info = sequence(named(DATA), self.algorithm(row), element(0x80, self.part(row.value)))
        return sequence(named(ENCRYPTED_DATA), content(sequence(integer(0), info)))

    def contents(self, safe, enclosing, level):
        """The SafeContents of the bags that name this safe and this enclosing bag."""
        self.need(level <= LEVELS)  # "Safe contents nest to level 8"
        own = [n for n, row in enumerate(self.bags) if (row.safe, row.enclosing) == (safe, enclosing)]
        return sequence(*[self.bag(n, self.bags[n], level) for n in own])

    def bag(self, number, row, level):
        # "SEQUENCE of bagId, [0] (A0) with one element, and optionally SET (31) of attributes"
        self.bags_met.append(number)
        self.need(row.kind != "none")
        name = named(BAG_PREFIX + bytes([BAG_KINDS.index(row.kind)]))
        value = content(self.bag_value(number, row, level))
        own = [n for n, attribute in enumerate(self.attributes) if attribute.bag == number]
        # "attributes belong only to bags with a set"
        self.need(row.has_set or not own)
        last = element(0x31, *[self.attribute(n) for n in own]) if row.has_set else b""
        return sequence(name, value, last)

    def bag_value(self, number, row, level):
        if row.kind == "key":  # "an opaque SEQUENCE"
            return self.opaque(row.value, lambda tags: tags == [0x30])
        if row.kind == "shrouded key":
            return sequence(self.algorithm(row), element(0x04, self.part(row.value)))
        if row.kind == "nested":
            return self.contents(row.safe, number, level + 1)
        return sequence(self.identifier(row.identifier), content(self.typed_value(row)))

    def typed_value(self, row):
        # "one opaque element. For 03 with x509Certificate that element is an OCTET STRING."
        x509 = row.kind == "certificate" and self.part(row.identifier) == X509_CERTIFICATE
        return self.opaque(row.value, lambda tags: tags == [0x04] if x509 else len(tags) == 1)

    def attribute(self, number):
        # "SEQUENCE of an identifier and SET of zero or more opaque elements"
        self.attributes_met.append(number)
        row = self.attributes[number]
        return sequence(self.identifier(row.identifier), element(0x31, self.opaque(row.values, lambda tags: True)))

    def mac_data(self, mac):
        # "DigestInfo .., salt OCTET STRING, and optionally INTEGER iterations. Absent means 1; if
        # present it is 2 to 2,147,483,647"
        digest = sequence(self.algorithm(mac), element(0x04, self.part(mac.value)))
        self.need(1 <= mac.iterations <= 2147483647)
        last = b"" if mac.iterations == 1 else integer(mac.iterations)
        return sequence(digest, element(0x04, self.part(mac.salt)), last)


def below(rows, count, size, empty):
    """The rows below the count, as many of them as the table holds."""
    padded = rows + [empty] * (size - len(rows))
    return padded[:min(count, size)]


def write(table, data, capacity):
    # "Order: 11, 9, 10."
    try:
        file = Writer(table, data).file()
    except Unsound:
        return "refused", NOT_SOUND
    if len(file) > FILE_BYTES:
        return "refused", TOO_LONG
    if capacity < len(file):
        return "refused", SHORT_BUFFER
    return "length", file


def unasked(table, data):
    return Writer(table, data, asks=False).file()


# ---- Tables of readings, and what tables show.

def of_reading(reading):
    safes = [SafeRow(row.kind, row.algorithm, row.parameters, row.ciphertext) for row in reading.safes]
    bags = [bag_of(row) for row in reading.bags]
    attributes = [AttributeRow(row.bag, row.type, row.values) for row in reading.attributes]
    mac = reading.mac
    fields = Mac(mac.algorithm, mac.parameters, mac.digest, mac.salt, mac.iterations)
    return Table(safes, bags, attributes, fields, len(safes), len(bags), len(attributes))


def bag_of(row):
    bag = BagRow(row.kind, row.safe, row.enclosing, has_set=row.has_set)
    if row.kind == "key":
        return replace(bag, value=row.key)
    if row.kind == "shrouded key":
        return replace(bag, identifier=row.algorithm, parameters=row.parameters, value=row.ciphertext)
    return replace(bag, identifier=row.type, value=row.value)


def values(table, data):
    """The counts, and of each row below them the kind, the names and the bytes of the ranges that
    its kind uses."""
    def shown(row, names):
        return [data[slice(*getattr(row, name))] for name in names]

    writer, mac = Writer(table, data), table.mac
    return ((table.safe_count, table.bag_count, table.attribute_count),
            [(row.kind, shown(row, USED.get(row.kind, ()))) for row in writer.safes],
            [(row.kind, row.safe, row.enclosing, row.has_set, shown(row, USED.get(row.kind, ()))) for row in writer.bags],
            [(row.bag, shown(row, ("identifier", "values"))) for row in writer.attributes],
            (shown(mac, SEALED + ("salt",)), mac.iterations))
