"""An independent reader for PKCS #12 files (password integrity mode, DER).

Written from two documents alone, the rules (document 01) and RFC 7292, with the
choices that docs/DECISIONS.md lists where 01 leaves one.  The functions are in
the order of 01; the comments quote it.

    python3 -m models.reader FILE ..      the listing of each file
    python3 -m models.reader --hex HEX    the listing of the bytes HEX spells

read(data) gives a Refusal (number, offset) or a reading: an object with size,
opened, mac (algorithm, parameters, digest, salt, iterations), mac_input, and
the rows safes, bags, attributes.  A range is a pair (a, b) of offsets into the
file; it has bytes a up to b-1.
"""
import pathlib
import sys
from collections import namedtuple
from types import SimpleNamespace

from models.numbers import (
    ATTRIBUTE_ROWS, BAG_ROWS, CONTENT, FILE_BYTES, LEFT_OVER, LENGTH_FORM,
    LEVELS, MISSING, NOT_SERVED, OPAQUE_LEVELS, OTHER_TAG, OVERRUN, SAFE_ROWS,
    TAG_FORM, TOO_LONG, TOO_MANY)

INTEGER, OCTET_STRING, IDENTIFIER = 0x02, 0x04, 0x06
SEQUENCE, SET, CONTEXT_0, CIPHERTEXT = 0x30, 0x31, 0xA0, 0x80

# The table of names; "the same with last byte 02, 03, 06".
DATA = bytes.fromhex("2A864886F70D010701")
SIGNED_DATA, ENVELOPED_DATA, ENCRYPTED_DATA = (
    DATA[:-1] + last for last in (b"\x02", b"\x03", b"\x06"))
X509_CERTIFICATE = bytes.fromhex("2A864886F70D01091601")
# "each kind of bag has its own identifier bytes: .. and then"
BAG_PREFIX = bytes.fromhex("2A864886F70D010C0A01")
BAG_KINDS = {1: "key", 2: "shrouded key", 3: "certificate", 4: "crl",
             5: "secret", 6: "nested"}

Refusal = namedtuple("Refusal", "number offset")    # what read() gives back
class Refused(Exception):
    pass    # carries the same pair out of the walk: "The first fault answers"

def need(kept, number, offset):
    if not kept:
        raise Refused(number, offset)

# ---- The table. "Rows hold these as ranges"; "fields that a row's kind
# doesn't use hold 0 or none". An identifier, an OCTET STRING, the ciphertext
# and a SET stand by their body; an opaque element whole.
def new_row(ranges, **fields):
    return SimpleNamespace(**fields, **dict.fromkeys(ranges.split(), (0, 0)))

def add_row(rows, size, element, ranges, **fields):
    need(len(rows) < size, TOO_MANY, element.at)    # "a row too many"
    rows.append(new_row(ranges, **fields))
    return rows[-1]

def empty_reading(size):
    mac = new_row("algorithm parameters digest salt", iterations=0)
    return new_row("mac_input", size=size, opened=0, mac=mac,
                   safes=[], bags=[], attributes=[])

# ---- One element. "An element is a tag byte, a length and a body."
# at is the offset of its tag; body and whole are ranges.
Element = namedtuple("Element", "tag at body whole")

class Parent:
    # A body walked "front to back": the next offset in it, and its end.
    def __init__(self, data, table, at, end):
        self.data, self.table, self.at, self.end = data, table, at, end

    def left(self):
        return self.at < self.end

    def element(self, due=None):
        # "At each element: tag form, length form, body within parent, tag due"
        at = self.at
        # "no byte left": "the parent's end where a whole element is missing"
        need(self.left(), MISSING, self.end)
        tag = self.data[at]
        # "00 and any byte whose low five bits are all ones are refused (2)"
        need(tag != 0x00 and tag & 0x1F != 0x1F, TAG_FORM, at)
        start, size = self.length(at)
        end = start + size
        need(end <= self.end, OVERRUN, at)  # "a header or body that runs past its parent"
        # "another tag than the one due"
        need(due in (None, tag), OTHER_TAG, at)
        self.table.opened += 1
        self.at = end       # "moves on past one whole element"
        return Element(tag, at, (start, end), (at, end))

    def length(self, at):
        # "Length: 00..7F; 81 with 80..FF; 82 with 0100..FFFF. Any other form
        # is refused (3)". Any other header with a byte missing runs past its parent
        need(at + 1 < self.end, OVERRUN, at)
        first = self.data[at + 1]
        if first < 0x80:
            return at + 2, first
        # "a first length byte 80, or 83 and above, is 3 at once"
        need(first in (0x81, 0x82), LENGTH_FORM, at)
        start = at + 2 + (first - 0x80)
        need(start <= self.end, OVERRUN, at)
        size = int.from_bytes(self.data[at + 2:start], "big")
        # "a length that a shorter form could give"
        need(size >= (0x80 if first == 0x81 else 0x100), LENGTH_FORM, at)
        return start, size

    def inside(self, element):
        # "or descends into its body"
        return Parent(self.data, self.table, *element.body)

    def enter(self, due):
        return self.inside(self.element(due))

    def bytes_of(self, element):
        return self.data[element.body[0]:element.body[1]]

    def finish(self):
        # "bytes left over in a parent after its last element"
        need(not self.left(), LEFT_OVER, self.at)

def opaque(parent, due=None, level=1):
    # "where tag bit 20 (hex) is set its body is zero or more complete
    # elements, otherwise the body isn't looked at. The opaque element itself
    # is level 1; an element of level 17 is refused (8)."
    element = parent.element(due)
    need(level <= OPAQUE_LEVELS, TOO_MANY, element.at)
    if element.tag & 0x20:
        body = parent.inside(element)
        while body.left():
            opaque(body, None, level + 1)
    return element

def identifier(parent):
    # "OBJECT IDENTIFIER (06): body not empty, last byte below 80 hex, no part
    # beginning with byte 80 hex."
    element = parent.element(IDENTIFIER)
    body = parent.bytes_of(element)
    need(body and body[-1] < 0x80, CONTENT, element.at)
    begins = True                   # does a part begin at this byte?
    for byte in body:
        need(not (begins and byte == 0x80), CONTENT, element.at)
        begins = byte < 0x80
    return element, body

def integer(parent):
    # "INTEGER (02): 1 to 4 body bytes, minimal, not negative."
    element = parent.element(INTEGER)
    body = parent.bytes_of(element)
    need(1 <= len(body) <= 4 and body[0] < 0x80, CONTENT, element.at)
    need(len(body) == 1 or body[0] > 0 or body[1] >= 0x80, CONTENT, element.at)
    return element, int.from_bytes(body, "big")

# ---- The file from outside in.
def pfx(file):
    # "PFX is SEQUENCE (30): version INTEGER 3; ContentInfo; MacData."
    body = file.enter(SEQUENCE)
    element, version = integer(body)
    need(version == 3, CONTENT, element.at)
    outer_content_info(body)
    need(body.left(), NOT_SERVED, body.end)          # "no MacData"
    mac_data(body)
    body.finish()

def outer_content_info(parent):
    # "ContentInfo is SEQUENCE: contentType identifier, then [0] (A0) with one
    # element. The outer type is data; its content is an OCTET STRING whose
    # body is one AuthenticatedSafe and nothing more."
    body = parent.enter(SEQUENCE)
    element, kind = identifier(body)
    need(kind != SIGNED_DATA, NOT_SERVED, element.at)    # "outer signedData"
    need(kind == DATA, CONTENT, element.at)
    content = body.enter(CONTEXT_0)
    safes = content.enter(OCTET_STRING)
    # "That body is the MAC input", "without the OCTET STRING's tag and length"
    parent.table.mac_input = (safes.at, safes.end)
    authenticated_safe(safes)
    safes.finish()
    content.finish()
    body.finish()

def authenticated_safe(parent):
    # "SEQUENCE of zero or more ContentInfo, each a safe row."
    body = parent.enter(SEQUENCE)
    while body.left():
        safe(body)

def safe(parent):
    rows = parent.table.safes
    element = parent.element(SEQUENCE)
    row = add_row(rows, SAFE_ROWS, element,
                  "algorithm parameters ciphertext", kind="")
    body = parent.inside(element)
    element, kind = identifier(body)
    # "safe of envelopedData"
    need(kind != ENVELOPED_DATA, NOT_SERVED, element.at)
    need(kind in (DATA, ENCRYPTED_DATA), CONTENT, element.at)
    content = body.enter(CONTEXT_0)
    if kind == DATA:
        plain_safe(content, row, len(rows) - 1)
    else:
        encrypted_safe(content, row)
    content.finish()
    body.finish()

def plain_safe(parent, row, number):
    # "data: an OCTET STRING whose body is one SafeContents."
    row.kind = "plain"
    body = parent.enter(OCTET_STRING)
    safe_contents(body, number, None, 1)
    body.finish()

def encrypted_safe(parent, row):
    # "encryptedData: SEQUENCE of version INTEGER 0 and EncryptedContentInfo:
    # SEQUENCE of identifier data, AlgorithmIdentifier, and tag 80 with the
    # ciphertext."
    row.kind = "encrypted"
    body = parent.enter(SEQUENCE)
    element, version = integer(body)
    # "EncryptedData version 2"
    need(version != 2, NOT_SERVED, element.at)
    need(version == 0, CONTENT, element.at)
    info = body.enter(SEQUENCE)
    element, kind = identifier(info)
    need(kind == DATA, CONTENT, element.at)
    row.algorithm, row.parameters = algorithm_identifier(info)
    need(info.left(), NOT_SERVED, info.end)          # "no ciphertext"
    row.ciphertext = info.element(CIPHERTEXT).body
    info.finish()
    body.finish()

def algorithm_identifier(parent):
    # "SEQUENCE of an identifier and at most one opaque element. Absent
    # parameters are an empty range at the parent's end"
    body = parent.enter(SEQUENCE)
    element, _ = identifier(body)
    parameters = opaque(body).whole if body.left() else (body.end, body.end)
    body.finish()
    return element.body, parameters

def safe_contents(parent, safe_number, enclosing, level):
    # "SafeContents: SEQUENCE of zero or more SafeBag."
    element = parent.element(SEQUENCE)
    need(level <= LEVELS, TOO_MANY, element.at)   # "contents of level 9"
    body = parent.inside(element)
    while body.left():
        safe_bag(body, safe_number, enclosing, level)

def safe_bag(parent, safe_number, enclosing, level):
    # "SafeBag: SEQUENCE of bagId, [0] (A0) with one element, and optionally
    # SET (31) of attributes." "Bag rows stand in file order of their first
    # bytes, each naming its safe and its enclosing bag or none."
    number = len(parent.table.bags)
    element = parent.element(SEQUENCE)
    row = add_row(parent.table.bags, BAG_ROWS, element,
                  "key algorithm parameters ciphertext type value", kind="",
                  safe=safe_number, enclosing=enclosing, has_set=False)
    body = parent.inside(element)
    row.kind = bag_kind(body)
    content = body.enter(CONTEXT_0)
    if row.kind == "key":
        row.key = opaque(content, SEQUENCE).whole   # "an opaque SEQUENCE"
    elif row.kind == "shrouded key":
        shrouded_key(content, row)
    elif row.kind == "nested":      # "a safe-contents bag holds bags again"
        safe_contents(content, safe_number, number, level + 1)
    else:
        typed_value(content, row)
    content.finish()
    if body.left():
        attribute_set(body, row, number)
    body.finish()

def bag_kind(parent):
    element, body = identifier(parent)
    # "well-formed bagId of another kind"
    need(body[:-1] == BAG_PREFIX and body[-1] in BAG_KINDS,
         NOT_SERVED, element.at)
    return BAG_KINDS[body[-1]]

def shrouded_key(parent, row):
    # "SEQUENCE of AlgorithmIdentifier and OCTET STRING."
    body = parent.enter(SEQUENCE)
    row.algorithm, row.parameters = algorithm_identifier(body)
    row.ciphertext = body.element(OCTET_STRING).body
    body.finish()

def typed_value(parent, row):
    # "03 certificate, 04 CRL, 05 secret: SEQUENCE of an identifier and A0 with
    # one opaque element. For 03 with x509Certificate that element is an OCTET
    # STRING."
    body = parent.enter(SEQUENCE)
    element, kind = identifier(body)
    row.type = element.body
    x509 = row.kind == "certificate" and kind == X509_CERTIFICATE
    value = body.enter(CONTEXT_0)
    row.value = opaque(value, OCTET_STRING if x509 else None).whole
    value.finish()
    body.finish()

def attribute_set(parent, row, number):
    # 6 is "any tag byte but 31 where an attribute set may stand". "An absent
    # set and an empty one differ in the reading."
    need(parent.data[parent.at] == SET, LEFT_OVER, parent.at)
    body = parent.enter(SET)
    row.has_set = True
    while body.left():
        attribute(body, number)

def attribute(parent, bag_number):
    # "Attribute: SEQUENCE of an identifier and SET of zero or more opaque
    # elements." Rows are "each naming its bag".
    element = parent.element(SEQUENCE)
    row = add_row(parent.table.attributes, ATTRIBUTE_ROWS, element,
                  "type values", bag=bag_number)
    body = parent.inside(element)
    row.type = identifier(body)[0].body
    values = body.enter(SET)
    row.values = (values.at, values.end)
    while values.left():
        opaque(values)
    body.finish()

def mac_data(parent):
    # "MacData: SEQUENCE of DigestInfo (SEQUENCE of AlgorithmIdentifier and
    # OCTET STRING digest), salt OCTET STRING, and optionally INTEGER
    # iterations. Absent means 1"
    mac = parent.table.mac
    body = parent.enter(SEQUENCE)
    digest_info = body.enter(SEQUENCE)
    mac.algorithm, mac.parameters = algorithm_identifier(digest_info)
    mac.digest = digest_info.element(OCTET_STRING).body
    digest_info.finish()
    mac.salt = body.element(OCTET_STRING).body
    mac.iterations = iterations(body) if body.left() else 1
    body.finish()

def iterations(parent):
    # 6 is any tag byte "but 02 where iterations may"
    need(parent.data[parent.at] == INTEGER, LEFT_OVER, parent.at)
    element, number = integer(parent)
    # "if present it is 2 to 2,147,483,647"
    need(2 <= number <= 2147483647, CONTENT, element.at)
    return number

# ---- The reading, and its listing.
def read(data):
    # "Reading accepts a file exactly when it is one PFX, with no byte after
    # it, that keeps every rule above." "Reading checks 9 first"
    table = empty_reading(len(data))
    file = Parent(data, table, 0, len(data))
    try:
        need(len(data) <= FILE_BYTES, TOO_LONG, 0)
        pfx(file)
        file.finish()
    except Refused as refused:
        return Refusal(*refused.args)
    return table

CIPHER = "algorithm parameters ciphertext"
LISTED = {"encrypted": CIPHER, "shrouded key": CIPHER, "key": "key",
          **dict.fromkeys(("certificate", "crl", "secret"), "type value")}

def ranges(row, names):
    return "".join(", %s %d..%d" % (name, *getattr(row, name))
                   for name in names.split())

def bag_line(number, row, table):
    own = sum(attribute.bag == number for attribute in table.attributes)
    return "bag %d: %s, safe %d, in %s%s, %s" % (
        number, row.kind, row.safe,
        "none" if row.enclosing is None else "bag %d" % row.enclosing,
        ranges(row, LISTED.get(row.kind, "")),
        "attributes %d" % own if row.has_set else "no attributes")

def listing(result):
    if isinstance(result, Refusal):
        return "refused %d at %d\n" % result
    lines = ["pfx %d bytes, %d elements" % (result.size, result.opened),
             "safes %d, bags %d, attributes %d" % (
                 len(result.safes), len(result.bags), len(result.attributes)),
             "mac input %d..%d" % result.mac_input
             + ranges(result.mac, "digest salt")
             + ", iterations %d" % result.mac.iterations]
    for n, row in enumerate(result.safes):
        lines.append("safe %d: %s" % (n, row.kind)
                     + ranges(row, LISTED.get(row.kind, "")))
    for n, row in enumerate(result.bags):
        lines.append(bag_line(n, row, result))
    for n, row in enumerate(result.attributes):
        lines.append("attribute %d: bag %d" % (n, row.bag)
                     + ranges(row, "type values"))
    return "\n".join(lines) + "\n"

def main(arguments):
    if arguments[:1] == ["--hex"]:
        files = [bytes.fromhex(" ".join(arguments[1:]))]
    else:
        files = [pathlib.Path(name).read_bytes() for name in arguments]
    sys.stdout.write("".join(listing(read(data)) for data in files))

if __name__ == "__main__":
    main(sys.argv[1:])
