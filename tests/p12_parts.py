"""The parts that test files for PKCS #12 readers are built of: a DER builder, the
parts of a PFX, and a case with its answer.  For p12_make.py and p12_pairs_make.py.
"""
from collections import namedtuple

from models.numbers import TOO_LONG

Case = namedtuple("Case", "name data expected")


# ---- A tiny DER builder.

def length_of(size):
    if size < 0x80:
        return bytes([size])
    if size < 0x100:
        return bytes([0x81, size])
    return b"\x82" + size.to_bytes(2, "big")


class E:
    """One element: a tag and parts (elements or bytes).  Tag None: no header
    (the file, or loose bytes).  `length` puts other length bytes than due."""

    def __init__(self, tag, *parts, name=None, length=None):
        self.tag, self.parts = tag, list(parts)
        self.name, self.length = name, length

    def body(self):
        return b"".join(part if isinstance(part, bytes) else part.encode()
                        for part in self.parts)

    def encode(self):
        body = self.body()
        if self.tag is None:
            return body
        length = length_of(len(body)) if self.length is None else self.length
        return bytes([self.tag]) + length + body

    def nodes(self, at=0):
        """(node, offset of its tag, offset of its end), each one within."""
        end = at + len(self.encode())
        yield self, at, end
        place = end - len(self.body())
        for part in self.parts:
            if isinstance(part, E):
                yield from part.nodes(place)
                place += len(part.encode())
            else:
                place += len(part)

    def get(self, name):
        return next(node for node, _, _ in self.nodes() if node.name == name)


def seq(*parts, **more):
    return E(0x30, *parts, **more)


def ctx(*parts, **more):
    return E(0xA0, *parts, **more)


def octets(*parts, **more):
    return E(0x04, *parts, **more)


def oid(body, **more):
    return E(0x06, bytes.fromhex(body), **more)


def num(value, **more):
    """An INTEGER: of a number, minimal; or of bytes, as they are."""
    if isinstance(value, int):
        value = value.to_bytes(value.bit_length() // 8 + 1, "big")
    return E(0x02, value, **more)


def loose(data, name="loose"):
    return E(None, data, name=name)


# ---- Parts of a PFX.  Names are for the cases.

PKCS7, PKCS9 = "2A864886F70D0107", "2A864886F70D0109"
DATA, SIGNED, ENVELOPED = PKCS7 + "01", PKCS7 + "02", PKCS7 + "03"
DIGESTED, ENCRYPTED = PKCS7 + "05", PKCS7 + "06"
BAG = "2A864886F70D010C0A01"
X509_CERT, SDSI_CERT, X509_CRL = PKCS9 + "1601", PKCS9 + "1602", PKCS9 + "1701"
NAME, KEY_ID = PKCS9 + "14", PKCS9 + "15"
SHA256, PBES2, OTHER = "608648016503040201", "2A864886F70D01050D", "2B06010401"
NULL = b"\x05\x00"


def algorithm(body, parameters=(), name="algorithm"):
    return seq(oid(body, name=name + ".id"), *parameters, name=name)


def mac(iterations=None, parameters=(), digest=b"\xAA", salt=b"\x55"):
    last = () if iterations is None else (num(iterations, name="iterations"),)
    return seq(seq(algorithm(SHA256, parameters, "mac.algorithm"),
                   octets(digest, name="digest"), name="digestinfo"),
               octets(salt, name="salt"), *last, name="mac")


def pfx(*safes, mac_data=None, version=3, kind=DATA):
    return E(None, seq(
        num(version, name="version"),
        seq(oid(kind, name="outer.type"),
            ctx(octets(seq(*safes, name="auth"), name="outer.octets"),
                name="outer.content"), name="outer"),
        mac_data or mac(), name="pfx"), name="file")


def plain(*bags, kind=DATA):
    return seq(oid(kind, name="plain.type"),
               ctx(octets(seq(*bags, name="contents"), name="plain.octets"),
                   name="plain.content"), name="plain")


def encrypted(version=0, kind=DATA, parameters=(), cipher=b"\x11\x22\x33"):
    return seq(oid(ENCRYPTED, name="enc.type"),
               ctx(seq(num(version, name="enc.version"),
                       seq(oid(kind, name="info.type"),
                           algorithm(PBES2, parameters, "enc.algorithm"),
                           E(0x80, cipher, name="cipher"), name="info"),
                       name="enc.data"), name="enc.content"), name="enc")


def bag(kind, value, attributes=None, name="bag"):
    """attributes: None for no set, or a list of them."""
    last = () if attributes is None else (
        E(0x31, *attributes, name=name + ".set"),)
    return seq(oid(BAG + "%02X" % kind, name=name + ".id"),
               ctx(value, name=name + ".content"), *last, name=name)


def key(attributes=None, value=None, name="key"):
    return bag(1, value or seq(num(0), seq(oid(OTHER)), octets(b"k"),
                               name=name + ".value"), attributes, name)


def shrouded(attributes=None, parameters=(NULL,), secret=b"\xC3"):
    return bag(2, seq(algorithm(PBES2, parameters, "shrouded.algorithm"),
                      octets(secret, name="shrouded.octets"),
                      name="shrouded.value"), attributes, "shrouded")


def typed(kind, type_id, value, attributes=None, name="typed"):
    return bag(kind, seq(oid(type_id, name=name + ".type"),
                         ctx(value, name=name + ".inner"),
                         name=name + ".value"), attributes, name)


def cert(attributes=None, value=None, type_id=X509_CERT):
    return typed(3, type_id, value or octets(b"cert", name="cert.octets"),
                 attributes, "cert")


def crl(attributes=None, value=None):
    return typed(4, X509_CRL, value or octets(b"crl"), attributes, "crl")


def secret(attributes=None, value=None):
    return typed(5, OTHER, value or E(0x0C, b"pin"), attributes, "secret")


def nested(*bags, attributes=None, name="nested"):
    return bag(6, seq(*bags, name=name + ".contents"), attributes, name)


def attribute(type_id=KEY_ID, *values, name="attribute"):
    return seq(oid(type_id, name=name + ".type"),
               E(0x31, *(values or (octets(b"\x01\x02"),)),
                 name=name + ".values"), name=name)


def friendly():
    return attribute(NAME, E(0x1E, "Aб".encode("utf-16-be")), name="friendly")


def depth(levels, innermost=None, name="deep"):
    """Elements within elements, that many levels; the last one is named."""
    element = innermost or seq(name=name)
    for _ in range(levels - 1):
        element = seq(element)
    return element


def nest(level):
    """Safe contents down to that level; the innermost is deep.contents."""
    inner = nested(name="deep")
    for _ in range(level - 2):
        inner = nested(inner)
    return inner


# ---- A case states its answer: none, or a number and a node with
# "at" (the offset of its tag, or of the leftover) or "end" (a parent's end).

def case(name, tree, number=None, side="at", node=None):
    if number is None:
        return Case(name, tree.encode(), None), tree
    if number == TOO_LONG:
        return Case(name, tree.encode(), (TOO_LONG, 0)), tree
    at, end = next((at, end) for one, at, end in tree.nodes()
                   if one is node or one.name == node)
    place = at if side == "at" else end
    return Case(name, tree.encode(), (number, place)), tree
