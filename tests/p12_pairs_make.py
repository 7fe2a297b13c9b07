"""Makes test files for the pairing of keys with certificates, from the rules (document 01). p12_make.py has them among its files.

pairings()            each case with its tree; all files are accepted. p12_pairs_check.py has what
                      pairing gives for each, worked out by hand
damaged(seed, each)   (name, bytes): copies of them with one bit of an attribute that is no friendlyName changed
"""
import random

from p12_parts import (KEY_ID, NAME, NULL, OTHER, SDSI_CERT, E, attribute, case, cert, crl, encrypted, friendly, key, nested, octets, oid,
                       pfx, plain, secret, seq, shrouded)

A, B, C = b"\x01\x02", b"\x01\x03", b"\x07\x02"     # B and C differ from A in one byte

# What a localKeyID may hold that gives its bag no id.
NO_IDS = (
    ("no_element", ()), ("two_octets", (octets(A), octets(B))), ("two_equal_octets", (octets(A), octets(A))),
    ("octets_and_null", (octets(A), NULL)), ("null_and_octets", (NULL, octets(A))), ("integer", (E(0x02, A),)),
    ("tag_24", (E(0x24, octets(A)),)), ("tag_0c", (E(0x0C, A),)), ("tag_84", (E(0x84, A),)), ("tag_44", (E(0x44, A),)),
    ("tag_30", (seq(octets(A)),)))
# Identifiers that are nearly localKeyID.
OTHER_TYPES = (("longer", KEY_ID + "01"), ("shorter", KEY_ID[:-2]), ("first_byte", "2B" + KEY_ID[2:]), ("last_byte", KEY_ID[:-2] + "16"))


def local(*values):
    """A localKeyID with these elements, none among them."""
    return seq(oid(KEY_ID), E(0x31, *values), name="attribute")


def ids(*bodies):
    """Attributes: a localKeyID for each, with one OCTET STRING."""
    return [local(octets(body)) for body in bodies]


def one_to_one():
    yield "key_then_cert", [key(ids(A)), cert(ids(A))]
    yield "cert_then_key", [cert(ids(A)), key(ids(A))]
    yield "shrouded", [shrouded(ids(A)), cert(ids(A))]
    yield "cert_then_shrouded", [cert(ids(A)), shrouded(ids(A))]
    yield "sdsi_cert", [key(ids(A)), cert(ids(A), E(0x16, b"abc"), SDSI_CERT)]
    yield "no_key", [cert(ids(A)), crl(ids(A)), secret(ids(A))]
    yield "key_alone", [key(ids(A))]
    yield "none_matches", [key(ids(A)), cert(ids(B)), cert(ids(C))]
    yield "two_certs", [key(ids(A)), cert(ids(A)), cert(ids(A))]
    yield "two_certs_around", [cert(ids(A)), shrouded(ids(A)), cert(ids(A))]
    yield "three_certs", [key(ids(A)), cert(ids(A)), cert(ids(A)), cert(ids(A))]
    yield "one_of_three", [key(ids(A)), cert(ids(B)), cert(ids(A)), cert(ids(C))]
    yield "two_keys_one_cert", [key(ids(A)), shrouded(ids(A)), cert(ids(A))]
    yield "crossed", [key(ids(A)), shrouded(ids(B)), cert(ids(B)), cert(ids(A))]
    yield "other_key_only", [key(ids(A)), key(ids(A)), shrouded(ids(A)), cert(ids(B))]
    yield "crl_and_secret", [key(ids(A)), crl(ids(A)), secret(ids(A))]
    yield "crl_and_secret_and_cert", [crl(ids(A)), secret(ids(A)), nested(attributes=ids(A)), key(ids(A)), cert(ids(A))]


def without_ids():
    yield "key_no_set", [key(), cert(ids(A))]
    yield "key_empty_set", [key([]), cert(ids(A))]
    yield "key_friendly", [key([friendly()]), cert(ids(A))]
    yield "nothing_on_both", [key(), key([]), shrouded([friendly()]), cert(), cert([]), cert([friendly()])]
    yield "certs_without", [key(ids(A)), cert(), cert([]), cert([friendly()])]
    yield "certs_without_then_one", [key(ids(A)), cert(), cert([]), cert([friendly()]), cert(ids(A))]
    # ids of length 0
    yield "empty_ids", [key(ids(b"")), cert(ids(b""))]
    yield "empty_ids_two", [key(ids(b"")), cert(ids(b"")), cert(ids(b""))]
    yield "empty_id_and_none", [key(ids(b"")), cert(), cert([]), cert([local()])]
    yield "none_and_empty_id", [key(), key([]), shrouded([local()]), cert(ids(b""))]
    yield "empty_id_and_one_byte", [key(ids(b"")), key(ids(b"\x00")), cert(ids(b"\x00")), cert(ids(b"\x00\x00"))]


def attributes():
    """Which attribute a bag's id comes from."""
    yield "key_two_first", [key(ids(A, B)), cert(ids(A))]
    yield "key_two_second", [key(ids(A, B)), cert(ids(B))]
    yield "key_two_both", [key(ids(A, B)), cert(ids(B)), cert(ids(A))]
    yield "cert_two_first", [key(ids(A)), cert(ids(A, B))]
    yield "cert_two_second", [key(ids(A)), cert(ids(B, A))]
    yield "cert_two_equal", [key(ids(A)), cert(ids(A, A))]
    yield "second_on_both", [key(ids(A, C)), cert(ids(B, C))]
    yield "others_in_front", [key([friendly(), attribute(OTHER, octets(B)), *ids(A)]), cert([attribute(OTHER, NULL), friendly(), *ids(A)])]
    yield "friendly_of_octets", [key([attribute(NAME, octets(A))]), key(ids(A)), cert([attribute(NAME, octets(A))])]
    for name, other in OTHER_TYPES:
        yield "type_" + name, [key([attribute(other, octets(A))]), key(ids(A)), cert([attribute(other, octets(A))]),
                               cert([attribute(other, octets(B)), *ids(A)])]
    for name, values in NO_IDS:
        yield "key_first_" + name, [key([local(*values)]), shrouded([local(*values), *ids(A)]), cert(ids(A)), cert([local(*values)])]
        yield "cert_first_" + name, [key(ids(A)), cert([local(*values)]), cert([local(*values), *ids(A)])]


def equal_ids():
    yield "prefix", [key(ids(b"\x01\x02")), cert(ids(b"\x01")), cert(ids(b"\x01\x02\x03"))]
    yield "prefix_and_whole", [key(ids(b"\x01\x02")), cert(ids(b"\x01")), cert(ids(b"\x01\x02\x03")), cert(ids(b"\x01\x02"))]
    yield "first_byte_differs", [key(ids(b"\x01\x02\x03")), cert(ids(b"\x00\x02\x03")), cert(ids(b"\x01\x02\x03"))]
    yield "middle_byte_differs", [key(ids(b"\x01\x02\x03")), cert(ids(b"\x01\x82\x03")), cert(ids(b"\x01\x02\x03"))]
    yield "reversed", [key(ids(b"\x01\x02")), cert(ids(b"\x02\x01"))]
    yield "zero_bytes", [key(ids(bytes(2))), cert(ids(bytes(1))), cert(ids(bytes(3))), cert(ids(bytes(2)))]
    # an id is a body: here one is a whole OCTET STRING, with the other as its body
    yield "id_of_an_element", [key(ids(octets(A).encode())), key(ids(A)), cert(ids(octets(octets(A)).encode()))]
    for size in (127, 128, 256, 20000):
        one, other = bytes(size - 1) + b"\x01", bytes(size - 1) + b"\x02"
        yield "bytes_%d" % size, [key(ids(one)), cert(ids(other)), cert(ids(one))]
        if size < 20000:
            yield "bytes_%d_other" % size, [key(ids(one)), cert(ids(other))]
    yield "sizes", [*[key(ids(bytes(size))) for size in (127, 128, 255, 256)], *[cert(ids(bytes(size))) for size in (256, 255, 128, 129)]]


def nesting():
    yield "nested_cert", [key(ids(A)), nested(cert(ids(A)))]
    yield "nested_key", [nested(key(ids(A))), cert(ids(A))]
    yield "nested_both", [nested(shrouded(ids(A)), cert(ids(A)))]
    yield "nested_apart", [nested(cert(ids(A))), nested(nested(key(ids(A))))]
    yield "nested_and_outside", [nested(cert(ids(A)), key(ids(A))), cert(ids(A))]
    # the enclosing bag has the id, and not the bag in it
    yield "nested_has_certs_id", [key(ids(A)), nested(cert(), attributes=ids(A))]
    yield "nested_has_certs_id_set", [key(ids(A)), nested(cert([]), attributes=ids(A)), nested(cert([friendly()]), attributes=ids(A))]
    yield "nested_has_keys_id", [nested(key(), attributes=ids(A)), cert(ids(A))]
    yield "nested_has_keys_id_set", [nested(key([]), shrouded([friendly()]), attributes=ids(A)), cert(ids(A))]
    yield "nested_with_another", [nested(key(ids(A)), attributes=ids(B)), nested(cert(ids(A)), attributes=ids(B)), cert(ids(B))]
    yield "nested_key_with_certs", [nested(key(ids(A)), attributes=ids(B)), cert(ids(B))]
    yield "nested_three_levels", [nested(nested(cert(ids(A)), attributes=ids(B)), attributes=ids(C)), key(ids(A)), key(ids(B)), key(ids(C))]
    yield "bag_after_nested", [nested(crl(ids(B)), attributes=ids(B)), key(ids(A)), nested(attributes=ids(B)), cert(ids(A))]
    deep = nested(key(ids(A)), cert(ids(B)))
    for _ in range(6):
        deep = nested(deep)
    yield "level_8", [cert(ids(A)), deep, shrouded(ids(B))]


def full():
    """All rows."""
    others = [cert(ids(bytes([n]))) for n in range(64)]
    yield "64_one", [key(ids(A)), *others[1:40], cert(ids(A)), *others[41:]]
    yield "64_last_key", [*others[:63], key(ids(b"\x3E"))]
    yield "64_first_and_last", [key(ids(A)), cert(ids(A)), *others[2:63], cert(ids(A))]
    yield "64_none", [*others[:31], shrouded(ids(A)), *others[32:]]
    yield "63_keys", [*[(key, shrouded)[n % 2](ids(A)) for n in range(63)], cert(ids(A))]
    yield "128_attributes", [key(ids(*[bytes([n]) for n in range(126)])), cert(ids(b"\x7D")), cert(ids(b"\x00"))]


def files():
    """(name, tree)"""
    for part in (one_to_one, without_ids, attributes, equal_ids, nesting, full):
        for name, bags in part():
            yield name, pfx(plain(*bags))
    yield "other_safe", pfx(plain(key(ids(A))), plain(cert(ids(A))))
    yield "other_safe_in_front", pfx(plain(cert(ids(A))), encrypted(), plain(), plain(shrouded(ids(A))))
    yield "other_safes_two", pfx(plain(cert(ids(A))), plain(key(ids(A))), plain(cert(ids(A))))
    yield "other_safe_nested", pfx(plain(nested(cert(ids(A)))), plain(nested(nested(key(ids(A))))))
    yield "encrypted_safe", pfx(plain(key(ids(A))), encrypted(cipher=seq(cert(ids(A))).encode()))   # no row is made of a ciphertext
    yield "all", pfx(
        plain(cert(ids(A)), key(ids(A)), key(ids(B)), shrouded(), key(ids(b"")), cert(ids(C)),
              nested(cert(ids(b"")), key(ids(C)), attributes=ids(B)), cert(ids(C, A))),
        encrypted(), plain(shrouded([friendly(), *ids(A)]), crl(ids(B)), key(ids(A, B))))


def pairings():
    for name, tree in files():
        yield case("pairs_" + name, tree)


def damaged(seed, each):
    """Files of up to 1,024 bytes, so many copies of each; one bit of an attribute that is no friendlyName is another one."""
    dice = random.Random(seed)
    for one, tree in pairings():
        offsets = [offset for node, at, end in tree.nodes() if node.name == "attribute" for offset in range(at, end)]
        for number in range(each if offsets and len(one.data) <= 1024 else 0):
            data = bytearray(one.data)
            data[dice.choice(offsets)] ^= 1 << dice.randrange(8)
            yield "damaged_%d_%d_%s" % (seed, number, one.name), bytes(data)
