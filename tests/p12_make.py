#!/usr/bin/env python3
"""Makes test files for PKCS #12 readers, from the rules (document 01) and RFC 7292.

    p12_make.py FOLDER [SEED COUNT]    writes NAME.p12 for every file, and with
                                       SEED COUNT the damaged ones too

cases()               a list of Case: name, file, and the answer that 01
                      requires (None: accepted; otherwise number and offset),
                      worked out from the tree and not by any reader
files()               a list of (name, bytes)
damaged(seed, count)  accepted files with one byte changed or put in, or cut short
mended(seed, count)   one node of an accepted tree changed, and the lengths of
                      all that enclose it made to fit again
The same call always gives the same bytes.  The files are built of the parts in
p12_parts.py; those for pairs are made by p12_pairs_make.py.
"""
import copy
import pathlib
import random
import sys

import p12_pairs_make
from p12_parts import (  # noqa: F401  (some of them for those who import this)
    BAG, DATA, DIGESTED, E, ENCRYPTED, ENVELOPED, KEY_ID, NULL, OTHER,
    SDSI_CERT, SIGNED, X509_CERT, Case, attribute, case, cert, crl, depth,
    encrypted, friendly, key, length_of, loose, mac, nest, nested, num, octets,
    oid, pfx, plain, secret, seq, shrouded, typed)


def whole():
    """A file with every kind of element in it, all named."""
    full = [attribute(), friendly()]
    return pfx(
        encrypted(parameters=(seq(octets(b"salt"), num(2048)),)),
        plain(key(), shrouded([]), cert(full), crl(), secret([]),
              nested(key([attribute(name="inner")], name="innerkey"),
                     attributes=[attribute(OTHER, E(0x0C, b"x"), NULL,
                                           name="last")])),
        mac_data=mac(2048, (NULL,)))


# ---- The cases.

def altered(name, change, number, side, node):
    """The whole file with change(tree) done to it."""
    tree = whole()
    change(tree)
    return case(name, tree, number, side, node)


def bench():
    """Cases (a) to (j) of the bench set, the bytes as 01 gives them."""
    m = bytes.fromhex("302D02010330110609 2A864886F70D010701 A004040230003015"
                      "3010300B0609608648016503040201 0401AA040155")
    one = bytes.fromhex("303002010330110609 2A864886F70D010701 A0040402300030"
                        "183010300B0609608648016503040201 0401AA040155020101")
    many = bytes.fromhex("303102010330110609 2A864886F70D010701 A0040402300030"
                         "193010300B0609608648016503040201 0401AA04015502020800")
    raw = [("a", m, None), ("b", b"", (1, 0)), ("c", m[:-1], (15, 0)),
           ("d", m + b"\x00", (6, 47)),
           ("e", m[:4] + b"\x04" + m[5:], (5, 2)),
           ("f", one, (5, 47)), ("g", many, None),
           ("h", pfx(plain()).encode(), None)]
    for letter, data, expected in raw:
        yield Case("bench_" + letter, data, expected), E(None, data)
    for name, size, form, number in (
            ("i_81_80", 0x80, None, None), ("i_82_0100", 0x100, None, None),
            ("i_81_7f", 0x7F, b"\x81\x7F", 3),
            ("i_82_00ff", 0xFF, b"\x82\x00\xFF", 3)):
        tree = pfx()
        tree.get("salt").parts, tree.get("salt").length = [bytes(size)], form
        yield case("bench_" + name, tree, number, "at", "salt")
    for body in ("8001", "2A86"):
        tree = pfx()
        tree.get("mac.algorithm.id").parts = [bytes.fromhex(body)]
        yield case("bench_j_" + body, tree, 5, "at", "mac.algorithm.id")


def bags():
    """Each kind of bag, its attribute set absent, empty and full."""
    for name, make in (("key", key), ("shrouded", shrouded), ("cert", cert),
                       ("crl", crl), ("secret", secret),
                       ("nested", lambda a: nested(attributes=a))):
        yield case("bag_%s_no_set" % name, pfx(plain(make(None))))
        yield case("bag_%s_empty_set" % name, pfx(plain(make([]))))
        yield case("bag_%s_full_set" % name,
                   pfx(plain(make([attribute(), friendly()]))))
    yield case("whole", whole())
    yield case("bag_cert_sdsi",
               pfx(plain(cert(None, E(0x16, b"abc"), SDSI_CERT))))
    yield case("bag_crl_constructed", pfx(plain(crl(None, seq(num(1), seq())))))
    yield case("bag_secret_of_x509_id_not_octets",
               pfx(plain(typed(5, X509_CERT, E(0x0C, b"s")))))
    yield case("bag_crl_of_x509_id_not_octets",
               pfx(plain(typed(4, X509_CERT, E(0x24, octets(b"s"))))))
    yield case("bag_key_empty", pfx(plain(key(value=seq()))))
    yield case("opaque_odd_but_complete",   # form alone is asked inside
               pfx(plain(key(value=seq(E(0x02), E(0x06), E(0x05, b"\x00"),
                                       E(0x06, b"\x80\x80"), E(0x20), E(0x10),
                                       E(0x13, b"\x30\x80\x00"), E(0xBE))))))
    for body in ("00", "2A7F", "81807F", "2A81808001", "FFFFFFFFFF7F"):
        yield case("attribute_type_" + body, pfx(plain(key([attribute(body)]))))
    yield case("attribute_no_values",
               pfx(plain(key([seq(oid(KEY_ID), E(0x31))]))))
    yield case("attribute_values_any_order",
               pfx(plain(key([friendly(), attribute(), friendly(), attribute(
                   KEY_ID, octets(b"\x02"), octets(b"\x01"), seq(NULL))]))))
    yield case("two_in_nested_then_one", pfx(plain(
        nested(key([attribute()]), nested(cert([friendly()]), attributes=[]),
               crl(), attributes=[attribute(), attribute(OTHER, NULL)]),
        secret([friendly()]))))
    yield case("plain_encrypted_plain", pfx(
        plain(cert()), encrypted(parameters=(NULL,)), plain(key([]), crl([]))))
    yield case("empty_bodies", pfx(
        encrypted(cipher=b""), plain(shrouded(secret=b"")),
        mac_data=mac(digest=b"", salt=b"")))


def limits():
    """Row limits, levels and sizes, at the limit and one past."""
    for name, make in (("plain", plain), ("encrypted", encrypted)):
        yield case("safes_16_" + name, pfx(*[make() for _ in range(16)]))
        rows = [make() for _ in range(17)]
        yield case("safes_17_" + name, pfx(*rows), 8, "at", rows[-1])
    yield case("bags_64", pfx(plain(*[key() for _ in range(64)])))
    rows = [key() for _ in range(65)]
    yield case("bags_65", pfx(plain(*rows)), 8, "at", rows[-1])
    rows = [crl() for _ in range(65)]
    yield case("bags_65_two_safes", pfx(plain(*rows[:40]), plain(*rows[40:])),
               8, "at", rows[-1])
    rows = [secret() for _ in range(63)]
    yield case("bags_64_nested", pfx(plain(nested(*rows))))
    rows = [secret() for _ in range(64)]
    yield case("bags_65_nested", pfx(plain(nested(*rows))), 8, "at", rows[-1])
    rows = [attribute() for _ in range(128)]
    yield case("attributes_128", pfx(plain(key(rows))))
    rows = [attribute() for _ in range(129)]
    yield case("attributes_129", pfx(plain(key(rows))), 8, "at", rows[-1])
    yield case("attributes_129_two_bags",
               pfx(plain(key(rows[:100]), cert(rows[100:]))), 8, "at", rows[-1])
    yield case("attributes_128_nested_first",
               pfx(plain(nested(key(rows[:100]), attributes=rows[100:128]))))
    yield case("attributes_129_nested_first", pfx(plain(
        nested(key(rows[:100]), attributes=rows[100:]))), 8, "at", rows[-1])
    # whether a row is left comes after the tag due and before the content
    for tag, number in ((0x31, 4), (0x1F, 2), (0x30, 8)):
        rows = [plain() for _ in range(16)] + [seq(NULL)]
        rows[-1].tag = tag
        yield case("safes_17_of_%02x" % tag, pfx(*rows), number, "at", rows[-1])
        rows = [key() for _ in range(64)] + [seq(NULL)]
        rows[-1].tag = tag
        yield case("bags_65_of_%02x" % tag, pfx(plain(*rows)), number, "at",
                   rows[-1])
        rows = [attribute() for _ in range(128)] + [seq(NULL)]
        rows[-1].tag = tag
        yield case("attributes_129_of_%02x" % tag, pfx(plain(key(rows))),
                   number, "at", rows[-1])
    yield case("level_8", pfx(plain(nest(8))))
    yield case("level_9", pfx(plain(nest(9))), 8, "at", "deep.contents")
    tree = pfx(plain(nest(9)))
    tree.get("deep.contents").tag = 0x31
    yield case("level_9_wrong_tag", tree, 4, "at", "deep.contents")
    yield case("level_8_second_safe",
               pfx(plain(nest(7)), plain(nest(8), key())))
    for name, make in (
            ("key", lambda e: pfx(plain(key(value=e)))),
            ("cert", lambda e: pfx(plain(cert(None, e, SDSI_CERT)))),
            ("crl", lambda e: pfx(plain(crl(None, e)))),
            ("secret", lambda e: pfx(plain(secret(None, e)))),
            ("value", lambda e: pfx(plain(key([attribute(KEY_ID, NULL, e)])))),
            ("parameters", lambda e: pfx(encrypted(parameters=(e,)))),
            ("mac", lambda e: pfx(mac_data=mac(None, (e,))))):
        yield case("opaque_16_" + name, make(depth(16)))
        yield case("opaque_17_" + name, make(depth(17)), 8, "at", "deep")
    deep = E(0x80, b"x", length=b"\x02", name="deep")   # runs past its parent
    yield case("opaque_17_past_parent",
               pfx(plain(key(value=depth(17, deep)))), 15, "at", "deep")
    yield case("opaque_17_primitive", pfx(plain(key(
        value=depth(17, E(0x04, name="deep"))))), 8, "at", "deep")
    for size in (65535, 65536):
        tree = pfx(encrypted(cipher=bytes(60000)))  # all lengths of form 82
        more = size - len(tree.encode())
        tree.get("cipher").parts = [bytes(60000 + more)]
        yield case("bytes_%d" % size, tree, *((9,) if size > 65535 else ()))
    yield case("bytes_65535_no_pfx", E(None, bytes(65535), name="file"),
               2, "at", "file")
    yield case("bytes_65536_no_pfx", E(None, bytes(65536)), 9)


def choices():
    """Parameters, iterations (1 spelled out is bench_f) and lengths."""
    for name, parameters in (("absent", ()), ("null", (NULL,)),
                             ("octets", (octets(b"p"),)),
                             ("sequence", (seq(octets(b"s"), num(1)),))):
        yield case("parameters_" + name, pfx(
            encrypted(parameters=parameters),
            plain(shrouded(parameters=parameters)),
            mac_data=mac(3, parameters)))
    for value, number in ((0, 5), (2, None), (127, None), (128, None),
                          (256, None), (65535, None), (0x7FFFFFFF, None),
                          (0x80000000, 5), (b"", 5), (b"\x80", 5),
                          (b"\x00\x02", 5), (b"\x00\x7F", 5),
                          (b"\xFF\xFF\xFF\xFF", 5),
                          (b"\x00\x00\x00\x00\x02", 5)):
        name = value if isinstance(value, int) else "x" + value.hex()
        yield case("iterations_%s" % name, pfx(mac_data=mac(value)),
                   number, "at", "iterations")
    for form, size, number in (
            (None, 0x7F, None), (None, 0xFF, None), (None, 0xFFFF - 300, None),
            (b"\x81\x00", 0, 3), (b"\x82\x00\x7F", 0x7F, 3), (b"\x80", 2, 3),
            (b"\x83\x00\x01\x00", 0x100, 3), (b"\x84", 0, 3), (b"\xFF", 9, 3)):
        tree = pfx(plain(shrouded(secret=bytes(size))))
        tree.get("shrouded.octets").length = form
        yield case("length_%s_%d" % (form.hex() if form else "due", size), tree,
                   number, "at", "shrouded.octets")
    for name, form in (("pfx", b"\x81\x2D"), ("pfx", b"\x80"),
                       ("auth", b"\x82\x00\x00"), ("mac", b"\x83\x00\x00\x15")):
        tree = pfx()
        tree.get(name).length = form
        yield case("length_%s_%s" % (name, form.hex()), tree, 3, "at", name)


def ends():
    """Headers and bodies that run past their parent, and tag forms."""
    for data, number in ((b"\x30", 15), (b"\x1F", 2), (b"\x00", 2), (b"\x04", 15),
                         (b"\x30\x81", 15), (b"\x30\x82\x01", 15),
                         (b"\x30\x82\x00", 15), (b"\x30\x80", 3),
                         (b"\x30\x83", 3), (b"\x30\x05", 15), (b"\x04\x01", 15),
                         (b"\x04\x00", 4), (b"\xBF\x80", 2)):
        yield case("file_" + data.hex(), loose(data), number, "at", "loose")
    # the last due element of a parent is only these bytes
    for parent in ("mac", "info", "attribute", "enc.algorithm", "key.value"):
        for data, number in ((b"\x04", 15), (b"\x7F", 2), (b"\x06\x82\x01", 15),
                             (b"\x04\x02\x00", 15)):
            def change(tree):
                parts = tree.get(parent).parts
                del parts[2 if parent == "info" else 1:]
                parts.append(loose(data))
            yield altered("ends_%s_%s" % (parent, data.hex()), change,
                          number, "at", "loose")
    # the last in its parent and one byte too long, while the file goes on
    for name in ("outer.content", "cipher", "plain.octets", "cert.octets",
                 "friendly.values", "digest", "iterations"):
        def change(tree):
            node = tree.get(name)
            node.length = length_of(len(node.body()) + 1)
        yield altered("past_parent_" + name, change, 15, "at", name)


def tags():
    """Another tag than the one due; 6 where an element may be absent."""
    other = {0x30: 0x31, 0x31: 0x30, 0x04: 0x24, 0x06: 0x0D, 0x02: 0x0A,
             0xA0: 0xA1, 0x80: 0xA0}
    for name in ("pfx", "version", "outer", "outer.type", "outer.content",
                 "outer.octets", "auth", "enc", "enc.type", "enc.content",
                 "enc.data", "enc.version", "info", "info.type",
                 "enc.algorithm", "enc.algorithm.id", "cipher", "plain",
                 "plain.octets", "contents", "key", "key.id", "key.content",
                 "key.value", "shrouded.value", "shrouded.octets", "cert.value",
                 "cert.type", "cert.inner", "cert.octets", "attribute",
                 "attribute.type", "attribute.values", "nested.contents", "mac",
                 "digestinfo", "digest", "salt"):
        def change(tree):
            tree.get(name).tag = other[tree.get(name).tag]
        yield altered("tag_" + name, change, 4, "at", name)
    for name, tag in (("cert.set", 0x30), ("cert.set", 0x00),
                      ("cert.set", 0x3F), ("shrouded.set", 0x11),
                      ("iterations", 0x0A), ("iterations", 0x1F),
                      ("iterations", 0x00), ("iterations", 0x30)):
        def change(tree):
            tree.get(name).tag = tag
        yield altered("may_stand_%s_%02x" % (name, tag), change, 6, "at", name)
    for name in ("cert.set", "iterations"):     # the tag stands, so form counts
        def change(tree):
            tree.get(name).length = b"\x80"
        yield altered("may_stand_%s_80" % name, change, 3, "at", name)


def leftovers():
    """A byte after the last element of each parent."""
    for name in ("file", "pfx", "outer", "outer.content", "outer.octets",
                 "enc", "enc.content", "enc.data", "info", "enc.algorithm",
                 "plain", "plain.content", "plain.octets", "key.content",
                 "key", "shrouded", "shrouded.value", "shrouded.algorithm",
                 "cert.content", "cert.value", "cert.inner", "cert",
                 "attribute", "nested.content", "mac", "digestinfo",
                 "mac.algorithm"):
        def change(tree):
            tree.get(name).parts.append(loose(b"\x00"))
        yield altered("left_" + name, change, 6, "at", "loose")
    for name, data in (("file", whole().encode()), ("outer.content", NULL),
                       ("enc.algorithm", NULL), ("cert.inner", b"\x04\x00"),
                       ("cert", E(0x31).encode()), ("mac", num(2).encode())):
        def change(tree):
            tree.get(name).parts.append(loose(data))
        yield altered("left_element_" + name, change, 6, "at", "loose")
    # in a list there is no last element: the next one has a wrong tag or form
    for name in ("auth", "contents", "cert.set", "nested.contents"):
        for data, number in ((b"\x05\x00", 4), (b"\x00", 2), (b"\x30", 15)):
            def change(tree):
                tree.get(name).parts.append(loose(data))
            yield altered("list_%s_%s" % (name, data.hex()), change, number,
                          "at", "loose")


def missing():
    """Each parent with its elements from the n-th on taken away."""
    for name, n in (("pfx", 0), ("pfx", 1), ("outer", 0),
                    ("outer", 1), ("outer.content", 0), ("outer.octets", 0),
                    ("enc", 0), ("enc", 1), ("enc.content", 0),
                    ("enc.data", 0), ("enc.data", 1), ("info", 0), ("info", 1),
                    ("enc.algorithm", 0), ("plain", 1), ("plain.content", 0),
                    ("plain.octets", 0), ("key", 0), ("key", 1),
                    ("key.content", 0), ("shrouded.value", 0),
                    ("shrouded.value", 1), ("cert.value", 0),
                    ("cert.value", 1), ("cert.inner", 0), ("attribute", 0),
                    ("attribute", 1), ("nested.content", 0), ("mac", 0),
                    ("mac", 1), ("digestinfo", 0), ("digestinfo", 1),
                    ("mac.algorithm", 0)):
        def change(tree):
            del tree.get(name).parts[n:]
        yield altered("missing_%s_%d" % (name, n), change, 1, "end", name)
    for name, n in (("pfx", 2), ("info", 2)):   # no MacData, no ciphertext
        def change(tree):
            del tree.get(name).parts[n:]
        yield altered("missing_%s_%d" % (name, n), change, 7, "end", name)


def bodies():
    """Identifiers, versions and kinds that aren't allowed or aren't served."""
    for name in ("outer.type", "enc.type", "info.type", "enc.algorithm.id",
                 "key.id", "cert.type", "attribute.type"):
        for body in ("", "8001") if name != "key.id" else (
                "", "80", "2A86", "2A8001", "2A8180", "2A7F8001"):
            def change(tree):
                tree.get(name).parts = [bytes.fromhex(body)]
            yield altered("id_%s_%s" % (name, body), change, 5, "at", name)
    for name, body, number in (
            ("outer.type", SIGNED, 7), ("outer.type", ENVELOPED, 5),
            ("outer.type", ENCRYPTED, 5), ("outer.type", DATA + "01", 5),
            ("plain.type", ENVELOPED, 7), ("plain.type", SIGNED, 5),
            ("plain.type", DIGESTED, 5), ("plain.type", DATA[:-2], 5),
            ("info.type", SIGNED, 5), ("info.type", ENCRYPTED, 5),
            ("key.id", BAG + "00", 7), ("key.id", BAG + "07", 7),
            ("key.id", BAG, 7), ("key.id", BAG + "0101", 7),
            ("key.id", OTHER, 7), ("key.id", BAG[:-2] + "0201", 7)):
        def change(tree):
            tree.get(name).parts = [bytes.fromhex(body)]
        yield altered("type_%s_%s" % (name, body[-8:]), change, number, "at",
                      name)
    for name, body, number in (
            ("version", "04", 5), ("version", "00", 5), ("version", "", 5),
            ("version", "0003", 5), ("version", "83", 5),
            ("version", "0000000003", 5), ("enc.version", "02", 7),
            ("enc.version", "01", 5), ("enc.version", "03", 5),
            ("enc.version", "0002", 5), ("enc.version", "", 5)):
        def change(tree):
            tree.get(name).parts = [bytes.fromhex(body)]
        yield altered("version_%s_%s" % (name, body), change, number, "at",
                      name)
    # x509Certificate: an OCTET STRING, tag 04 only
    for tag in (0x24, 0x30, 0x03, 0x84):
        def change(tree):
            node = tree.get("cert.octets")
            node.tag, node.parts = tag, [NULL]
        yield altered("x509_not_octets_%02x" % tag, change, 4, "at",
                      "cert.octets")
    # the first fault answers: two faults, the one in front counts
    def change(tree):
        tree.get("version").parts = [b"\x04"]
        tree.parts.append(loose(b"\x00"))
    yield altered("two_faults_version_and_left", change, 5, "at", "version")

    def change(tree):
        tree.get("plain.type").parts = [bytes.fromhex(ENVELOPED)]
        tree.get("outer.octets").parts.append(loose(b"\x00"))
        del tree.get("pfx").parts[2:]
    yield altered("two_faults_enveloped_and_no_mac", change, 7, "at",
                  "plain.type")


PARTS = (bench, bags, limits, choices, ends, tags, leftovers, missing, bodies)


def trees(parts=(*PARTS, p12_pairs_make.pairings)):
    """Every case with its tree."""
    for part in parts:
        yield from part()


def cases():
    return [one for one, _ in trees()]


def files():
    return [(one.name, one.data) for one in cases()]


# ---- Damaged files.  No answer is stated for these.  Those of p12_pairs_make.py
# are damaged there.

def accepted(most=4096):
    return [(one, tree) for one, tree in trees(PARTS)
            if one.expected is None and len(one.data) <= most]


def damaged(seed, count):
    """Accepted files of up to 4,096 bytes, each damaged at one offset."""
    dice, good, result = random.Random(seed), accepted(), []
    for number in range(count):
        one, _ = dice.choice(good)
        data = bytearray(one.data)
        how = dice.choice(("change", "change", "change", "cut", "insert"))
        at = dice.randrange(len(data))
        if how == "change":
            data[at] = dice.choice((data[at] ^ 1 << dice.randrange(8),
                                    dice.randrange(256)))
        elif how == "cut":
            del data[at:]
        else:
            data.insert(at, dice.randrange(256))
        result.append(("damaged_%d_%05d_%s_%s" % (seed, number, how, one.name),
                       bytes(data)))
    return result


def mended(seed, count):
    """Accepted trees with one node changed and the enclosing lengths made to
    fit, so that the fault is met deep inside."""
    dice, good, result = random.Random(seed), accepted(1024), []
    for number in range(count):
        one, tree = dice.choice(good)
        tree = copy.deepcopy(tree)
        node = dice.choice([node for node, _, _ in tree.nodes()])
        how = dice.choice(("tag", "drop", "double", "swap", "insert", "length"))
        place = dice.randrange(len(node.parts) + 1)
        if how == "tag" and node.tag is not None:
            node.tag = dice.choice((0x02, 0x04, 0x06, 0x30, 0x31, 0x80, 0xA0,
                                    dice.randrange(256)))
        elif how == "drop":
            del node.parts[place:place + 1]
        elif how == "double":
            node.parts[place:place] = copy.deepcopy(node.parts[place:place + 1])
        elif how == "swap":
            node.parts.reverse()
        elif how == "length":
            node.length = bytes(dice.choice((
                (0x80,), (0x81, dice.randrange(256)), (dice.randrange(128),),
                (0x82, dice.randrange(2), dice.randrange(256)),
                (0x83, 0, 1, 0))))
        else:
            node.parts.insert(place, bytes(dice.choice((
                (0x05, 0x00), (0x31, 0x00), (0x30, 0x00), (0x02, 0x01, 0x02),
                (dice.randrange(256),), (0x06, 0x01, 0x2A), (0x04, 0x00)))))
        result.append(("mended_%d_%05d_%s_%s" % (seed, number, how, one.name),
                       tree.encode()))
    return result


def main(arguments):
    folder = pathlib.Path(arguments[0])
    folder.mkdir(parents=True, exist_ok=True)
    made = files()
    if len(arguments) == 3:
        seed, count = int(arguments[1]), int(arguments[2])
        made += damaged(seed, count) + mended(seed, count)
    for name, data in made:
        (folder / (name + ".p12")).write_bytes(data)
    print("%d files" % len(made))


if __name__ == "__main__":
    main(sys.argv[1:])
