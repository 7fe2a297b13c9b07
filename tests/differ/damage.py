"""Damages PKCS #12 files, each at one offset or in one node.

    flat(dice, data, headers)     (how, bytes): bytes changed with nothing else made to fit
    mended(dice, tree, nodes)     (how, bytes): a node changed, and the lengths of all that enclose it made to fit; the tree is as before
    aimed(dice, tree, nodes)      the same, with a change that meets one rule. Both give None for bytes where no file can be made of it
    headers_of(data)              (offset of the tag, of the body, the tag) of each element of an accepted file
    tree_of(data)                 its tree, of elements as in p12_parts.py
    nodes_of(tree)                each node of a tree
"""
from models import reader
from p12_parts import BAG, DATA, DIGESTED, ENCRYPTED, ENVELOPED, KEY_ID, OTHER, SDSI_CERT, SIGNED, X509_CERT, E

TAGS = (0x02, 0x04, 0x06, 0x30, 0x31, 0x80, 0xA0, 0x24, 0x05, 0x00, 0x1F)
IDENTIFIERS = (DATA, SIGNED, ENVELOPED, DIGESTED, ENCRYPTED, *[BAG + "%02X" % kind for kind in range(8)], BAG, BAG + "0101", X509_CERT, SDSI_CERT,
               KEY_ID, OTHER, "", "80", "8001", "2A86", "2A8001")
NUMBERS = ("", "00", "01", "02", "03", "04", "7F", "80", "0002", "0080", "7FFFFFFF", "0080000000", "80000000", "FFFFFFFF", "0000000002")
ELEMENTS = (b"\x05\x00", b"\x31\x00", b"\x30\x00", b"\x02\x01\x02", b"\x06\x01\x2A", b"\x04\x00", b"\xA0\x00", b"\x80\x00", b"\x00", b"\x30",
            b"\x04\x05")
DATA_LEVELS = 8     # OCTET STRINGs below this level hold no safe


# ---- Trees.

def nodes_of(tree):
    found = [tree]
    for node in found:
        found.extend(part for part in node.parts if isinstance(part, E))
    return found


def holds_elements(element, level):
    return element.tag & 0x20 or element.tag == 0x04 and level <= DATA_LEVELS


def walk_of(data, span):
    return reader.Parent(data, reader.empty_reading(len(data)), *span)


def taken_apart(data, span, level):
    """The elements of a range, or None where it isn't a row of them."""
    walk, parts = walk_of(data, span), []
    try:
        while walk.left():
            element = walk.element()
            inside = taken_apart(data, element.body, level + 1) if holds_elements(element, level) else None
            parts.append(E(element.tag, *(walk.bytes_of(element),) if inside is None else inside))
    except reader.Refused:
        return None
    return parts


def tree_of(data):
    return E(None, *taken_apart(data, (0, len(data)), 1))


def headers_of(data):
    found, spans = [], [(0, len(data), 1)]
    for start, end, level in spans:
        walk = walk_of(data, (start, end))
        try:
            while walk.left():
                element = walk.element()
                found.append((element.at, element.body[0], element.tag))
                spans += [(*element.body, level + 1)] if holds_elements(element, level) else []
        except reader.Refused:
            pass    # an OCTET STRING that holds other bytes
    return found


# ---- Bytes, with nothing mended.

def length_bytes(dice):
    return bytes(dice.choice(((0x80,), (0x81, dice.randrange(256)), (dice.randrange(0x80),), (0x82, dice.randrange(2), dice.randrange(256)),
                              (0x83, 0, 1, 0), (0x84,), (0xFF,))))


def other_length(dice, size):
    """Length bytes for another body size, near by or not."""
    size = dice.choice((size - 1, size + 1, size + 2, 0, 0x7F, 0x80, 0xFF, 0x100, dice.randrange(0x10000)))
    size = min(max(size, 0), 0xFFFF)
    return E(0x04, bytes(size)).encode()[1:-size or None]


def changed(dice, data, at):
    return data[:at] + bytes([dice.choice((data[at] ^ 1 << dice.randrange(8), data[at] + 1 & 0xFF, dice.randrange(256)))]) + data[at + 1:]


def flat(dice, data, headers):
    how = dice.choice(("byte changed", "byte changed", "inserted", "deleted", "cut", "appended", "length", "length", "tag", "identifier"))
    at, more = dice.randrange(len(data)), dice.randrange(1, 4)
    tag_at, body_at, _ = dice.choice(headers)
    if how == "byte changed":
        data = changed(dice, data, at)
    elif how == "inserted":
        data = data[:at] + dice.randbytes(more) + data[at:]
    elif how == "deleted":
        data = data[:at] + data[at + more:]
    elif how == "cut":
        data = data[:at]
    elif how == "appended":
        data += dice.choice((dice.randbytes(more), dice.choice(ELEMENTS), data[:at]))
    elif how == "length":
        new = dice.choice((length_bytes(dice), other_length(dice, dice.randrange(300))))
        data = data[:tag_at + 1] + new + data[body_at:] if dice.random() < 0.7 else changed(dice, data, body_at - 1)
    elif how == "tag":
        data = data[:tag_at] + bytes([dice.choice((*TAGS, dice.randrange(256)))]) + data[tag_at + 1:]
    else:
        begin, end = dice.choice([(body, body + data[body - 1]) for _, body, tag in headers if tag == 0x06])
        data = changed(dice, data, dice.randrange(begin, end)) if begin < end else data
    return how, data


# ---- Nodes, with the lengths around them mended.

def change_body(dice, node):
    body = node.body()
    at = dice.randrange(len(body) + 1)
    how = dice.choice(("byte changed", "inserted", "deleted", "cut", "appended"))
    if how == "byte changed":
        at = min(at, len(body) - 1)
        body = changed(dice, body, at) if body else b"\x00"
    elif how == "inserted":
        body = body[:at] + dice.randbytes(1) + body[at:]
    elif how == "deleted":
        body = body[:at] + body[at + 1:]
    else:
        body = body[:at] if how == "cut" else body + dice.choice((dice.randbytes(1), *ELEMENTS))
    node.parts = [body]
    return how


def change_parts(dice, node):
    place, how = dice.randrange(len(node.parts) + 1), dice.choice(("dropped", "doubled", "reversed", "put in", "cut off", "appended"))
    if how == "dropped":
        del node.parts[place:place + 1]
    elif how == "doubled":
        node.parts[place:place] = node.parts[place:place + 1]
    elif how == "reversed":
        node.parts.reverse()
    elif how == "cut off":
        del node.parts[place:]
    else:
        node.parts.insert(place if how == "put in" else len(node.parts), dice.choice(ELEMENTS))
    return how


def change_node(dice, node):
    """Changes one node, and says how."""
    kinds = ["tag", "length", "body", "parts", "parts"]
    kinds += ["content"] * 4 if node.tag in (0x02, 0x06) else []
    how = dice.choice(kinds)
    if how == "tag" and node.tag is not None:
        node.tag = dice.choice((*TAGS, dice.randrange(256)))
    elif how == "length" and node.tag is not None:
        node.length = dice.choice((length_bytes(dice), other_length(dice, len(node.body()))))
    elif how == "content":
        node.parts = [bytes.fromhex(dice.choice(IDENTIFIERS if node.tag == 0x06 else NUMBERS))]
        return "identifier" if node.tag == 0x06 else "number"
    else:
        return change_body(dice, node) if how == "body" else change_parts(dice, node)
    return how


def changed_tree(tree, node, change):
    """What the change says, and the file, or None if a body gets longer than a length can tell; the tree is as before."""
    kept = node.tag, node.parts, node.length
    node.parts = list(node.parts)
    how = change(node)
    try:
        data = tree.encode()
    except OverflowError:
        data = None
    node.tag, node.parts, node.length = kept
    return how, data


def mended(dice, tree, nodes):
    how, data = changed_tree(tree, dice.choice(nodes), lambda node: change_node(dice, node))
    return how + ", lengths mended", data


# ---- Changes that meet one rule each.

def content(*bodies):
    return [lambda node, body=body: setattr(node, "parts", [bytes.fromhex(body)]) for body in bodies]


def tags(*others):
    return [lambda node, tag=tag: setattr(node, "tag", tag) for tag in others]


def cut(*counts):
    return [lambda node, count=count: node.parts.__delitem__(slice(count, None)) for count in counts]


def more(*parts):
    return [lambda node, part=part: node.parts.append(part) for part in parts]


OTHER_BAGS = content(BAG + "00", BAG + "07", BAG, BAG + "0101", OTHER, "", "80")
AIMS = {
    "pfx": cut(1, 2) + more(b"\x05\x00"), "version": content("02", "04", "0003", ""), "outer": more(b"\x00"), "outer.content": more(b"\x05\x00"),
    "outer.type": content(SIGNED, ENVELOPED, ENCRYPTED, ""), "auth": more(b"\x30\x00", b"\x00"), "plain.octets": tags(0x24) + cut(0),
    "plain.type": content(ENVELOPED, SIGNED, DIGESTED, ENCRYPTED), "enc.type": content(ENVELOPED, SIGNED, DATA),
    "info.type": content(SIGNED, ENCRYPTED),
    "enc.version": content("01", "02", "02", "0002"), "info": cut(1, 2) + more(b"\xA0\x00"), "cipher": tags(0xA0, 0x04),
    "contents": more(b"\x30\x00", b"\x05\x00"), "nested.contents": tags(0x31) + more(b"\x30\x02\x05\x00"), "key.content": more(b"\x05\x00"),
    **dict.fromkeys(("key.id", "shrouded.id", "cert.id", "crl.id", "secret.id", "nested.id"), OTHER_BAGS),
    **dict.fromkeys(("key.set", "cert.set", "nested.set"), tags(0x30, 0x11, 0x1F) + cut(0, 1) + more(b"\x30\x00", b"\x31\x00")),
    **dict.fromkeys(("cert.type", "crl.type", "attribute.type", "mac.algorithm.id"), content(X509_CERT, SDSI_CERT, KEY_ID, "", "8001", "2A86")),
    "cert.inner": cut(0) + more(b"\x04\x00"), "crl.inner": cut(0) + tags(0xA1), "digestinfo": cut(0, 1) + more(b"\x05\x00"),
    "digest": tags(0x24), "salt": tags(0x24, 0x05), "mac": cut(0, 1, 2) + more(b"\x02\x01\x02", b"\x05\x00", b"\x1F", b"\x00"),
    "mac.algorithm": cut(0, 1) + more(b"\x05\x00"), "iterations": content("00", "01", "02", "0080000000", "80", "") + tags(0x0A, 0x1F, 0x00)}


def aimed(dice, tree, nodes):
    named = {node.name: node for node in dice.sample(nodes, len(nodes)) if node.name in AIMS}   # any of those with the name
    name = dice.choice(sorted(named))
    _, data = changed_tree(tree, named[name], dice.choice(AIMS[name]))
    return "aimed at %s, lengths mended" % name, data
