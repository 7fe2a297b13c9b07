"""Random PKCS #12 files that keep every rule, as trees of the parts in p12_parts.py, and files one past a limit.

    made(dice)       a tree: every production, each form of a length, few rows
    paired(dice)     a tree: keys and certificates that share ids, or nearly do
    at_limit(dice)   (which limit, a tree): 16 safes, 64 bags, 128 attributes, 65,535 bytes, level 8, opaque level 16
    past(dice)       (which limit, a tree): one more of these; refused by 8 or 9
"""
import p12_parts
from damage import nodes_of
from models.numbers import ATTRIBUTE_ROWS, BAG_ROWS, FILE_BYTES, LEVELS, OPAQUE_LEVELS, SAFE_ROWS
from p12_pairs_make import A, B, NO_IDS, OTHER_TYPES, ids, local
from p12_parts import (DATA, KEY_ID, NAME, NULL, OTHER, PBES2, SDSI_CERT, SHA256, X509_CERT, X509_CRL, E, algorithm, bag, cert, crl, depth, encrypted,
                       key, mac, nest, nested, num, octets, oid, pfx, plain, seq, typed)

EDGES = (0x7E, 0x7F, 0x80, 0x81, 0xFE, 0xFF, 0x100, 0x101)      # of body lengths
TAGS = (0x01, 0x02, 0x03, 0x04, 0x05, 0x06, 0x0C, 0x13, 0x17, 0x1E, 0x30, 0x31, 0x80, 0xA0, 0xA1)
IDENTIFIERS = (SHA256, PBES2, OTHER, DATA, X509_CERT, SDSI_CERT, X509_CRL, NAME, KEY_ID, "00", "2A7F", "81807F", "FFFFFFFF7F", "883703")
KEY_IDS = (b"", b"\x01", b"\x01\x02", b"\x01\x03", b"\x01\x02\x03", bytes(20), bytes(0x80))
ITERATIONS = (None, None, 2, 127, 128, 255, 256, 2048, 0x7FFF, 0x8000, 0xFFFF, 0x10000, 100000, 0x7FFFFF, 0x800000, 0x7FFF0000, 0x7FFFFFFF)


class Maker:
    """Makes parts by dice. `wild` is how often a value is anything that the rules allow, and not what tools write there."""

    def __init__(self, dice, wild, bags=BAG_ROWS, attributes=ATTRIBUTE_ROWS):
        self.dice, self.wild = dice, wild
        self.bags, self.attributes = bags, attributes     # rows that are left

    def often(self, chance):
        return self.dice.random() < chance

    def body(self):
        sizes = self.dice.choice(((0, 1, 2, 8, 20), (0, 1, 3, 24), EDGES, (self.dice.randrange(1500),) if self.often(0.2) else (5,)))
        return self.dice.randbytes(self.dice.choice(sizes))

    def identifier(self):
        """In hex."""
        if self.often(0.7):
            return self.dice.choice(IDENTIFIERS)
        groups = [[self.dice.randrange(0x81, 0x100)] + [self.dice.randrange(0x80, 0x100) for _ in range(self.dice.randrange(4))]
                  if self.often(0.4) else [] for _ in range(self.dice.randrange(1, 8))]
        return bytes(byte for group in groups for byte in (*group, self.dice.randrange(0x80))).hex()

    def tag(self):
        if self.often(0.8):
            return self.dice.choice(TAGS)
        return self.dice.choice([tag for tag in range(1, 256) if tag & 0x1F != 0x1F])

    def opaque(self, levels=OPAQUE_LEVELS, tag=None):
        """An element of any tag, and of at most so many levels."""
        if tag is None and levels == OPAQUE_LEVELS and self.often(0.1):
            deepest = self.dice.randrange(2, levels + 1)
            return depth(deepest, self.opaque(1))
        tag = tag or self.tag()
        if not tag & 0x20:
            return E(tag, self.body())
        count = self.dice.choice((0, 1, 1, 2, 3)) if levels > 1 else 0
        return E(tag, *[self.opaque(levels - 1) for _ in range(count)])

    def usual(self):
        """A value that tools write."""
        return self.dice.choice((octets(self.body()), E(0x0C, b"pin"), E(0x1E, b"\x00A" * self.dice.randrange(9)), num(self.dice.randrange(1 << 20)),
                                 NULL, seq(octets(b"s"), num(2048))))

    def value(self):
        return self.opaque() if self.often(self.wild) else self.usual()

    def parameters(self):
        return self.dice.choice(((), (NULL,), (self.value(),), (seq(octets(self.body()), num(2048)),)))

    def algorithm(self, usual):
        return algorithm(self.identifier() if self.often(self.wild) else usual, self.parameters())

    # ---- Attributes.

    def attribute(self):
        if self.often(0.4):
            own = self.dice.choice(KEY_IDS)
            many = self.dice.choice((1, 1, 1, 0, 2)) if self.often(self.wild) else 1
            values = [octets(own) for _ in range(many)]     # each a node of its own: `fit` changes one
            values = [self.value()] if self.often(self.wild / 6) else values
            return seq(oid(KEY_ID, name="attribute.type"), E(0x31, *values))
        many = self.dice.choice((0, 1, 1, 1, 2, 5)) if self.often(0.98) else 100
        values = [self.value() for _ in range(many)]
        return seq(oid(self.dice.choice((NAME, self.identifier())), name="attribute.type"), E(0x31, *values))

    def set(self):
        """None for no set, or the attributes of one."""
        if self.often(0.3):
            return None
        count = min(self.attributes, self.dice.choice((0, 1, 1, 2, 3)))
        self.attributes -= count
        return [self.attribute() for _ in range(count)]

    # ---- Bags and safes.

    def bag(self, level):
        self.bags -= 1
        kind = self.dice.choice((1, 2, 2, 3, 3, 4, 5, 6, 6))
        if kind == 6 and level < LEVELS:
            return nested(*self.contents(level + 1, self.dice.choice((0, 1, 1, 2, 3))), attributes=self.set())
        if kind == 2:
            return bag(2, seq(self.algorithm(PBES2), octets(self.body())), self.set(), "shrouded")
        return getattr(self, {1: "key", 3: "cert", 4: "crl"}.get(kind, "secret"))()

    def contents(self, level, count):
        made = []
        while count > 0 and self.bags > 0:
            made.append(self.bag(level))
            count -= 1
        return made

    def key(self):
        usual = seq(num(0), seq(oid(self.identifier()), *self.dice.choice(((), (NULL,)))), octets(self.body()))
        return key(self.set(), self.opaque(tag=0x30) if self.often(self.wild) else usual)

    def cert(self):
        if not self.often(self.wild):
            return cert(self.set(), octets(self.body()))
        other = self.dice.choice((SDSI_CERT, X509_CRL, OTHER, "2A864886F70D010916"))
        return cert(self.set(), *self.dice.choice(((octets(self.body()), X509_CERT), (self.opaque(), other), (E(0x16, b"abc"), SDSI_CERT))))

    def crl(self):
        if self.often(self.wild):
            return typed(4, self.identifier(), self.opaque(), self.set(), "crl")
        return crl(self.set(), octets(self.body()))

    def secret(self):
        return typed(5, self.identifier() if self.often(self.wild) else OTHER, self.value(), self.set(), "secret")

    def encrypted(self):
        tree = encrypted(parameters=self.parameters(), cipher=self.body())
        if self.often(self.wild):
            tree.get("enc.algorithm.id").parts = [bytes.fromhex(self.identifier())]
        return tree

    def mac(self):
        tree = mac(self.dice.choice(ITERATIONS), self.parameters(), self.body(), self.body())
        if self.often(self.wild):
            tree.get("mac.algorithm.id").parts = [bytes.fromhex(self.identifier())]
        return tree

    def safes(self, count, bags):
        return [self.encrypted() if self.often(0.25) else plain(*self.contents(1, self.dice.choice(bags))) for _ in range(count)]

    def file(self, *safes):
        return pfx(*safes, mac_data=self.mac())


# ---- Lengths at the edge of a form.

def leaves(tree):
    """Nodes whose body may be any bytes: OCTET STRINGs that hold no element of their own here, and ciphertexts."""
    return [node for node in nodes_of(tree) if node.tag in (0x04, 0x80) and all(isinstance(part, bytes) for part in node.parts)]


def fit(dice, tree, size):
    """Whether a leaf could be made longer or shorter so that the tree's body has that many bytes. A long one is made a little too short first:
    by then all headers around the leaf have grown, and none gets past the forms that there are."""
    found = leaves(tree)
    leaf = dice.choice(found) if found else None
    for due in ((size - 200,) if size > 0x1000 else ()) + (size, size, size) if leaf else ():
        more = due - len(tree.body())
        leaf.parts = [dice.randbytes(max(0, len(leaf.body()) + more))]
    return len(tree.body()) == size


def small(dice, wild):
    maker = Maker(dice, wild)
    tree = maker.file(*maker.safes(dice.choice((0, 1, 1, 2, 3)), (0, 1, 2, 3, 4)))
    if maker.often(0.3):
        fit(dice, dice.choice(nodes_of(tree)), dice.choice(EDGES))
    return tree


def within(make):
    """The first tree that isn't too long for a file."""
    while True:
        tree = make()
        try:
            if len(tree.encode()) <= FILE_BYTES:
                return tree
        except OverflowError:   # longer than a length can tell
            pass


def made(dice):
    wild = dice.choice((0, 0, 0.1, 0.5))
    return within(lambda: small(dice, wild))


# ---- Pairs.

def paired(dice):
    one, other = dice.choice(((A, B), dice.sample(KEY_IDS, 2)))
    odd = dice.choice(NO_IDS)[1]    # made of A and B

    def attributes():
        no_id = local(*odd)
        nearly = p12_parts.attribute(dice.choice(OTHER_TYPES)[1], octets(one))
        return dice.choice((None, [], ids(one), ids(one), ids(one), ids(other), ids(other, one), [no_id], [no_id], [no_id], [no_id, *ids(one)],
                            [nearly], [nearly, *ids(one)], [p12_parts.friendly(), *ids(one)]))

    def bags(most):
        makers = (key, p12_parts.shrouded, cert, cert, crl, p12_parts.secret)
        return [dice.choice(makers)(attributes()) for _ in range(dice.randrange(most))]

    return pfx(plain(*bags(5), nested(*bags(4), attributes=attributes())), plain(*bags(4)))


# ---- Limits.

def rows(dice, safes=2, bags=8, attributes=8):
    """A file with exactly so many rows. The bags are in the safes in front; one of them may hold another."""
    maker = Maker(dice, 0)
    made = [(key, p12_parts.shrouded, cert, crl, p12_parts.secret)[number % 5](dice.choice((None, []))) for number in range(bags)]
    owners = made[:]
    if bags > 2 and maker.often(0.5):
        owners[0] = nested(made[1])
        made[:2] = owners[:1]
    for owner in dice.choices(owners, k=attributes):
        if owner.parts[-1].tag != 0x31:
            owner.parts.append(E(0x31))
        owner.parts[-1].parts.append(maker.attribute())
    cut = dice.randrange(len(made) + 1)
    return maker.file(plain(*made[:cut]), plain(*made[cut:]), *[maker.encrypted() for _ in range(safes - 2)])


def long(dice, size):
    tree = made(dice)
    while not fit(dice, tree, size):    # the file has no header: its body is all of it
        tree = made(dice)
    return tree


def deep(dice, levels):
    maker = Maker(dice, 0.3)
    return maker.file(plain(*maker.contents(1, 1), nest(levels), *maker.contents(1, 1)))


def opaque_deep(dice, levels):
    maker = Maker(dice, 0.3)
    inner = depth(levels, maker.opaque(1))
    return maker.file(dice.choice((
        encrypted(parameters=(inner,)), plain(key(None, inner)), plain(crl([], inner)), plain(cert(None, inner, SDSI_CERT)),
        plain(key([p12_parts.attribute(KEY_ID, NULL, inner)])), plain(p12_parts.shrouded(None, (inner,))))))


def limits(dice, more):
    return dice.choice((
        ("safes", lambda: rows(dice, safes=SAFE_ROWS + more)), ("bags", lambda: rows(dice, bags=BAG_ROWS + more)),
        ("attributes", lambda: rows(dice, bags=dice.choice((1, 8, BAG_ROWS)), attributes=ATTRIBUTE_ROWS + more)),
        ("bytes", lambda: long(dice, FILE_BYTES + more)), ("levels", lambda: deep(dice, LEVELS + more)),
        ("opaque levels", lambda: opaque_deep(dice, OPAQUE_LEVELS + more))))


def at_limit(dice):
    if dice.random() < 0.1:
        return "all rows", within(lambda: rows(dice, SAFE_ROWS, BAG_ROWS, ATTRIBUTE_ROWS))
    what, make = limits(dice, 0)
    return what, within(make)


def past(dice):
    what, make = limits(dice, 1)
    return what, make() if what == "bytes" else within(make)
