"""A model of the pairing of keys with certificates in a PKCS #12 file.

Written from the rules (document 01, "Attributes and pairs") alone; the comments quote them. Files
are read by reader.py. tests/p12_pairs_check.py compares the model with answers by hand.

    python3 -m models.pairs FILE ..    the pairs of each file

pairs(data, result) gives the lines for a file and what reader.read gave for it: one for each key
bag, in the order of the bag rows,
    key bag 1: certificate bag 0
    key bag 1: refused 13
or the line of the refusal. The numbers are those of the bag rows.
"""
import pathlib
import sys

from models import reader
from models.numbers import MORE_CERTIFICATES, NO_CERTIFICATE

# The table of names.
LOCAL_KEY_ID = bytes.fromhex("2A864886F70D010915")


def elements(data, span):
    """The elements in a range."""
    walk, found = reader.Parent(data, reader.empty_reading(len(data)), *span), []
    while walk.left():
        found.append(walk.element())
    return found


def id_range(data, result, number):
    """The range of a bag's id, or None."""
    # "A bag's id comes from its first localKeyID attribute": of the rows that name this bag, which
    # stand in file order
    for row in result.attributes:
        if row.bag == number and data[slice(*row.type)] == LOCAL_KEY_ID:
            found = elements(data, row.values)
            # "if that holds exactly one element and it is an OCTET STRING; otherwise the bag has
            # none". "OCTET STRING is tag 04 only"
            return found[0].body if len(found) == 1 and found[0].tag == 0x04 else None
    return None


def id_of(data, result, number):
    """The id of a bag, or None."""
    span = id_range(data, result, number)
    return None if span is None else data[slice(*span)]


def answer(data, result, number):
    own = id_of(data, result, number)
    # "the only certificate row with an equal id". "Ids of length 0 are equal to each other."
    equal = [n for n, row in enumerate(result.bags)
             if row.kind == "certificate" and own is not None and id_of(data, result, n) == own]
    # "13 exactly if there is none or the key has none; 14 exactly if there are two or more"
    if len(equal) == 1:
        return "certificate bag %d" % equal[0]
    return "refused %d" % (MORE_CERTIFICATES if equal else NO_CERTIFICATE)


def pairs(data, result):
    if isinstance(result, reader.Refusal):
        return "refused %d at %d\n" % result
    # "For a key row (kinds 01 and 02) the answer is"
    return "".join("key bag %d: %s\n" % (n, answer(data, result, n))
                   for n, row in enumerate(result.bags) if row.kind in ("key", "shrouded key"))


def main(arguments):
    for name in arguments:
        data = pathlib.Path(name).read_bytes()
        sys.stdout.write(pairs(data, reader.read(data)))


if __name__ == "__main__":
    main(sys.argv[1:])
