"""Tables for the writer with one thing changed at random, by a fixed seed."""
import copy
import random

from models import writer
from p12_tables_make import SEED, made, ranges_of

RANDOM = 400

BASES = ("whole", "two_in_nested_then_one", "plain_encrypted_plain", "level_8_second_safe", "bag_cert_full_set", "bag_shrouded_full_set",
         "bag_nested_full_set", "parameters_sequence", "empty_bodies", "attribute_values_any_order")


def change_number(dice, table, data):
    rows = dice.choice(("safe", "bag", "attribute"))
    name = rows + "_count"
    setattr(table, name, max(0, getattr(table, name) + dice.choice((-2, -1, 1, 2, 200))))
    return "%s %d" % (name.replace("_", " "), getattr(table, name))


def change_range(dice, table, data):
    """A used range with its start, its end or both moved, or taken from another row."""
    used = list(ranges_of(table))
    row, part = dice.choice(used)
    start, end = getattr(row, part)
    step = dice.choice((-2, -1, 1, 2, dice.randrange(-40, 40)))
    other, name = dice.choice(used)
    pair = dice.choice(((start + step, end), (start, end + step), (start + step, end + step), (end, end), getattr(other, name)))
    setattr(row, part, tuple(min(max(0, number), 65535) for number in pair))
    return "a range %d..%d made %d..%d" % (start, end, *getattr(row, part))


def change_bag(dice, table, data):
    number = dice.randrange(len(table.bags))
    row, how = table.bags[number], dice.choice(("kind", "safe", "enclosing", "has_set"))
    choices = {"kind": writer.BAG_KINDS, "safe": range(4), "enclosing": (None, *range(len(table.bags) + 1)), "has_set": (False, True)}
    setattr(row, how, dice.choice([one for one in choices[how] if one != getattr(row, how)]))
    return "bag %d, %s made %s" % (number, how.replace("_", " "), getattr(row, how))


def change_safe(dice, table, data):
    number = dice.randrange(len(table.safes))
    kind = dice.choice([kind for kind in writer.SAFE_KINDS if kind != table.safes[number].kind])
    table.safes[number].kind = kind
    return "safe %d made %s" % (number, kind)


def change_attribute(dice, table, data):
    if not table.attributes:
        return change_range(dice, table, data)
    number = dice.randrange(len(table.attributes))
    table.attributes[number].bag = dice.randrange(len(table.bags) + 1)
    return "attribute %d names bag %d" % (number, table.attributes[number].bag)


def change_order(dice, table, data):
    """Two rows swapped, or one taken away."""
    name = dice.choice([name for name in ("safes", "bags", "attributes") if getattr(table, name)])
    rows = getattr(table, name)
    one, two = dice.randrange(len(rows)), dice.randrange(len(rows))
    if one == two:
        del rows[one]
        one_less = name[:-1] + "_count"
        setattr(table, one_less, getattr(table, one_less) - 1)
        return "row %d of the %s taken away" % (one, name)
    rows[one], rows[two] = rows[two], rows[one]
    return "rows %d and %d of the %s swapped" % (one, two, name)


def change_byte(dice, table, data):
    """A byte of a used part changed."""
    row, part = dice.choice([(row, part) for row, part in ranges_of(table) if len(set(getattr(row, part))) == 2])
    place = dice.randrange(*getattr(row, part))
    data[place] = dice.choice((data[place] ^ 1 << dice.randrange(8), dice.randrange(256), 0x80))
    return "byte %d made %02X" % (place, data[place])


def change_iterations(dice, table, data):
    table.mac.iterations = dice.choice((0, 1, dice.randrange(2 ** 31), dice.randrange(2 ** 31, 2 ** 32), dice.randrange(300)))
    return "iterations %d" % table.mac.iterations


CHANGES = (change_number, change_range, change_range, change_bag, change_bag, change_safe, change_attribute, change_order, change_byte,
           change_byte, change_iterations)


def at_random():
    dice = random.Random(SEED)
    bases = {name: made(name) for name in BASES}
    for number in range(RANDOM):
        name = dice.choice(BASES)
        sketch = copy.deepcopy(bases[name])
        data = bytearray(sketch.data)
        what = dice.choice(CHANGES)(dice, sketch.table, data)
        sketch.data = bytes(data)
        yield sketch.case("random %d: %s, %s" % (number, name, what))
