#!/usr/bin/env python3
"""Compares the model models/pairs.py with answers by hand, for the files of p12_pairs_make.py and
some others of p12_make.py.

    tests/p12_pairs_check.py
"""
import sys

import p12_make
from models import reader
from models.pairs import pairs

# Short: 1:0 is "key bag 1: certificate bag 0", 1!13 is "key bag 1: refused 13".
BY_HAND = {
    # one to one
    "pairs_key_then_cert": "0:1",
    "pairs_cert_then_key": "1:0",
    "pairs_shrouded": "0:1",
    "pairs_cert_then_shrouded": "1:0",
    "pairs_sdsi_cert": "0:1",
    "pairs_no_key": "",
    "pairs_key_alone": "0!13",
    "pairs_none_matches": "0!13",
    "pairs_two_certs": "0!14",
    "pairs_two_certs_around": "1!14",
    "pairs_three_certs": "0!14",
    "pairs_one_of_three": "0:2",
    "pairs_two_keys_one_cert": "0:2 1:2",
    "pairs_crossed": "0:3 1:2",
    "pairs_other_key_only": "0!13 1!13 2!13",
    "pairs_crl_and_secret": "0!13",
    "pairs_crl_and_secret_and_cert": "3:4",
    # without ids, and ids of length 0
    "pairs_key_no_set": "0!13",
    "pairs_key_empty_set": "0!13",
    "pairs_key_friendly": "0!13",
    "pairs_nothing_on_both": "0!13 1!13 2!13",
    "pairs_certs_without": "0!13",
    "pairs_certs_without_then_one": "0:4",
    "pairs_empty_ids": "0:1",
    "pairs_empty_ids_two": "0!14",
    "pairs_empty_id_and_none": "0!13",
    "pairs_none_and_empty_id": "0!13 1!13 2!13",
    "pairs_empty_id_and_one_byte": "0!13 1:2",
    # the attribute that counts
    "pairs_key_two_first": "0:1",
    "pairs_key_two_second": "0!13",
    "pairs_key_two_both": "0:2",
    "pairs_cert_two_first": "0:1",
    "pairs_cert_two_second": "0!13",
    "pairs_cert_two_equal": "0:1",
    "pairs_second_on_both": "0!13",
    "pairs_others_in_front": "0:1",
    "pairs_friendly_of_octets": "0!13 1!13",
    "pairs_type_longer": "0!13 1:3",
    "pairs_type_shorter": "0!13 1:3",
    "pairs_type_first_byte": "0!13 1:3",
    "pairs_type_last_byte": "0!13 1:3",
    # a first localKeyID that gives no id: a second one isn't used
    "pairs_key_first_no_element": "0!13 1!13",
    "pairs_cert_first_no_element": "0!13",
    "pairs_key_first_two_octets": "0!13 1!13",
    "pairs_cert_first_two_octets": "0!13",
    "pairs_key_first_two_equal_octets": "0!13 1!13",
    "pairs_cert_first_two_equal_octets": "0!13",
    "pairs_key_first_octets_and_null": "0!13 1!13",
    "pairs_cert_first_octets_and_null": "0!13",
    "pairs_key_first_null_and_octets": "0!13 1!13",
    "pairs_cert_first_null_and_octets": "0!13",
    "pairs_key_first_integer": "0!13 1!13",
    "pairs_cert_first_integer": "0!13",
    "pairs_key_first_tag_24": "0!13 1!13",
    "pairs_cert_first_tag_24": "0!13",
    "pairs_key_first_tag_0c": "0!13 1!13",
    "pairs_cert_first_tag_0c": "0!13",
    "pairs_key_first_tag_84": "0!13 1!13",
    "pairs_cert_first_tag_84": "0!13",
    "pairs_key_first_tag_44": "0!13 1!13",
    "pairs_cert_first_tag_44": "0!13",
    "pairs_key_first_tag_30": "0!13 1!13",
    "pairs_cert_first_tag_30": "0!13",
    # equal and other ids
    "pairs_prefix": "0!13",
    "pairs_prefix_and_whole": "0:3",
    "pairs_first_byte_differs": "0:2",
    "pairs_middle_byte_differs": "0:2",
    "pairs_reversed": "0!13",
    "pairs_zero_bytes": "0:3",
    "pairs_id_of_an_element": "0!13 1!13",
    "pairs_bytes_127": "0:2",
    "pairs_bytes_127_other": "0!13",
    "pairs_bytes_128": "0:2",
    "pairs_bytes_128_other": "0!13",
    "pairs_bytes_256": "0:2",
    "pairs_bytes_256_other": "0!13",
    "pairs_bytes_20000": "0:2",
    "pairs_sizes": "0!13 1:6 2:5 3:4",
    # nested bags
    "pairs_nested_cert": "0:2",
    "pairs_nested_key": "1:2",
    "pairs_nested_both": "1:2",
    "pairs_nested_apart": "4:1",
    "pairs_nested_and_outside": "2!14",
    "pairs_nested_has_certs_id": "0!13",
    "pairs_nested_has_certs_id_set": "0!13",
    "pairs_nested_has_keys_id": "1!13",
    "pairs_nested_has_keys_id_set": "1!13 2!13",
    "pairs_nested_with_another": "1:3",
    "pairs_nested_key_with_certs": "1!13",
    "pairs_nested_three_levels": "3:2 4!13 5!13",
    "pairs_bag_after_nested": "2:4",
    "pairs_level_8": "8:0 10:9",
    # all rows
    "pairs_64_one": "0:40",
    "pairs_64_last_key": "63:62",
    "pairs_64_first_and_last": "0!14",
    "pairs_64_none": "31!13",
    "pairs_63_keys": " ".join("%d:63" % n for n in range(63)),
    "pairs_128_attributes": "0:2",
    # several safes
    "pairs_other_safe": "0:1",
    "pairs_other_safe_in_front": "1:0",
    "pairs_other_safes_two": "1!14",
    "pairs_other_safe_nested": "4:1",
    "pairs_encrypted_safe": "0!13",
    "pairs_all": "1:0 2!13 3!13 4:7 8!14 10:0 12:0",
    # others of p12_make.py
    "bench_a": "",
    "bench_b": "refused 1 at 0\n",
    "bench_d": "refused 6 at 47\n",
    "bytes_65536": "refused 9 at 0\n",
    "whole": "0!13 1!13 6:2",
    "two_in_nested_then_one": "1!13",
    "plain_encrypted_plain": "1!13",
    "attribute_values_any_order": "0!13",
}


def spelled(short):
    """The lines of an answer in BY_HAND."""
    if short.startswith("refused"):
        return short
    return "".join("key bag %s\n" % word.replace(":", ": certificate bag ").replace("!", ": refused ") for word in short.split())


def check():
    made, agree = dict(p12_make.files()), 0
    for name, short in BY_HAND.items():
        got = pairs(made[name], reader.read(made[name]))
        agree += got == spelled(short)
        if got != spelled(short):
            print("%s: by hand\n%sby the model\n%s" % (name, spelled(short), got))
    without = [name for name in made if name.startswith("pairs_") and name not in BY_HAND]
    print("%d of %d answers agree" % (agree, len(BY_HAND)) + ("".join("\nno answer: " + name for name in without)))
    return 1 if without or agree != len(BY_HAND) else 0


if __name__ == "__main__":
    sys.exit(check())
