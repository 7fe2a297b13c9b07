#!/usr/bin/env python3
"""The folders of what is stored for the tests, each named here alone.

    tests/stored.py NAME    prints a folder, as seen from the top, such as DER or LIST

The folder of a program has its input and the output that is due, the files stdin and stdout.
"""
import pathlib
import sys

TOP = pathlib.Path(__file__).resolve().parent.parent
TESTS = TOP / "tests"
FILES = TESTS / "files"     # of common tools, and those that the documents list

DER = TOP / "crates/test_der"           # calls of `der`
TEST_FILES = TOP / "crates/test_files"  # files, their listings, pairs and calls
TEST_TABLES = TOP / "crates/test_tables"  # tables, and what is written of them
TEST_UPLOADS = TOP / "crates/test_uploads"  # uploads in portions, and their statuses
TEST_TEXTS = TOP / "crates/test_texts"  # texts that are imported, and bytes that are exported as texts
LIST = TOP / "crates/list"              # a file and its listing
PAIRS = TOP / "crates/pairs"            # a file and its pairs
REWRITE = TOP / "crates/rewrite"        # a file that is read and written back
WRAP = TOP / "crates/wrap"              # a file and its text
UNWRAP = TOP / "crates/unwrap"          # a text and the file that it wraps


def program(folder):
    """The program that runs over what a folder has."""
    return folder / "out" / folder.name


if __name__ == "__main__":
    print(globals()[sys.argv[1]].relative_to(TOP))
