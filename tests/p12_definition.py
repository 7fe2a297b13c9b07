#!/usr/bin/env python3
"""Compares the definition `read_file` of the crate pkcs12 with the reader models/reader.py, by proof.

    p12_definition.py [--damaged SEED COUNT] [--longest BYTES] [FILE ..]

For each FILE, and for every file of p12_make.py, COUNT damaged and COUNT mended ones of at most BYTES bytes (3000 if not said), one theorem
says that `read_file` of its bytes is the answer that models/reader.py gives: the number and the offset, or every field of the table. The
theorems are proved by computing the definition. They are written to a crate of their own beside copies of der, range, buffer and pkcs12, in
a folder outside the repository that is removed again, and `rt check` proves them. The last line is 'N files, all as the reader says', or
names the theorems that aren't proved, with the first error before it.
"""
import pathlib
import re
import shutil
import subprocess
import sys
import tempfile

import p12_make
from models import reader
from stored import TOP

A_MODULE = 20  # theorems in a module

KINDS = {"key": "Key", "shrouded key": "ShroudedKey", "certificate": "Certificate", "crl": "Crl", "secret": "Secret", "nested": "Nested"}


def listed(items):
    return " ∷ ".join(items + ["[]"]) if items else "[]"


def span(pair):
    return "(range %d %d)" % pair


def parts(row, identifier, parameters, value):
    def one(name):
        return span(getattr(row, name)) if name else "no_range"
    return "(parts %s %s %s)" % (one(identifier), one(parameters), one(value))


def safe_term(row):
    if row.kind == "plain":
        return "safe_row Plain no_parts"
    return "safe_row Encrypted %s" % parts(row, "algorithm", "parameters", "ciphertext")


def bag_term(row, has_set):
    fields = {"key": (None, None, "key"), "shrouded key": ("algorithm", "parameters", "ciphertext"), "nested": (None, None, None)}
    enclosing = "None" if row.enclosing is None else "(Some %d)" % row.enclosing
    return "bag_row %s %d %s %s %s" % (
        KINDS[row.kind], row.safe, enclosing, parts(row, *fields.get(row.kind, ("type", None, "value"))), "true" if has_set else "false")


def attribute_term(row):
    return "attribute_row %d %s %s" % (row.bag, span(row.type), span(row.values))


def reading_term(reading):
    if isinstance(reading, reader.Refusal):
        return "refused (fault %d %d)" % (reading.number, reading.offset)
    rows = "(record { safes = %s; bags = %s; attributes = %s; input = range %d %d; count = %d })" % (
        listed([safe_term(r) for r in reading.safes]),
        listed([bag_term(r, r.has_set) for r in reading.bags]),
        listed([attribute_term(r) for r in reading.attributes]),
        *reading.mac_input, reading.opened)
    mac = "(mac_fields %s %s %d)" % (
        parts(reading.mac, "algorithm", "parameters", "digest"), span(reading.mac.salt), reading.mac.iterations)
    return "record { answer = Ok tt; table = table_of %s %s }" % (rows, mac)


def bench_header():
    """The `use` lines and the list of definitions to compute, as proofs/Bench.antt has them, without
    those of the files there."""
    text = (TOP / "crates/cases/proofs/Bench.antt").read_text()
    unfold = re.search(r"^unfolding .*(\n +.*)*$", text, re.M).group(0)
    unfold = re.sub(r"\s(bench_cases|slip_cases|number_cases|times|deep|nests)\b", "", unfold)
    uses = [line for line in text.split("\n") if line.startswith("use ") and "Rattle.cases." not in line]
    own = "Rattle.pkcs12.specs."
    more = [
        "use Rattle.std.specs.Prelude.{true, false, ◌≡◌, [], ◌∷◌, Ok, Some, None}",
        "use Rattle.der.specs.Element.{fault}",
        "use Rattle.range.specs.Range.{range, no_range}",
        "use %sTable.{no_parts, safe_row, bag_row, attribute_row, mac_fields}" % own,
        "use %sTable as table" % own,
        "use %sWalk.{refused}" % own,
        "use %sdeclared.kind.SafeKind.TheVariants.{Plain, Encrypted}" % own,
        "use %sdeclared.kind.BagKind.TheVariants.{Key, ShroudedKey, Certificate, Crl, Secret, Nested}" % own,
    ]
    return "\n".join(uses + more), unfold


def write(place, cases):
    """The repository in a folder: copies of the crates that are needed, and the crate `tried`."""
    for name in ("der", "range", "buffer", "pkcs12"):
        for part in ("src", "specs", "proofs"):
            shutil.copytree(TOP / "crates" / name / part, place / "crates" / name / part)
    (place / "crates.txt").write_text("der:\nrange: der\nbuffer: der range\npkcs12: der range buffer\ntried: der range buffer pkcs12\n")
    crate = place / "crates" / "tried"
    (crate / "src").mkdir(parents=True)
    (crate / "proofs").mkdir()
    (crate / "src" / "lib.rt").write_text("// The definition of reading, tried on files.\n#![tactic(auto)]\n")
    uses, unfold = bench_header()
    modules = []
    for start in range(0, len(cases), A_MODULE):
        module = "Tried%d" % (start // A_MODULE)
        modules.append(module)
        text = "-- Files, and what reading each gives.\n" + uses + "\n"
        for number, (name, data) in enumerate(cases[start:start + A_MODULE], start):
            text += "\n-- %s\nfile%d : read_file (%s) ≡ %s\n%s\nfile%d = refl\n" % (
                name, number, listed([str(b) for b in data]), reading_term(reader.read(data)).replace("(parts ", "(table.parts "), unfold, number)
        (crate / "proofs" / (module + ".antt")).write_text(text)
    (crate / "proofs" / "Lib.antt").write_text("-- Files.\n" + "".join("pub mod %s\n" % m for m in modules))


def main(arguments):
    longest, seed, count, files = 3000, 0, 0, []
    while arguments:
        word = arguments.pop(0)
        if word == "--damaged":
            seed, count = int(arguments.pop(0)), int(arguments.pop(0))
        elif word == "--longest":
            longest = int(arguments.pop(0))
        else:
            files.append((word, pathlib.Path(word).read_bytes()))
    made = p12_make.files() + p12_make.damaged(seed, count) + p12_make.mended(seed, count)
    cases = files + [case for case in made if len(case[1]) <= longest]
    with tempfile.TemporaryDirectory() as folder:
        place = pathlib.Path(folder)
        write(place, cases)
        done = subprocess.run(["rt", "check"], cwd=place / "crates" / "tried", stdin=subprocess.DEVNULL, capture_output=True, text=True)
    output = done.stdout + done.stderr
    wrong = sorted(set(re.findall(r"error: `(file\d+)`", output)), key=lambda name: int(name[4:]))
    if done.returncode == 0 and not wrong:
        print("%d files, all as the reader says" % len(cases))
        return 0
    first = re.search(r"^.*error.*$", output, re.M)
    print(first.group(0)[:1000] if first else output[-1000:])
    print("not proved:", ", ".join("%s (%s)" % (w, cases[int(w[4:])][0]) for w in wrong))
    return 1


if __name__ == "__main__":
    sys.exit(main(sys.argv[1:]))
