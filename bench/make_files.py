#!/usr/bin/env python3
"""Makes the files that bench/run times, all accepted ones but the bare and the random ones.

    make_files.py FOLDER    wants openssl on the path
"""
import pathlib
import random
import subprocess
import sys

here = pathlib.Path(__file__).resolve().parent
sys.path.insert(0, str(here.parent / "tests"))
sys.dont_write_bytecode = True
from models.numbers import FILE_BYTES, LEVELS, OPAQUE_LEVELS, UPLOAD_LEVELS  # noqa: E402
from p12_make import (E, KEY_ID, NULL, attribute, cert, depth, friendly, key, mac, nested, pfx, plain, seq,  # noqa: E402
                      shrouded)


def bench_m():
    """M of document 01: 47 bytes."""
    return pfx().encode()


def flat():
    """Every bag row and every attribute row, nothing nested."""
    makers = (key, shrouded, cert, cert)
    return pfx(plain(*[makers[n % 4]([attribute(), friendly()]) for n in range(64)]), mac_data=mac(2048, (NULL,))).encode()


def opaque(size, unit):
    """A file of that size: one bag, one attribute, whose values are the unit again and again, and one OCTET STRING."""
    def file(count, pad):
        values = E(0x31, unit * count, E(0x04, bytes(pad)))
        return pfx(plain(key([seq(E(0x06, bytes.fromhex(KEY_ID)), values)]))).encode()

    count = (size - len(file(600, 0))) // len(unit) + 600   # 600: all lengths have their long form
    while len(file(count, 0)) > size:
        count -= 1
    pad = size - len(file(count, 0))
    return next(data for data in (file(count, pad - less) for less in range(pad + 1)) if len(data) == size)


def deep():
    """Safe contents of level 8, and in its bag an opaque element of 16 levels: as deep as a file can be."""
    inner = key([attribute(KEY_ID, depth(OPAQUE_LEVELS))])
    for _ in range(LEVELS - 1):
        inner = nested(inner, attributes=[attribute()])
    return pfx(plain(inner)).encode()


def bare(unit):
    """No file but one SEQUENCE of 65,535 bytes, for the check of an upload: the unit again and again, and one OCTET STRING."""
    count = (FILE_BYTES - 8) // len(unit)
    return next(data for data in (E(0x30, unit * less, E(0x04, bytes(pad))).encode()
                                  for less in range(count, 0, -1) for pad in range(len(unit) + 2)) if len(data) == FILE_BYTES)


def openssl(folder):
    """What a common tool makes of an RSA key and its certificate: encrypted, and with nothing encrypted."""
    def call(*words):
        subprocess.run(["openssl", *words], cwd=folder, check=True, stderr=subprocess.DEVNULL)

    if not (folder / "cert.pem").exists():
        call("req", "-x509", "-newkey", "rsa:2048", "-nodes", "-keyout", "key.pem", "-out", "cert.pem", "-days", "3650",
             "-subj", "/CN=bench")
    export = ("pkcs12", "-export", "-inkey", "key.pem", "-in", "cert.pem", "-name", "bench", "-passout", "pass:bench")
    call(*export, "-keypbe", "AES-256-CBC", "-certpbe", "AES-256-CBC", "-macalg", "sha256", "-out", "openssl_modern.p12")
    call(*export, "-keypbe", "NONE", "-certpbe", "NONE", "-macalg", "sha256", "-out", "openssl_unencrypted.p12")


def main(folder):
    folder = pathlib.Path(folder)
    folder.mkdir(parents=True, exist_ok=True)
    made = {"m": bench_m(), "flat_64_128": flat(), "opaque_16384": opaque(16384, NULL), "opaque_65535": opaque(FILE_BYTES, NULL),
            "opaque_deep_65535": opaque(FILE_BYTES, depth(OPAQUE_LEVELS).encode()), "levels_8": deep(), "bare_flat_65535": bare(NULL),
            "bare_deep_65535": bare(depth(UPLOAD_LEVELS - 1).encode())}
    made.update(("random_%d" % size, random.Random(size).randbytes(size)) for size in (1500, FILE_BYTES))
    for name, data in made.items():
        (folder / (name + ".p12")).write_bytes(data)
    openssl(folder)


if __name__ == "__main__":
    main(sys.argv[1])
