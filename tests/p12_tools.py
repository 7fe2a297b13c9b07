#!/usr/bin/env python3
"""Makes files by common tools, with a key and a certificate that are thrown away: they protect nothing.

    p12_tools.py            makes tests/files/TOOL-*.p12 anew
    p12_tools.py --check    says what the stored ones are read as

Every run draws new keys and salts, so the files are stored. After making them anew, p12_vectors.py has to run again.

The stored files were made by OpenSSL 3.0.20, GnuTLS certtool 3.7.9 and keytool of OpenJDK 17.0.15. KEY is a 2048-bit RSA key,
CERT its self-signed certificate (CN=test), from

    openssl req -x509 -newkey rsa:2048 -nodes -keyout KEY -out CERT -days 3650 -subj /CN=test

and the commands are those of OPENSSL, CERTTOOL and KEYTOOL below, each with the words of its file.
"""
import pathlib
import subprocess
import sys
import tempfile

from models import reader
from models.numbers import CONTENT, LENGTH_FORM, NOT_SERVED
from stored import FILES

OPENSSL = "openssl pkcs12 -export -inkey KEY -in CERT -name test -passout pass:test -out FILE"
CERTTOOL = "certtool --to-p12 --load-privkey KEY --load-certificate CERT --p12-name test --outder --outfile FILE"
KEYTOOL = "keytool -storetype PKCS12 -alias test -storepass testtest -keystore FILE"
PAIR = " -genkeypair -keyalg RSA -keysize 2048 -dname CN=test -validity 3650"

# The file, its command, and the number that refuses it.
TOOLS = (
    ("openssl-default", OPENSSL, None),
    ("openssl-legacy", OPENSSL + " -legacy", None),
    ("openssl-unencrypted", OPENSSL + " -keypbe NONE -certpbe NONE", None),
    ("openssl-iterations-absent", OPENSSL + " -nomaciter", None),
    ("openssl-no-mac", OPENSSL + " -nomac", NOT_SERVED),
    ("gnutls-default", CERTTOOL + " --password test", None),
    ("gnutls-3des", CERTTOOL + " --password test --pkcs-cipher 3des-pkcs12", None),
    ("gnutls-empty-password", CERTTOOL + " --empty-password", None),
    ("java-default", KEYTOOL + PAIR, None),
    ("java-legacy", KEYTOOL + PAIR + " -J-Dkeystore.pkcs12.legacy", None),
    ("java-secret", KEYTOOL + " -genseckey -keyalg AES -keysize 128", None),
    ("java-certificate", KEYTOOL + " -importcert -noprompt -file CERT", None),
    ("java-iterations-1", KEYTOOL + PAIR + " -J-Dkeystore.pkcs12.macIterationCount=1", CONTENT),
    ("java-no-mac", KEYTOOL + PAIR + " -J-Dkeystore.pkcs12.macAlgorithm=NONE -J-Dkeystore.pkcs12.certProtectionAlgorithm=NONE",
     NOT_SERVED),
)
# Made of another file: its outermost SEQUENCE with an indefinite length, which is BER and not DER.
BER = ("openssl-ber", "openssl-default", LENGTH_FORM)


def run(command, names):
    words = [names.get(word, word) for word in command.split()]
    subprocess.run(words, check=True, capture_output=True)


def indefinite(data):
    outer = reader.Parent(data, reader.empty_reading(len(data)), 0, len(data)).element(0x30)
    return b"\x30\x80" + data[outer.body[0]:] + b"\x00\x00"


def make():
    FILES.mkdir(exist_ok=True)
    with tempfile.TemporaryDirectory() as folder:
        place = pathlib.Path(folder)
        names = {"KEY": str(place / "key"), "CERT": str(place / "cert")}
        run("openssl req -x509 -newkey rsa:2048 -nodes -keyout KEY -out CERT -days 3650 -subj /CN=test", names)
        for name, command, _ in TOOLS:
            path = place / (name + ".p12")
            run(command, {**names, "FILE": str(path)})
            (FILES / path.name).write_bytes(path.read_bytes())
    name, source, _ = BER
    (FILES / (name + ".p12")).write_bytes(indefinite((FILES / (source + ".p12")).read_bytes()))


def stored():
    """(name, bytes, the number that refuses it or None) for each stored file."""
    return [(name, (FILES / (name + ".p12")).read_bytes(), number) for name, _, number in (*TOOLS, BER)]


def main(arguments):
    if arguments != ["--check"]:
        make()
    wrong = 0
    for name, data, number in stored():
        result = reader.read(data)
        got = result.number if isinstance(result, reader.Refusal) else None
        wrong += got != number
        answer = "refused %d at %d" % result if got else "accepted"
        print("%s: %d bytes, %s%s" % (name, len(data), answer, "" if got == number else ", NOT as due"))
    return 1 if wrong else 0


if __name__ == "__main__":
    sys.exit(main(sys.argv[1:]))
