#!/usr/bin/env python3
"""The lines on digests, keyed functions and commitments that crates/hash_vectors must print.

The published values are written out as the documents have them. All else comes from Python's hashlib and hmac modules,
which share nothing with the library.
"""
from hashlib import sha256
import hmac

# The examples of FIPS 180-4 (published beside it): the empty message, "abc", and the one of 448 bits.
FIPS_180_4 = [
    (b"", "e3b0c44298fc1c149afbf4c8996fb92427ae41e4649b934ca495991b7852b855"),
    (b"abc", "ba7816bf8f01cfea414140de5dae2223b00361a396177a9cb410ff61f20015ad"),
    (
        b"abcdbcdecdefdefgefghfghighijhijkijkljklmklmnlmnomnopnopq",
        "248d6a61d20638b8e5c026930c3e6039a33ce45964ff2167f6ecedd419db06c1",
    ),
]

# RFC 4231, test case 2. HMAC fills a key with zeros, so that the key of four bytes and that of 16 give the same.
KEY = b"Jefe"
TEXT = b"what do ya want for nothing?"
RFC_4231_2 = "5bdcc146bf60754e6a042426089575c75a003f089d2739839dec58b964ec3843"


def pattern(n):
    out, x = [], 7
    for _ in range(n):
        out.append(x)
        x = (5 * x + 31) % 256
    return bytes(out)


def checksum(chunks):
    value = 0
    for chunk in chunks:
        for x in chunk:
            value = (value * 31 + x) % 2**32
    return value


def code(key, message):
    return hmac.new(key, message, sha256).digest()


def cuts():
    data = pattern(200)
    for length in range(201):
        for _ in range(length + 1):
            yield sha256(data[:length]).digest()


def buffers():
    digest = sha256(pattern(64)).digest()
    for room in range(65):
        taken = room >= 32
        yield [0 if taken else 14]
        yield digest + bytes([255] * 32) if taken else bytes([255] * 64)


def codes():
    data = pattern(140)
    for key_length in range(141):
        for length in range(141):
            yield code(data[:key_length], data[:length])


def lengths(table):
    data = pattern(200)
    return checksum(table(pattern(16), data[:length]) for length in range(201))


def answer(name, message, value):
    taken = len(message) <= 65536
    print(name, len(message), value.hex() if taken else "refused 17")


TABLES = {
    "function 2": lambda key, message: code(key, message)[:16],
    "commitment 1": lambda opening, message: sha256(opening + message).digest(),
    "commitment 2": code,
}


def inputs(message):
    for name, table in TABLES.items():
        answer(name, message, table(pattern(16), message))


def main():
    for message, published in FIPS_180_4:
        print("sha256", len(message), published)
    print("hmac", RFC_4231_2)
    print("sha256 cuts", checksum(cuts()))
    print("sha256 buffers", checksum(buffers()))
    print("hmac keys", checksum(codes()))
    inputs(b"")
    inputs(b"lot 7: 1200")
    print("function 2", len(TEXT), RFC_4231_2[:32])
    for name, table in TABLES.items():
        print(name, "lengths", lengths(table))
    inputs(bytes(65536))
    inputs(bytes(65537))


main()
