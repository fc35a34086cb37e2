"""Compares what the package for Python computes with values of others, and prints how many it compared. Standard input
has the digests and the tags of tests/conftest.py, and the lines of keys.txt."""
import json
import sys

import nattizhu

compared = 0


def count(length, first=0):
    """So many bytes that count up."""
    return bytes((first + i) % 256 for i in range(int(length)))


def compare(found, value, *where):
    global compared
    compared += 1
    assert found.hex() == value, (found.hex(), value, *where)


digests, tags, keys = json.load(sys.stdin)
for bits in "128", "160", "256", "320":
    rows = [(count(length), digest) for variant, length, digest in digests if variant == bits]
    at_once = nattizhu.digest_list(f"ripemd{bits}", [message for message, _ in rows])
    for (message, digest), other in zip(rows, at_once, strict=True):
        compare(nattizhu.new(f"ripemd{bits}", message).digest(), digest, bits, len(message))
        compare(other, digest, bits, len(message), "in a list")

for bits, key, text, tag in tags:
    key, text = bytes.fromhex(key), bytes.fromhex(text)
    compare(nattizhu.hmac_digest(key, text, f"ripemd{bits}"), tag, bits, key)
    compare(nattizhu.hmac_digest_list(key, [text], f"ripemd{bits}")[0], tag, bits, key, "in a list")

for bits, password, salt, rounds, key in keys:
    compare(nattizhu.pbkdf2_hmac(f"ripemd{bits}", count(password, 1), count(salt), int(rounds), len(key) // 2), key,
            bits, password, salt, rounds)

print(compared)
