#!/usr/bin/env python3
"""Prints the address of a public key, as Bitcoin writes it (P2PKH):
base58 of a byte 0, the key's HASH160, and a checksum of 4 bytes.

    address.py KEY        the key in hexadecimal, of 33 or 65 bytes
"""

import hashlib
import sys

import nattizhu

ALPHABET = "123456789ABCDEFGHJKLMNPQRSTUVWXYZabcdefghijkmnopqrstuvwxyz"


def hash160(data):
    """RIPEMD-160 of SHA-256."""
    return nattizhu.ripemd160(hashlib.sha256(data).digest()).digest()


def base58check(payload):
    """The payload and its checksum, in base 58."""
    inner = hashlib.sha256(payload).digest()
    checked = payload + hashlib.sha256(inner).digest()[:4]
    number = int.from_bytes(checked, "big")
    text = ""
    while number:
        number, digit = divmod(number, 58)
        text = ALPHABET[digit] + text
    zeros = len(checked) - len(checked.lstrip(b"\0"))
    return ALPHABET[0] * zeros + text


def address(key):
    """The address of a public key."""
    return base58check(b"\0" + hash160(key))


def main():
    try:
        key = bytes.fromhex(sys.argv[1])
    except (IndexError, ValueError):
        key = b""
    if (len(key), key[:1]) not in ((33, b"\2"), (33, b"\3"), (65, b"\4")):
        sys.exit("usage: address.py KEY, in hexadecimal, of 33 or 65 bytes")
    print(address(key))


if __name__ == "__main__":
    main()
