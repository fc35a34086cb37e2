#!/usr/bin/env python3
"""Derives the header keys of a TrueCrypt or VeraCrypt volume whose hash
function is RIPEMD-160, and prints them in hexadecimal. It decrypts nothing.

    volume_keys.py [-r ROUNDS] [-c CIPHERS] VOLUME

ROUNDS is 2000 for a volume of TrueCrypt, 1000 for one that it starts a
system from, and 655331 for one of VeraCrypt (the default). CIPHERS, from 1
(the default) to 3, is how many ciphers of 32-byte keys the volume is
encrypted by. Its first 64 bytes are the salt. The password is asked for, or
read from standard input where that is no terminal.
"""

import argparse
import getpass
import sys

import nattizhu

SALT_SIZE = 64
KEY_SIZE = 32


def header_keys(password, salt, rounds, ciphers):
    """The keys of the ciphers, and then the second keys that XTS takes."""
    size = ciphers * KEY_SIZE
    both = nattizhu.pbkdf2_hmac("ripemd160", password, salt, rounds, 2 * size)
    return both[:size], both[size:]


def read_password():
    """The line that is typed or comes from standard input, as UTF-8."""
    if sys.stdin.isatty():
        return getpass.getpass().encode()
    return sys.stdin.buffer.readline().rstrip(b"\r\n")


def main():
    parser = argparse.ArgumentParser(
        description="Derives the header keys of a volume.")
    parser.add_argument("volume")
    parser.add_argument("-r", "--rounds", type=int, default=655331)
    parser.add_argument("-c", "--ciphers", type=int, default=1,
                        choices=(1, 2, 3))
    given = parser.parse_args()
    try:
        with open(given.volume, "rb") as file:
            salt = file.read(SALT_SIZE)
        if len(salt) != SALT_SIZE:
            sys.exit(f"{given.volume}: shorter than a salt")
        keys, second_keys = header_keys(
            read_password(), salt, given.rounds, given.ciphers)
    except (OSError, ValueError, OverflowError) as error:
        sys.exit(f"volume_keys.py: {error}")
    print("keys:       ", keys.hex())
    print("second keys:", second_keys.hex())


if __name__ == "__main__":
    main()
