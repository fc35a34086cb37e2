"""Calls of the package for Python on secrets, to be run under memcheck.
    secrets.py MARKS [jump]        the shared object of marks.c; with `jump`, one depends on a digest
"""
import ctypes
import sys

import nattizhu

MARKS = ctypes.CDLL(sys.argv[1])
# Which messages go at once, and which one after another, depends on their number.
COUNTS = range(1, 10)


def secret(length):
    """So many secret bytes."""
    held = bytearray(b"x" * length)
    MARKS.mark_secret((ctypes.c_char * length).from_buffer(held), ctypes.c_size_t(length))
    return held


def must_be_secret(*outputs):
    for output in outputs:
        assert MARKS.count_known(ctypes.c_char_p(output), ctypes.c_size_t(len(output))) == 0


for name in sorted(nattizhu.algorithms_available):
    for length in (2, 55, 64, 65, 200):  # not 1: where a list copies such bytes, the interpreter looks them up
        key, text = secret(length), secret(130)
        for state in (nattizhu.new(name, key), nattizhu.hmac_new(key, digestmod=name)):
            state.update(text)
            load = nattizhu.from_state if isinstance(state, nattizhu.Hasher) else nattizhu.hmac_from_state
            must_be_secret(state.digest(), state.copy().digest(), load(name, state.state()).digest())
        must_be_secret(
            nattizhu.hmac_digest(key, text, name), *(nattizhu.pbkdf2_hmac(name, key, text, 2, size) for size in (16, 50)))
        for count in COUNTS:
            records, messages = secret(count * length), [(key, text)[i % 2] for i in range(count)]
            must_be_secret(
                *nattizhu.digest_each(name, records, length), *nattizhu.digest_list(name, messages),
                *nattizhu.hmac_digest_each(key, records, length, name), *nattizhu.hmac_digest_list(key, messages, name))

if sys.argv[2:] == ["jump"]:
    assert nattizhu.ripemd160(secret(3)).digest() != bytes(20)
