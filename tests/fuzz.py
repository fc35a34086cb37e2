"""Random calls of the package for Python, with arguments of the right kinds and of wrong ones: each gives a value or an
error of these, and what it was given stays.
    fuzz.py SEED CALLS
"""
import array
import random
import sys

import nattizhu

ERRORS = (BufferError, OverflowError, TypeError, ValueError)
rng = random.Random(sys.argv[1])


def some_bytes():
    return rng.randbytes(rng.choice([0, 1, 3, 20, 55, 63, 64, 65, 113, 128, 225, 300, 4000]))


def names():
    return rng.choice(["ripemd128", "ripemd160", "ripemd256", "ripemd320", nattizhu.ripemd160, nattizhu.ripemd320,
                       "RIPEMD160", "sha1", "", "ripemd160\0", len])


def buffers():
    data = some_bytes()
    return rng.choice([bytes, bytearray, memoryview, lambda it: memoryview(it)[::2], lambda it: array.array("B", it),
                       lambda it: memoryview(bytearray(it)).cast("B"), lambda it: it.hex()])(data)


def lists():
    messages = [buffers() for _ in range(rng.choice([0, 1, 2, 7, 8, 9, 64, 65, 130]))]
    return rng.choice([list, tuple, iter, lambda it: (message for message in it), lambda it: shrinking(it)])(messages)


def shrinking(messages):
    """A list that becomes shorter while it is read."""
    for _ in range(len(messages)):
        yield messages.pop() if len(messages) > 3 else b""
        messages.append(1)


def sizes():
    return rng.choice([0, 1, 3, 20, 64, -1, 2**31, 2**63, 2**64, 1.5, True])


def rounds():
    return rng.choice([1, 2, 3, 0, -1, 2**32, 2**64])


def lengths():
    return rng.choice([None, 0, 1, 20, 50, 1000, -1, 2**70])


def states():
    """States of hashers and of HMACs, of which some bytes are replaced."""
    state = bytearray(rng.choice([nattizhu.new("ripemd160", b"a" * rng.randrange(70)).state(),
                                  nattizhu.hmac_new(b"k", b"t", "ripemd320").state()]))
    for _ in range(rng.randrange(3)):
        state[rng.randrange(len(state))] = rng.randrange(256)
    return rng.choice([bytes, memoryview])(state)


ANY = [names, buffers, lists, sizes, lambda: None, object]
CALLS = {
    "new": [names, buffers], "ripemd128": [buffers], "ripemd160": [buffers], "ripemd256": [buffers],
    "ripemd320": [buffers],
    "from_state": [names, states], "hmac_from_state": [names, states], "hmac_new": [buffers, buffers, names],
    "digest_each": [names, buffers, sizes], "digest_list": [names, lists], "hmac_digest": [buffers, buffers, names],
    "hmac_verify": [buffers, buffers, names, buffers], "hmac_digest_each": [buffers, buffers, sizes, names],
    "hmac_digest_list": [buffers, lists, names], "pbkdf2_hmac": [names, buffers, buffers, rounds, lengths],
}
METHODS = {"update": [buffers], "digest": [], "hexdigest": [], "copy": [], "state": [], "verify": [buffers],
           "__reduce__": [], "__repr__": [], "__init__": [buffers]}
assert set(CALLS) == set(nattizhu.__all__) - {"Hasher", "Hmac", "algorithms_available", "algorithms_guaranteed", "file_digest"}

hashers, values, errors = [nattizhu.ripemd160()], 0, 0
for _ in range(int(sys.argv[2])):
    if rng.random() < 0.5:
        name, kinds = rng.choice(list(CALLS.items()))
        function = getattr(nattizhu, name)
    else:
        name, kinds = rng.choice(list(METHODS.items()))
        function = getattr(rng.choice(hashers), name, None)
    arguments = [(rng.choice(ANY) if rng.random() < 0.05 else kind)() for kind in kinds]
    if rng.random() < 0.05:
        arguments = arguments[1:] if rng.random() < 0.5 else [*arguments, None]
    before = [(it, bytes(it)) for it in arguments if isinstance(it, (bytes, bytearray))]
    try:
        value = function(*arguments)
        values += 1
    except ERRORS:
        value = None
        errors += 1
    assert all(it == was for it, was in before), name
    if isinstance(value, (nattizhu.Hasher, nattizhu.Hmac)):
        hashers = [*hashers[-20:], value]
print(f"fuzz.py: {values} values and {errors} errors")
