"""RIPEMD-128, RIPEMD-160, RIPEMD-256 and RIPEMD-320, HMAC over them, and keys
from passwords.

The hash functions of 1996 for Python, over the functions that nattizhu.h
declares, which are proved. The hashers are as those of hashlib:

>>> import nattizhu
>>> nattizhu.ripemd160(b"abc").hexdigest()
'8eb208f7e05d987a9b044a8e98c6b087f15a0bfc'

Bytes are taken from any object with a C-contiguous buffer, where they are and
without a copy. No other thread may write to it meanwhile: calls on more than
2,047 bytes leave the interpreter's lock to other threads.
"""

from ._nattizhu import (
    Hasher, Hmac, __version__, digest_each, digest_list, from_state,
    hmac_digest, hmac_digest_each, hmac_digest_list, hmac_from_state, hmac_new,
    hmac_verify, new, pbkdf2_hmac, ripemd128, ripemd160, ripemd256, ripemd320,
)

__all__ = [
    "Hasher", "Hmac", "algorithms_available", "algorithms_guaranteed",
    "digest_each", "digest_list", "file_digest", "from_state", "hmac_digest",
    "hmac_digest_each", "hmac_digest_list", "hmac_from_state", "hmac_new",
    "hmac_verify", "new", "pbkdf2_hmac", "ripemd128", "ripemd160", "ripemd256",
    "ripemd320",
]

algorithms_guaranteed = {"ripemd128", "ripemd160", "ripemd256", "ripemd320"}
algorithms_available = set(algorithms_guaranteed)


def file_digest(fileobj, name, /, *, _bufsize=2**18):
    """A hasher that has taken in all that a file gives, as
    hashlib.file_digest has it: the file is open in binary mode, and name is
    the name of a variant, or a callable that makes a hasher."""
    hasher = new(name) if isinstance(name, str) else name()
    if hasattr(fileobj, "getbuffer"):  # all of an io.BytesIO
        with fileobj.getbuffer() as held:
            hasher.update(held)
        return hasher
    if not (hasattr(fileobj, "readinto") and hasattr(fileobj, "readable")
            and fileobj.readable()):
        raise ValueError(f"'{fileobj!r}' is not a file-like object in binary "
                         "reading mode.")
    buffer = bytearray(_bufsize)
    with memoryview(buffer) as view:
        while True:
            size = fileobj.readinto(buffer)
            if size is None:
                raise BlockingIOError("I/O operation would block.")
            if size == 0:
                return hasher
            with view[:size] as piece:
                hasher.update(piece)
