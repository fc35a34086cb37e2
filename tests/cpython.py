"""Runs CPython's own tests of hashlib and hmac over nattizhu, and prints how many ran, and which were skipped and failed.

Their files are read as they are. Then the names of MD5, SHA-1 and SHA-256 are exchanged for those of RIPEMD-128, -160
and -256, whose digests are as long; the digests, tags and keys that they expect, for those of RIPEMD from outside; and
the modules that they import, for nattizhu. Tests of other hash functions alone, and of compare_digest, are left out."""
import hashlib
import hmac
import importlib.util
import json
import pathlib
import re
import sys
import types
import unittest
from test.support import hashlib_helper

import nattizhu

NAMES = ("ripemd128", "ripemd160", "ripemd256", "ripemd320")
EXCHANGED = {
    "md5": "ripemd128", "sha1": "ripemd160", "sha256": "ripemd256", "SHA256": "RIPEMD256",
    # Of "1", 2,048 times "#" and "1", by SHA-256, and RIPEMD-256 by LibTomCrypt 1.18.2.
    "1cfceca95989f51f658e3f3ffe7f1cd43726c9e088c13ee10b46f57cef135b94":
        "f264108c288a61d036c3e495fc2e6203013e71a1888d06902357b42d65d09f26"}
OTHERS = re.compile("blake2|sha3|shake|sha224|sha384|sha512|rfc4231|scrypt|compare_digest")


def rows(name):
    """The words of each line of a file of tests/data."""
    text = (pathlib.Path(__file__).parent / "data" / name).read_text("utf-8")
    return [line.split() for line in text.splitlines() if line[0] != "#"]


# The digests that the authors published, by variant and message; and the tags of RFC 2286, whose keys and texts are
# those of RFC 2202.
PUBLISHED = {(f"ripemd{bits}", text.encode() * int(times)): digest
             for bits, text, times, digest in rows("published.txt")}
RFC_2286 = {(f"ripemd{bits}", bytes.fromhex(key), bytes.fromhex(text)): tag
            for bits, key, text, tag in rows("rfc2286.txt")}


class HMAC:
    """In place of hmac.HMAC: it makes HMACs of nattizhu, also by the private methods by which tests make some."""

    def __new__(cls, *given, **named):
        return nattizhu.hmac_new(*given, **named) if given or named else super().__new__(cls)

    def _init_old(self, key, msg, digestmod):
        self.made = nattizhu.hmac_new(key, msg, digestmod)

    _init_hmac = _init_old

    def __getattr__(self, name):
        return getattr(self.made, name)


MODULES = {
    "hashlib": nattizhu,
    "hmac": types.SimpleNamespace(HMAC=HMAC, new=nattizhu.hmac_new, digest=nattizhu.hmac_digest),
    "_hashlib": types.SimpleNamespace(
        HASH=nattizhu.Hasher, HASHXOF=nattizhu.Hasher, HMAC=nattizhu.Hmac, new=nattizhu.new, hmac_new=nattizhu.hmac_new,
        openssl_md_meth_names=nattizhu.algorithms_available, get_fips_mode=lambda: 0, compare_digest=hmac.compare_digest,
        **{f"openssl_{name}": getattr(nattizhu, name) for name in NAMES})}


def load(name):
    """A file of tests, with its names exchanged."""
    spec = importlib.util.find_spec(f"test.{name}")
    source = spec.loader.get_source(spec.name)
    for theirs, ours in EXCHANGED.items():
        source = source.replace(theirs, ours)
    module = types.ModuleType(name)
    exec(compile(source, spec.origin, "exec"), module.__dict__)
    return module


def exchange(case, name, values=None):
    """Has a check of theirs pass over other names than ours, and expect these values."""
    check = getattr(case, name)

    def checks(self, variant, *rest, **options):
        if variant in NAMES:
            if values is not None:
                rest = (rest[0], values[variant, rest[0]], *rest[2:])
            check(self, variant, *rest, **options)

    setattr(case, name, checks)


def main():
    expected = hmac.digest(b"key", b"hash this!", nattizhu.ripemd256)
    hashlib_helper.hashlib = hashlib_helper._hashlib = nattizhu
    theirs = {name: sys.modules[name] for name in MODULES}
    sys.modules.update(MODULES)
    digests, tags = load("test_hashlib"), load("test_hmac")

    case = digests.HashLibTestCase
    case.supported_hash_names = [*NAMES, *map(str.upper, NAMES)]
    case._conditional_import_module = lambda self, name: MODULES.get(name)
    exchange(case, "check", PUBLISHED)
    exchange(case, "check_no_unicode")
    exchange(case, "check_blocksize_name")
    digests.openssl_hashlib = nattizhu
    digests.KDFTests.pbkdf2_results = {"ripemd160": [
        (theirs["hashlib"].pbkdf2_hmac("ripemd160", password, salt, rounds, 25 if size == -1 else size),
         25 if size == -1 else None) for password, salt, rounds, size in digests.KDFTests.pbkdf2_test_vectors]}
    check = tags.TestVectorsTestCase.assert_hmac
    tags.TestVectorsTestCase.assert_hmac = lambda self, key, data, _, **given: check(
        self, key, data, RFC_2286[given["hashname"], key, data], **given)
    tags.ConstructorTestCase.expected = expected.hex()

    loader = unittest.TestLoader()
    cases = [case for module in (digests, tags) for group in loader.loadTestsFromModule(module) for case in group]
    result = unittest.TestResult()
    unittest.TestSuite(case for case in cases if not OTHERS.search(case.id())).run(result)
    print(json.dumps({"ran": result.testsRun, "skipped": {case.id(): why for case, why in result.skipped},
                      "failed": {case.id().split(".")[-1]: why.strip().splitlines()[-1]
                                 for case, why in result.errors + result.failures}}, indent=1))


if __name__ == "__main__":
    main()
