"""Tests of the package nattizhu. Expected values are published ones, or come
from hashlib and the standard hmac."""

import array
import copy
import faulthandler
import functools
import gc
import hashlib
import hmac
import io
import mmap
import os
import pathlib
import pickle
import random
import signal
import socket
import subprocess
import sys
import tempfile
import threading
import tracemalloc
import unittest

import nattizhu

NAMES = ("ripemd128", "ripemd160", "ripemd256", "ripemd320")
CONSTRUCTORS = {name: getattr(nattizhu, name) for name in NAMES}

# The authors' digests of the empty message and of "abc".
PUBLISHED = {
    "ripemd128": ("cdf26213a150dc3ecb610f18f6b38b46",
                  "c14a12199c66e4ba84636b0f69144c77"),
    "ripemd160": ("9c1185a5c5e9fc54612808977ee8f548b2258d31",
                  "8eb208f7e05d987a9b044a8e98c6b087f15a0bfc"),
    "ripemd256": ("02ba4c4e5f8ecd1877fc52d64d30e37a"
                  "2d9774fb1e5d026380ae0168e3c5522d",
                  "afbd6e228b9d8cbbcef5ca2d03e6dba1"
                  "0ac0bc7dcbe4680e1e42d2e975459b65"),
    "ripemd320": ("22d65d5661536cdc75c1fdf5c6de7b41b9f27325"
                  "ebc61e8557177d705a0ec880151c3a32a00899b8",
                  "de4c01b3054f8930a79d09ae738e92301e5a1708"
                  "5beffdc1b8d116713e74f82fa942d64cdbc4682d"),
}

# For other processes, that they find the same module.
ENVIRONMENT = {**os.environ,
               "PYTHONPATH": os.path.dirname(
                   os.path.dirname(nattizhu.__file__))}

# RFC 2286, sections 2 and 3: key, text and tag.
with (pathlib.Path(__file__).parents[2] / "tests/data/rfc2286.txt").open() as file:
    RFC_2286 = [line.split() for line in file if line[0] != "#"]


def pieces_of(source, message):
    """The message in pieces of random lengths, none among them."""
    at = 0
    while at < len(message):
        length = source.choice((0, 1, 63, 64, 65, source.randrange(300)))
        yield message[at:at + length]
        at += length


class Digests(unittest.TestCase):
    def test_published(self):
        for name, (empty, abc) in PUBLISHED.items():
            self.assertEqual(CONSTRUCTORS[name]().hexdigest(), empty)
            self.assertEqual(CONSTRUCTORS[name](b"abc").hexdigest(), abc)
            self.assertEqual(nattizhu.new(name, b"abc").digest().hex(), abc)
            self.assertEqual(nattizhu.new(name, data=b"abc",
                                          usedforsecurity=False).hexdigest(),
                             abc)

    def test_a_million_times_a(self):
        self.assertEqual(nattizhu.ripemd160(b"a" * 10**6).hexdigest(),
                         "52783243c1697bdbe16d37f97f68f08325dc1528")

    def test_hash160(self):
        key = bytes.fromhex("0279be667ef9dcbbac55a06295ce870b07"
                            "029bfcdb2dce28d959f2815b16f81798")
        self.assertEqual(
            nattizhu.ripemd160(hashlib.sha256(key).digest()).hexdigest(),
            "751e76e8199196d454941c45d1b3a323f1433bd6")

    def test_as_hashlib(self):
        try:
            hashlib.new("ripemd160")
        except ValueError:
            self.skipTest("hashlib has no ripemd160 here")
        source = random.Random(1)
        for length in (*range(200), 4095, 4096, 4097, 100000):
            message = source.randbytes(length)
            self.assertEqual(nattizhu.ripemd160(message).digest(),
                             hashlib.new("ripemd160", message).digest())

    def test_pieces(self):
        source = random.Random(2)
        for name in NAMES * 20:
            message = source.randbytes(source.randrange(2000))
            hasher = nattizhu.new(name)
            for piece in pieces_of(source, message):
                hasher.update(piece)
                if source.random() < 0.2:
                    hasher.digest()
                if source.random() < 0.2:
                    hasher = nattizhu.from_state(name, hasher.state())
            self.assertEqual(hasher.digest(),
                             nattizhu.new(name, message).digest())

    def test_attributes(self):
        for name, size in zip(NAMES, (16, 20, 32, 40)):
            hasher = nattizhu.new(name, b"abc")
            self.assertEqual(
                (hasher.name, hasher.digest_size, hasher.block_size),
                (name, size, 64))
            self.assertEqual(len(hasher.digest()), size)
            self.assertIn(name, repr(hasher))
            with self.assertRaises(AttributeError):
                hasher.name = "md5"
        self.assertEqual(nattizhu.algorithms_available, set(NAMES))
        self.assertEqual(nattizhu.algorithms_guaranteed, set(NAMES))

    def test_copies(self):
        for name in NAMES:
            first = nattizhu.new(name, b"a")
            for duplicate in (lambda x: x.copy(), copy.copy, copy.deepcopy,
                              lambda x: pickle.loads(pickle.dumps(x))):
                second = duplicate(first)
                second.update(b"bc")
                self.assertEqual(second.hexdigest(), PUBLISHED[name][1])
                self.assertEqual(first.digest(),
                                 nattizhu.new(name, b"a").digest())

    def test_each(self):
        source = random.Random(3)
        for name in NAMES:
            for size in (1, 20, 33, 64, 200):
                for count in (0, 1, 7, 8, 9, 129):
                    records = source.randbytes(size * count)
                    self.assertEqual(
                        nattizhu.digest_each(name, records, size),
                        [nattizhu.new(name, records[at:at + size]).digest()
                         for at in range(0, len(records), size)])

    def test_list(self):
        source = random.Random(5)
        for name in NAMES:
            for count in (0, 1, 7, 8, 9, 127, 129, 1023, 1024, 1025, 2100):
                messages = [source.randbytes(source.choice((0, 20, 64, i % 130)))
                            for i in range(count)]
                digests = [nattizhu.new(name, m).digest() for m in messages]
                self.assertEqual(nattizhu.digest_list(name, messages), digests)
                self.assertEqual(nattizhu.digest_list(name, iter(messages)),
                                 digests)

    def test_list_of_long_messages(self):
        """Few of them are held at once: 64 MB, and the one that is next."""
        def messages():
            for i in range(40):
                yield bytes([i]) * 10_000_000

        tracemalloc.start()
        self.addCleanup(tracemalloc.stop)
        digests = nattizhu.digest_list("ripemd160", messages())
        tags = nattizhu.hmac_digest_list(b"key", messages(), "ripemd160")
        self.assertLess(tracemalloc.get_traced_memory()[1], 90_000_000)
        self.assertEqual(
            digests, [nattizhu.ripemd160(m).digest() for m in messages()])
        self.assertEqual(
            tags, [nattizhu.hmac_digest(b"key", m, "ripemd160")
                   for m in messages()])

    def test_threads(self):
        message = random.Random(4).randbytes(3 * 10**6)
        right = nattizhu.ripemd160(message).digest()
        found = []
        shared = nattizhu.ripemd160()

        def work():
            found.append(nattizhu.ripemd160(message).digest())
            for _ in range(200):
                shared.update(b"x" * 777)

        threads = [threading.Thread(target=work) for _ in range(8)]
        for thread in threads:
            thread.start()
        for thread in threads:
            thread.join()
        self.assertEqual(found, [right] * 8)
        self.assertEqual(shared.digest(),
                         nattizhu.ripemd160(b"x" * 777 * 1600).digest())


class Interruptions(unittest.TestCase):
    """Signal handlers, finalizers and other threads that call a hasher or
    an HMAC while it is updated. Where one waits for ever, the process ends
    after a minute."""

    PIECE = b"x" * 77
    MAKERS = (nattizhu.ripemd160,
              functools.partial(nattizhu.hmac_new, b"key", name="ripemd160"))

    def setUp(self):
        faulthandler.dump_traceback_later(60, exit=True)
        self.addCleanup(faulthandler.cancel_dump_traceback_later)

    def on_signal(self, call, first=0.001, then=0.001):
        """Has signals make this call, after so many seconds and then each
        time that many have passed."""
        before = signal.signal(signal.SIGALRM, lambda *_: call())
        self.addCleanup(signal.signal, signal.SIGALRM, before)
        self.addCleanup(signal.setitimer, signal.ITIMER_REAL, 0)
        signal.setitimer(signal.ITIMER_REAL, first, then)

    def prefixes(self, make, number):
        """The digests, or tags, of none up to this number of pieces."""
        state = make()
        digests = [state.digest()]
        for _ in range(number):
            state.update(self.PIECE)
            digests.append(state.digest())
        return digests

    def test_a_long_update(self):
        for make in self.MAKERS:
            state, seen = make(), []
            before = state.hexdigest()
            self.on_signal(lambda: seen.append(state.hexdigest()), 0.02, 0)
            state.update(bytes(50_000_000))
            while not seen:
                pass
            self.assertIn(seen[0], (before, state.hexdigest()))

    def test_a_handler_that_reads(self):
        for make in self.MAKERS:
            state, seen, updates = make(), [], 0
            self.on_signal(lambda: seen.append(state.digest()))
            while len(seen) < 200:
                state.update(self.PIECE)
                updates += 1
            signal.setitimer(signal.ITIMER_REAL, 0)
            right = self.prefixes(make, updates)
            self.assertEqual(state.digest(), right[-1])
            self.assertLessEqual(set(seen), set(right))

    def test_a_handler_that_updates(self):
        for make in self.MAKERS:
            state, copies, updates = make(), [], 0

            def handler():
                state.update(self.PIECE)
                copies.append(state.copy().digest())
                copies.append(pickle.loads(pickle.dumps(state)).digest())

            self.on_signal(handler)
            while len(copies) < 400:
                state.update(self.PIECE)
                updates += 1
            signal.setitimer(signal.ITIMER_REAL, 0)
            right = self.prefixes(make, updates + len(copies) // 2)
            self.assertEqual(state.digest(), right[-1])
            self.assertLessEqual(set(copies), set(right))

    def test_a_finalizer(self):
        self.addCleanup(sys.setprofile, None)
        for make in self.MAKERS:
            state, finalized = make(), []

            class Cycle:
                def __init__(self):
                    self.itself = self

                def __del__(_):
                    state.update(self.PIECE)
                    finalized.append(state.digest())

            def collect(*_):
                Cycle()
                gc.collect(0)

            # The collector runs at each call, those within an update too.
            sys.setprofile(collect)
            for _ in range(100):
                state.update(self.PIECE)
            sys.setprofile(None)
            right = self.prefixes(make, 100 + len(finalized))
            self.assertGreater(len(finalized), 100)
            self.assertEqual(state.digest(), right[-1])
            self.assertLessEqual(set(finalized), set(right))

    def test_threads(self):
        for make in self.MAKERS:
            state, handled = make(), []

            def work():
                for _ in range(20_000):
                    state.update(self.PIECE)

            def handler():
                state.update(self.PIECE)
                handled.append(state.digest())

            threads = [threading.Thread(target=work) for _ in range(4)]
            self.on_signal(handler)
            for thread in threads:
                thread.start()
            work()
            for thread in threads:
                thread.join()
            signal.setitimer(signal.ITIMER_REAL, 0)
            self.assertTrue(handled)
            pieces = 5 * 20_000 + len(handled)
            self.assertEqual(state.digest(),
                             make(self.PIECE * pieces).digest())

    def test_two_threads(self):
        """Of them both update one state, by pieces on which the
        interpreter's lock is kept, and by others on which it is not."""
        for make in self.MAKERS:
            state = make()

            def work():
                for _ in range(300):
                    state.update(bytes(2047))
                    state.update(bytes(5000))
                    state.digest()

            threads = [threading.Thread(target=work) for _ in range(2)]
            for thread in threads:
                thread.start()
            for thread in threads:
                thread.join()
            self.assertEqual(state.digest(),
                             make(bytes(2 * 300 * 7047)).digest())


class Buffers(unittest.TestCase):
    def test_kinds(self):
        message = bytes(range(240))
        right = nattizhu.ripemd160(message).digest()
        with mmap.mmap(-1, len(message)) as mapped:
            mapped[:] = message
            for data in (message, bytearray(message), memoryview(message),
                         memoryview(bytearray(message)).toreadonly(),
                         memoryview(b"." + message + b".")[1:-1],
                         array.array("B", message),
                         array.array("Q", message),
                         memoryview(message).cast("I", (6, 10)), mapped):
                hasher = nattizhu.ripemd160()
                hasher.update(data)
                self.assertEqual(hasher.digest(), right)
                self.assertEqual(nattizhu.hmac_digest(data, data, "ripemd160"),
                                 nattizhu.hmac_digest(message, message,
                                                      "ripemd160"))
                self.assertEqual(nattizhu.digest_each("ripemd160", data, 240),
                                 [right])
                self.assertEqual(
                    nattizhu.digest_list("ripemd160", [b"", data])[1], right)

    def test_empty(self):
        for data in (b"", bytearray(), memoryview(b""), array.array("Q"),
                     memoryview(b"x")[:0]):
            self.assertEqual(nattizhu.ripemd160(data).hexdigest(),
                             PUBLISHED["ripemd160"][0])
            self.assertEqual(nattizhu.digest_each("ripemd160", data, 8), [])
            self.assertEqual(
                nattizhu.digest_list("ripemd160", [data])[0].hex(),
                PUBLISHED["ripemd160"][0])
            self.assertEqual(
                nattizhu.hmac_digest_list(data, [data], "ripemd160"),
                [hmac.digest(b"", b"", nattizhu.ripemd160)])
            tag = nattizhu.hmac_new(data, data, "ripemd160")
            self.assertFalse(tag.verify(data))
            self.assertEqual(tag.digest(),
                             hmac.digest(b"", b"", nattizhu.ripemd160))

    def test_released(self):
        data = bytearray(b"abc")
        hasher = nattizhu.ripemd160(data)
        data.extend(b"d")  # refused while a buffer of it is held
        with self.assertRaises(ValueError):
            nattizhu.digest_each("ripemd160", data, 3)
        with self.assertRaises(ValueError):
            nattizhu.hmac_digest_each(data, data, 3, "ripemd160")
        data.extend(b"e")
        with self.assertRaises(ValueError):
            nattizhu.from_state("ripemd160", data)
        data.extend(b"f")
        self.assertEqual(hasher.hexdigest(), PUBLISHED["ripemd160"][1])

    def test_held_meanwhile(self):
        """An object keeps its bytes while they are hashed."""
        for make in Interruptions.MAKERS:
            message, state = bytearray(20_000_000), make()
            longer = make(message)
            possible = {longer.digest()}
            thread = threading.Thread(target=state.update, args=(message,))
            thread.start()
            refused = 0
            while thread.is_alive():
                try:
                    message.extend(b"x")
                except BufferError:
                    refused += 1
                else:  # the call has not begun, or has ended
                    longer.update(b"x")
                    possible.add(longer.digest())
            thread.join()
            self.assertGreater(refused, 0)
            self.assertIn(state.digest(), possible)

    def test_errors_are_those_of_hashlib(self):
        for data in ("text", 3, None, [1], object(),
                     memoryview(b"abcdef")[::2]):
            with self.assertRaises(Exception) as theirs:
                hashlib.sha256(data)
            for call in (nattizhu.ripemd160, nattizhu.ripemd160().update,
                         functools.partial(nattizhu.new, "ripemd160"),
                         lambda data: nattizhu.digest_list(
                             "ripemd160", [b"", data]),
                         lambda data: nattizhu.hmac_digest_list(
                             b"key", [b"", data], "ripemd160")):
                with self.assertRaises(type(theirs.exception)) as ours:
                    call(data)
                self.assertEqual(str(ours.exception), str(theirs.exception))
            for call in (lambda: nattizhu.hmac_new(data, b"", "ripemd160"),
                         lambda: nattizhu.hmac_digest(b"", data, "ripemd160"),
                         lambda: nattizhu.digest_each("ripemd160", data, 1),
                         lambda: nattizhu.hmac_digest_each(
                             b"", data, 1, "ripemd160"),
                         lambda: nattizhu.hmac_digest_each(
                             data, b"", 1, "ripemd160"),
                         lambda: nattizhu.hmac_verify(
                             b"", b"", "ripemd160", data),
                         lambda: nattizhu.from_state("ripemd160", data),
                         lambda: nattizhu.hmac_new(
                             b"", None, "ripemd160").verify(data)):
                with self.assertRaises(type(theirs.exception)):
                    call()


class Errors(unittest.TestCase):
    def test_upper_case(self):
        self.assertEqual(nattizhu.new("RIPEMD160").name, "ripemd160")

    def test_names(self):
        for name in ("", "ripe", "ripemd161", "sha256", "1.3.36.3.2.4"):
            for call in (nattizhu.new,
                         lambda name: nattizhu.from_state(name, bytes(92)),
                         lambda name: nattizhu.digest_each(name, b"", 1),
                         lambda name: nattizhu.digest_list(name, [b""]),
                         lambda name: nattizhu.hmac_digest_list(
                             b"", [b""], name),
                         lambda name: nattizhu.hmac_new(
                             b"", b"", name or "md5"),
                         lambda name: nattizhu.hmac_digest(b"", b"", name),
                         lambda name: nattizhu.hmac_digest_each(
                             b"", b"", 1, name),
                         lambda name: nattizhu.hmac_verify(
                             b"", b"", name, b"")):
                with self.assertRaises(ValueError):
                    call(name)
        for name in (None, 160, b"ripemd160"):
            with self.assertRaises(TypeError):
                nattizhu.new(name)

    def test_other_constructors(self):
        """The error says what to give."""
        for what, call in (
                ("digestmod", lambda x: nattizhu.hmac_new(b"", b"", x)),
                ("digest", lambda x: nattizhu.hmac_digest(b"", b"", x)),
                ("name", lambda x: nattizhu.digest_list(x, [])),
                ("hash_name", lambda x: nattizhu.pbkdf2_hmac(x, b"", b"", 1))):
            for wrong in (hashlib.sha256, nattizhu.new, b"ripemd160"):
                with self.assertRaises(TypeError) as caught:
                    call(wrong)
                self.assertEqual(
                    str(caught.exception),
                    f"{what} must be a string such as 'ripemd160' or a "
                    f"constructor such as nattizhu.ripemd160, not {wrong!r}")

    def test_no_digestmod(self):
        """The error is that of the standard hmac."""
        class Failing:
            def __bool__(self):
                raise LookupError

        for arguments in ((), (b"text",), (None, None), (None, ""),
                          (b"text", 0)):
            with self.assertRaises(TypeError) as theirs:
                hmac.new(b"key", *arguments)
            with self.assertRaises(TypeError) as ours:
                nattizhu.hmac_new(b"key", *arguments)
            self.assertEqual(str(ours.exception), str(theirs.exception))
        for call in (hmac.new, nattizhu.hmac_new):
            with self.assertRaises(LookupError):
                call(b"key", b"text", Failing())

    def test_update_by_name(self):
        """An HMAC's takes msg, as that of the standard hmac; a hasher's, as
        that of hashlib, takes no name."""
        for tag in (hmac.new(b"key", digestmod=nattizhu.ripemd160),
                    nattizhu.hmac_new(b"key", digestmod="ripemd160")):
            tag.update(msg=b"text")
            self.assertEqual(tag.digest(), nattizhu.hmac_digest(
                b"key", b"text", "ripemd160"))
            for arguments, named in (((), {}), ((b"",), {"msg": b""}),
                                     ((b"", b""), {}), ((), {"data": b""}),
                                     ((), {"msg": "text"})):
                with self.assertRaises(TypeError):
                    tag.update(*arguments, **named)
        for hasher in (hashlib.sha256(), nattizhu.ripemd160()):
            for named in ({}, {"data": b""}, {"msg": b""}, {"obj": b""}):
                with self.assertRaises(TypeError):
                    hasher.update(**named)

    def test_records(self):
        for size in (0, -1, 4, 2**64 + 3, 2**70):
            with self.assertRaises(ValueError):
                nattizhu.digest_each("ripemd160", b"abcdef", size)
            with self.assertRaises(ValueError):
                nattizhu.hmac_digest_each(b"key", b"abcdef", size, "ripemd160")
        with self.assertRaises(TypeError):
            nattizhu.digest_each("ripemd160", b"abcdef", 2.0)
        self.assertEqual(nattizhu.digest_each("ripemd160", b"", 2**70), [])

    def test_lists(self):
        for messages in (None, 3):
            with self.assertRaises(TypeError):
                nattizhu.digest_list("ripemd160", messages)
            with self.assertRaises(TypeError):
                nattizhu.hmac_digest_list(b"key", messages, "ripemd160")

        for message in (b"abc", b"", bytearray(b"abc"), "abc", ""):
            for call in (lambda: nattizhu.digest_list("ripemd160", message),
                         lambda: nattizhu.hmac_digest_list(
                             b"key", message, "ripemd160")):
                with self.assertRaises(TypeError) as caught:
                    call()
                self.assertIn("as [b'abc', b'']", str(caught.exception))

        def failing():
            yield b"abc"
            raise LookupError

        with self.assertRaises(LookupError):
            nattizhu.digest_list("ripemd160", failing())

    def test_made_by_functions(self):
        for kind in (nattizhu.Hasher, nattizhu.Hmac):
            with self.assertRaises(TypeError):
                kind("ripemd160")

    def test_nothing_else_makes_or_extends_them(self):
        for kind in (nattizhu.Hasher, nattizhu.Hmac):
            for make in (object.__new__, lambda kind: kind(),
                         lambda kind: kind.__new__(kind),
                         lambda kind: type("Mine", (kind,), {})):
                with self.assertRaises((TypeError, AttributeError)):
                    make(kind)
            with self.assertRaises(TypeError):
                kind.digest = None
            with self.assertRaises(TypeError):
                kind.update(3, b"")
        made = nattizhu.ripemd160()
        with self.assertRaises(TypeError):
            nattizhu.Hmac.digest(made)
        with self.assertRaises(TypeError):
            made.__class__ = nattizhu.Hmac
        with self.assertRaises(AttributeError):
            made.other = None
        made.__init__()
        self.assertEqual(made.hexdigest(), PUBLISHED["ripemd160"][0])

    def test_arguments(self):
        for call, error in (
                (lambda: nattizhu.ripemd160(b"", b""), "at most 1"),
                (lambda: nattizhu.ripemd160(b"", data=b""), "multiple values"),
                (lambda: nattizhu.ripemd160(text=b""), "'text'"),
                (lambda: nattizhu.new(), "'name'"),
                (lambda: nattizhu.new("ripemd160", b"", True), "at most 2"),
                (lambda: nattizhu.from_state("ripemd160"), "'state'"),
                (lambda: nattizhu.hmac_digest(b"", b""), "'digest'"),
                (lambda: nattizhu.hmac_digest(
                    b"", b"", "ripemd160", digest="ripemd160"), "multiple"),
                (lambda: nattizhu.hmac_new(msg=b"", digestmod="ripemd160"),
                 "'key'")):
            with self.assertRaises(TypeError) as caught:
                call()
            self.assertIn(error, str(caught.exception))

    def test_what_is_wrong_is_named(self):
        tag = nattizhu.hmac_new(b"", b"", "ripemd160")
        for what, call in (
                ("key", lambda x: nattizhu.hmac_new(x, b"", "ripemd160")),
                ("key", lambda x: nattizhu.hmac_digest(x, b"", "ripemd160")),
                ("key", lambda x: nattizhu.hmac_digest_list(
                    x, [], "ripemd160")),
                ("tag", tag.verify),
                ("tag", lambda x: nattizhu.hmac_verify(
                    b"", b"", "ripemd160", x)),
                ("state", lambda x: nattizhu.from_state("ripemd160", x)),
                ("state", lambda x: nattizhu.hmac_from_state("ripemd160", x)),
                ("password", lambda x: nattizhu.pbkdf2_hmac(
                    "ripemd160", x, b"", 1)),
                ("salt", lambda x: nattizhu.pbkdf2_hmac(
                    "ripemd160", b"", x, 1))):
            for wrong in ("text", 3, None):
                with self.assertRaises(TypeError) as caught:
                    call(wrong)
                self.assertEqual(
                    str(caught.exception),
                    f"{what} must be a bytes-like object, not "
                    f"{type(wrong).__name__}")


class Names(unittest.TestCase):
    def test_spellings(self):
        for bits in ("128", "160", "256", "320"):
            for name in (f"ripemd{bits}", f"ripemd-{bits}", f"rmd{bits}",
                         f"RIPEMD-{bits}", f"RmD{bits}"):
                self.assertEqual(nattizhu.new(name).name, f"ripemd{bits}")
                self.assertEqual(nattizhu.hmac_new(b"", digestmod=name).name,
                                 f"hmac-ripemd{bits}")
        for name, bits in (("ripemd", "160"), ("RIPEMD", "160"),
                           ("1.3.36.3.2.1", "160"), ("1.3.36.3.2.2", "128"),
                           ("1.3.36.3.2.3", "256")):
            self.assertEqual(nattizhu.new(name).name, f"ripemd{bits}")
        for name in ("ripemd16\u0660", "r" * 1000):
            with self.assertRaises(ValueError):
                nattizhu.new(name)
        for name in ("ripemd160\0", "\ud800"):
            with self.assertRaises(TypeError):
                nattizhu.new(name)

    def test_constructors(self):
        for name, constructor in CONSTRUCTORS.items():
            tag = nattizhu.hmac_digest(b"key", b"text", name)
            self.assertEqual(
                nattizhu.hmac_digest(b"key", b"text", constructor), tag)
            self.assertEqual(
                nattizhu.hmac_digest(key=b"key", msg=b"text",
                                     digest=constructor), tag)
            self.assertEqual(
                nattizhu.hmac_new(b"key", b"text",
                                  digestmod=constructor).digest(), tag)
        for wrong in (hashlib.sha256, len, nattizhu.new, lambda: None):
            with self.assertRaises(TypeError):
                nattizhu.hmac_digest(b"", b"", wrong)


class Interpreters(unittest.TestCase):
    def test_another_one(self):
        """Another interpreter of this process: from CPython 3.12 on, with a
        lock of its own."""
        try:
            import _interpreters as interpreters
        except ImportError:
            try:
                import _xxsubinterpreters as interpreters
            except ImportError:
                self.skipTest("this Python makes no other interpreter")
        program = (f"import sys\nsys.path = {sys.path!r}\n"
                   "import nattizhu\n"
                   "assert nattizhu.ripemd160(b'abc').hexdigest() == "
                   f"{PUBLISHED['ripemd160'][1]!r}")
        for _ in range(2):
            other = interpreters.create()
            self.assertIsNone(interpreters.run_string(other, program))
            interpreters.destroy(other)
        self.assertEqual(nattizhu.ripemd160(b"abc").hexdigest(),
                         PUBLISHED["ripemd160"][1])


class Leaks(unittest.TestCase):
    """What is allocated before and after many calls, and who holds what."""

    def test_blocks(self):
        data, state = bytearray(40), nattizhu.ripemd160().state()
        tag = nattizhu.hmac_new(b"key", None, "ripemd160")
        hasher = nattizhu.ripemd160()
        whole = bytes(3000)

        def failing():
            yield data
            raise LookupError

        calls = [
            lambda: nattizhu.ripemd160(data), lambda: nattizhu.ripemd160("x"),
            lambda: nattizhu.new("ripemd160", data, usedforsecurity=False),
            lambda: nattizhu.new("sha1"), lambda: nattizhu.new(3),
            lambda: nattizhu.new("ripemd160", memoryview(data)[::2]),
            lambda: nattizhu.ripemd160(whole).update(whole),
            hasher.digest, hasher.hexdigest, hasher.copy, hasher.state,
            hasher.__reduce__, lambda: hasher.update(data),
            lambda: hasher.update(None), lambda: repr(hasher),
            lambda: hasher.name, lambda: hasher.digest_size,
            lambda: hasher.block_size,
            lambda: nattizhu.from_state("ripemd160", state),
            lambda: nattizhu.from_state("ripemd160", data),
            lambda: nattizhu.from_state("ripemd160", b"\xff" * 92),
            lambda: nattizhu.from_state("ripemd160", None),
            lambda: nattizhu.digest_each("ripemd160", data, 8),
            lambda: nattizhu.digest_each("ripemd160", data, 7),
            lambda: nattizhu.digest_each("ripemd160", None, 7),
            lambda: nattizhu.digest_each("ripemd160", data, None),
            lambda: nattizhu.digest_list("ripemd160", [data, b"x"]),
            lambda: nattizhu.digest_list("ripemd160", [data, 3]),
            lambda: nattizhu.digest_list("ripemd160", failing()),
            lambda: nattizhu.digest_list("ripemd160", 3),
            lambda: nattizhu.hmac_new(data, data, "ripemd160"),
            lambda: nattizhu.hmac_new(data, 3, "ripemd160"),
            lambda: nattizhu.hmac_new(3, data, "ripemd160"),
            lambda: nattizhu.hmac_new(data), lambda: tag.update(msg=data),
            lambda: tag.update(message=data),
            lambda: nattizhu.hmac_digest(data, data, "ripemd160"),
            lambda: nattizhu.hmac_digest(data, 3, "ripemd160"),
            lambda: nattizhu.hmac_verify(data, data, "ripemd160", data),
            lambda: nattizhu.hmac_verify(data, data, "ripemd160", 3),
            lambda: nattizhu.hmac_digest_each(data, data, 8, "ripemd160"),
            lambda: nattizhu.hmac_digest_each(data, 3, 8, "ripemd160"),
            lambda: nattizhu.hmac_digest_list(data, [data], "ripemd160"),
            lambda: nattizhu.hmac_digest_list(data, [3], "ripemd160"),
            lambda: nattizhu.hmac_from_state("ripemd160", tag.state()),
            lambda: nattizhu.hmac_from_state("ripemd160", data),
            lambda: tag.verify(data), lambda: tag.verify(3), tag.copy,
            tag.__reduce__,
            lambda: nattizhu.pbkdf2_hmac("ripemd160", data, data, 1),
            lambda: nattizhu.pbkdf2_hmac("ripemd160", data, data, 0),
            lambda: nattizhu.pbkdf2_hmac("ripemd160", data, 3, 1),
            lambda: nattizhu.pbkdf2_hmac("ripemd160", 3, data, 1),
        ]

        def many(call, times):
            for _ in range(times):
                try:
                    call()
                except (TypeError, ValueError, LookupError, BufferError):
                    pass

        for call in calls:
            many(call, 100)
        for call in calls:
            gc.collect()
            before = sys.getallocatedblocks()
            holders = sys.getrefcount(data), sys.getrefcount(state)
            many(call, 100_000)
            gc.collect()
            self.assertLess(sys.getallocatedblocks() - before, 200)
            self.assertEqual(
                holders, (sys.getrefcount(data), sys.getrefcount(state)))
        data.extend(b"x")  # refused while a buffer of it is held


class States(unittest.TestCase):
    def test_sizes(self):
        for name, size in zip(NAMES, (88, 92, 104, 112)):
            self.assertEqual(len(nattizhu.new(name).state()), size)
            self.assertEqual(
                len(nattizhu.hmac_new(b"", b"", name).state()), 2 * size)

    def test_forged(self):
        for name in NAMES:
            state = nattizhu.new(name, b"abc").state()
            tag = nattizhu.hmac_new(b"key", b"abc", name).state()
            past_the_end = state[:-1] + b"\xff"
            not_zero = state[:-2] + b"\x01" + state[-1:]
            for forged in (b"", state[:-1], state + b"\0", tag,
                           b"\xff" * len(state), past_the_end, not_zero):
                with self.assertRaises(ValueError):
                    nattizhu.from_state(name, forged)
            for forged in (b"", tag[:-1], state, b"\xff" * len(tag),
                           tag[:-1] + b"\xff", past_the_end + state,
                           state + not_zero):
                with self.assertRaises(ValueError):
                    nattizhu.hmac_from_state(name, forged)

    def test_not_zero_behind_a_tail(self):
        for name, size in zip(NAMES, (88, 92, 104, 112)):
            for kind, load, saved, places in (
                    ("Hasher", nattizhu.from_state,
                     nattizhu.new(name, b"abc").state(),
                     (size - 60, size - 1)),
                    ("Hmac", nattizhu.hmac_from_state,
                     nattizhu.hmac_new(b"key", b"abc", name).state(),
                     (size - 60, size - 1, 2 * size - 63, 2 * size - 1))):
                self.assertEqual(load(name, saved).state(), saved)
                for place in places:
                    forged = bytearray(saved)
                    forged[place] = 1
                    with self.assertRaisesRegex(ValueError, (
                            f"^no {kind} of {name} is saved as these bytes$")):
                        load(name, forged)

    def test_shorter_tail(self):
        """Zeros are saved behind it, whatever was there."""
        for name, size in zip(NAMES, (88, 92, 104, 112)):
            for made in (nattizhu.new(name),
                         nattizhu.hmac_new(b"key", digestmod=name)):
                # Tails of 63, 62 and 2 bytes.
                for piece in (b"\xff" * 63, b"\xff" * 63, b"abcd"):
                    made.update(piece)
                saved = made.state()
                self.assertEqual(saved[size - 64:size], b"\2cd" + bytes(61))
                self.assertFalse(any(saved[size:][-64:]))

    def test_from_outside(self):
        # After "Hi " under 20 bytes 0x0b: OpenSSL's words after each masked
        # key, one block, and the tail. The tag is that of RFC 2286.
        inner = bytes.fromhex("b31c08e6adb5b8f2c4215470fdaf49b04ee8f016"
                              "0100000000000000" "03486920") + bytes(60)
        outer = bytes.fromhex("7c36c7b97037e8e862566eddbc10dfd80504f999"
                              "0100000000000000") + bytes(64)
        tag = nattizhu.hmac_from_state("ripemd160", inner + outer)
        tag.update(b"There")
        self.assertEqual(tag.hexdigest(),
                         "24cb4bd67d20fc1a5d2ed7732dcc39377f0a5668")

    def test_another_process(self):
        program = ("import pickle, sys; x = pickle.load(sys.stdin.buffer); "
                   "x.update(b'c'); pickle.dump(x, sys.stdout.buffer)")
        for name in NAMES:
            for made, whole in (
                    (nattizhu.new(name, b"ab"), nattizhu.new(name, b"abc")),
                    (nattizhu.hmac_new(b"key", b"ab", name),
                     nattizhu.hmac_new(b"key", b"abc", name))):
                done = subprocess.run(
                    [sys.executable, "-c", program], env=ENVIRONMENT,
                    input=pickle.dumps(made), stdout=subprocess.PIPE,
                    check=True)
                came = pickle.loads(done.stdout)
                self.assertEqual(came.name, made.name)
                self.assertEqual(came.digest(), whole.digest())
                self.assertEqual(came.state(), whole.state())

    def test_nothing_is_left(self):
        """Of a hasher or an HMAC, in the memory that it had, by an allocator
        that leaves there what is freed."""
        code = """if True:
            import copy, ctypes, nattizhu, pickle, sys
            for made in (nattizhu.ripemd320(bytes(70)),
                         nattizhu.hmac_new(b"key", bytes(70), "ripemd320")):
                for duplicate in (lambda x: x.copy(), copy.copy,
                                  lambda x: pickle.loads(pickle.dumps(x))):
                    one = duplicate(made)
                    at, size, words = id(one), sys.getsizeof(one), one.state()
                    assert words[8:40] in ctypes.string_at(at, size)
                    del one
                    assert words[8:40] not in ctypes.string_at(at, size)
        """
        subprocess.run([sys.executable, "-c", code], check=True,
                       env={**ENVIRONMENT, "PYTHONMALLOC": "pymalloc"})

    def test_pickles_name_the_package(self):
        """And not the module within it, so that others can take its place."""
        for made in (nattizhu.ripemd160(),
                     nattizhu.hmac_new(b"", digestmod="ripemd160")):
            saved = pickle.dumps(made, 0)
            self.assertTrue(saved.startswith(b"cnattizhu\n"), saved)


class Tags(unittest.TestCase):
    def test_published(self):
        for variant, key, text, tag in RFC_2286:
            given = (bytes.fromhex(key), bytes.fromhex(text), "rmd" + variant)
            self.assertEqual(nattizhu.hmac_digest(*given).hex(), tag)
            self.assertEqual(nattizhu.hmac_new(*given).hexdigest(), tag)
        self.assertEqual(len(RFC_2286), 14)

    def test_digestmod_of_the_standard_hmac(self):
        source = random.Random(5)
        for name in NAMES:
            for length in (0, 1, 16, 63, 64, 65, 80, 200):
                key = source.randbytes(length)
                text = source.randbytes(source.randrange(300))
                ours = nattizhu.hmac_new(key, name=name)
                for piece in pieces_of(source, text):
                    ours.update(piece)
                for constructor in (CONSTRUCTORS[name],
                                    functools.partial(nattizhu.new, name)):
                    theirs = hmac.new(key, text, constructor)
                    self.assertEqual(ours.digest(), theirs.digest())
                    self.assertEqual(ours.digest(),
                                     hmac.digest(key, text, constructor))
                    self.assertEqual(theirs.copy().hexdigest(),
                                     ours.copy().hexdigest())
                    self.assertEqual(
                        (ours.name, ours.digest_size, ours.block_size),
                        (theirs.name, theirs.digest_size, theirs.block_size))

    def test_verify(self):
        for name in NAMES:
            tag = nattizhu.hmac_new(b"key", b"text", name)
            right = tag.digest()
            self.assertIs(tag.verify(right), True)
            self.assertTrue(tag.verify(bytearray(right)))
            for at in range(len(right)):
                wrong = bytearray(right)
                wrong[at] ^= 1
                self.assertIs(tag.verify(wrong), False)
                self.assertFalse(tag.verify(right[:at]))
            self.assertFalse(tag.verify(right + b"\0"))
            tag.update(b"more")
            self.assertFalse(tag.verify(right))

    def test_verify_a_text(self):
        for name in NAMES:
            for length in (0, 20, 64, 65, 200):
                key = bytes(range(length))
                right = hmac.digest(key, b"text", CONSTRUCTORS[name])
                self.assertIs(
                    nattizhu.hmac_verify(key, b"text", name, right), True)
                for at in range(len(right)):
                    wrong = bytearray(right)
                    wrong[at] ^= 1
                    self.assertIs(
                        nattizhu.hmac_verify(key, b"text", name, wrong), False)
                    self.assertFalse(nattizhu.hmac_verify(
                        key, b"text", name, right[:at]))
                self.assertFalse(
                    nattizhu.hmac_verify(key, b"text", name, right + b"\0"))
                self.assertFalse(
                    nattizhu.hmac_verify(key, b"texts", name, right))
                self.assertFalse(
                    nattizhu.hmac_verify(key + b"x", b"text", name, right))

    def test_each(self):
        source = random.Random(7)
        for name in NAMES:
            for length in (0, 20, 64, 65, 200):
                key = source.randbytes(length)
                for size, count in ((1, 300), (33, 0), (64, 1), (65, 9),
                                    (1000, 129)):
                    records = source.randbytes(size * count)
                    self.assertEqual(
                        nattizhu.hmac_digest_each(key, records, size, name),
                        [hmac.digest(key, records[at:at + size],
                                     CONSTRUCTORS[name])
                         for at in range(0, len(records), size)])

    def test_list(self):
        source = random.Random(8)
        for name in NAMES:
            for length in (0, 20, 64, 65, 200):
                key = source.randbytes(length)
                for count in (0, 1, 9, 130, 1025):
                    texts = [source.randbytes(i * 7 % 140)
                             for i in range(count)]
                    self.assertEqual(
                        nattizhu.hmac_digest_list(key, texts, name),
                        [hmac.digest(key, text, CONSTRUCTORS[name])
                         for text in texts])

    def test_copies(self):
        keyed = nattizhu.hmac_new(b"key", None, "ripemd160")
        for duplicate in (lambda x: x.copy(), copy.copy, copy.deepcopy,
                          lambda x: pickle.loads(pickle.dumps(x)),
                          lambda x: nattizhu.hmac_from_state("ripemd160",
                                                             x.state())):
            tag = duplicate(keyed)
            tag.update(b"text")
            self.assertTrue(tag.verify(
                nattizhu.hmac_digest(b"key", b"text", "ripemd160")))


class Keys(unittest.TestCase):
    def test_as_hashlib(self):
        try:
            hashlib.new("ripemd160")
        except ValueError:
            self.skipTest("hashlib has no ripemd160 here")
        draw = random.Random(7)
        for iterations in (1, 2, 3, 100):
            for dklen in (None, 1, 19, 20, 21, 64, 192):
                password = draw.randbytes(draw.choice((0, 8, 64, 65, 200)))
                salt = draw.randbytes(draw.choice((0, 8, 64)))
                arguments = "ripemd160", password, salt, iterations, dklen
                self.assertEqual(nattizhu.pbkdf2_hmac(*arguments),
                                 hashlib.pbkdf2_hmac(*arguments))

    def test_other_implementations(self):
        """The first of each variant in tests/data/keys.txt."""
        wanted = {
            "ripemd128":
                "756433ef95e294e6cbadabc3e806b755efe460c8400a31cc4f5f2d23"
                "37ba651cc7a2653769cfdc01b288c9e76e8fba4aa3d0e5d395c9ee",
            "ripemd160":
                "95948057310ca113412571efb203bbeedcc2555d24d45a8c3cd021a6"
                "f714a324fcfa312ef638b48ac59b1e5a0becf09f5191a002478e944b"
                "c587eb85313e628d26cca0",
            "ripemd256":
                "502a57f5ac0d9e9446c9b458335e114bab57d6e2c74f545c8bddb7e9"
                "6b4d6c6d772eff31291b31a953748d87abf2c49626552dae3a53cb80"
                "cf4fce577b4df87e856cc370865b8228cd5fce2af02ff71f28bb11a2"
                "5ec968863b7e0e27ca9efdca7551c7451a389f",
            "ripemd320":
                "9dc5a9d5e7ff46f27008f03bf5c750a4cfb345455df03cc0ea7d19d0"
                "376bd99f817af1f92e27863780a8da8aa5ccbd5751973eb4bd91c5d5"
                "3d3fdb08bb9c730398622602e15843811faa7a685210ab659006de31"
                "1224f699dd3cfec2fe2cd3984f66f1cb9a2c52be9672f7b84817d152"
                "ff7b12c3a5cab6091d78e5322098d1",
        }
        for name, key in wanted.items():
            key = bytes.fromhex(key)
            self.assertEqual(nattizhu.pbkdf2_hmac(
                name, bytearray(range(1, 9)), memoryview(bytes(range(8))),
                iterations=3, dklen=len(key)), key)
            self.assertEqual(nattizhu.pbkdf2_hmac(
                hash_name=name.upper(), password=bytes(range(1, 9)),
                salt=bytes(range(8)), iterations=3),
                key[:nattizhu.new(name).digest_size])

    def test_errors_are_those_of_hashlib(self):
        names = {hashlib: "sha256", nattizhu: "ripemd256"}

        def both(error, *arguments):
            for module, name in names.items():
                with self.subTest(module=module, arguments=arguments):
                    with self.assertRaises(error) as caught:
                        module.pbkdf2_hmac(name, *arguments)
            return str(caught.exception)

        for module in names:
            for wrong in (None, 160, b"ripemd256"):
                self.assertRaises(
                    TypeError, module.pbkdf2_hmac, wrong, b"", b"", 1)
            self.assertRaises(
                ValueError, module.pbkdf2_hmac, "ripemd161", b"", b"", 1)
        for wrong in ("text", None, 1, [1]):
            both(TypeError, wrong, b"", 1)
            both(TypeError, b"", wrong, 1)
        for wrong in (1.0, "1", b"1"):
            both(TypeError, b"", b"", wrong)
            both(TypeError, b"", b"", 1, wrong)
        both(TypeError, b"", b"", None)
        both(TypeError, b"", b"")
        both(TypeError, b"", b"", 1, 1, 1)
        for wrong in (0, -1, -2**31):
            self.assertEqual(both(ValueError, b"", b"", wrong),
                             "iteration value must be greater than 0.")
            self.assertEqual(both(ValueError, b"", b"", 1, wrong),
                             "key length must be greater than 0.")
        for wrong in (2**31, 2**32, 2**32 + 1, 2**64 + 1):
            both(OverflowError, b"", b"", wrong)
            both(OverflowError, b"", b"", 1, wrong)

    def test_other_threads_run(self):
        """The interpreter's lock is free while a key is derived."""
        done = threading.Event()

        def derive():
            nattizhu.pbkdf2_hmac("ripemd160", b"password", b"salt", 300000)
            done.set()

        thread = threading.Thread(target=derive)
        thread.start()
        turns = 0
        while not done.is_set():
            turns += 1
            done.wait(0.001)
        thread.join()
        self.assertGreater(turns, 2)


class Files(unittest.TestCase):
    def test_files(self):
        message = random.Random(6).randbytes(600000)
        right = nattizhu.ripemd160(message).digest()
        with tempfile.TemporaryFile() as file:
            file.write(message)
            for digestmod in ("ripemd160", nattizhu.ripemd160):
                file.seek(0)
                self.assertEqual(
                    nattizhu.file_digest(file, digestmod).digest(), right)
        memory = io.BytesIO(message)
        self.assertEqual(nattizhu.file_digest(memory, "ripemd160").digest(),
                         right)
        memory.write(b"more" * 200000)  # refused while a buffer is held

    def test_not_binary(self):
        with self.assertRaises(ValueError):
            nattizhu.file_digest(io.StringIO("text"), "ripemd160")
        with tempfile.NamedTemporaryFile() as file:
            with open(file.name, encoding="ascii") as text:
                with self.assertRaises(ValueError):
                    nattizhu.file_digest(text, "ripemd160")
            with open(file.name, "wb", buffering=0) as unreadable:
                with self.assertRaises(ValueError):
                    nattizhu.file_digest(unreadable, "ripemd160")
            with open(file.name, "rb") as readable:
                with self.assertRaises(ValueError):
                    nattizhu.file_digest(readable, "sha256")

    def test_blocking(self):
        first, second = socket.socketpair()
        with first, second:
            second.sendall(b"abc")
            first.setblocking(False)
            with first.makefile("rb", buffering=0) as file:
                with self.assertRaises(BlockingIOError):
                    nattizhu.file_digest(file, "ripemd160")


if __name__ == "__main__":
    unittest.main()
