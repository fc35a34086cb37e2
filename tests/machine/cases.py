"""Calls of the functions of nattizhu.h on terms, one for each size, with what each has to write, answer and clear.

A case is a function of a caller, a variant and the bytes of its digests. Messages, keys, passwords, salts, tags and
chaining values are any; lengths, counts, rounds and what a state says of its tail are known.
"""
import contextlib
from functools import partial
from itertools import product

from machine import Wrong, halves
from terms import bytes_of, forget, inputs, sources, words_of, xor, zero
from textbook import keyed, output, pbkdf2, saved, start_of

STATES = {"": 113, "hmac_": 225}  # the bytes of a state, by what the names of the calls for it begin with
CLEARS = "hmac", "pbkdf2", "wipe"  # what the names of calls begin with that clear what they leave
COUNTS = [*range(10), 130], [0, 1, 3, 5, 9]  # how many messages lists have
AROUND = [0, 1, 3, 20, 55, 56, 63, 64, 65, 119, 120, 128, 200]
NO_VARIANTS = [{0: 0}, {0: 127}, {0: 161}]  # as the first argument


class Piece:
    """Memory that a call is given: `*piece` is its address and how many bytes or messages it has."""

    def __init__(self, at, some, count=None):
        self.at, self.bytes, self.count = at, some, len(some) if count is None else count

    def __iter__(self):
        return iter((self.at, self.count))


class Caller:
    """Makes the calls of one case, and notes what is wrong with them."""

    def __init__(self, machine, quick=False):
        self.machine, self.quick = machine, quick
        self.wrong, self.calls = [], 0
        self.secrets = set()

    def some(self, every, few):
        """The sizes to try, or a few of them."""
        return few if self.quick else every

    def nulls(self, count, variant):
        """Whether some messages of such a list have null pointers. Many of them then go in groups, which is the same
        code for each variant, and else at once, which is not."""
        return count % 4 in (1, 2) if count < 10 else variant in (160, 320)

    @contextlib.contextmanager
    def trying(self, *what):
        """Begins anew, and notes what is wrong."""
        forget()
        self.machine.reset()
        self.secrets = set()
        try:
            yield
        except Wrong as wrong:
            self.wrong.append(f"{' '.join(map(str, what))}: {wrong}")

    def any(self, name, length, secret=True):
        """Any bytes, of which calls that clear leave nothing if they are secret."""
        if secret:
            self.secrets.add(name)
        return inputs(name, length)

    def given(self, name, length, secret=False):
        """Any bytes, which are only read."""
        return self.known(self.any(name, length, secret))

    def known(self, some):
        return Piece(self.machine.piece(some, odd=3), some)

    def place(self, length):
        """Where a call writes so many bytes."""
        at = self.machine.piece(inputs(f"old {self.machine.next_piece:x}", length), writable=True, odd=5)
        return Piece(at, self.machine.get(at, length))

    def messages(self, pieces):
        """A list of messages."""
        some = bytes_of(halves(number for piece in pieces for number in piece))
        return Piece(self.machine.piece(some, odd=8), some, len(pieces))

    def call(self, name, *arguments, answer=1):
        """Makes a call, which has to answer this and, if it clears, to leave nothing of what is secret."""
        self.calls += 1
        got = self.machine.call(f"nattizhu_{name}", *arguments)
        if answer not in (None, got):
            raise Wrong(f"{name} answers {got}, not {answer}")
        for where, word in self.machine.left() if name.startswith(CLEARS) else ():
            of = sources(word) & self.secrets
            if of:
                raise Wrong(f"{name} leaves {', '.join(sorted(of))} in {where}")

    def holds(self, piece, wanted):
        """Whether these bytes now are in memory."""
        got = self.machine.get(piece.at, len(wanted))
        wrong = [i for i, (one, other) in enumerate(zip(got, wanted)) if one != other]
        if wrong:
            raise Wrong(f"{len(wrong)} of {len(wanted)} bytes are wrong, the first at {wrong[0]}")

    def refuses(self, name, places, arguments, *changes):
        """Makes a call with each of these changes of its arguments, by their index from the first or from the last. It
        has to refuse them and write nothing."""
        for change in changes:
            changed = [change.get(i, change.get(i - len(arguments), old)) for i, old in enumerate(arguments)]
            if self.has(name, changed):
                self.call(name, *changed, answer=0)
                for piece in places:
                    self.holds(piece, piece.bytes)

    def has(self, name, arguments):
        """Whether there is such a call."""
        return True


NOWHERE = Piece(0, [])


def lengths(right):
    """Changes of the last argument to lengths that are not right."""
    return [{-1: length} for length in (0, right - 1, right + 1)]


def made(caller, variant, key_length):
    """The arguments that are a key, and the hashers under it. Without a key there are none, and one hasher."""
    if key_length is None:
        return (), [(start_of(variant), 0, [])]
    key = caller.given("key", key_length, secret=True)
    return tuple(key), keyed(variant, key.bytes)


def verifies(caller, name, tag, *arguments):
    """Makes a call for a tag that differs by any bytes: any tag is of this form. The answer is 1 exactly if it is
    right."""
    other = bytes_of(map(xor, words_of(tag), words_of(inputs("difference", len(tag)))))
    caller.call(name, *arguments, *caller.known(other), answer=zero(map(xor, words_of(tag), words_of(other))))


# ---- Digests and tags

def digest(caller, variant, size):
    for n in caller.some([*range(201), 1000], AROUND):
        with caller.trying(n, "bytes"):
            message, out = caller.given("message", n, secret=True), caller.place(size)
            caller.call("digest", variant, *(message if n else NOWHERE), *out)
            caller.holds(out, output(variant, made(caller, variant, None)[1], message.bytes))
            caller.call("wipe", 0, 0, answer=None)
    with caller.trying("refusals"):
        message, out = caller.given("message", 3), caller.place(size + 1)
        caller.call("wipe", *out, answer=None)
        out.bytes = [0] * (size + 1)
        caller.holds(out, out.bytes)
        caller.refuses("digest", [out], (variant, *message, out.at, size), {1: 0}, {3: 0}, *NO_VARIANTS, *lengths(size))


def tags(caller, variant, size):
    """hmac and hmac_verify_text."""
    every = [*((k, 3) for k in (0, 1, 32, 63, 64, 65, 100, 200)), *((20, n) for n in AROUND), (65, 1000)]
    for key_length, length in caller.some(every, [(0, 3), (64, 3), (65, 3), (20, 0), (20, 55), (20, 56)]):
        with caller.trying("a key of", key_length, "and a text of", length, "bytes"):
            key, hashers = made(caller, variant, key_length)
            text, out = caller.given("text", length), caller.place(size)
            tag = output(variant, hashers, text.bytes)
            arguments = variant, *(key if key_length else NOWHERE), *(text if length else NOWHERE)
            caller.call("hmac", *arguments, *out)
            caller.holds(out, tag)
            if length <= 3:
                verifies(caller, "hmac_verify_text", tag, *arguments)
    with caller.trying("refusals"):
        key, hashers = made(caller, variant, 20)
        text, out = caller.given("text", 5), caller.place(size + 1)
        tag = caller.known(output(variant, hashers, text.bytes) + [0])
        for name, to, places in ("hmac", out, [out]), ("hmac_verify_text", tag, []):
            caller.refuses(name, places, (variant, *key, *text, to.at, size), {1: 0}, {3: 0}, {5: 0}, *NO_VARIANTS,
                           *lengths(size))


def records(caller, variant, size, name, key_lengths):
    """Calls for records of one length. Nine of each fill vectors and leave some over."""
    for count in caller.some(*COUNTS):
        for length in [20] if count > 9 else caller.some([0, 55, 64] if count == 9 else [(0, 55, 64)[count % 3]], [55]):
            with caller.trying(count, "records of", length, "bytes"):
                key, hashers = made(caller, variant, key_lengths[count % len(key_lengths)])
                every, out = caller.given("records", count * length), caller.place(count * size)
                caller.call(name, variant, *key, *every, length, *out)
                caller.holds(out, [byte for i in range(count)
                                   for byte in output(variant, hashers, every.bytes[i * length:(i + 1) * length])])
    with caller.trying("refusals"):
        key, _ = made(caller, variant, key_lengths[0])
        every, out = caller.given("records", 60), caller.place(3 * size)
        caller.refuses(name, [out], (variant, *key, *every, 20, *out), {0: 0}, {-5: 0}, {-3: 19}, {-3: 0}, {-2: 0},
                       {-1: 3 * size - 1}, {-3: 2**63 + 30, -1: 2 * size}, *([{1: 0}] if key else []))


def lists(caller, variant, size, name, key_lengths):
    """Calls for messages of lengths around a block, of which those of no bytes have null pointers, or none is null."""
    for count in caller.some(*COUNTS):
        with caller.trying(count, "messages"):
            nulls = caller.nulls(count, variant)
            key, hashers = made(caller, variant, key_lengths[nulls % len(key_lengths)])
            sizes = [(0, 64, 3, 55, 56, 70, 1, 130, 20)[(7 * i + count) % 9] for i in range(count)]
            messages = [NOWHERE if n == 0 and nulls else caller.given(f"message {i}", n if count < 100 else n % 64)
                        for i, n in enumerate(sizes)]
            out, table = caller.place(count * size), caller.messages(messages) if count or nulls else NOWHERE
            caller.call(name, variant, *key, *table, *out)
            caller.holds(out, [byte for piece in messages for byte in output(variant, hashers, piece.bytes)])
    with caller.trying("refusals"):
        key, _ = made(caller, variant, key_lengths[0])
        table, out = caller.messages([caller.given("one", 3), NOWHERE]), caller.place(2 * size)
        bad = caller.messages([Piece(0, [], 3), caller.given("two", 3)])
        caller.refuses(name, [out], (variant, *key, *table, *out), {0: 0}, {-4: 0}, {-4: bad.at}, {-2: 0}, {-1: size},
                       *([{1: 0}] if key else []))


# ---- States, of a hasher or of HMAC: `kind` is what the names of the calls begin with

def go_on(caller, variant, size, kind, state, hashers, *pieces):
    """update for each piece, final, save and, of HMAC, verify of a state that keeps these hashers."""
    for piece in pieces:
        caller.call(f"{kind}update", state.at, *piece)
    message = [byte for piece in pieces for byte in piece.bytes]
    out, kept, wanted = caller.place(size), caller.place(len(hashers) * (size + 72)), output(variant, hashers, message)
    caller.call(f"{kind}final", state.at, *out)
    caller.holds(out, wanted)
    caller.call(f"{kind}save", state.at, *kept)
    caller.holds(kept, saved(variant, hashers, message))
    if kind:
        verifies(caller, "hmac_verify", wanted, state.at)
    else:
        caller.call("wipe", 0, 0, answer=None)


def any_hashers(caller, size, count, *tails):
    """Hashers after so many blocks with any chaining values, and tails of these lengths."""
    return [(words_of(caller.any(f"chaining value {i}", size)), count, caller.any(f"tail {i}", tail))
            for i, tail in enumerate(tails)]


def new_states(caller, variant, size, kind, every, few):
    """init and two updates."""
    for key_length, first, second in caller.some(every, few):
        with caller.trying("a key of", key_length, "bytes, and", first, "and", second):
            key, hashers = made(caller, variant, key_length)
            state = caller.place(STATES[kind])
            one, other = (caller.given(f"{i} piece", n, not kind) for i, n in (("first", first), ("second", second)))
            caller.call(f"{kind}init", variant, state.at, *key)
            go_on(caller, variant, size, kind, state, hashers, one if first else NOWHERE, other)


def any_states(caller, variant, size, kind, lengths_after):
    """load and update of any state, and what calls for states refuse."""
    after = [(7, tail) for tail in caller.some([0, 1, 17, 55, 56, 63], [55])]
    after += [(count, tail) for count in (1, 2**58 - 1, 2**64 - 1) for tail in caller.some([0, 9], [9])]
    parts = 2 if kind else 1
    for count, tail in after:
        for more in caller.some(*lengths_after):
            with caller.trying("a state of", count, "blocks and", tail, "bytes, and", more):
                hashers = any_hashers(caller, size, count, *(tail, tail // 2)[:parts])
                state = caller.place(STATES[kind])
                caller.call(f"{kind}load", variant, state.at, *caller.known(saved(variant, hashers, [])))
                go_on(caller, variant, size, kind, state, hashers, caller.given("message", more))
    with caller.trying("refusals"):
        good = saved(variant, any_hashers(caller, size, 1, *(9, 0)[:parts]), [])
        state, out, text = caller.place(STATES[kind]), caller.place(len(good) + 1), caller.given("text", 70)
        late, long = good[:-1] + [1], good[:size + 8] + [64] + good[size + 9:]
        wrong = map(caller.known, (good[:-1], good + [0], late, long, []))
        caller.refuses(f"{kind}load", [state], (variant, state.at, *caller.known(good)), {2: 0}, *NO_VARIANTS,
                       *({2: piece.at, 3: piece.count} for piece in wrong))
        caller.refuses(f"{kind}init", [state], (variant, state.at, *(NOWHERE if kind else ())), *NO_VARIANTS,
                       *([{3: 1}] if kind else []))
        ends = [("final", size), ("save", len(good)), *([("verify", size)] if kind else [])]
        for bad in [0] * STATES[kind], [size + 128 * (parts - 1), *long, *[0] * (STATES[kind] - 1 - len(long))]:
            state = caller.place(STATES[kind])
            caller.machine.put(state.at, bad)
            state.bytes = bad
            caller.refuses(f"{kind}update", [state], (state.at, *text), {}, {1: 0, 2: 0})
            for name, length in ends:
                caller.refuses(kind + name, [state, out], (state.at, out.at, length), {})
        state = caller.place(STATES[kind])
        caller.call(f"{kind}load", variant, state.at, *caller.known(good))
        state.bytes = caller.machine.get(state.at, STATES[kind])
        caller.refuses(f"{kind}update", [state], (state.at, 0, 1), {})
        for name, length in ends:
            caller.refuses(kind + name, [state, out], (state.at, out.at, length), {1: 0}, *lengths(length))


# ---- Keys from passwords

def keys(caller, variant, size):
    """pbkdf2."""
    every = [(8, 8, 2, size), (70, 0, 3, size + 1), (0, 60, 2, 2 * size + 3), (8, 4, 1, 16), (64, 64, 1, 2 * size),
             (100, 51, 2, 1), (65, 52, 1, 0), (1, 130, 4, 64)]
    for password, salt, rounds, length in caller.some(every, every[:3]):
        with caller.trying("a password of", password, "and a salt of", salt, "bytes,", rounds, "rounds,", length):
            secret, more = caller.given("password", password, secret=True), caller.given("salt", salt)
            out = caller.place(length)
            given = *(secret if password else NOWHERE), *(more if salt else NOWHERE)
            caller.call("pbkdf2", variant, *given, rounds, *out)
            caller.holds(out, pbkdf2(variant, secret.bytes, more.bytes, rounds, length))
    with caller.trying("refusals"):
        secret, more, out = caller.given("password", 8), caller.given("salt", 4), caller.place(20)
        caller.refuses("pbkdf2", [out], (variant, *secret, *more, 1, *out), {0: 0}, {1: 0}, {3: 0}, {5: 0}, {6: 0},
                       {7: size * 2**32})


def lists_of_keys(caller, variant, size):
    """pbkdf2_list."""
    for count in caller.some(*COUNTS):
        nulls = caller.nulls(count, variant)
        rounds, length = (2, size + 4) if count in (3, 8) else (1, 16)
        with caller.trying(count, "passwords,", rounds, "rounds,", length, "bytes"):
            sizes = [(8, 100, 0, 64, 65)[i % 5] if count < 100 else 8 * (i % 40 > 0) for i in range(count)]
            passwords = [NOWHERE if n == 0 and nulls else caller.given(f"password {i}", n, secret=True)
                         for i, n in enumerate(sizes)]
            salts = [NOWHERE if i % 7 == 3 and nulls else caller.given(f"salt {i}", 8 * (i % 3) + 1)
                     for i in range(count)]
            out = caller.place(count * length)
            tables = *caller.messages(passwords), *caller.messages(salts)
            caller.call("pbkdf2_list", variant, *tables, rounds, length, *out)
            caller.holds(out, [byte for password, salt in zip(passwords, salts)
                               for byte in pbkdf2(variant, password.bytes, salt.bytes, rounds, length)])
    with caller.trying("refusals"):
        one, bad = caller.given("password", 8), caller.messages([Piece(0, [], 3)])
        table, out = caller.messages([one]), caller.place(20)
        caller.refuses("pbkdf2_list", [out], (variant, *table, *table, 1, 20, *out), {0: 0}, {1: 0}, {1: bad.at},
                       {3: 0}, {3: bad.at}, {4: 0}, {5: 0}, {6: 19}, {7: 0}, {2: 0, 4: 0, 6: size * 2**32, 8: 0})


CASES = {
    "digest": digest, "each": partial(records, name="each", key_lengths=[None]),
    "lists": partial(lists, name="list", key_lengths=[None]),
    "streams": partial(new_states, kind="", few=list(product([None], [0, 20, 63], [0, 8, 65])),
                       every=[*product([None], [0, 1, 55, 56, 63], [0, 8, 64, 130]),
                              *product([None], [3, 20, 64, 65, 119, 120, 128], [9])]),
    "load": partial(any_states, kind="", lengths_after=([0, 8, 64, 130], [0, 8, 71])),
    "tags": tags, "tags_of_records": partial(records, name="hmac_each", key_lengths=[20, 100]),
    "tags_of_lists": partial(lists, name="hmac_list", key_lengths=[20, 100]),
    "tags_in_pieces": partial(new_states, kind="hmac_", few=[(20, 63, 70), (65, 1, 70)],
                              every=[(0, 1, 70), (65, 63, 70), *product([64], [0, 1, 55, 63, 64], [70])]),
    "loaded_tags": partial(any_states, kind="hmac_", lengths_after=([1, 71], [1, 71])),
    "keys": keys, "lists_of_keys": lists_of_keys,
}
