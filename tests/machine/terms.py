"""Words of 32 bits as terms in a normal form. Terms of one form are one object: `is` shows that they are equal for
every value of the inputs. Equal terms may have two forms; a comparison then fails, and never passes wrongly.

A word is an int, which is known, or a Term:
  bytes (b, b, b, b)        four bytes, the least first
  sum (c, {(term, n)})      c and n times each term, modulo 2^32
  bits {(product, mask)}    the exclusive or of products of terms, each in the bits of its mask
  rotated (term, n)         a term of another form, rotated left by n
  zero {byte}               1 if these bytes are all 0, and else 0
  signs ({byte}, ..)        a bit for each of these sets, the least first: 1 if its bytes are all 0
  unknown (i, terms)        nothing is known but the terms it is made of
A byte is an int or a Term:
  input (name, i)           byte i of an input
  part (term, i)            byte i of a word
  any {byte}                the inclusive or of bytes
  xor (c, {byte})           the exclusive or of bytes and c
  mask {byte}               0xFF if these bytes are all 0, and else 0
  unknown
"""
from itertools import zip_longest

MASK = 0xFFFFFFFF
ONE = frozenset()
BYTES = {sum(0xFF << 8 * i for i in range(4) if chosen >> i & 1) for chosen in range(16)}  # masks of whole bytes
_terms, _sources = {}, {}


class Term:
    __slots__ = ("form", "args", "number")

    def __repr__(self):
        return f"{self.args[0]}[{self.args[1]}]" if self.form == "input" else f"<{self.form}>"


def make(form, *args):
    key = form, args
    term = _terms.get(key)
    if term is None:
        term = _terms[key] = Term()
        term.form, term.args = key
        term.number = len(_terms)
    return term


def forget():
    """Drops all terms: none of them may be compared with later ones."""
    _terms.clear()
    _sources.clear()


def inputs(name, length):
    """The bytes of an input."""
    return [make("input", name, i) for i in range(length)]


def unknown(*words):
    return make("unknown", len(_terms), tuple(word for word in words if isinstance(word, Term)))


def _below(args):
    """The terms in what a term is made of."""
    for arg in args:
        if isinstance(arg, Term):
            yield arg
        elif isinstance(arg, (tuple, frozenset)):
            yield from _below(arg)


def sources(*words):
    """The names of the inputs that words are made of."""
    stack = [word for word in words if isinstance(word, Term)]
    while stack:
        term = stack[-1]
        if term in _sources:
            stack.pop()
        elif term.form == "input":
            _sources[term] = frozenset([term.args[0]])
        else:
            below = list(_below(term.args))
            missing = [t for t in below if t not in _sources]
            stack += missing
            if not missing:
                _sources[term] = frozenset().union(*(_sources[t] for t in below))
    return frozenset().union(*(_sources[word] for word in words if isinstance(word, Term)))


# ---- Words and their bytes

def byte_of(word, i):
    if isinstance(word, int):
        return word >> 8 * i & 0xFF
    if word.form == "bytes":
        return word.args[i]
    if word.form == "rotated" and word.args[1] % 8 == 0:
        return byte_of(word.args[0], (i - word.args[1] // 8) % 4)
    if word.form == "zero" and i > 0:
        return 0
    if word.form == "bits":
        bits = word.args[0]
        if not any(mask >> 8 * i & 0xFF for _, mask in bits):
            return 0
        if all(not product or mask == MASK and len(product) == 1 for product, mask in bits):
            return _xor_bytes(byte_of(*product, i) if product else mask >> 8 * i & 0xFF for product, mask in bits)
    return make("part", word, i)


def _xor_bytes(some):
    known, terms = 0, frozenset()
    for byte in some:
        if isinstance(byte, int):
            known ^= byte
        else:
            constant, more = byte.args if byte.form == "xor" else (0, {byte})
            known, terms = known ^ constant, terms ^ more
    return known if not terms else make("xor", known, terms) if known or len(terms) > 1 else next(iter(terms))


def bytes_of(words):
    return [byte_of(word, i) for word in words for i in range(4)]


def word_of(b0, b1=0, b2=0, b3=0):
    four = b0, b1, b2, b3
    terms = [b for b in four if isinstance(b, Term)]
    if not terms:
        return b0 | b1 << 8 | b2 << 16 | b3 << 24
    if any(b.form == "xor" for b in terms):
        return _made_of(_columns(four))
    if all(b.form == "part" and b.args[0] is terms[0].args[0] for b in terms):
        word, first = terms[0].args
        if len(terms) == 4 and all(b.args[1] == (first + i) % 4 for i, b in enumerate(four)):
            return rotl(word, -8 * first)
        if four == (terms[0], 0, 0, 0) and word.form == "zero":
            return word
    return make("bytes", *four)


def _columns(four):
    """The bits of a word that has such bytes: a constant, and words of the bytes in one order."""
    rows = [b.args if isinstance(b, Term) and b.form == "xor" else (0, [b]) if isinstance(b, Term) else (b, [])
            for b in four]
    rows = [(known, sorted(some, key=lambda b: (b.args[0] if b.form == "part" else b).number)) for known, some in rows]
    bits = _as_bits(word_of(*(known for known, _ in rows)))
    for column in zip_longest(*(some for _, some in rows), fillvalue=0):
        bits = _xor_bits(bits, _as_bits(word_of(*column)))
    return bits


def words_of(some):
    return [word_of(*some[i:i + 4]) for i in range(0, len(some), 4)]


# ---- Sums

def _as_sum(word):
    if isinstance(word, int):
        return word, {}
    if word.form == "sum":
        return word.args[0], dict(word.args[1])
    if word.form == "bits":
        bits = dict(word.args[0])
        covered = 0
        for product, mask in bits.items():
            if product:
                covered |= mask
        constant = bits.get(ONE, 0)
        alone = constant & ~covered  # bits that no product has are a summand
        if alone:
            more, terms = _as_sum(_from_bits(_xor_bits(bits, {ONE: alone})))
            return more + alone & MASK, terms
        if constant & covered & -covered:  # of some bits and their complement one is the normal form
            more, terms = _as_sum(_from_bits(_xor_bits(bits, {ONE: covered})))
            return covered - more & MASK, {t: -n & MASK for t, n in terms.items()}
    return 0, {word: 1}


def _from_sum(constant, terms):
    terms = {t: n for t, n in terms.items() if n}
    apart = [t for t, n in terms.items() if n == 1 and t.form in ("bits", "bytes")]
    for i, one in enumerate(apart if len(apart) > 1 else ()):
        for other in apart[i + 1:]:
            if _are_apart(one, other) or and_(one, other) == 0:  # no bit is in both
                del terms[one], terms[other]
                return add(_from_sum(constant, terms), or_(one, other))
    if not terms:
        return constant
    if constant == 0 and len(terms) == 1:
        (term, n), = terms.items()
        if n == 1:
            return term
    return make("sum", constant, frozenset(terms.items()))


def _are_apart(a, b):
    """Whether one of two words has no byte where the other has one."""
    return all(byte_of(a, i) == 0 or byte_of(b, i) == 0 for i in range(4))


def add(a, b, n=1):
    """The sum of a word and n times another."""
    if isinstance(a, int) and isinstance(b, int):
        return a + n * b & MASK
    if b == 0:
        return a
    constant, terms = _as_sum(a)
    more, others = _as_sum(b)
    for term, m in others.items():
        terms[term] = terms.get(term, 0) + n * m & MASK
    return _from_sum(constant + n * more & MASK, terms)


def sub(a, b):
    return add(a, b, MASK)


# ---- Bits: a dictionary of products, which are sets of terms, and the bits in which they count

def _as_bits(word):
    if isinstance(word, int):
        return {ONE: word} if word else {}
    if word.form == "bits":
        return dict(word.args[0])
    return {frozenset([word]): MASK}


def _from_bits(bits):
    loose = [product for product, mask in bits.items() if mask == MASK and len(product) == 1
             and next(iter(product)).form == "bytes"]
    if len(loose) > 1:  # their bytes have an order
        rest = {product: mask for product, mask in bits.items() if product not in loose}
        bits = _xor_bits(rest, _columns([_xor_bytes(byte_of(*product, i) for product in loose) for i in range(4)]))
    return _made_of(bits)


def _made_of(bits):
    if not bits:
        return 0
    if len(bits) == 1:
        (product, mask), = bits.items()
        if not product:
            return mask
        if len(product) == 1:
            term, = product
            if mask == MASK:
                return term
            if mask == 1 and term.form == "bytes" and isinstance(term.args[0], Term) and term.args[0].form == "mask":
                return make("zero", term.args[0].args[0])
    return make("bits", frozenset(bits.items()))


def _xor_bits(p, q):
    out = dict(p)
    for product, mask in q.items():
        mask ^= out.pop(product, 0)
        if mask:
            out[product] = mask
    return out


def xor(a, b):
    if isinstance(a, int) and isinstance(b, int):
        return a ^ b
    if a is b:
        return 0
    return a if b == 0 else _from_bits(_xor_bits(_as_bits(a), _as_bits(b)))


def and_(a, b):
    if isinstance(a, int) and isinstance(b, int):
        return a & b
    if isinstance(a, int):
        a, b = b, a
    if a is b or b == MASK:
        return a
    if b == 0:
        return 0
    if isinstance(b, int) and b in BYTES:
        return word_of(*(byte_of(a, i) if b >> 8 * i & 1 else 0 for i in range(4)))
    if isinstance(b, int):
        return _from_bits({product: mask & b for product, mask in _as_bits(a).items() if mask & b})
    if a.form == b.form == "zero":
        return make("zero", a.args[0] | b.args[0])
    if a.form == b.form == "bytes":
        pairs = [(byte_of(a, i), byte_of(b, i)) for i in range(4)]
        if all(isinstance(x, Term) and isinstance(y, Term) and x.form == y.form == "mask" for x, y in pairs):
            return word_of(*(make("mask", x.args[0] | y.args[0]) for x, y in pairs))
    out = {}
    for one, mask in _as_bits(a).items():
        for other, too in _as_bits(b).items():
            if mask & too:
                out = _xor_bits(out, {one | other: mask & too})
    return _from_bits(out)


def not_(a):
    return xor(a, MASK)


def or_(a, b):
    if isinstance(a, int) and isinstance(b, int):
        return a | b
    if a == 0 or a is b:
        return b
    if b == 0:
        return a
    forms = {word.form for word in (a, b) if isinstance(word, Term)}
    if forms & {"bytes", "zero"} and _are_apart(a, b):
        return word_of(*(byte_of(a, i) or byte_of(b, i) for i in range(4)))
    if forms == {"bytes"} and isinstance(a, Term) and isinstance(b, Term):
        return word_of(*(_any(byte_of(a, i), byte_of(b, i)) for i in range(4)))
    return xor(xor(a, b), and_(a, b))


def _any(*some):
    """The inclusive or of bytes."""
    known, terms = 0, set()
    for byte in some:
        if isinstance(byte, int):
            known |= byte
        else:
            terms |= byte.args[0] if byte.form == "any" else {byte}
    if not terms or known == 0xFF:
        return known
    if len(terms) == 1 and not known:
        return terms.pop()
    return make("any", frozenset(terms | {known}) if known else frozenset(terms))


def _parts(byte):
    """The bytes that are all 0 exactly if this one is; None if it is never 0."""
    if isinstance(byte, int):
        return None if byte else frozenset()
    some = byte.args[0] if byte.form == "any" else frozenset([byte])
    return None if any(isinstance(one, int) for one in some) else some


def zero(words):
    """1 if all these words are 0, and else 0."""
    every = set()
    for word in words:
        some = _all_signs(word) or [_parts(byte_of(word, i)) for i in range(4)]
        if None in some:
            return 0
        every = every.union(*some)
    return make("zero", frozenset(every)) if every else 1


def _all_signs(word):
    """The sets of signs, if this is their number less that of ones, and so 0 if all are 1."""
    if isinstance(word, Term) and word.form in ("sum", "bits"):
        for term in _below(word.args):
            if term.form == "signs":
                ones = (1 << len(term.args[0])) - 1
                return term.args[0] if word in (sub(term, ones), xor(term, ones)) else None
    return None


def _mask(some):
    return 0 if some is None else make("mask", some) if some else 0xFF


def equal(a, b, size):
    """All ones in each lane of so many bytes that is the same in two lists of words, and else 0."""
    some = [_parts(byte) for byte in bytes_of(list(map(xor, a, b)))]
    every = [some[i:i + size] for i in range(0, len(some), size)]
    return words_of([_mask(None if None in lane else frozenset().union(*lane)) for lane in every for _ in lane])


def negative(words, size):
    """All ones in each lane of so many bytes that has 1 as its highest bit, and else 0."""
    out = []
    for at in range(size - 1, 4 * len(words), size):
        word = words[at // 4]
        some = _bit(word, at % 4 * 8 + 7)
        out += [unknown(word) if some is None and isinstance(word, Term) else _mask(some)] * size
    return words_of(out)


def least(words):
    """The least of all bytes of these words."""
    every = [{_bit(word, 8 * i + j) for j in range(8)} for word in words for i in range(4)]
    if any(None in bits or len(bits) > 1 for bits in every):
        return unknown(*words)
    return _mask(frozenset().union(*(some for bits in every for some in bits)))


def _bit(word, i):
    """The bytes that are all 0 exactly if a bit is 1; None if there are no such bytes."""
    if isinstance(word, int):
        return frozenset() if word >> i & 1 else None
    if word.form == "rotated":
        return _bit(word.args[0], (i - word.args[1]) % 32)
    if word.form == "bytes":
        byte = word.args[i // 8]
        if isinstance(byte, int):
            return _bit(byte, i % 8)
        some, *at = byte.args
        return some if byte.form == "mask" else _bit(some, 8 * at[0] + i % 8) if byte.form == "part" else None
    if word.form == "bits":
        products = [product for product, mask in word.args[0] if mask >> i & 1]
        some = [_bit(term, i) for term in products[0]] if len(products) == 1 else [None]
        return None if None in some else frozenset().union(*some)
    return None


def signs(words):
    """The highest bits of all bytes of these words, in one word."""
    bits = [_bit(word, 8 * i + 7) for word in words for i in range(4)]
    return unknown(*words) if None in bits else make("signs", tuple(bits))


def rotl(a, n):
    n %= 32
    if n == 0:
        return a
    if isinstance(a, int):
        return (a << n | a >> 32 - n) & MASK
    if a.form == "rotated":
        return rotl(a.args[0], a.args[1] + n)
    if a.form == "bits":
        return _from_bits({frozenset(rotl(t, n) for t in product): rotl(mask, n) for product, mask in a.args[0]})
    if a.form == "bytes" and n % 8 == 0:
        return word_of(*(a.args[(i - n // 8) % 4] for i in range(4)))
    return make("rotated", a, n)


def shift(a, n):
    """A word shifted by n bits to the left, or to the right where n is negative."""
    mask = MASK << n & MASK if n >= 0 else MASK >> -n
    return and_(rotl(a, n), mask) if mask else 0
