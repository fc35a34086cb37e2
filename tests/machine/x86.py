"""A processor for x86-64 with SSE4 and AVX2. capstone reads the code; an instruction that is not known ends the run."""
from functools import partial

import capstone
from capstone.x86 import X86_OP_IMM, X86_OP_MEM, X86_OP_REG

from machine import (M64, Machine, Wrong, arithmetic, bitwise, cut, fixed, halves, high, lanes, low, minus, mixed,
                     of_known, pair, plus, rotated, selected, shifted, signed, swapped, vector_of)
from terms import MASK, and_, bytes_of, equal, not_, or_, shift, signs, words_of, xor, zero

ORDER = ["rax", "rcx", "rdx", "rbx", "rsp", "rbp", "rsi", "rdi", *(f"r{i}" for i in range(8, 16))]
RAX, RCX, RDX, RBX, RSP, RBP, RSI, RDI = range(8)
# Of the name of each register its number, size, and the byte at which it begins.
PARTS = {letter + "h": (i, 1, 1) for i, letter in enumerate("acdb")}
for _i, _name in enumerate(ORDER):
    _short = _name[1:]
    _parts = ("e" + _short, _short, _short.rstrip("x") + "l") if _i < 8 else (_name + letter for letter in "dwb")
    PARTS.update({part: (_i, size, 0) for part, size in zip((_name, *_parts), (8, 4, 2, 1))})
VECTORS = {f"{kind}mm{i}": (i, words) for kind, words in (("x", 4), ("y", 8)) for i in range(32)}
VECTORS["xmm16 "] = VECTORS["xmm16"]  # as capstone 4 spells it

NEGATED = {"ne": "e", "ae": "b", "a": "be", "ns": "s", "no": "o"}
CONDITIONS = {*NEGATED, *NEGATED.values()}
NOTHING = {"nop", "endbr64"}


# ---- Numbers: what instructions compute of the size in bytes and their sources, and the carry and the overflow, of the
# size, the result and the sources

def count(size, n):
    return fixed(n, "how far it shifts") & (63 if size == 8 else 31)


def and_not(x, y):
    return and_(not_(x), y)


def known(*numbers):
    return [fixed(number, "what it does") for number in numbers]


def carry_of_sum(size, result, a, b, carry=0):
    return sum(known(a, b, carry)) >> 8 * size


def carry_of_difference(size, result, a, b, carry=0):
    if carry == 0 and (a == 0 or b == 1):
        return xor(zero(halves([b])), 1) if a == 0 else zero(halves([a]))
    a, b, carry = known(a, b, carry)
    return int(a < b + carry)


def carry_of_shift(size, result, a, n=1, way=-1):
    """The last bit that goes."""
    return known(a)[0] >> (count(size, n) - 1 if way < 0 else 8 * size - count(size, n)) & 1


def carry_of_product(size, result, a, b):
    return int(signed(size, a) * signed(size, b) != signed(size, result))


def none(*_):
    return 0


def odd(*_):
    raise Wrong("a flag is not known")


FLAGS = {
    "logic": (none, none), "right": (carry_of_shift, odd), "left": (partial(carry_of_shift, way=1), odd),
    "add": (carry_of_sum, odd), "sub": (carry_of_difference, odd), "product": (carry_of_product, carry_of_product),
    "bit": (lambda size, result, a, n: fixed(a, "a bit") >> fixed(n, "a bit") % (8 * size) & 1, odd),
    "kept": (lambda size, result, flags: flags[0](*flags[2:]), odd),  # the carry is that of the flags before
}
# Of each instruction the number of its sources, its function, and the flags.
NUMBERS = {
    **dict.fromkeys(("mov", "movabs", "movzx", "push", "jmp", "call"), (1, lambda size, a: a, None)),
    "bt": (2, lambda *_: None, "bit"), "lea": (1, cut, None), "neg": (1, lambda size, a: minus(size, 0, a), "sub"),
    **dict.fromkeys(("bswap", "movbe"), (1, swapped, None)),
    "not": (1, lambda size, a: bitwise(not_, size, a), None),
    "inc": (1, lambda size, a: plus(size, a, 1), "kept"), "dec": (1, lambda size, a: minus(size, a, 1), "kept"),
    **dict.fromkeys(("add", "adc"), (2, plus, "add")), **dict.fromkeys(("sub", "sbb", "cmp"), (2, minus, "sub")),
    "imul": (2, lambda size, a, b: cut(size, fixed(a, "a product") * fixed(b, "a product")), "product"),
    **{name: (2, partial(bitwise, function), "logic")
       for name, function in (("and", and_), ("test", and_), ("or", or_), ("xor", xor), ("andn", and_not))},
    "sar": (2, lambda size, a, n=1: arithmetic(size, a, count(size, n)), "right"),
    **{name: (2, lambda size, a, n=1, f=function, way=way: f(size, a, way * count(size, n)), flags)
       for name, function, way, flags in (
           ("shl", shifted, 1, "left"), ("shr", shifted, -1, "right"), ("rol", rotated, 1, None),
           ("ror", rotated, -1, None), ("rorx", rotated, -1, None))},
    **{"set" + condition: (0, lambda size, holds: holds, None) for condition in CONDITIONS},
    **{"j" + condition: (1, lambda size, to, holds: to if fixed(holds, "a jump") else 0, None)
       for condition in CONDITIONS},
    **{"cmov" + condition: (2, lambda size, old, new, holds: selected(size, new, old, holds), None)
       for condition in CONDITIONS},
}
# The condition that is the last source of some of them.
USED = {"adc": "b", "sbb": "b",
        **{name + condition: condition for name in ("set", "cmov", "j") for condition in CONDITIONS}}
JUMPS = {"jmp", *("j" + condition for condition in CONDITIONS)}


# ---- Vectors: what instructions compute of the number in them and the words of the last operand but one and the last

def two(k):
    return [k >> 2 * j & 3 for j in range(4)]


def picked(words, order):
    """The words of these bytes of words; -1 is a byte of zero."""
    some = [*bytes_of(words), 0]
    return words_of([some[i] for i in order])


def each(function):
    return lambda size, k, a, b: vector_of(list(map(partial(function, size), lanes(a, size), lanes(b, size))), size)


def by(function):
    return lambda size, k, a, b: vector_of([function(size, number, k) for number in lanes(b, size)], size)


def saturated(word):
    return max(-0x8000, min(0x7FFF, signed(4, fixed(word)))) & 0xFFFF


def unpacked(place):
    return lambda size, k, a, b: vector_of(mixed(*(lanes(words[place], size) for words in (a, b))), size)


# Of lanes of so many bytes.
SIZED = {
    "padd": each(plus), "psub": each(minus), "psll": by(shifted), "psrl": by(lambda size, a, n: shifted(size, a, -n)),
    "psra": by(arithmetic), "pcmpgt": each(partial(of_known, lambda a, b: -(a > b))),
    "pcmpeq": lambda size, k, a, b: equal(a, b, size),
    "pinsr": lambda size, k, a, b: picked(a[:4] + b, [16 + i % size if i // size == k else i for i in range(16)]),
    "pextr": lambda size, k, a, b: picked(b, [k * size + i if i < size else -1 for i in range(max(size, 4))]),
    "pbroadcast": lambda size, k, a, b: words_of(bytes_of(b)[:size] * (32 // size)),
}
# Of 16 bytes, or of each half of 32.
HALF = {
    **{f"punpck{half}{kind}": partial(unpacked(place), size) for half, place in (("l", slice(2)), ("h", slice(2, 4)))
       for kind, size in (("bw", 1), ("wd", 2), ("dq", 4), ("qdq", 8))},
    "movddup": lambda k, a, b: b[:2] * 2, "pshufd": lambda k, a, b: [b[i] for i in two(k)],
    "shufps": lambda k, a, b: [words[i] for words, i in zip((a, a, b, b), two(k))],
    "pshufb": lambda k, a, b: picked(a, [-1 if i & 0x80 else i & 15 for i in bytes_of(b)]),
    "packssdw": lambda k, a, b: [saturated(some[i]) | saturated(some[i + 1]) << 16 for some in (a, b) for i in (0, 2)],
}
VECTOR = {
    **{name + letter: partial(function, size) for name, function in SIZED.items()
       for letter, size in (("b", 1), ("w", 2), ("d", 4), ("q", 8))},
    **{name: lambda k, a, b, function=function: [word for i in range(0, len(a), 4)
                                                 for word in function(k, a[i:i + 4], b[i:i + 4])]
       for name, function in HALF.items()},
    **{name: lambda k, a, b, function=function: list(map(function, a, b))
       for name, function in (("pxor", xor), ("por", or_), ("pand", and_), ("pandn", and_not))},
    "movdqa": lambda k, a, b: b, "movd": lambda k, a, b: b[:1], "movq": lambda k, a, b: b[:2],
    "pmovmskb": lambda k, a, b: [signs(b), 0],
    "movss": lambda k, a, b: b[:1] + a[1:4] if len(b) > 1 else b,  # from memory it reads only those
    "movsd": lambda k, a, b: b[:2] + a[2:4] if len(b) > 2 else b, "movlps": lambda k, a, b: b[:2] + a[2:4],
    "pblendd": lambda k, a, b: [(x, y)[k >> i & 1] for i, (x, y) in enumerate(zip(a, b))],
    "blendpd": lambda k, a, b: [(x, y)[k >> i // 2 & 1] for i, (x, y) in enumerate(zip(a, b))],
    "shufpd": lambda k, a, b: [(a, b)[i // 2 % 2][i & 4 | 2 * (k >> i // 2 & 1) | i & 1] for i in range(len(a))],
    "inserti128": lambda k, a, b: a[:4] + b[:4] if k & 1 else b[:4] + a[4:],
    "extracti128": lambda k, a, b: b[4 * (k & 1):][:4], "broadcastf128": lambda k, a, b: b * 2,
    "permq": lambda k, a, b: [b[2 * i + j] for i in two(k) for j in (0, 1)],
    "permps": lambda k, a, b: [b[fixed(i) & 7] for i in a],
    "blendvps": lambda by, a, b: [(x, y)[fixed(z) >> 31] for x, y, z in zip(a, b, by)],
    "blendvpd": lambda by, a, b: [(x, y)[fixed(by[i | 1]) >> 31] for i, (x, y) in enumerate(zip(a, b))],
    "insertps": lambda k, a, b: [0 if k >> i & 1 else b[k >> 6 & 3] if i == k >> 4 & 3 else word
                                 for i, word in enumerate(a[:4])],
    "pmuludq": lambda k, a, b: halves([known(x)[0] * known(y)[0] for x, y in zip(a[::2], b[::2])]),
}
# Names of one and the same, as far as terms go.
for _name, _others in {
    "pxor": "pxorq xorps xorpd", "por": "orps", "pand": "andps", "pandn": "andnps", "movlps": "movlpd",
    "movdqa": "movaps movups movdqu movapd movupd", "pblendd": "blendps", "punpckldq": "unpcklps",
    "punpckhdq": "unpckhps", "punpcklqdq": "unpcklpd movlhps", "punpckhqdq": "unpckhpd", "pextrd": "extractps",
    "pbroadcastd": "broadcastss", "pbroadcastq": "broadcastsd", "inserti128": "insertf128",
    "extracti128": "extractf128", "permq": "permpd",
}.items():
    VECTOR.update(dict.fromkeys(_others.split(), VECTOR[_name]))


class X86(Machine):
    ARGUMENTS, LOST = (RDI, RSI, RDX, RCX, 8, 9), (RAX, RCX, RDX, RSI, RDI, *range(8, 12))
    KEPT, NAMES, LETTERS = (RSP, RBX, RBP, *range(12, 16)), ORDER, "xmm"

    def __init__(self, image, level=1):
        """Of level 0 with SSE, 1 with AVX2, 2 with AVX-512, of which the C library may use registers."""
        super().__init__(image)
        self.capstone = capstone.Cs(capstone.CS_ARCH_X86, capstone.CS_MODE_64)
        self.capstone.detail = True
        self.flags, self.level, self.vectors = (odd, odd, 8, 0), level, ((16, 4), (16, 8), (32, 8))[level]
        self.construct()

    # ---- Calls, as System V has them

    def link(self, after):
        """Notes where a call returns to."""
        self.g[RSP] = fixed(self.g[RSP]) - 8
        self.store(self.g[RSP], after, 8)

    def back(self):
        return fixed(self.pop())

    def pop(self):
        at = fixed(self.g[RSP])
        self.g[RSP] = at + 8
        return self.load(at, 8)

    # ---- Operands

    def place(self, operand, ins):
        """The function that gives the address of an operand, as a number that need not be known."""
        memory, g = operand.mem, self.g
        if memory.segment:
            raise ValueError
        base, index = (ins.reg_name(r) if r else None for r in (memory.base, memory.index))
        disp, scale = memory.disp & M64, memory.scale.bit_length() - 1
        if base == "rip":
            disp, base = ins.address + ins.size + memory.disp, None
        b, i = (PARTS[r][0] if r else None for r in (base, index))
        if i is None:
            return lambda: disp if b is None else plus(8, g[b], disp)
        return lambda: plus(8, shifted(8, g[i], scale), disp if b is None else plus(8, g[b], disp))

    def reader(self, operand, ins, words=False):
        """The function that gives the number in an operand, or its words."""
        size, g, v = operand.size, self.g, self.v
        if operand.type == X86_OP_IMM:
            number = operand.imm & (1 << 8 * size) - 1
            return lambda: number
        if operand.type == X86_OP_MEM:
            place, get, load = self.place(operand, ins), self.get, self.load
            return (lambda: words_of(get(fixed(place()), size))) if words else lambda: load(fixed(place()), size)
        name = ins.reg_name(operand.reg)
        if name in VECTORS:
            register, n = VECTORS[name]
            return lambda: v[register][:n]
        i, size, first = PARTS[name]
        return (lambda: halves([cut(size, g[i])])) if words else lambda: cut(
            size, shifted(8, g[i], -8 * first) if first else g[i])

    def writer(self, operand, ins, words=False):
        """The function that writes to an operand a number of its size, or words: the others of a vector become zero, or
        stay with SSE."""
        size, g, v, keeps = operand.size, self.g, self.v, ins.mnemonic[0] != "v"
        if operand.type == X86_OP_MEM:
            place, put, store = self.place(operand, ins), self.put, self.store
            return (lambda words: put(fixed(place()), bytes_of(words)[:size])) if words else (
                lambda number: store(fixed(place()), number, size))
        name = ins.reg_name(operand.reg)
        i, size, first = PARTS.get(name) or (*VECTORS[name], 0)
        covered = (1 << 8 * size) - 1 << 8 * first

        def put_part(number):
            g[i] = pair(or_(and_(low(g[i]), MASK ^ covered), shift(low(number), 8 * first)), high(g[i]))

        def put_words(words):
            words = [*words[:size], *[0] * (4 - len(words))]
            v[i] = words + (v[i] if keeps else [0] * 8)[len(words):]

        if name in VECTORS:
            return put_words
        if words:
            return lambda words: g.__setitem__(i, pair(*words[:2]))
        return put_part if size < 4 else lambda number: g.__setitem__(i, number)

    # ---- Instructions

    def flag(self, condition):
        """1 or 0, by the flags; or a term."""
        if condition in NEGATED:
            return xor(self.flag(NEGATED[condition]), 1)
        carry, overflow, size, result, *sources = self.flags
        if condition == "e":
            return zero(result if isinstance(result, list) else halves([result]))
        if condition == "b":
            return carry(size, result, *sources)
        if condition == "o":
            return overflow(size, result, *sources)
        return known(result)[0] >> 8 * size - 1 if condition == "s" else fixed(self.flag("b")) | self.flag("e")

    def found(self, ins):
        """The function that executes an instruction."""
        name, ops = ins.mnemonic.removeprefix("notrack "), ins.operands
        if name in NOTHING:
            return lambda: None
        if name in NUMBERS:
            return self.compute(name, ops, ins)
        return self.vector(ops, ins) if name.removeprefix("v") in VECTOR else getattr(self, f"make_{name}")(ops, ins)

    def compute(self, name, ops, ins):
        """An instruction of numbers."""
        (n, function, kind), size = NUMBERS[name], ops[0].size
        read, after = self.place if name == "lea" else self.reader, ins.address + ins.size
        reads = [read(op, ins) for op in ops[len(ops) - n:]]
        if kind == "sub" and n == 2 and ops[0].type == ops[1].type == X86_OP_REG and ops[0].reg == ops[1].reg:
            reads = [lambda: 0] * 2
        if name in USED:
            reads.append(lambda: self.flag(USED[name]))
        write = {"call": lambda to: self.link(after) or fixed(to), "push": self.link,
                 **dict.fromkeys(("bt", "cmp", "test"), none), **dict.fromkeys(JUMPS, fixed)
                 }.get(name) or self.writer(ops[0], ins)

        def execute():
            sources = [read() for read in reads]
            result = function(size, *sources)
            if kind == "kept":
                self.flags = *FLAGS[kind], size, result, self.flags
            elif kind and not (kind in ("left", "right") and n == 2 and count(size, sources[1]) == 0):
                self.flags = *FLAGS[kind], size, result, *sources
            return write(result)

        return execute

    def vector(self, ops, ins):
        """An instruction of vectors. Of those with one source the last operand but one is that, or is not used."""
        function, last = VECTOR[ins.mnemonic.removeprefix("v")], ops[-1]
        k, sources = (last.imm, ops[:-1]) if last.type == X86_OP_IMM else (None, ops)
        put, b = self.writer(ops[0], ins, True), self.reader(sources[-1], ins, True)
        a = b if len(sources) == 1 or ops[0].type == X86_OP_MEM else self.reader(sources[-2], ins, True)
        if len(sources) == 4:
            first = self.reader(ops[1], ins, True)
            return lambda: put(function(b(), first(), a()))
        return lambda: put(function(k, a(), b()))

    def make_vptest(self, ops, ins):
        a, b = (self.reader(op, ins, True) for op in ops)

        def execute():
            carry = zero(list(map(and_not, a(), b())))
            self.flags = lambda *_: carry, odd, 0, list(map(and_, a(), b()))

        return execute

    def make_vzeroupper(self, ops, ins):
        return lambda: self.v.__setitem__(slice(16), [words[:4] + [0] * 4 for words in self.v[:16]])

    def make_ret(self, ops, ins):
        return self.back

    def make_pop(self, ops, ins):
        write = self.writer(ops[0], ins)
        return lambda: write(self.pop())

    def make_mul(self, ops, ins):
        """The product of known numbers in two registers, which mulx names."""
        size, read, g, three = ops[0].size, self.reader(ops[-1], ins), self.g, len(ops) == 3
        if size < 4:
            raise ValueError
        named = (PARTS[ins.reg_name(op.reg)][0] for op in ops[:2])
        factor, upper, lower = (RDX, *named) if three else (RAX, RDX, RAX)

        def execute():
            a, b = known(cut(size, g[factor]), read())
            g[lower], g[upper] = cut(size, a * b), a * b >> 8 * size
            if not three:
                self.flags = *[lambda *_: int(a * b >> 8 * size != 0)] * 2, size, g[lower]

        return execute

    make_mulx = make_mul

    def make_div(self, ops, ins):
        size, read, g = ops[0].size, self.reader(ops[0], ins), self.g

        def execute():
            lower, upper, by = known(cut(size, g[RAX]), cut(size, g[RDX]), read())
            g[RAX], g[RDX] = divmod(lower | upper << 8 * size, by)

        return execute

    def make_cpuid(self, ops, ins):
        def execute():
            self.g[:4] = 7, 3 << 27 if self.g[RAX] == 1 and self.level else 0, 0, (self.level == 2) << 31

        return execute

    def make_xgetbv(self, ops, ins):
        return lambda: self.g.__setitem__(slice(RAX, RBX), [0xE7 if self.level == 2 else 7, self.g[RCX], 0])
