"""A processor for ARM64 with NEON. capstone reads the code; an instruction that is not known ends the run."""
import re
from functools import partial

import capstone

from machine import (M64, Machine, Wrong, arithmetic, bitwise, cut, fixed, halves, lanes, minus, mixed, of_known, plus,
                     rotated, selected, shifted, signed, swapped, vector_of)
from terms import MASK, and_, bytes_of, equal, least, negative, not_, or_, word_of, words_of, xor, zero

SP = 31
SIZES = {"b": 1, "h": 2, "w": 4, "s": 4, "x": 8, "d": 8, "q": 16}
# Texts: the operands of an instruction; how the last one changes the one before; a vector, a lane or the lowest lane.
OPERANDS = re.compile(r"\[[^]]*\]!?|[^,\s][^,]*")
CHANGE = re.compile(r"(lsl|lsr|asr|ror|uxtw|sxt[bhw])(?: #(\w+))?$")
VECTOR = re.compile(r"(?:v(\d+)\.(\d*)([bhsd])(?:\[(\d+)\])?|([bhsdq])(\d+))$")
TRANSFER = re.compile(r"(ld|st)(?:r|ur|p|1|1r)(s?)([bhw]?)$")
MOVES = {"ins", "dup", "movi", "fmov"}  # also of vectors, but of one number
NOTHING, JUMPS = {"nop", "hint"}, {"b", "bl", "br", "blr", "ret", "cbz", "cbnz", "tbz", "tbnz"}

# ---- What instructions compute: functions of the size in bytes, and of numbers


def parsed(text):
    """Of a vector its number, the bytes of a lane, how many lanes, and the lane that is meant, or None."""
    i, count, kind, lane, alone, other = VECTOR.match(text).groups()
    return int(i or other), SIZES[kind or alone], int(count or 1), lane and int(lane)


def size_of(text):
    return parsed(text)[1] if VECTOR.match(text) else 4 if text[0] == "w" else 8


def known(function):
    return lambda size, *numbers: function(*(fixed(number, "what it does") for number in numbers))


# Functions of words.
LOGIC = {
    "and": and_, "orr": or_, "eor": xor, "bic": lambda a, b: and_(a, not_(b)), "orn": lambda a, b: or_(a, not_(b)),
    "mov": lambda a: a, "mvn": not_, "bsl": lambda mask, a, b: or_(and_(mask, a), and_(not_(mask), b)),
    "bit": lambda old, a, mask: or_(and_(mask, a), and_(not_(mask), old)),
    "bif": lambda old, a, mask: or_(and_(mask, old), and_(not_(mask), a)),
}
OPERATIONS = {
    "add": plus, "sub": minus, **{name: partial(bitwise, function) for name, function in LOGIC.items()},
    **dict.fromkeys(("mov", "movz", "movi", "adrp", "ins", "fmov", "dup", "cset"), lambda size, a: a),
    "movn": lambda size, a: bitwise(xor, size, a, M64),
    **{f"sxt{kind}": lambda size, a, n=0, own=SIZES[kind]: of_known(lambda a: signed(own, cut(own, a)) << n, 8, a)
       for kind in "bhw"},
    "movk": lambda size, old, a, n=0: bitwise(or_, size, bitwise(and_, size, old, M64 ^ 0xFFFF << n), a << n),
    "lsl": shifted, "lsr": lambda size, a, n: shifted(size, a, -n), "asr": arithmetic,
    "ror": lambda size, a, n: rotated(size, a, -n), "uxtw": lambda size, a, n=0: shifted(8, a, n),
    "ubfiz": lambda size, a, n, width: bitwise(and_, size, shifted(size, a, n), (1 << width) - 1 << n),
    "rev": swapped, "csel": selected, "mul": known(lambda a, b: a * b), "umulh": known(lambda a, b: a * b >> 64),
    "udiv": known(lambda a, b: a // b if b else 0), "madd": known(lambda a, b, c: c + a * b),
    "msub": known(lambda a, b, c: c - a * b),
    "cinc": lambda size, a, holds: selected(size, plus(size, a, 1), a, holds),
}
READ_OLD = {"movk", "bsl", "bit", "bif", "usra"}
# Names for others, of which an operand, mostly the first, is the register of zero.
SHORT = {"cmp": "subs", "cmn": "adds", "tst": "ands", "ccmp": "subs", "neg": "sub", "mvn": "orn"}
# What those that set flags compute, and the carry. Conditions that do not hold where others do.
FLAGS = {"adds": ("add", lambda size, a, b: a + b >> 8 * size), "subs": ("sub", lambda size, a, b: int(a >= b)),
         "ands": ("and", lambda size, a, b: 0)}
INVERSE = {"ne": "eq", "lo": "hs", "ls": "hi"}

# ---- What instructions of vectors compute: functions of the size of a lane, and of lists of words or of lanes


def each(function):
    return lambda size, *some: list(map(partial(function, size), *some))


def least_of(size, words, inverse):
    """The least byte; or the greatest, which is the least where all bits are inverse."""
    if size > 1:
        raise Wrong("the least of what is not bytes is not known")
    return [xor(word_of(least([xor(word, inverse) for word in words])), inverse & 0xFF)]


WORDS = {
    **{name: lambda size, *some, function=LOGIC[name]: list(map(function, *some)) for name in LOGIC},
    "cmeq": lambda size, a, b: equal(a, b, size), "cmlt": lambda size, a, b: negative(a, size),
    "uminv": lambda size, a: least_of(size, a, 0), "umaxv": lambda size, a: least_of(size, a, MASK),
}
LANES = {
    "add": each(plus), "sub": each(minus), **dict.fromkeys(("shl", "ushll"), each(shifted)),
    "cmhi": each(partial(of_known, lambda a, b: -(a > b))),
    "usra": each(lambda size, old, a, n: plus(size, old, shifted(size, a, -n))),
    "addp": lambda size, a: [plus(size, *a)], "ext": lambda size, a, b, k: (a + b)[k[0]:k[0] + len(a)],
    "zip1": lambda size, a, b: mixed(a, b)[:len(a)], "zip2": lambda size, a, b: mixed(a, b)[len(a):],
    "uzp1": lambda size, a, b: (a + b)[::2], "uzp2": lambda size, a, b: (a + b)[1::2],
    "trn1": lambda size, a, b: mixed(a[::2], b[::2]), "trn2": lambda size, a, b: mixed(a[1::2], b[1::2]),
}


class Arm64(Machine):
    ARGUMENTS, LOST, KEPT, HALVES = range(8), (*range(19), 30), (SP, *range(19, 30)), range(8, 16)
    NAMES, LETTERS, vectors = [f"x{i}" for i in range(32)], "v", (32, 4)

    def __init__(self, image, _level=0):
        super().__init__(image)
        self.capstone = capstone.Cs(capstone.CS_ARCH_ARM64, capstone.CS_MODE_ARM)
        self.flags = FLAGS["ands"][1], 8, 0, 0, 0
        self.construct()

    def link(self, after):
        """Notes where a call returns to."""
        self.g[30] = after

    def back(self):
        return fixed(self.g[30])

    # ---- Operands, by their texts

    def reader(self, text, table=OPERATIONS):
        """The function that gives the number in an operand; or its words or lanes, if they are what a table is of."""
        g, v = self.g, self.v
        if text in INVERSE or text in INVERSE.values():
            return lambda: self.flag(text)
        if text[0] == "#" or text[1:] == "zr":
            number = int(text[1:], 0) & M64 if text[0] == "#" else 0
            return lambda: number if table is OPERATIONS else [number] * 16
        if VECTOR.match(text):
            i, size, count, lane = parsed(text)
            words = max(1, size * count // 4)
            if table is OPERATIONS:
                return lambda: lanes(v[i][:4], size)[lane or 0]
            return lambda: v[i][:words] if table is WORDS else lanes(v[i][:words], size)
        i = SP if text.endswith("sp") else int(text[1:])
        return (lambda: cut(4, g[i])) if text[0] == "w" else lambda: g[i]

    def writer(self, text, table=OPERATIONS):
        """The function that writes to an operand: a number to a register, a lane, or each lane; or words or lanes."""
        g, v = self.g, self.v
        if VECTOR.match(text):
            i, size, count, lane = parsed(text)

            def write(some):
                if table is OPERATIONS:
                    number = cut(size, some)
                    some = [number] * count if lane is None else lanes(v[i][:4], size)
                    some[lane or 0] = number
                v[i] = [*(some if table is WORDS else vector_of(some, size)), 0, 0, 0][:4]

            return write
        if text[1:] == "zr":
            return lambda number: None
        i, size = SP if text.endswith("sp") else int(text[1:]), size_of(text)
        return lambda number: g.__setitem__(i, cut(size, number))

    def operands(self, texts, table=OPERATIONS):
        """The functions that give what is in operands."""
        change = CHANGE.match(texts[-1])
        if not change:
            return [self.reader(text, table) for text in texts]
        *reads, read = [self.reader(text) for text in texts[:-1]]
        function, n, size = OPERATIONS[change[1]], int(change[2] or "0", 0), size_of(texts[-2])
        return [*reads, lambda: function(size, read(), n)]

    def where(self, texts):
        """The function that gives the address of the last operands, and changes its register as they say."""
        base, *index = OPERANDS.findall(texts[0].strip("[]!"))
        read, write, after = self.reader(base), self.writer(base), len(texts) > 1
        offset, changes = self.operands(index or texts[1:] or ["#0"])[-1], after or texts[0][-1] == "!"

        def execute():
            at = fixed(read())
            to = at + fixed(offset()) & M64
            if changes:
                write(to)
            return at if after else to

        return execute

    def flag(self, condition):
        """1 or 0, by the flags; or a term."""
        if condition in INVERSE:
            return xor(self.flag(INVERSE[condition]), 1)
        carry, size, a, b, result = self.flags
        if condition == "eq":
            return zero(halves([result]))
        a, b, result = (fixed(number, "what it does") for number in (a, b, result))
        return {"hs": 1, "hi": int(result != 0)}[condition] & carry(size, a, b)

    # ---- Instructions

    def found(self, ins):
        """The function that executes an instruction."""
        name, texts = ins.mnemonic, OPERANDS.findall(re.sub("[{}]", "", ins.op_str))
        if name in NOTHING:
            return lambda: None
        if name.partition(".")[0] in JUMPS:
            return self.jump(name, texts, ins.address + 4)
        if TRANSFER.match(name):
            return self.transfer(name, texts)
        vector = VECTOR.match(texts[0])
        if name in READ_OLD:
            texts.insert(1, texts[0])
        if vector and name not in MOVES and (name != "mov" or vector[2]):
            return self.compute(name, texts, WORDS if name in WORDS else LANES)
        if name in SHORT:
            texts.insert(int(name in ("neg", "mvn")), "wzr" if texts[0][0] == "w" else "xzr")
            name = SHORT[name]
        if name == "movk":
            texts[3:] = [text.removeprefix("lsl ") for text in texts[3:]]
        return self.compute(name, texts, OPERATIONS)

    def compute(self, name, texts, table):
        name, carry = FLAGS.get(name, (name, None))
        function, size = table[name], size_of(texts[0])
        reads, write = self.operands(texts[1:], table), self.writer(texts[0], table)

        def execute():
            write(function(size, *[read() for read in reads]))

        def execute_with_flags():
            a, b, *more = (cut(size, read()) for read in reads)
            if more and not fixed(more[1], "a jump"):
                self.flags = lambda *_: more[0] >> 1 & 1, 8, 0, 0, ~more[0] & 4
            else:
                result = function(size, a, b)
                self.flags = carry, size, a, b, result
                write(result)

        return execute_with_flags if carry else execute

    def jump(self, name, texts, after):
        name, _, condition = name.partition(".")
        read, to = (self.reader(texts[i] if texts else "x30") for i in (0, -1))
        test = {"c": lambda: zero(halves([read()])),
                "t": lambda: bitwise(and_, 8, shifted(8, read(), -int(texts[1][1:], 0)), 1)}.get(
            name[0], self.reader(condition or "#1"))

        def execute():
            if fixed(test(), "a jump") == (name in ("cbnz", "tbz")):
                return None
            target = fixed(to())
            if name in ("bl", "blr"):
                self.link(after)
            return target

        return execute

    def transfer(self, name, texts):
        """Loads or stores one or two registers, or a lane; or loads each lane with the same."""
        (kind, sign, letter), n = TRANSFER.match(name).groups(), 2 if "p" in name else 1
        where, size, table = self.where(texts[n:]), SIZES[letter] if letter else size_of(texts[0]), OPERATIONS
        if VECTOR.match(texts[0]) and parsed(texts[0])[3] is None and name != "ld1r":
            size, table = size * parsed(texts[0])[2], WORDS
        registers = [(self.reader(text, table), self.writer(text, table)) for text in texts[:n]]

        def execute():
            at = where()
            for read, write in registers:
                if kind == "st":
                    words = read() if table is WORDS else halves([read()])
                    self.put(at, bytes_of(words)[:size])
                elif sign:
                    write(OPERATIONS["sxt" + letter](8, self.load(at, size)))
                else:
                    write(words_of(self.get(at, size)) if table is WORDS else self.load(at, size))
                at += size

        return execute
