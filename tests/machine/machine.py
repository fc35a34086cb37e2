"""What the processors have in common: a shared object in memory, and calls of its functions on terms.

A number of at most 64 bits is an int, which is known, a word, or a pair of words, the low one first. Each piece of
memory that a call is given stands by itself: what reads or writes outside of it, or writes what is only to be read,
ends the run.
"""
import io
from functools import partial

from elftools.elf.elffile import ELFFile

from terms import MASK, Term, add, and_, byte_of, bytes_of, rotl, shift, sources, unknown, word_of, words_of, xor

BASE, STUBS, STOP = 0x5500_0000_0000, 0x6600_0000_0000, 0x7700_0000_0000
TOP, DEPTH = 0x7FFF_0000_0000, 1 << 20  # the stack: its top, and how deep it may go
PIECES = 0x1000_0000_0000
LIMIT = 20_000_000  # instructions of one call
M64 = 2**64 - 1
# Relocations by their types: a place in the object itself, and the address of a symbol.
RELATIVE, SYMBOL = {8, 1027}, {1, 6, 7, 257, 1025, 1026}
# What Python raises where an instruction has operands that it is not known with.
ODD = ArithmeticError, AttributeError, LookupError, TypeError, ValueError


class Wrong(Exception):
    """What code must not do, or what is not known of it."""


def low(number):
    return number & MASK if isinstance(number, int) else number[0] if isinstance(number, tuple) else number


def high(number):
    return number >> 32 if isinstance(number, int) else number[1] if isinstance(number, tuple) else 0


def pair(lo, hi=0):
    return (lo, hi) if isinstance(hi, Term) or hi and isinstance(lo, Term) else lo | hi << 32 if hi else lo


def halves(numbers):
    """The words of numbers of 64 bits."""
    return [word for number in numbers for word in (low(number), high(number))]


def cut(size, number):
    """The least bytes of a number."""
    if isinstance(number, int):
        return number & (1 << 8 * size) - 1
    return number if size == 8 else low(number) if size == 4 else and_(low(number), MASK >> 32 - 8 * size)


def signed(size, number):
    return number - (1 << 8 * size) if number >> 8 * size - 1 else number


def fixed(number, what="an address"):
    """A number, which no input may change."""
    if isinstance(number, int):
        return number
    raise Wrong(f"{what} depends on {', '.join(sorted(sources(*halves([number]))))}")


def of_known(function, size, *numbers):
    """A function of known numbers. Of others nothing is known but what it is made of."""
    if all(isinstance(number, int) for number in numbers):
        return cut(size, function(*numbers))
    word = unknown(*halves(numbers))
    return cut(size, (word, word))


def bitwise(function, size, *numbers):
    """A function of words."""
    lo = function(*map(low, numbers))
    return pair(lo, function(*map(high, numbers))) if size == 8 else cut(size, lo)


def plus(size, a, b, carry=0, n=1):
    """The sum of a number and n times another and a carry."""
    if isinstance(a, int) and isinstance(b, int) and isinstance(carry, int):
        return a + n * (b + carry) & (1 << 8 * size) - 1
    lo = add(add(low(a), low(b), n), carry, n)
    return (lo, unknown(lo, high(a), high(b))) if size == 8 else cut(size, lo)


minus = partial(plus, n=-1)


def shifted(size, number, n):
    """A number shifted by n bits to the left, or to the right where n is negative."""
    if isinstance(number, int):
        return cut(size, number << n if n >= 0 else number >> -n)
    lo, hi = low(number), high(number)
    if size < 8:
        return cut(size, shift(lo, n))
    return pair(xor(shift(lo, n), shift(hi, n + 32)), xor(shift(hi, n), shift(lo, n - 32)))


def rotated(size, number, n):
    """A number rotated by n bits to the left."""
    if size == 4:
        return rotl(low(number), n)
    return bitwise(xor, size, shifted(size, number, n % (8 * size)), shifted(size, number, n % (8 * size) - 8 * size))


def arithmetic(size, number, n):
    """A signed number shifted by n bits to the right."""
    return of_known(lambda number: signed(size, number) >> n, size, number)


def swapped(size, number):
    """A number with its bytes the other way round."""
    return pair(*words_of(bytes_of(halves([number]))[:size][::-1]))


def selected(size, a, b, holds):
    """The first number where the last one, which is 1 or 0, is 1, and else the other."""
    if isinstance(holds, int):
        return a if holds else b
    return bitwise(xor, size, holds, b) if (a, b) in ((0, 1), (1, 0)) else of_known(None, size, holds, a, b)


def mixed(a, b):
    """The items of two lists in turn."""
    return [one for both in zip(a, b) for one in both]


def lanes(words, size):
    """The numbers of so many bytes in a vector."""
    if size == 8:
        return list(map(pair, words[::2], words[1::2]))
    if size == 4:
        return words
    some = bytes_of(words)
    return [word_of(*some[i:i + size]) for i in range(0, len(some), size)]


def vector_of(numbers, size):
    """The words of a vector of such numbers."""
    if size == 8:
        return halves(numbers)
    if size == 4:
        return list(map(low, numbers))
    return words_of([byte_of(low(number), i) for number in numbers for i in range(size)])


class Image:
    """A shared object: its bytes as they are when it is loaded, and the addresses of its functions."""

    def __init__(self, path):
        self.bytes, self.functions, self.stubs, self.plt, constructors = {}, {}, {}, [], []
        with open(path, "rb") as file:
            self.elf = ELFFile(io.BytesIO(file.read()))
        self.machine = self.elf["e_machine"]
        for segment in self.elf.iter_segments("PT_LOAD"):
            data = segment.data() + bytes(segment["p_memsz"] - segment["p_filesz"])
            self.bytes.update(enumerate(data, BASE + segment["p_vaddr"]))
        for section in self.elf.iter_sections():
            kind, at = section["sh_type"], BASE + section["sh_addr"]
            if kind in ("SHT_SYMTAB", "SHT_DYNSYM"):
                self.functions.update((symbol.name, BASE + symbol["st_value"]) for symbol in section.iter_symbols()
                                      if symbol["st_info"]["type"] == "STT_FUNC" and symbol["st_shndx"] != "SHN_UNDEF")
            elif kind == "SHT_RELA":
                for relocation in section.iter_relocations():
                    self._relocate(relocation, self.elf.get_section(section["sh_link"]))
            elif kind == "SHT_INIT_ARRAY":
                constructors += range(at, at + section["sh_size"], 8)
            elif section.name.startswith(".plt"):
                self.plt.append((at, at + section["sh_size"]))
        self.constructors = [int.from_bytes(self.code(at, 8), "little") for at in constructors]

    def _relocate(self, relocation, symbols):
        kind, value = relocation["r_info_type"], BASE + relocation["r_addend"]
        if kind in SYMBOL:
            symbol = symbols.get_symbol(relocation["r_info_sym"])
            if symbol["st_shndx"] != "SHN_UNDEF":
                value += symbol["st_value"]
            else:
                value = STUBS + 16 * len(self.stubs)
                self.stubs[value] = symbol.name
        elif kind not in RELATIVE:
            raise Wrong(f"the relocation {kind} is not known")
        self.bytes.update(enumerate(value.to_bytes(8, "little"), BASE + relocation["r_offset"]))

    def code(self, at, size):
        return bytes(self.bytes.get(i, 0) for i in range(at, at + size))

    def offset(self, at):
        """Where in the file a byte is."""
        return next(self.elf.address_offsets(at - BASE))

    def place(self, at):
        """An address as a reader knows it."""
        start, name = max(((start, name) for name, start in self.functions.items() if start <= at),
                          default=(BASE, "the object"))
        return f"{name}+{at - start:#x} ({at - BASE:#x})"


class Cells(dict):
    """The bytes of memory: those of the object and of the stack are made when they are read."""

    def __init__(self, image):
        super().__init__()
        self.image = image
        self.owned = TOP  # where what calls may use of the stack ends

    def __missing__(self, at):
        if at in self.image.bytes:
            return self.image.bytes[at]
        if not TOP - DEPTH <= at < self.owned:
            raise Wrong(f"reads at {at:#x}, which is in no memory that it is given")
        self[at] = unknown()
        return self[at]


class Machine:
    """A processor, which has the registers g and v. A class for one says of g which have arguments, which a call may
    change and which not, and their names; of v of which a call keeps half, and the letters before their numbers."""

    ARGUMENTS, LOST, KEPT, HALVES, NAMES, LETTERS = (), (), (), (), (), ""
    vectors = 0, 0  # how many registers v has, and of how many words

    def __init__(self, image):
        self.image = image
        self.code = {}  # of each address the function that executes the instruction there, and the next address
        self.steps = self.at = self.entry = 0
        self.loaded = {}  # the bytes that were written when the object was loaded
        self.g, self.v = [0] * 32, [[0] * 8 for _ in range(32)]
        self.reset()

    def reset(self):
        self.cells = Cells(self.image)
        self.cells.update(self.loaded)
        self.writable = []
        self.next_piece = PIECES
        self.g[:] = [(unknown(), unknown()) for _ in self.g]
        self.v[:] = [[unknown() for _ in range(8)] for _ in self.v]

    # ---- Memory

    def piece(self, some, writable=False, odd=0):
        """Memory that holds these bytes, and where it is: `odd` bytes after a multiple of 64."""
        at = self.next_piece + odd
        self.next_piece += len(some) + 4096 & -64
        self.cells.update(enumerate(some, at))
        if writable:
            self.writable.append((at, at + len(some)))
        return at

    def get(self, at, size):
        cells = self.cells
        return [cells[i] for i in range(at, at + size)]

    def put(self, at, some):
        end = at + len(some)
        on_stack = TOP - DEPTH <= at and end <= self.cells.owned
        if some and not on_stack and not any(start <= at and end <= stop for start, stop in self.writable):
            raise Wrong(f"writes at {at:#x}, which it is not to")
        self.cells.update(enumerate(some, at))

    def load(self, at, size):
        """A number from memory."""
        some = self.get(at, size)
        return pair(word_of(*some[:4]), word_of(*some[4:])) if size == 8 else word_of(*some)

    def store(self, at, number, size):
        self.put(at, bytes_of(halves([number]) if size == 8 else [low(number)])[:size])

    # ---- Calls

    def call(self, name, *arguments):
        """Calls a function of the object, and returns the byte that it answers, as a word."""
        return self.call_at(self.image.functions[name], *arguments)

    def construct(self):
        """Does what the loader does when it has loaded the object."""
        self.writable = [(BASE, STUBS)]
        for at in self.image.constructors:
            self.call_at(at)
        self.loaded = {at: byte for at, byte in self.cells.items() if BASE <= at < STUBS}
        self.reset()

    def call_at(self, pc, *arguments):
        for i, argument in zip(self.ARGUMENTS, arguments):
            self.g[i] = argument
        further = bytes_of(halves(arguments[len(self.ARGUMENTS):]))
        self.entry = self.g[self.KEPT[0]] = TOP - 4096
        self.cells.owned = self.entry + len(further)
        self.cells.update(enumerate(further, self.entry))
        kept, limit = self.kept(), self.steps + LIMIT
        self.link(STOP)
        try:
            while pc != STOP:
                self.at = pc
                if pc not in self.code:
                    self.code[pc] = self.stubbed(self.image.stubs[pc]) if pc in self.image.stubs else self.decode(pc)
                self.steps += 1
                if self.steps > limit:
                    raise Wrong("does not end")
                execute, following = self.code[pc]
                pc = execute() or following
        except (Wrong, *ODD) as error:
            raise Wrong(f"{self.image.place(self.at)}: {error}") from error
        if self.kept() != kept:  # of terms that are equal there is one
            raise Wrong(f"{self.image.place(self.at)}: a register that has to be kept is another")
        return and_(low(self.g[0]), 0xFF)

    def decode(self, at):
        """The function that executes an instruction, and where the next one is."""
        ins = next(self.capstone.disasm(self.image.code(at, 16), at, 1), None)
        if ins is None:
            raise Wrong("no instruction is there")
        try:
            return self.found(ins), at + ins.size
        except ODD as error:
            raise Wrong(f"{ins.mnemonic} {ins.op_str} is not known") from error

    def kept(self):
        return [self.g[i] for i in self.KEPT], [self.v[i][:2] for i in self.HALVES]

    def left(self):
        """The terms that a call left on the stack below its caller and in registers that it may change, with where."""
        for at, byte in self.cells.items():
            if TOP - DEPTH <= at < self.cells.owned and isinstance(byte, Term):
                yield f"the stack, {self.entry - at} bytes below its caller", byte
        count, size = self.vectors
        for name, words in [*((self.NAMES[i], halves([self.g[i]])) for i in self.LOST), *(
                (f"{self.LETTERS}{i}", self.v[i][2 * (i in self.HALVES):size]) for i in range(count))]:
            yield from ((name, word) for word in words if isinstance(word, Term))

    def stubbed(self, name):
        """A function of the C library, as its manual has it. It leaves what it copied in registers."""
        if name not in ("memcpy", "memmove", "memset"):
            raise Wrong(f"calls {name}, which is not known")

        def execute():
            to, what, size = (self.g[i] for i in self.ARGUMENTS[:3])
            size = fixed(size)
            some = [byte_of(low(what), 0)] * size if name == "memset" else self.get(fixed(what), size)
            self.put(fixed(to), some)
            back, word = self.back(), unknown(*some)
            for i in self.LOST:
                self.g[i] = word, word
            for i, words in enumerate(self.v):
                self.v[i] = [*words[:2], *[word] * 6] if i in self.HALVES else [word] * 8
            self.g[0] = to
            return back

        return execute, None
