"""A processor for the WebAssembly modules of the JavaScript package, as binaryen's wasm-dis writes them. A value of 32
bits is a word, and one of 64 bits a number (machine.py). What is not known of the language ends the run."""
import operator
import re
import subprocess
import sys
from functools import partial
from itertools import takewhile, zip_longest

from cases import Caller
from machine import (LIMIT, Machine, Wrong, arithmetic, bitwise, cut, fixed, halves, low, minus, of_known, plus,
                     rotated, shifted, signed)
from terms import Term, add, and_, byte_of, or_, sub, unknown, xor, zero

TOP, PIECES = 65536, 1 << 20  # the end of the stack, and where the memory is that calls are given
WIPED = 8192  # what js/src/engine.js overwrites of the stack after calls with secrets
SIZES = {"i32": 4, "i64": 8}
CASES = "digest", "streams", "load", "tags", "tags_in_pieces", "loaded_tags", "keys"  # RIPEMD-160 alone has three


def equal(a, b):
    """1 if numbers are equal, and else 0."""
    return int(a == b) if isinstance(a, int) and isinstance(b, int) else zero(halves([bitwise(xor, 8, a, b)]))


OPERATORS = {
    "i32.add": add, "i32.sub": sub, "i32.and": and_, "i32.or": or_, "i32.xor": xor, "i32.wrap_i64": low,
    **{f"i64.{name}": partial(function, 8) for name, function in (
        ("add", plus), ("sub", minus), ("and", partial(bitwise, and_)), ("or", partial(bitwise, or_)),
        ("xor", partial(bitwise, xor)))}, "i64.extend_i32_u": lambda value: value,
    "drop": lambda value: None, "select": lambda a, b, chosen: a if fixed(chosen, "what it selects") else b,
}
SHIFTS = {}
for _kind, _size in SIZES.items():
    SHIFTS.update({
        f"{_kind}.shl": partial(shifted, _size), f"{_kind}.shr_u": lambda a, n, size=_size: shifted(size, a, -n),
        f"{_kind}.rotl": partial(rotated, _size), f"{_kind}.rotr": lambda a, n, size=_size: rotated(size, a, -n),
        f"{_kind}.shr_s": partial(arithmetic, _size)})
    OPERATORS.update({
        f"{_kind}.eq": equal, f"{_kind}.ne": lambda a, b: xor(equal(a, b), 1), f"{_kind}.eqz": lambda a: equal(a, 0),
        f"{_kind}.mul": partial(of_known, operator.mul, _size),
        f"{_kind}.div_u": partial(of_known, operator.floordiv, _size)})
    for _name in ("lt", "le", "gt", "ge"):
        OPERATORS[f"{_kind}.{_name}_u"] = partial(of_known, getattr(operator, _name), 4)
        OPERATORS[f"{_kind}.{_name}_s"] = partial(of_known, lambda a, b, function=getattr(operator, _name), size=_size:
                                                  function(signed(size, a), signed(size, b)), 4)


def read(tokens):
    """Forms up to the end of the form that they are in, as lists of words."""
    return [read(tokens) if token == "(" else token for token in takewhile(lambda token: token != ")", tokens)]


class Module:
    """A module: of each function the types of its parameters, the names of its locals, and its code."""

    def __init__(self, path):
        self.machine, self.functions, self.exports, self.globals = "wasm", {}, {}, {}
        self.bytes = {at: unknown() for at in range(TOP)}  # on the stack a call finds any bytes
        text = subprocess.run(["wasm-dis", path], check=True, capture_output=True, text=True).stdout
        for kind, name, *rest in read(iter(re.findall(r'"[^"]*"|[()]|[^\s()"]+', text)))[0][1:]:
            if kind == "func":
                head = [form for form in rest if form[0] in ("type", "param", "result", "local")]
                types = [form[2] for form in head if form[0] == "param"]
                local = [form[1] for form in head if form[0] in ("param", "local")]
                self.functions[name] = types, local, rest[len(head):]
            elif kind == "export":
                self.exports[re.sub("_(ripemd160|nonnull|scalar)", "", name.strip('"'))] = rest[0][1]
            elif kind == "global":
                self.globals[name] = cut(SIZES[rest[1][0][:3]], int(rest[1][1]))
            elif kind not in ("type", "memory"):
                raise Wrong(f"{kind} is not known")


class Jump(Exception):
    """A jump to a label, with a value for what follows there."""


class Wasm(Machine):
    """Each form becomes a function of a frame: the values of the locals by their names."""

    def __init__(self, image, _level=0):
        super().__init__(image)

    def reset(self):
        super().reset()
        self.writable, self.next_piece, self.globals, self.count = [(0, TOP)], PIECES, dict(self.image.globals), 0

    def left(self):
        for at, byte in self.cells.items():
            if at < TOP - WIPED and isinstance(byte, Term):
                yield f"the stack, {TOP - at} bytes below its end", byte

    def call(self, name, *arguments):
        """Calls an exported function, and returns its answer. Those of RIPEMD-160 alone are not given a variant."""
        if name == "nattizhu_wipe":  # which JavaScript does
            return self.put(arguments[0], [0] * arguments[1])
        self.limit = self.steps + LIMIT
        sys.setrecursionlimit(10000)
        name = self.image.exports[name]
        answer = self.function(name)(*arguments[-len(self.image.functions[name][0]):])
        if self.globals != self.image.globals:
            raise Wrong(f"{name} changes a global variable")
        return answer

    def function(self, name):
        """A function, of its arguments. It is compiled when it is first called."""
        if name not in self.code:
            _, local, forms = self.image.functions[name]
            body = self.block("function", forms)

            def execute(*arguments):
                try:
                    return body(dict(zip_longest(local, arguments, fillvalue=0)))
                except (Wrong, ArithmeticError) as wrong:
                    raise Wrong(f"{name}: {wrong}") from None

            self.code[name] = execute
        return self.code[name]

    def sequence(self, forms):
        """Forms one after the other. Their operators count as executed, but for those of further sequences in them."""
        outer, self.count = self.count, 0
        every = [self.make(form) for form in forms]
        count, self.count = self.count, outer

        def execute(frame, value=None):
            self.steps += count
            if self.steps > self.limit:
                raise Wrong("does not end")
            for one in every:
                value = one(frame)
            return value

        return execute

    def make(self, form):
        """The function that executes a form."""
        name, *rest = form
        if name in ("block", "loop", "then", "else"):
            return self.block(name, rest)
        if name == "if":
            condition, *arms = [form for form in rest if form[0] != "result"]
            condition, yes, no = self.make(condition), self.sequence(arms[:1]), self.sequence(arms[1:])
            return lambda frame: (yes if fixed(condition(frame), "a jump") else no)(frame)
        self.count += 1
        given = [word for word in rest if isinstance(word, str)]
        values = [self.make(form) for form in rest[len(given):]]
        if name == "local.get":
            return lambda frame: frame[given[0]]
        if name in ("local.set", "local.tee"):
            return partial(self.assign, given[0], values[0])
        function = self.operator(name, given)
        if len(values) == 2:
            a, b = values
            return lambda frame: function(a(frame), b(frame))
        return lambda frame: function(*[value(frame) for value in values])

    @staticmethod
    def assign(name, value, frame):
        frame[name] = result = value(frame)
        return result

    def block(self, name, forms):
        label = forms[0] if forms and isinstance(forms[0], str) else "return" if name == "function" else None
        body = self.sequence([form for form in forms if form != label and form[0] != "result"])

        def execute(frame):
            while True:
                try:
                    return body(frame)
                except Jump as jump:
                    if jump.args[0] != label:
                        raise
                    if name != "loop":
                        return jump.args[1]

        return execute if label else body

    @staticmethod
    def jump(name, labels, *values):
        if name == "unreachable":
            raise Wrong("comes to what it must not reach")
        *value, index = values if name in ("br_if", "br_table") else (*values, 0)
        index, value = fixed(index, "a jump"), value[0] if value else None
        if name == "br_if" and not index:
            return value
        raise Jump(labels[min(index, len(labels) - 1)], value)

    def operator(self, name, given):
        """What an operator makes of the values of its operands, with what is given beside them."""
        access = re.fullmatch(r"(i32|i64)\.(load|store)(8|16|32)?(?:_([us]))?", name)
        if access:
            return self.access(*access.groups(), sum(int(word[7:]) for word in given if word[:7] == "offset="))
        if name in SHIFTS:
            shift, last = SHIFTS[name], 8 * SIZES[name[:3]] - 1
            return lambda a, n: shift(a, fixed(n, "how far it shifts") & last)
        if name in ("i32.const", "i64.const"):
            return partial(cut, SIZES[name[:3]], int(given[0]))
        if name in ("br", "br_if", "br_table", "return", "unreachable"):
            return partial(self.jump, name, given or ["return"])
        known = {
            "call": lambda *arguments: self.function(given[0])(*arguments),
            "global.get": lambda: self.globals[given[0]],
            "global.set": lambda value: self.globals.update({given[0]: value}),
            "memory.copy": lambda to, source, size: self.put(fixed(to), self.get(fixed(source), fixed(size))),
            "memory.fill": lambda to, byte, size: self.put(fixed(to), [byte_of(byte, 0)] * fixed(size)),
            **OPERATORS}
        if name not in known:
            raise Wrong(f"{name} is not known")
        return known[name]

    def access(self, kind, action, bits, sign, offset):
        size = int(bits or 8 * SIZES[kind]) // 8
        if action == "store":
            return lambda at, value: self.store(fixed(at) + offset, value, size)
        extend = partial(of_known, partial(signed, size), SIZES[kind]) if sign == "s" else lambda value: value
        return lambda at: extend(self.load(fixed(at) + offset, size))


class Exports(Caller):
    """Makes the calls that a module has, to which a null pointer is like any other."""

    def has(self, name, arguments):
        types = self.machine.image.functions[self.machine.image.exports[f"nattizhu_{name}"]][0]
        wide = [argument for argument, kind in zip(arguments[-len(types):], types) if kind == "i64"]
        pairs = wide[len(wide) % 2:]  # a pointer to a state has no length
        null = any(at == 0 and count for at, count in zip(pairs[::2], pairs[1::2]))
        return not null and (len(types) == len(arguments) or arguments[0] == 160)
