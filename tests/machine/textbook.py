"""RIPEMD (Dobbertin, Bosselaers and Preneel, 1996), HMAC (RFC 2104) and PBKDF2 (RFC 8018) over bytes that are terms.

The tables are those of the paper: the permutation rho, the amounts by message word, and roots of the first primes."""
from terms import add, and_, bytes_of, not_, or_, rotl, words_of, xor

RHO = [7, 4, 13, 1, 10, 6, 15, 3, 12, 0, 9, 5, 2, 14, 11, 8]
AMOUNTS = [[11, 14, 15, 12, 5, 8, 7, 9, 11, 13, 14, 15, 6, 7, 9, 8],
           [12, 13, 11, 15, 6, 9, 9, 7, 12, 15, 11, 13, 7, 8, 7, 7],
           [13, 15, 14, 11, 7, 7, 6, 8, 13, 14, 13, 12, 5, 5, 6, 9],
           [14, 11, 12, 14, 8, 6, 5, 5, 15, 12, 15, 14, 9, 9, 8, 6],
           [15, 12, 13, 13, 9, 5, 8, 6, 14, 11, 12, 11, 8, 6, 5, 5]]
FUNCTIONS = [lambda x, y, z: xor(xor(x, y), z),
             lambda x, y, z: or_(and_(x, y), and_(not_(x), z)),
             lambda x, y, z: xor(or_(x, not_(y)), z),
             lambda x, y, z: or_(and_(x, z), and_(y, not_(z))),
             lambda x, y, z: xor(x, or_(y, not_(z)))]
START = [0x67452301, 0xEFCDAB89, 0x98BADCFE, 0x10325476, 0xC3D2E1F0]
SECOND_START = [0x76543210, 0xFEDCBA98, 0x89ABCDEF, 0x01234567, 0x3C2D1E0F]
# After each round the lines of these variants exchange a register.
EXCHANGED = {256: [0, 1, 2, 3], 320: [1, 3, 0, 2, 4]}
VARIANTS = 128, 160, 256, 320


def scaled_root(n, degree):
    """The integer part of 2^30 times a root."""
    root = 0
    for bit in range(31, -1, -1):
        if (root | 1 << bit) ** degree <= n << 30 * degree:
            root |= 1 << bit
    return root


SQUARE_ROOTS, CUBE_ROOTS = ([scaled_root(p, degree) for p in (2, 3, 5, 7)] for degree in (2, 3))


def size_of(variant):
    """The bytes of a digest."""
    return variant // 8


def start_of(variant):
    first, second = (START[:4], SECOND_START[:4]) if variant in (128, 256) else (START, SECOND_START)
    return first + second if variant in EXCHANGED else first


def step(line, function, word, amount):
    if len(line) == 4:
        a, b, c, d = line
        return [d, rotl(add(add(a, function(b, c, d)), word), amount), b, c]
    a, b, c, d, e = line
    return [e, add(rotl(add(add(a, function(b, c, d)), word), amount), e), b, rotl(c, 10), d]


def compress(variant, state, block):
    words = words_of(block)
    rounds = 4 if variant in (128, 256) else 5
    left, right = (state[:rounds], state[rounds:]) if variant in EXCHANGED else (state, state)
    orders = list(range(16)), [(9 * i + 5) % 16 for i in range(16)]
    constants = [0, *SQUARE_ROOTS], [*CUBE_ROOTS[:rounds - 1], 0]
    for j in range(rounds):
        for one, other in zip(*orders):
            left = step(left, FUNCTIONS[j], add(words[one], constants[0][j]), AMOUNTS[j][one])
            right = step(right, FUNCTIONS[rounds - 1 - j], add(words[other], constants[1][j]), AMOUNTS[j][other])
        orders = [[RHO[i] for i in order] for order in orders]
        if variant in EXCHANGED:
            at = EXCHANGED[variant][j]
            left[at], right[at] = right[at], left[at]
    if variant in EXCHANGED:
        return list(map(add, state, left + right))
    return [add(state[(i + 1) % rounds], add(left[(i + 2) % rounds], right[(i + 3) % rounds])) for i in range(rounds)]


def walk(variant, state, blocks):
    for at in range(0, len(blocks), 64):
        state = compress(variant, state, blocks[at:at + 64])
    return state


def ripemd(variant, message, state=None, before=0):
    """The digest of a message, or of what follows a state after so many blocks."""
    total = 64 * before + len(message)
    padding = [0x80] + [0] * ((55 - total) % 64) + list((8 * total % 2**64).to_bytes(8, "little"))
    return bytes_of(walk(variant, state or start_of(variant), message + padding))


# ---- What takes a message: hashers of a chaining value, the blocks before it, and bytes that wait for a block; each
# but the first takes the digest of the one before. Of a hash it is one, of HMAC the inner and the outer one.

def output(variant, hashers, message):
    """The digest or the tag of a message."""
    for state, before, held in hashers:
        message = ripemd(variant, held + message, state, before)
    return message


def saved(variant, hashers, message):
    """What hashers are saved as: chaining values, blocks, how many bytes wait for a block, and these, with zeros."""
    out = []
    for state, before, held in hashers:
        held, message = held + message, []
        blocks, tail = divmod(len(held), 64)
        count = ((before + blocks) % 2**64).to_bytes(8, "little")
        out += [*bytes_of(walk(variant, state, held[:64 * blocks])), *count, tail]
        out += [*held[64 * blocks:], *[0] * (63 - tail)]
    return out


def keyed(variant, key):
    """The hashers of HMAC under a key."""
    key = ripemd(variant, key) if len(key) > 64 else key
    words = words_of(key + [0] * (64 - len(key)))
    return [(compress(variant, start_of(variant), bytes_of([xor(word, mask) for word in words])), 1, [])
            for mask in (0x36363636, 0x5C5C5C5C)]


def pbkdf2(variant, password, salt, rounds, size):
    hashers, key = keyed(variant, password), []
    for block in range(1, -(-size // size_of(variant)) + 1):
        one = output(variant, hashers, salt + list(block.to_bytes(4, "big")))
        every = words_of(one)
        for _ in range(rounds - 1):
            one = output(variant, hashers, one)
            every = list(map(xor, every, words_of(one)))
        key += bytes_of(every)
    return key[:size]
