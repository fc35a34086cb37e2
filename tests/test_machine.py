"""Shows the machine code of the libraries for C and of the modules for JavaScript right for every input of many sizes
(tests/machine). And that what is wrong is noticed: in the C code, in the compiled code, and in single bits of it."""
import json
import random
import re
import sys
import tarfile

import pytest
from conftest import ARM64, CRATE, DIGESTS, ROOT, TAGS, counted, lines, need, run

for _module, _package in (("capstone", "python3-capstone"), ("elftools", "python3-pyelftools")):
    pytest.importorskip(_module, reason=f"there is no {_module} for this python3 (Debian's {_package})")
# pylint: disable=wrong-import-position
import cases  # noqa: E402
import machine  # noqa: E402
import textbook  # noqa: E402
from depth import Depths  # noqa: E402
from x86 import X86  # noqa: E402

RUN = ROOT / "tests/machine/run"
BITS = 100


def test_textbook():
    """It gives the values of other implementations."""
    found = [(textbook.ripemd(int(bits), [*counted(length)]), digest)
             for bits, length, digest in DIGESTS if length <= 200]
    found += [(textbook.output(int(bits), textbook.keyed(int(bits), [*bytes.fromhex(key)]), [*bytes.fromhex(text)]),
               tag) for bits, key, text, tag in TAGS]
    found += [(textbook.pbkdf2(int(bits), [*counted(password, 1)], [*counted(salt)], int(rounds), len(key) // 2), key)
              for bits, password, salt, rounds, key in lines("keys.txt") if int(rounds) <= 3]
    found += [(textbook.saved(int(bits), textbook.keyed(int(bits), [*counted(20, 1)]), []),
               "".join(value + "01" + "00" * 71 for value in values)) for bits, *values in lines("states.txt")]
    assert len(found) > 800 and [row for row in found if bytes(row[0]).hex() != row[1]] == []


def passes(*words):
    printed = run(sys.executable, RUN, *words, status=None).stdout
    assert re.search(r"^[1-9]\d* passed, 0 failed$", printed, re.MULTILINE), printed


def objects(library):
    """The shared objects: for x86-64, for x86-64-v3, and where there is a compiler for ARM64."""
    arm64 = library / ARM64 / "libnattizhu.so.0"
    return [library / "libnattizhu.so.0", library / "glibc-hwcaps/x86-64-v3/libnattizhu.so.0",
            *([arm64] if arm64.exists() else [])]


@pytest.fixture(name="modules", scope="module")
def fixture_modules(javascript, tmp_path_factory):
    """The WebAssembly modules of the packages."""
    need("wasm-dis", "binaryen")
    folder = tmp_path_factory.mktemp("modules")
    with tarfile.open(next(javascript.glob("nattizhu-*.tgz"))) as package:
        package.extractall(folder)
    return [folder / "package" / name for name in ("nattizhu.wasm", "ripemd160.wasm")]


def test_a_few_sizes(library):
    passes("--quick", *objects(library))


def test_a_few_sizes_of_modules(modules):
    passes("--quick", *modules)


@pytest.mark.mutants
def test_every_size(library, modules):
    passes(*objects(library), *modules)


# What nattizhu.c clears after each call. The last two are called by functions of it that have less than 128 bytes.
DEPTHS = {"hmac_save": "COPY", "hmac_load": "COPY", "hmac_update": "APPEND", "hmac_final": "END", "hmac_verify": "END",
          "digest": "HASH", "update": "HASH", "final": "HASH", "hmac": "TAG", "hmac_verify_text": "TAG",
          "hmac_init": "TAG", "hmac_each": "MANY", "pbkdf2": "KEYS", "hmac_list_nonnull": "MANY",
          "pbkdf2_list_nonnull": "KEYS"}


def test_calls_reach_no_deeper_than_is_cleared(library):
    """For every size: frames are added along calls. Records are halved by a function that calls itself."""
    source = (CRATE / "nattizhu.c").read_text("utf-8")
    cleared = {name: int(size) for name, size in re.findall(r"\b([A-Z]+) = (\d+)\b", source)}
    for path in objects(library):
        image = machine.Image(path)
        depths = Depths(image)
        for call, name in DEPTHS.items():
            more = 128 if call.endswith("_nonnull") else 0
            assert depths.of(image.functions[f"nattizhu_{call}"]) + more <= cleared[name], (path, call)
        assert all("write_records" in image.place(at) for at in depths.again)
        assert 0 < max(depths.again.values()) <= cleared["HALVING"]


DIGEST = ("bool nattizhu_digest(nattizhu_variant variant, const uint8_t *message, size_t length,\n"
          "                     uint8_t *digest, size_t digest_length) {\n")
# Errors of nattizhu.c: what stands there, what instead, the case that notices it, and what that says.
ERRORS = {
    "a jump that depends on a secret": (
        DIGEST, DIGEST + "  if (length > 5 && message[5] & 1)\n    return length == 77;\n", "digest",
        r"nattizhu_digest\+0x[0-9a-f]+ \(0x[0-9a-f]+\): a jump depends on message"),
    "reads past the end": (
        DIGEST, DIGEST + "  if (length > 5)\n    (void)((const volatile uint8_t *)message)[length];\n", "digest",
        r"nattizhu_digest\+0x[0-9a-f]+ \(0x[0-9a-f]+\): reads at 0x[0-9a-f]+, which is in no memory that it is given"),
    "writes what is only read": (
        DIGEST, DIGEST + "  if (length > 5)\n    ((volatile uint8_t *)message)[5] = 0;\n", "digest",
        r"nattizhu_digest\+0x[0-9a-f]+ \(0x[0-9a-f]+\): writes at 0x[0-9a-f]+, which it is not to"),
    "writes before it refuses": (
        "  return writable(&saved, saved_length) && nattizhu_save_nonnull(",
        "  if (saved)\n    *saved = 1;\n  return writable(&saved, saved_length) && nattizhu_save_nonnull(", "load",
        r"refusals: [1-9]\d* of \d+ bytes are wrong, the first at 0"),
    "clears too little": (
        "END = 1472,", "END = 128,", "tags_in_pieces",
        r"hmac_final leaves key in the stack, \d+ bytes below its caller"),
    "leaves registers": (
        '        "  pxor %xmm\\\\n, %xmm\\\\n\\n"\n', '        "  pxor %xmm0, %xmm0\\n"\n', "tags",
        r"hmac leaves .*key.* in xmm\d"),
}


@pytest.mark.parametrize("error", ERRORS)
def test_error_in_c_is_noticed(library, tmp_path, error):
    old, new, name, said = ERRORS[error]
    source = (CRATE / "nattizhu.c").read_text("utf-8")
    assert source.count(old) == 1
    (tmp_path / "nattizhu.c").write_text(source.replace(old, new), "utf-8")
    run("cc", "-std=c11", "-O2", "-fPIC", "-fno-stack-protector", "-I", CRATE, "-shared", "-o", tmp_path / "wrong.so",
        tmp_path / "nattizhu.c", CRATE / "out/x86-64/libripemd_c.a", "-Wl,-z,now")
    printed = run(sys.executable, RUN, "--quick", "-k", name, tmp_path / "wrong.so", status=1).stdout
    assert re.search(said, printed), printed


@pytest.fixture(name="image", scope="module")
def fixture_image(library):
    return machine.Image(library / "libnattizhu.so.0")


def wrongs(image, length=20):
    """What is wrong with the digest of a message of this length, and the processor that made it."""
    try:
        processor = X86(image)  # which runs what the loader runs
    except machine.Wrong as wrong:
        return [str(wrong)], None
    caller = cases.Caller(processor)
    with caller.trying(length, "bytes"):
        message, out = caller.given("message", length), caller.place(20)
        caller.call("digest", 160, *message, *out)
        caller.holds(out, textbook.ripemd(160, message.bytes))
    return caller.wrong, processor


def test_wrong_rotation_is_noticed(image):
    """By one more, in an instruction that rotates."""
    found, processor = wrongs(image)
    assert found == []
    at = next(at for at in processor.code
              if image.bytes.get(at) == 0xC1 and image.bytes[at + 1] >> 3 == 0b11000)  # rol of a register by a number
    image.bytes[at + 2] += 1
    found, _ = wrongs(image)
    image.bytes[at + 2] -= 1
    assert found == ["20 bytes: 20 of 20 bytes are wrong, the first at 0"]


# Prints whether the digests of some messages by a shared object are right on this processor.
NATIVE = """
import ctypes, json, sys
library = ctypes.CDLL(sys.argv[1])
for message, digest in json.load(sys.stdin):
    message, out = bytes.fromhex(message), ctypes.create_string_buffer(20)
    size = ctypes.c_size_t
    assert library.nattizhu_digest(160, message, size(len(message)), out, size(20)) and out.raw.hex() == digest
print("right")
"""


def test_single_bits_are_noticed(library, image, tmp_path):
    """Of single bits of the code that runs each is noticed, or the digests of the changed object are right on this
    processor too: for this size it does not matter."""
    draw = random.Random(1)
    found, processor = wrongs(image)
    assert found == []
    code = sorted((at, after - at) for at, (_, after) in processor.code.items() if after)
    messages = [draw.randbytes(20) for _ in range(20)]
    asked = json.dumps([(m.hex(), bytes(textbook.ripemd(160, list(m))).hex()) for m in messages])
    data = (library / "libnattizhu.so.0").read_bytes()
    noticed = 0
    for at, length in draw.sample(code, BITS):
        at, bit = at + draw.randrange(length), 1 << draw.randrange(8)
        image.bytes[at] ^= bit
        found, _ = wrongs(image)
        image.bytes[at] ^= bit
        if found:
            noticed += 1
            continue
        changed = bytearray(data)
        changed[image.offset(at)] ^= bit
        (tmp_path / "changed.so").write_bytes(changed)
        ended = run(sys.executable, "-c", NATIVE, tmp_path / "changed.so", input=asked, status=None)
        assert ended.stdout == "right\n", f"{image.place(at)}, bit {bit:#x}: not noticed, and wrong\n{ended.stderr}"
    print(f"{noticed} of {BITS} bits noticed; the others do not matter")
    assert noticed >= BITS * 8 // 10
