"""Arbitrary calls: of the functions for C by libFuzzer, under the sanitizers, and of the package for Python. For `make
fuzz`, FUZZ_SECONDS says how long; what libFuzzer then finds of use is kept in tests/data/fuzz.txt."""
import itertools
import os
import sys
import time

import pytest
from conftest import CRATE, DATA, ROOT, need, run, site

SECONDS = int(os.environ.get("FUZZ_SECONDS", "0"))
# The inputs that reach all that is reached: one a line, in hexadecimal.
INPUTS = DATA / "fuzz.txt"


@pytest.fixture(name="fuzzer", scope="module")
def fixture_fuzzer(library, tmp_path_factory):
    need("clang", "clang")
    fuzzer = tmp_path_factory.mktemp("fuzz") / "fuzzer"
    flags = ["-g", "-O1", "-fsanitize=fuzzer,address,undefined", "-fno-sanitize-recover=undefined", "-o", fuzzer]
    empty = "int LLVMFuzzerTestOneInput(const unsigned char *data, unsigned long size) { return !data && size; }\n"
    if run("clang", *flags, "-x", "c", "-", input=empty, status=None).returncode:
        pytest.skip("clang has no libFuzzer (Debian's libclang-rt-14-dev)")
    run("clang", *flags, "-Wall", "-Wextra", "-Werror", "-I", CRATE, ROOT / "tests/fuzz.c", CRATE / "nattizhu.c",
        library / "libnattizhu.a")
    return fuzzer


def test_functions_for_c(fuzzer, tmp_path):
    known, found, least = (tmp_path / name for name in ("known", "found", "least"))
    for folder in (known, found, least):
        folder.mkdir()
    for number, line in enumerate(INPUTS.read_text().splitlines()):
        (known / str(number)).write_bytes(bytes.fromhex(line))
    limits = [f"-max_total_time={SECONDS}"] if SECONDS else ["-runs=200000", "-seed=1"]
    said = run(fuzzer, *limits, "-max_len=600", "-len_control=0", "-timeout=60", found, known, cwd=tmp_path).stderr
    print("libFuzzer:", said.rstrip().rpartition("\n")[2])
    if SECONDS:
        run(fuzzer, "-merge=1", "-max_len=600", least, known, found, cwd=tmp_path)
        INPUTS.write_text("".join(sorted(f"{file.read_bytes().hex()}\n" for file in least.iterdir())))


def test_package_for_python(prefix):
    end = time.monotonic() + SECONDS
    first = int(time.time()) if SECONDS else 1
    for seed in itertools.count(first):
        run(sys.executable, "-X", "dev", ROOT / "tests/fuzz.py", seed, 100000,
            env={"PYTHONPATH": site(prefix), "PYTHONMALLOC": "debug"})
        if time.monotonic() >= end:
            print(f"fuzz.py: {(seed - first + 1) * 100000} calls")
            break
