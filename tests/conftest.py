"""What the tests of what is built share: commands, the programs of a page, and the library, which is built
and installed once."""
import fcntl
import os
import pathlib
import re
import shutil
import subprocess

import pytest
import textbook

ROOT = pathlib.Path(__file__).resolve().parent.parent
DATA = ROOT / "tests/data"
CRATE = ROOT / "crates/ripemd_c"
BUILT = CRATE / "out"
PROGRAM = ROOT / "crates/ripemd_sum/out/x86-64/ripemd_sum"
FILES_PROGRAM = ROOT / "crates/rmdsum/out/rmdsum"
SECRETS = ROOT / "tests/secrets"

# The target for ARM64, and Debian's C compiler for it.
ARM64 = "aarch64-unknown-linux-gnu"
ARM64_COMPILER = "aarch64-linux-gnu-gcc"

# The status of a program of which memcheck reports something.
NOTICED = 3
VARIANTS = ["128", "160", "256", "320"]
# The digest of "abc" by RIPEMD-160.
ABC = "8eb208f7e05d987a9b044a8e98c6b087f15a0bfc"

# Commands run without what a caller of make or Python may have set.
ENVIRONMENT = {name: value for name, value in os.environ.items()
               if not re.match("MAKE|MFLAGS|PYTHONPATH|PYTHONHOME|PYTEST|LIBNATTIZHU|NATTIZHU|PKG_CONFIG|"
                               "RUST(?!UP)|OPENSSL_|LD_LIBRARY_PATH|GLIBC_TUNABLES|SOURCE_DATE_EPOCH", name)}
ENVIRONMENT["PYTHONDONTWRITEBYTECODE"] = "1"


def run(*command, status=0, env=None, cwd=ROOT, text=True, **options):
    """Runs a command, which has to end with this status, and returns what it printed."""
    if "input" not in options:
        options.setdefault("stdin", subprocess.DEVNULL)
    ended = subprocess.run([str(word) for word in command], cwd=cwd, env={**ENVIRONMENT, **(env or {})},
                           stdout=subprocess.PIPE, stderr=subprocess.PIPE, text=text, check=False, **options)
    if status is not None and ended.returncode != status:
        pytest.fail(f"{' '.join(map(str, command))}\nended with {ended.returncode}, not {status}\n"
                    f"{ended.stdout}\n{ended.stderr}", pytrace=False)
    return ended


def need(tool, package=None):
    """The tests that ask for it are left out where the machine has no such tool."""
    if shutil.which(tool) is None:
        pytest.skip(f"there is no {tool}" + (f" (Debian's {package})" if package else ""))


def lines(name):
    """The words of each line of a file of tests/data."""
    return [line.split() for line in (DATA / name).read_text("utf-8").splitlines() if line[:1] not in ("", "#")]


def counted(length, first=0):
    """So many bytes that count up."""
    return bytes((first + at) % 256 for at in range(int(length)))


# Rows of tests/data, each of a variant: messages that the authors published, and their digests; the lengths of
# messages that count up, and their digests; keys, texts and tags, in hexadecimal.
PUBLISHED = [(bits, text.encode() * int(times), digest) for bits, text, times, digest in lines("published.txt")]
DIGESTS = [(bits, int(length), digest) for bits, length, digest in [
    *((bits, *words) for bits in VARIANTS for words in lines(f"digests-{bits}.txt")), *lines("digests-long.txt")]]
TAGS = [(bits, counted(length, 1).hex(), counted(150).hex(), tag) for bits, length, tag in lines("tags.txt")]
TAGS += [tuple(words) for words in lines("rfc2286.txt")]


def fences(page):
    """The blocks of a page of Markdown between fences: pairs of a language and a text."""
    return re.findall(r"^```(\w+)\n(.*?)^```$", (ROOT / page).read_text("utf-8"), re.MULTILINE | re.DOTALL)


def programs(page, language):
    """The programs of a page in this language, each with the text that stands below it, which it prints."""
    blocks = fences(page)
    return [(text, following[1] if following[0] == "text" else None)
            for (name, text), following in zip(blocks, [*blocks[1:], ("", "")]) if name == language]


def version():
    """The version that nattizhu.h names."""
    header = (CRATE / "nattizhu.h").read_text("utf-8")
    return re.search(r'^#define NATTIZHU_VERSION "(.*)"$', header, re.MULTILINE)[1]


def pytest_terminal_summary(terminalreporter):
    """Says which browsers and which Node.js there are."""
    found = [run(tool, "--version", status=None).stdout.strip() for tool in ("chromium", "firefox-esr", "node")
             if shutil.which(tool)]
    terminalreporter.write_line(f"On this machine: {', '.join(found) or 'no browser'}.")


@pytest.fixture(scope="session")
def once(tmp_path_factory):
    """Does something in a folder once for all processes that run the tests (pytest-xdist), and returns the
    folder."""
    shared = tmp_path_factory.getbasetemp()
    if "PYTEST_XDIST_WORKER" in os.environ:
        shared = shared.parent

    def do(name, action):
        with (shared / f"{name}.lock").open("w") as lock:
            fcntl.flock(lock, fcntl.LOCK_EX)
            if not (shared / f"{name}.done").exists():
                action(shared / name)
                (shared / f"{name}.done").touch()
        return shared / name

    return do


def compiles(compiler):
    """Whether there is this C compiler, with headers of a C library."""
    return shutil.which(compiler) is not None and not run(
        compiler, "-E", "-", input="#include <stdlib.h>\n", status=None).returncode


def need_arm64():
    """The tests that ask for it are left out where no C compiler is for ARM64."""
    if not compiles(ARM64_COMPILER):
        pytest.skip(f"there is no {ARM64_COMPILER} (Debian's gcc-aarch64-linux-gnu, libc6-dev-arm64-cross)")


@pytest.fixture(scope="session")
def library(once):
    """The folder of the libraries for C, which build/crate and build/shared make. Where there is a compiler for
    ARM64, those for it are in a folder below."""
    need("cc", "gcc")
    targets = [ARM64] if compiles(ARM64_COMPILER) else []

    def build(_):
        run("build/crate", "ripemd_c", "x86-64", "x86-64-v3", *targets)
        run("build/shared", BUILT, "x86-64")
        for target in targets:
            run("build/shared", BUILT / target, target)

    once("library", build)
    return BUILT


@pytest.fixture(scope="session")
def values(tmp_path_factory):
    """A file for tests/calls.c: calls by their numbers in tests/calls.h, what others gave, and what states are saved as
    then by the textbook."""
    def saved(bits, key, text):
        hashers = [(textbook.start_of(int(bits)), 0, [])] if key is None else textbook.keyed(int(bits), [*key])
        return bytes(textbook.saved(int(bits), hashers, [*text])).hex()

    rows = [(0, bits, 1, "", counted(length).hex(), digest, saved(bits, None, counted(length)))
            for bits, length, digest in DIGESTS if length <= 200]
    rows += [(3, bits, rounds, counted(password, 1).hex(), counted(salt).hex(), key, "")
             for bits, password, salt, rounds, key in lines("keys.txt")]
    rows += [(4, bits, 1, key, text, tag, saved(bits, bytes.fromhex(key), bytes.fromhex(text)))
             for bits, key, text, tag in TAGS]
    file = tmp_path_factory.mktemp("values") / "values"
    file.write_text("".join("{} {} {} x{} x{} x{} x{}\n".format(*row) for row in rows))
    return file


# Digests and tags of which one bit is wrong, by the right functions under other names.
BROKEN = """#include "nattizhu.h"
#define BROKEN(name, parameters, arguments) \\
  extern bool right_##name parameters; \\
  bool name parameters { bool done = right_##name arguments; *digest ^= 1; return done; }
BROKEN(nattizhu_final, (const nattizhu_state *state, uint8_t *digest, size_t size), (state, digest, size))
BROKEN(nattizhu_hmac_final, (const nattizhu_hmac_state *state, uint8_t *digest, size_t size), (state, digest, size))
BROKEN(nattizhu_digest, (nattizhu_variant variant, const uint8_t *bytes, size_t length, uint8_t *digest, size_t size),
       (variant, bytes, length, digest, size))
"""


@pytest.fixture(scope="session")
def broken(library, once):
    """A folder with static libraries in place of ours, whose digests are wrong: what uses ours is wrong by them."""
    need("objcopy", "binutils")

    def build(folder):
        folder.mkdir()
        for archive in library.glob("*.a"):
            shutil.copy(archive, folder)
        names = re.findall(r"^BROKEN\((\w+)", BROKEN, re.MULTILINE)
        run("objcopy", *(f"--redefine-sym={name}=right_{name}" for name in names), folder / "libnattizhu.a")
        run("cc", "-O2", "-fPIC", "-Wall", "-Wextra", "-Werror", "-I", CRATE, "-x", "c", "-c", "-",
            "-o", folder / "broken.o", input=BROKEN)
        run("ar", "r", folder / "libnattizhu.a", folder / "broken.o")

    return once("broken", build)


@pytest.fixture(scope="session")
def wasm(once):
    """The library of which build/js makes the package for JavaScript."""
    once("wasm", lambda _: run("build/crate", "ripemd_c", "wasm64-unknown-unknown"))


@pytest.fixture(scope="session")
def javascript(wasm, once):
    """A folder with the package for JavaScript and the page."""
    for tool, package in [("node", "nodejs"), ("npm", "npm"), ("wasm-opt", "binaryen"), ("esbuild", "esbuild")]:
        need(tool, package)
    return once("javascript", lambda folder: run("build/js", folder))


@pytest.fixture(scope="session")
def arm64(library):
    """The folder of the libraries for ARM64, whose programs qemu-aarch64 runs."""
    need_arm64()
    need("qemu-aarch64", "qemu-user")
    return library / ARM64


def memcheck(*command, **options):
    """Runs a command under valgrind's memcheck, which ends with the status NOTICED if it has something to report."""
    need("valgrind", "valgrind")
    if run("valgrind", "-q", "true", status=None).returncode:
        pytest.skip("there is no valgrind that runs (Debian's libc6-dbg)")
    return run("valgrind", "-q", f"--error-exitcode={NOTICED}", *command, **options)


@pytest.fixture(params=[("cc", "gcc", "libgcc-12-dev"), ("clang", "clang", "libclang-rt-14-dev")], ids=["cc", "clang"])
def sanitizers(request, tmp_path):
    """A compiler, with flags by which programs check each access and stop at what C does not define."""
    compiler, *packages = request.param
    need(compiler, packages[0])
    command = [compiler, "-O1", "-g", "-fsanitize=address,undefined", "-fno-sanitize-recover=undefined"]
    if run(*command, "-x", "c", "-", "-o", tmp_path / "program", input="int main(void) { return 0; }", status=None).returncode:
        pytest.skip(f"{compiler} has no sanitizers (Debian's {packages[1]})")
    return command


@pytest.fixture(scope="session")
def marks(once):
    """The folder of marks.o and marks.so, by which a program tells memcheck what is secret."""
    need("cc", "gcc")
    if run("cc", "-E", "-", input="#include <valgrind/memcheck.h>\n", status=None).returncode:
        pytest.skip("there is no valgrind/memcheck.h (Debian's valgrind)")

    def build(folder):
        folder.mkdir()
        run("cc", "-O2", "-fPIC", "-Wall", "-Wextra", "-Werror", "-c", "-o", folder / "marks.o", SECRETS / "marks.c")
        run("cc", "-shared", "-o", folder / "marks.so", folder / "marks.o")

    return once("marks", build)


@pytest.fixture(scope="session")
def program(once):
    """The program ripemd_sum, which build/crate makes as `make` does."""
    once("program", lambda _: run("build/crate", "ripemd_sum", "x86-64"))
    return PROGRAM


@pytest.fixture(scope="session")
def rmdsum(once):
    """The program rmdsum, as `make` makes it."""
    once("rmdsum", lambda _: (run("build/crate", "rmdsum", "x86-64", "x86-64-v3"), run("build/program", FILES_PROGRAM)))
    return FILES_PROGRAM


@pytest.fixture(scope="session")
def prefix(library, program, rmdsum, once):
    """A folder into which `make install` copied what is built."""
    parts = ["install-library", "install-python", "install-program"]
    return once("prefix", lambda folder: run("make", *parts, f"PREFIX={folder}", "DESTDIR="))


def site(prefix):
    """The folder of Python's packages below a prefix; the test is left out where there is none."""
    found = list(prefix.glob("lib/python3.*/site-packages"))
    if not found:
        pytest.skip("the package for Python is not built (Debian's python3-dev, python3-setuptools, python3-wheel)")
    return found[0]
