"""Tries the functions of nattizhu.h from C and from C++, by each compiler: the header and the binary interface,
warnings of wrong calls, the programs of docs/C.md, and tests/calls.c, also where each access is checked."""
import re

import pytest
from conftest import ARM64, CRATE, ROOT, lines, memcheck, need, need_arm64, programs, run

CALLS = ROOT / "tests/calls.c"
HEADER = (CRATE / "nattizhu.h").read_text("utf-8")
FUNCTIONS = sorted(re.findall(r"^(?:NATTIZHU_CHECKED .*[ *]|void )(nattizhu_\w+)\(", HEADER, re.MULTILINE))
PROGRAMS = programs("docs/C.md", "c")

# Debian's packages of the compilers.
PACKAGES = {"cc": "gcc", "c++": "g++", "clang": "clang", "clang++": "clang"}
COMPILERS = [("cc", "c99"), ("c++", "c++11"), ("clang", "c99"), ("clang++", "c++11")]
STRICT = ["-O2", "-Wall", "-Wextra", "-pedantic", "-Werror", "-D_DEFAULT_SOURCE"]
# For tools that check each access, and make all of it slow: with shorter lists.
CHECKED = ["-O1", "-g", "-D_DEFAULT_SOURCE", "-DMOST=130"]
# Compiles the input, and leaves no file.
INPUT = ["-S", "-o", "-", "-"]

every_standard = pytest.mark.parametrize("compiler, standard", [*COMPILERS, ("c++", "c++17"), ("clang++", "c++17")])


def compile_by(compiler, standard, *words, **options):
    """Compiles as these words for the compiler say, and returns how it ended."""
    need(compiler, PACKAGES[compiler])
    language = "c++" if "++" in standard else "c"
    return run(compiler, f"-std={standard}", "-I", CRATE, "-x", language, *words, **options)


def exported(name):
    """The names that a shared object exports."""
    need("nm", "binutils")
    return sorted(line.split()[-1] for line in run("nm", "-D", "--defined-only", name).stdout.splitlines())


def assert_read_only(name):
    """The loader fills the tables of a shared object before any call, and then has them read-only."""
    need("readelf", "binutils")
    printed = run("readelf", "-W", "-d", "-l", name).stdout
    assert "GNU_RELRO" in printed and re.search(r"\(FLAGS\) .*\bBIND_NOW\b", printed)


def listed(kind):
    """The lines of tests/data/interface.txt that begin with this word, without it."""
    return sorted(words[1:] for words in lines("interface.txt") if words[0] == kind)


@pytest.fixture(name="shared", params=[".", "glibc-hwcaps/x86-64-v3", ARM64])
def fixture_shared(request, library):
    """A shared object of the library."""
    if request.param == ARM64:
        need_arm64()
    return library / request.param / "libnattizhu.so.0"


def test_exported_functions(shared):
    assert exported(shared) == FUNCTIONS


def test_shared_object_needs_the_c_library_alone(shared):
    need("objdump", "binutils")
    assert re.findall("NEEDED +(.*)", run("objdump", "-p", shared).stdout) == ["libc.so.6"]


def test_tables_of_addresses_are_read_only(shared):
    assert_read_only(shared)


def test_listed_functions():
    assert FUNCTIONS and [name for name, since in listed("function") if re.fullmatch("[0-9.]+", since)] == FUNCTIONS


def test_listed_sizes_and_values():
    types = re.findall(r"^.*} (nattizhu_\w+);$", HEADER, re.MULTILINE)
    assert types and [name for name, _ in listed("size")] == sorted(types)
    constants = re.findall(r"^(?:#define| ) (NATTIZHU_\w+)(?:\(size\))? +=? ?(?:\d|NATTIZHU|\()", HEADER, re.MULTILINE)
    assert constants and [name.partition("(")[0] for name, _ in listed("value")] == sorted(constants)
    equal = [(f"sizeof({name})", size) for name, size in listed("size")] + listed("value")
    asserted = "".join(f'_Static_assert({name} == {number}, "{name}");\n' for name, number in equal)
    compile_by("cc", "c11", *INPUT, input='#include "nattizhu.h"\n' + asserted)


@pytest.mark.parametrize("compiler, standard, warnings", [
    *((*compiler, STRICT) for compiler in COMPILERS),
    ("clang", "c99", ["-Weverything", "-Werror"]),
    ("clang++", "c++17", ["-Weverything", "-Wno-c++98-compat", "-Wno-c++98-compat-pedantic", "-Werror"]),
], ids=["cc", "c++", "clang", "clang++", "all warnings of clang", "all warnings of clang++"])
def test_header_included_twice(compiler, standard, warnings):
    compile_by(compiler, standard, *warnings, *INPUT, input='#include "nattizhu.h"\n' * 2)


DECLARATIONS = """#include "nattizhu.h"
extern nattizhu_state state; extern nattizhu_hmac_state hmac; extern nattizhu_message list[1];
extern uint8_t bytes[9], digest[20]; extern const uint8_t *message; void calls(void);
"""

RIGHT = """\
nattizhu_version()
nattizhu_digest_size(NATTIZHU_RIPEMD160)
nattizhu_state_size()
nattizhu_hmac_state_size()
nattizhu_digest(NATTIZHU_RIPEMD160, bytes, 3, digest, 20)
nattizhu_each(NATTIZHU_RIPEMD160, bytes, 3, 3, digest, 20)
nattizhu_list(NATTIZHU_RIPEMD160, list, 1, digest, 20)
nattizhu_init(NATTIZHU_RIPEMD160, &state)
nattizhu_update(&state, bytes, 3)
nattizhu_final(&state, digest, 20)
nattizhu_save(&state, bytes, 92)
nattizhu_load(NATTIZHU_RIPEMD160, &state, bytes, 92)
nattizhu_hmac(NATTIZHU_RIPEMD160, bytes, 3, bytes, 3, digest, 20)
nattizhu_hmac_verify_text(NATTIZHU_RIPEMD160, bytes, 3, bytes, 3, digest, 20)
nattizhu_hmac_each(NATTIZHU_RIPEMD160, bytes, 3, bytes, 3, 3, digest, 20)
nattizhu_hmac_list(NATTIZHU_RIPEMD160, bytes, 3, list, 1, digest, 20)
nattizhu_hmac_init(NATTIZHU_RIPEMD160, &hmac, bytes, 3)
nattizhu_hmac_update(&hmac, bytes, 3)
nattizhu_hmac_final(&hmac, digest, 20)
nattizhu_hmac_verify(&hmac, digest, 20)
nattizhu_hmac_save(&hmac, bytes, 184)
nattizhu_hmac_load(NATTIZHU_RIPEMD160, &hmac, bytes, 184)
nattizhu_pbkdf2(NATTIZHU_RIPEMD160, bytes, 3, bytes, 3, 1, digest, 20)
nattizhu_pbkdf2_list(NATTIZHU_RIPEMD160, list, 1, list, 1, 1, 20, digest, 20)
""".splitlines()

# A call that answers nothing.
WIPE = "nattizhu_wipe(bytes, 3)"

OTHER_STATE = [re.sub("&(state|hmac)", lambda found: "&hmac" if found[1] == "state" else "&state", call)
               for call in RIGHT if "&" in call]

EXCHANGED = """\
nattizhu_digest(bytes, 3, NATTIZHU_RIPEMD160, digest, 20)
nattizhu_digest(NATTIZHU_RIPEMD160, 3, bytes, digest, 20)
nattizhu_digest(NATTIZHU_RIPEMD160, message, 3, message, 20)
nattizhu_each(NATTIZHU_RIPEMD160, bytes, 3, digest, 20, 3)
nattizhu_list(NATTIZHU_RIPEMD160, bytes, 3, digest, 20)
nattizhu_list(NATTIZHU_RIPEMD160, digest, 20, list, 1)
nattizhu_init(&state, NATTIZHU_RIPEMD160)
nattizhu_update(bytes, 3, &state)
nattizhu_final(digest, 20, &state)
nattizhu_save(bytes, 92, &state)
nattizhu_save(&state, message, 92)
nattizhu_load(&state, NATTIZHU_RIPEMD160, bytes, 92)
nattizhu_load(NATTIZHU_RIPEMD160, bytes, 92, &state)
nattizhu_hmac_list(NATTIZHU_RIPEMD160, list, 1, bytes, 3, digest, 20)
nattizhu_hmac_init(&hmac, NATTIZHU_RIPEMD160, bytes, 3)
nattizhu_hmac_init(NATTIZHU_RIPEMD160, bytes, 3, &hmac)
nattizhu_pbkdf2(NATTIZHU_RIPEMD160, bytes, 3, bytes, 3, digest, 20, 1)
nattizhu_pbkdf2_list(NATTIZHU_RIPEMD160, list, 1, list, 1, 1, digest, 20, 20)
nattizhu_pbkdf2_list(NATTIZHU_RIPEMD160, list, list, 1, 1, 20, digest, 20)
""".splitlines()


def function_of(statements):
    """A source with a function of these statements, each on a line of its own."""
    return DECLARATIONS + "\n".join(["void calls(void) {", *statements, "}\n"])


def assert_warned(compiler, standard, statements):
    """The compiler has to warn of each of these or to refuse it, without being asked for more warnings than it gives
    by itself."""
    source = function_of(statements)
    ended = compile_by(compiler, standard, *INPUT, input=source, status=None, env={"LC_ALL": "C"})
    found = re.findall(r"^<stdin>:(\d+):\d+: (?:warning|error): ", ended.stderr, re.MULTILINE)
    silent = set(statements) - {source.splitlines()[int(number) - 1] for number in found}
    assert not silent, f"{compiler} takes as {standard}, without a warning:\n" + "\n".join(sorted(silent))


def test_right_calls_are_of_all_functions():
    assert sorted(call.partition("(")[0] for call in [*RIGHT, WIPE]) == FUNCTIONS


@every_standard
def test_no_warning_of_right_calls(compiler, standard):
    calls = [*(f"if ({call}) return;" for call in RIGHT), f"{WIPE};"]
    compile_by(compiler, standard, *STRICT, *INPUT, input=function_of(calls))


@every_standard
def test_warning_of_ignored_answers(compiler, standard):
    assert_warned(compiler, standard, [f"{call};" for call in RIGHT])


# In two lists: clang stops after 20 errors.
@every_standard
@pytest.mark.parametrize("calls", [OTHER_STATE, EXCHANGED], ids=["other state", "exchanged"])
def test_warning_of_wrong_calls(compiler, standard, calls):
    assert_warned(compiler, standard, [f"if ({call}) return;" for call in calls])


@pytest.fixture(name="build", ids="-".join, params=[
    *((*compiler, "libnattizhu.a") for compiler in COMPILERS), ("cc", "c99", "libnattizhu.so.0")])
def fixture_build(request, library, tmp_path):
    """Compiles a program with the static library or the shared one, and returns the command that runs it."""
    compiler, standard, name = request.param

    def build(source, **options):
        compile_by(compiler, standard, *STRICT, source, "-x", "none", library / name, f"-Wl,-rpath,{library}",
                   "-o", tmp_path / "program", **options)
        return [tmp_path / "program"]

    return build


@pytest.mark.parametrize("text, printed", PROGRAMS, ids=[f"program {at}" for at in range(1, len(PROGRAMS) + 1)])
def test_page(build, tmp_path, text, printed):
    """A program with an argument goes on from the state that its first run leaves in that file."""
    program = build("-", input=text)
    runs = [("a", tmp_path / "kept"), ("bc", tmp_path / "kept")] if "argv" in text else [("",)]
    assert "".join(run(*program, *words, input=piece).stdout for piece, *words in runs) == printed


def assert_tried(least, *command, by=run, **options):
    """Runs tests/calls.c or tests/evp.c as it was compiled: all cases have to go as expected, and they have to be so many."""
    printed = by(*command, **options).stdout
    good, tried = map(int, re.search(r"^\w+: (\d+) of (\d+) cases as expected$", printed, re.MULTILINE).groups())
    assert good == tried >= least, f"there have to be at least {least} cases, and {tried} were tried"
    assert by is memcheck or "no addresses" not in printed, "tests/calls.c has to try a key that is too long"


def test_calls(build, values):
    assert_tried(2147000, *build(CALLS), values)


def test_calls_with_sanitizers(library, values, tmp_path, sanitizers):
    run(*sanitizers, "-std=c99", *CHECKED, "-I", CRATE, CALLS, CRATE / "nattizhu.c", library / "libnattizhu.a",
        "-o", tmp_path / "program")
    assert_tried(2086000, tmp_path / "program", values)


@pytest.mark.parametrize("variant", [128, 160, 256, 320])
def test_calls_under_valgrind(library, values, tmp_path, variant):
    program = tmp_path / "program"
    compile_by("cc", "c99", *CHECKED, CALLS, "-x", "none", library / "libnattizhu.a", "-o", program)
    assert_tried(514000, program, values, variant, by=memcheck)
