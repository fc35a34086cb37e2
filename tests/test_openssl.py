"""Tries the provider for OpenSSL: by the program openssl and by Python's hashlib, with the values of tests/data; by
tests/evp.c, what only C sees; a package of Debian over hashlib; the commands of docs/OPENSSL.md, and that of docs/PYTHON.md;
and libraries that it cannot use."""
import json
import os
import pathlib
import re
import shutil

import pytest
from conftest import (ABC, ARM64_COMPILER, CRATE, DIGESTS, PUBLISHED, ROOT, SECRETS, TAGS, VARIANTS, counted, fences,
                      lines, memcheck, need, programs, run, version)
from test_c import PACKAGES, assert_read_only, assert_tried, exported

SOURCE = ROOT / "openssl/provider.c"
CNF = ROOT / "openssl/openssl.cnf"
# The commands of the page, but for the one that is for other folders than that of the Debian package, and those of Python's
# that are about the provider.
PAGE = [(text, printed or "") for page in ("docs/OPENSSL.md", "docs/PYTHON.md") for text, printed in programs(page, "sh")
        if "OPENSSL_MODULES" not in text and (page == "docs/OPENSSL.md" or "openssl.cnf" in text)]

BESIDE = ["default", "nattizhu", "legacy"]
STRICT = ["-O2", "-Wall", "-Wextra", "-pedantic", "-Wconversion", "-Werror"]
SHARED = ["-std=c99", "-fPIC", "-shared", "-Wl,-rpath,$ORIGIN/..", "-I", CRATE, SOURCE]

# The digests of "abc".
ABCS = {bits: digest for bits, message, digest in PUBLISHED if message == b"abc"}
# Messages of up to 200 bytes.
SHORT = [row for row in DIGESTS if row[1] <= 200]


def modules_of(library):
    """The folder of the provider over this library."""
    if not (library / "ossl-modules/nattizhu.so").exists():
        pytest.skip("there are no headers of OpenSSL 3 (Debian's libssl-dev; for ARM64, libssl-dev:arm64)")
    return library / "ossl-modules"


@pytest.fixture(name="modules", scope="session")
def fixture_modules(library):
    return modules_of(library)


def try_evp(folder, modules, *before, compiler=("cc", "-O2"), digests=DIGESTS, pairs=100, by=run):
    """Compiles tests/evp.c and runs it with these digests."""
    run(*compiler, "-std=c11", "-Wall", "-Wextra", "-Werror", ROOT / "tests/evp.c", "-o", folder / "evp", "-lcrypto",
        "-lpthread")
    rows = "".join(f"{bits} {length} {digest}\n" for bits, length, digest in digests)
    assert_tried(1700 + 25 * len(digests), *before, folder / "evp", pairs, by=by, input=rows, env={"OPENSSL_MODULES": modules})


@pytest.fixture(name="openssl")
def fixture_openssl(modules):
    """Runs the program openssl with these providers, of which ours is in that folder."""
    need("openssl", "openssl")

    def runs(command, *words, providers=("nattizhu", "default"), folder=modules, **options):
        chosen = [["-provider-path", folder if name == "nattizhu" else "", "-provider", name] for name in providers]
        return run("openssl", command, *sum(chosen, []), *words, **options)

    return runs


@pytest.fixture(name="over")
def fixture_over(modules, tmp_path):
    """Loads a copy of the provider over a library in place of ours, or over none, and returns what openssl says."""
    need("openssl", "openssl")
    (tmp_path / "ossl-modules").mkdir()
    shutil.copy(modules / "nattizhu.so", tmp_path / "ossl-modules")

    def over(source, status=1):
        if source is not None:
            run("cc", "-x", "c", "-", "-shared", "-fPIC", "-Wl,-soname,libnattizhu.so.0", "-o", tmp_path / "libnattizhu.so.0",
                input=source)
        ended = run("openssl", "list", "-providers", "-verbose", "-provider", "nattizhu", status=status,
                    env={"OPENSSL_MODULES": tmp_path / "ossl-modules"})
        return ended.stdout + ended.stderr

    return over


# A later library, by whose digests one sees that the provider was asked: all are zeros.
ZEROS = """#include <string.h>
const char *nattizhu_version(void) { return "9.8.7"; }
size_t nattizhu_state_size(void) { return 113; }
_Bool nattizhu_init(int bits, unsigned char *state) { return state[0] = bits / 8; }
_Bool nattizhu_update(void *state, void *bytes, size_t length) { return 1; }
_Bool nattizhu_final(void *state, void *digest, size_t length) { return memset(digest, 0, length); }
_Bool nattizhu_digest(void) { return 0; }
void nattizhu_wipe(void) {}
"""
OTHER_STATES = ZEROS.replace("113", "114")


@pytest.fixture(name="zeros")
def fixture_zeros(over, tmp_path):
    """The folder of the provider over that library."""
    over(ZEROS, status=0)
    return tmp_path / "ossl-modules"


# ---- the object

@pytest.mark.parametrize("compiler, standard", [("cc", "c99"), ("cc", "c17"), ("clang", "c99"), ("clang", "c17")])
def test_no_warning(modules, compiler, standard):
    need(compiler, PACKAGES[compiler])
    run(compiler, f"-std={standard}", *STRICT, "-I", CRATE, "-S", "-o", "-", SOURCE)


def test_exported_functions_and_needed_libraries(modules):
    need("objdump", "binutils")
    assert exported(modules / "nattizhu.so") == ["OSSL_provider_init"]
    printed = run("objdump", "-p", modules / "nattizhu.so").stdout
    assert set(re.findall("NEEDED +(.*)", printed)) <= {"libnattizhu.so.0", "libcrypto.so.3", "libc.so.6"}
    assert set(re.findall(r"\bOPENSSL_[0-9.]+", printed)) == {"OPENSSL_3.0.0"}
    assert "libnattizhu.so.0" in printed and re.findall("(?:RUNPATH|RPATH) +(.*)", printed) == ["$ORIGIN/.."]


def test_tables_of_addresses_are_read_only(modules):
    assert_read_only(modules / "nattizhu.so")


def test_no_global_state(modules, tmp_path):
    run("cc", "-std=c99", "-O2", "-fPIC", "-I", CRATE, "-c", "-o", tmp_path / "provider.o", SOURCE)
    printed = run("size", "-A", tmp_path / "provider.o").stdout
    assert re.findall(r"^\.t?(?:data|bss) +(\d+)", printed, re.MULTILINE) == ["0", "0"]


def test_without_headers(library, tmp_path):
    """One line says so, and the rest is built and installed."""
    compiler = tmp_path / "bin/cc"
    compiler.parent.mkdir()
    compiler.write_text(f'#!/bin/sh\ncase "$*" in *openssl*) exit 1; esac\nexec {shutil.which("cc")} "$@"\n')
    compiler.chmod(0o755)
    (tmp_path / "out/ossl-modules").mkdir(parents=True)
    (tmp_path / "out/ossl-modules/nattizhu.so").touch()
    said = run("build/shared", tmp_path / "out", "x86-64", env={"PATH": f"{compiler.parent}:{os.environ['PATH']}"}).stderr
    lacking = [line for line in said.splitlines() if "OpenSSL" in line]
    assert len(lacking) == 1 and "libssl-dev" in lacking[0]
    run("make", "install-library", f"BUILT={tmp_path}/out", f"PREFIX={tmp_path}/prefix", "DESTDIR=")
    assert (tmp_path / "prefix/lib/libnattizhu.so.0").exists()
    assert not [path for path in (tmp_path / "prefix").rglob("*") if path.name in ("nattizhu.so", "openssl.cnf")]


# ---- from C

def test_evp(modules, tmp_path):
    try_evp(tmp_path, modules)


def test_evp_with_sanitizers(modules, library, tmp_path, sanitizers):
    folder = tmp_path / "ossl-modules"
    folder.mkdir()
    (tmp_path / "libnattizhu.so.0").symlink_to(library / "libnattizhu.so.0")
    run(*sanitizers, *SHARED, "-o", folder / "nattizhu.so", library / "libnattizhu.so.0", "-lcrypto")
    try_evp(tmp_path, folder, compiler=sanitizers)


# The loader compares the beginning of $ORIGIN by words, beyond its end.
SUPPRESSED = """{
  loader
  Memcheck:Addr8
  fun:strncmp
  fun:is_dst
}
"""


def test_evp_under_valgrind(modules, tmp_path):
    """It loads the provider more than 1000 times."""
    (tmp_path / "suppressed").write_text(SUPPRESSED)
    digests = [row for row in SHORT if row[1] % 32 == 31]
    try_evp(tmp_path, modules, f"--suppressions={tmp_path}/suppressed", "--leak-check=full", digests=digests, pairs=404,
            by=memcheck)


def test_tags_leave_nothing(modules, library, tmp_path):
    """On the stack, of the key and of what OpenSSL's HMAC makes of it; a provider that does not wipe is noticed."""
    run("cc", "-O2", "-Wall", "-Wextra", "-Werror", "-I", CRATE, SECRETS / "left_evp.c", library / "libnattizhu.a",
        "-Wl,-z,now", "-lcrypto", "-o", tmp_path / "left")
    left = lambda folder: run(tmp_path / "left", "nattizhu", env={"OPENSSL_MODULES": folder}).stdout.split()
    assert left(modules) == ["0"] * 5
    (tmp_path / "kept.c").write_text("void kept(void *pointer, unsigned long size) { (void)pointer, (void)size; }")
    (tmp_path / "ossl-modules").mkdir()
    run("cc", *SHARED, "-O2", "-Dnattizhu_wipe=kept", tmp_path / "kept.c", library / "libnattizhu.so.0", "-lcrypto",
        f"-Wl,-rpath,{library}", "-o", tmp_path / "ossl-modules/nattizhu.so")
    assert left(tmp_path / "ossl-modules")[-1] != "0"


def test_arm64(arm64, tmp_path):
    try_evp(tmp_path, modules_of(arm64), "qemu-aarch64", compiler=[ARM64_COMPILER])


# ---- by the program openssl

@pytest.mark.parametrize("providers", [["nattizhu"], ["nattizhu", "base"], ["nattizhu", "default"], BESIDE], ids=" ".join)
@pytest.mark.parametrize("bits", VARIANTS)
def test_digests(openssl, tmp_path, bits, providers):
    wanted = {length: digest for variant, length, digest in DIGESTS if variant == bits}
    for length in wanted:
        (tmp_path / str(length)).write_bytes(counted(length))
    printed = openssl("dgst", "-propquery", "provider=nattizhu", f"-ripemd{bits}", "-r", *wanted, providers=providers,
                      cwd=tmp_path).stdout
    assert len(wanted) > 200
    assert {int(name): digest for digest, name in re.findall(r"^(\w+) \*(\d+)$", printed, re.MULTILINE)} == wanted


def test_names(openssl):
    """Those of docs/OPENSSL.md, which are all that openssl lists."""
    listed = re.findall("{ (.*) } @ nattizhu", (ROOT / "docs/OPENSSL.md").read_text("utf-8"))
    assert len(listed) == len(VARIANTS)
    for names in listed:
        bits = re.search(r"RIPEMD-(\d+)", names)[1]
        for name in names.split(", "):
            printed = openssl("dgst", f"-{name}", providers=["nattizhu"], input="abc").stdout
            assert printed == f"RIPEMD-{bits}(stdin)= {ABCS[bits]}\n"


@pytest.mark.parametrize("name, query, digest", [
    ("ripemd160", "provider=nattizhu", "00" * 20), ("ripemd160", "?provider=nattizhu", "00" * 20),
    ("ripemd160", "provider=default", ABC), ("ripemd160", "provider=legacy", ABC),
    ("ripemd320", "?provider=default", "00" * 40), ("ripemd320", "provider=default", None),
    ("sha256", "provider=nattizhu", None)])
def test_which_provider_answers(openssl, zeros, name, query, digest):
    ended = openssl("dgst", "-propquery", query, f"-{name}", "-r", providers=BESIDE, folder=zeros, input="abc",
                    status=0 if digest else 1)
    assert ended.stdout == (f"{digest} *stdin\n" if digest else "")


def test_parameters(openssl):
    """Those of the provider and of its digests are of the types of OpenSSL's own."""
    for kind, count in [("-providers", 4), ("-digest-algorithms", 8)]:
        said = [openssl("list", kind, "-verbose", providers=[name]).stdout for name in ("nattizhu", "default")]
        ours, theirs = (re.findall("^ {6}(.*)$", text, re.MULTILINE) for text in said)
        assert len(ours) == count and set(ours) <= set(theirs)
    printed = openssl("list", "-providers", "-verbose").stdout
    assert f"name: Nattizhu\n    version: {version()}\n    status: active\n    build info: {version()}\n" in printed


def test_tags(openssl):
    assert len(TAGS) >= 28
    for bits, key, text, tag in TAGS:
        printed = openssl("mac", "-digest", f"RIPEMD-{bits}", "-macopt", "properties:provider=nattizhu",
                          "-macopt", f"hexkey:{key}", "HMAC", providers=BESIDE, text=False, input=bytes.fromhex(text)).stdout
        assert printed.decode().strip().lower() == tag


def test_keys(openssl):
    assert len(lines("keys.txt")) >= 40
    for bits, password, salt, rounds, key in lines("keys.txt"):
        printed = openssl("kdf", "-keylen", len(key) // 2, "-kdfopt", f"digest:RIPEMD-{bits}",
                          "-kdfopt", "properties:provider=nattizhu", "-kdfopt", f"hexpass:{counted(password, 1).hex()}",
                          "-kdfopt", f"hexsalt:{counted(salt).hex()}", "-kdfopt", f"iter:{rounds}", "PBKDF2",
                          providers=BESIDE).stdout
        assert printed.strip().replace(":", "").lower() == key


@pytest.mark.parametrize("padding", ["pkcs1", "pss"])
def test_signatures(openssl, zeros, tmp_path, padding):
    (tmp_path / "text").write_text("abc")
    (tmp_path / "other").write_text("abd")
    run("openssl", "genpkey", "-quiet", "-algorithm", "RSA", "-out", "key", cwd=tmp_path, status=None)
    run("openssl", "pkey", "-in", "key", "-pubout", "-out", "public", cwd=tmp_path)
    options = ["-propquery", "?provider=nattizhu", "-sigopt", f"rsa_padding_mode:{padding}"]
    asks = lambda *words, **where: openssl("dgst", *options, *words, cwd=tmp_path, **where)
    ours, theirs = {"providers": ["nattizhu", "default"]}, {"providers": ["default"]}
    for name, where in [("ours", ours), ("theirs", theirs), ("zeros", {"folder": zeros})]:
        asks("-ripemd160", "-sign", "key", "-out", name, "text", **where)
    for name, text, verified, where in [("ours", "text", True, theirs), ("theirs", "text", True, ours),
                                        ("theirs", "other", False, ours), ("zeros", "text", False, theirs)]:
        printed = asks("-ripemd160", "-verify", "public", "-signature", name, text, status=1 - verified, **where).stdout
        assert printed == ("Verified OK\n" if verified else "Verification failure\n")
    assert padding == "pss" or (tmp_path / "ours").read_bytes() == (tmp_path / "theirs").read_bytes()
    assert "digest not allowed" in asks("-ripemd320", "-sign", "key", "-out", "none", "text", status=1).stderr


# ---- by openssl.cnf

# Takes messages and texts in pieces. Before each, one of an object and its copy takes other bytes, and the other goes on.
PYTHON = """import hashlib, hmac, json, sys
for bits, key, text, wanted in json.load(sys.stdin):
    for piece in 1, 3, 63, 64, 65, 4096:
        made = hashlib.new(f"ripemd{bits}") if key is None else hmac.new(bytes.fromhex(key), None, f"ripemd{bits}")
        assert (made.digest_size, made.block_size) == (int(bits) // 8, 64)
        for at in range(0, len(text) // 2, piece):
            both = [made, made.copy()]
            made = both.pop(at % 2)
            both[0].update(b"other")
            made.update(bytes.fromhex(text[2 * at:2 * (at + piece)]))
        assert made.hexdigest() == wanted
print(hashlib.sha256().name, "nattizhu.so" in open("/proc/self/maps").read())
"""


@pytest.fixture(name="configurations", scope="session")
def fixture_configurations(tmp_path_factory):
    """Configurations that load the provider: the piece itself, and the system's that includes it, also with its
    sections of providers switched on."""
    folder = tmp_path_factory.mktemp("configurations")
    need("openssl", "openssl")
    system = pathlib.Path(run("openssl", "version", "-d").stdout.split('"')[1], "openssl.cnf")
    if not system.exists():
        pytest.skip(f"there is no {system}")
    text = system.read_text("utf-8")
    switched = re.sub(r"^# *(providers = provider_sect|\[provider_sect\]|default = default_sect|\[default_sect\]|activate = 1)$",
                      r"\1", text, flags=re.MULTILINE)
    (folder / "included").write_text(f"{text}\n.include {CNF}\n")
    (folder / "switched").write_text(f"{switched}\n.include {CNF}\n")
    return {"itself": CNF, "included": folder / "included", "switched": folder / "switched"}


@pytest.mark.parametrize("name", ["itself", "included", "switched"])
@pytest.mark.parametrize("python", ["python3", "/usr/bin/python3"])
def test_hashlib(modules, configurations, python, name):
    need(python, "python3")
    linked = run(python, "-c", "import ssl; print(ssl.OPENSSL_VERSION)", status=None).stdout
    if not linked.startswith("OpenSSL 3"):
        pytest.skip(f"{python} has no OpenSSL 3")
    rows = [(bits, None, counted(length).hex(), digest) for bits, length, digest in SHORT] + TAGS
    env = {"OPENSSL_MODULES": modules, "OPENSSL_CONF": configurations[name]}
    assert run(python, "-c", PYTHON, env=env, input=json.dumps(rows)).stdout == "sha256 True\n"


@pytest.mark.parametrize("bits", ["128", "256", "320"])
def test_hashlib_without_the_provider(bits):
    said = run("/usr/bin/python3", "-c", f"import hashlib; hashlib.new('ripemd{bits}')", status=1).stderr
    assert said.endswith(f"ValueError: unsupported hash type ripemd{bits}\n")


def test_what_hashlib_does_not_know(modules, configurations):
    """It names RIPEMD-160 alone, as docs/PYTHON.md says."""
    code = """import hashlib
print(*(f"{hashlib.new(name).name} {name in hashlib.algorithms_available}" for name in ("ripemd128", "ripemd160")))"""
    env = {"OPENSSL_MODULES": modules, "OPENSSL_CONF": configurations["itself"]}
    assert run("/usr/bin/python3", "-c", code, env=env).stdout == "undefined False ripemd160 True\n"
    said = (ROOT / "docs/PYTHON.md").read_text("utf-8")
    assert "`undefined`" in said and "`hashlib.algorithms_available`" in said


def dgst(env, *words):
    """A digest of "abc"."""
    return run("openssl", "dgst", "-r", *words, env=env, input="abc").stdout.split()[0]


@pytest.mark.parametrize("name", ["itself", "included", "switched"])
def test_configuration(zeros, configurations, name):
    """The provider is preferred and the default one stays; and nothing loads it by itself."""
    env = {"OPENSSL_MODULES": zeros}
    assert dgst(env, "-ripemd160") == ABC
    env["OPENSSL_CONF"] = configurations[name]
    assert re.findall(r"^  (\w+)$", run("openssl", "list", "-providers", env=env).stdout, re.MULTILINE) == ["default", "nattizhu"]
    assert dgst(env, "-ripemd160") == dgst(env, "-propquery", "provider=nattizhu", "-ripemd160") == "00" * 20
    assert dgst(env, "-propquery", "provider=default", "-ripemd160") == ABC
    assert dgst(env, "-sha256").startswith("ba7816bf")


# What asks EVP_get_digestbyname for a digest of "abc", by the names that docs/OPENSSL.md has.
OLDER = {
    "PHP 8.2": ["php", "-r", "echo @openssl_digest('abc', $argv[1]);", "--"],
    "Ruby 3.1": ["ruby", "-ropenssl", "-e", "puts OpenSSL::Digest.hexdigest(ARGV[0], 'abc')"],
    "Net::SSLeay": ["perl", "-MNet::SSLeay", "-e",
                    "print unpack('H*', Net::SSLeay::EVP_Digest('abc', Net::SSLeay::EVP_get_digestbyname($ARGV[0]) || exit))"],
    "Node.js 20": ["node", "--openssl-shared-config", "-p",
                   "crypto.createHash(process.argv[1]).update('abc').digest('hex')"],
}


@pytest.mark.parametrize("program", OLDER)
def test_older_interface(zeros, configurations, program):
    """It has our RIPEMD-160 alone."""
    command = OLDER[program]
    need(command[0])
    if run(*command, "sha256", status=None).returncode:
        pytest.skip(f"there is no {program} (Debian's php-cli, ruby, libnet-ssleay-perl, nodejs)")
    env = {"OPENSSL_MODULES": zeros, "OPENSSL_CONF": configurations["itself"]}
    printed = [run(*command, f"ripemd{bits}", env=env, status=None).stdout.strip() for bits in (128, 160, 256, 320)]
    assert printed == ["", "0" * 40, "", ""]
    assert program in (ROOT / "docs/OPENSSL.md").read_text("utf-8").split("\n\n")[1]


# bip32utils of Debian calls hashlib.new("ripemd160"): the first test vector of BIP 32. The others are of RFC 2286 and of
# docs/PYTHON.md.
DEPENDENT = """import bip32utils, hashlib, hmac
print(bip32utils.BIP32Key.fromEntropy(bytes(range(16))).Identifier().hex())
print(hmac.new(b"Jefe", b"what do ya want for nothing?", "ripemd160").hexdigest())
print(hashlib.pbkdf2_hmac("ripemd160", b"password", bytes.fromhex("12345678"), 5, 20).hex()[:32])
"""
ANSWERS = ["3442193e1bb70916e914552172cd4e2dbc9df811", "dda6c0213a485a9e24f4742064a7f033b43c4069",
           "7a3d7c03e7266bf83d78fb29d2641f56"]


def test_dependent_of_hashlib(modules, zeros, configurations):
    """It is answered by the provider: over another library it has the digests of that."""
    if run("/usr/bin/python3", "-c", "import bip32utils", status=None).returncode:
        pytest.skip("there is no bip32utils (Debian's python3-bip32utils)")
    for folder, answers in [(modules, ANSWERS), (zeros, ["0" * len(text) for text in ANSWERS])]:
        env = {"OPENSSL_MODULES": folder, "OPENSSL_CONF": configurations["itself"]}
        assert run("/usr/bin/python3", "-c", DEPENDENT, env=env).stdout.split() == answers


def test_configuration_of_the_page():
    assert [text for language, text in fences("docs/OPENSSL.md") if language == "ini"] == [
        re.sub("^#.*\n", "", CNF.read_text("utf-8"), flags=re.MULTILINE)]


@pytest.mark.parametrize("text, printed", PAGE, ids=[f"commands {at}" for at in range(1, len(PAGE) + 1)])
def test_page(modules, configurations, tmp_path, text, printed):
    """The commands, with places of their own for those of the package and of the system's configuration."""
    system = tmp_path / "openssl.cnf"
    shutil.copy(configurations["included"], system)
    system.write_text(system.read_text().replace(f".include {CNF}\n", ""))
    text = text.replace("/usr/share/nattizhu/openssl.cnf", str(CNF)).replace("/etc/ssl/openssl.cnf", str(system))
    ended = run("bash", "-e", "-c", text, env={"OPENSSL_MODULES": modules, "OPENSSL_CONF": system}, cwd=tmp_path)
    assert ended.stdout.rstrip() == printed.rstrip()


# ---- libraries that it cannot use

@pytest.mark.parametrize("source, status, said", [
    (None, 1, ["libnattizhu.so.0: cannot open shared object file"]),
    (OTHER_STATES, 1, ["init fail", f"libnattizhu is 9.8.7, and this provider for {version()}", ":openssl/provider.c:"]),
    (ZEROS.replace("nattizhu_digest", "other"), 1, ["undefined symbol: nattizhu_digest"]),
    # It has the same functions by its SONAME, and openssl names both versions.
    (ZEROS, 0, [f"version: {version()}\n", "build info: 9.8.7\n"])],
    ids=["none", "of other states", "without a function", "later"])
def test_other_library(over, source, status, said):
    printed = over(source, status)
    assert all(text in printed for text in said), printed


@pytest.mark.parametrize("name", ["itself", "included", "switched"])
@pytest.mark.parametrize("source", [None, OTHER_STATES], ids=["none", "other"])
def test_configuration_without_the_library(over, configurations, tmp_path, source, name):
    """OpenSSL goes on with its own."""
    over(source)
    env = {"OPENSSL_MODULES": tmp_path / "ossl-modules", "OPENSSL_CONF": configurations[name]}
    assert dgst(env, "-sha256").startswith("ba7816bf") and dgst(env, "-ripemd160") == ABC
