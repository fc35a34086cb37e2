"""Tries what `make install` copies, as a program in C finds it, and `make uninstall`."""
import os
import shlex
import shutil

import pytest
from conftest import ABC, need, programs, run


@pytest.fixture(name="source")
def fixture_source(tmp_path):
    """The first program of docs/C.md."""
    (tmp_path / "example.c").write_text(programs("docs/C.md", "c")[0][0])
    return tmp_path / "example.c"


def test_programs(prefix):
    assert run(prefix / "bin/ripemd_sum", input="abc").stdout == ABC + "\n"
    assert run(prefix / "bin/rmdsum", input="abc").stdout == ABC + "  -\n"


@pytest.mark.parametrize("words, options", [
    ("--st", ["--status", "--strict"]), ("-a ''", ["128", "160", "256", "320"]), ("--algorithm = 1", ["128", "160"]),
    ("--algorithm =", ["128", "160", "256", "320"]), ("--p", ["--progress"]), ("a", [])])
def test_completion(prefix, words, options):
    """What bash completes behind the name of the program."""
    script = f"""compopt() {{ :; }}; . "$0"
      COMP_WORDS=(rmdsum {words}) COMP_CWORD=$((${{#COMP_WORDS[@]}} - 1)); _rmdsum; printf '%s\\n' "${{COMPREPLY[@]}}" """
    ended = run("bash", "-c", script, prefix / "share/bash-completion/completions/rmdsum")
    assert ended.stdout.split() == options


def test_pkg_config(library, source, tmp_path):
    """Where the prefix has a space. In test_rust.py and of Debian's packages it has none."""
    need("pkg-config", "pkg-config")
    prefix = tmp_path / "a prefix"
    run("make", "install-library", f"PREFIX={prefix}", "DESTDIR=")
    flags = run("pkg-config", "--cflags", "--libs", "nattizhu", env={"PKG_CONFIG_PATH": prefix / "lib/pkgconfig"}).stdout
    run("cc", "-o", source.with_suffix(""), source, *shlex.split(flags))
    assert run(source.with_suffix(""), env={"LD_LIBRARY_PATH": prefix / "lib"}).stdout == ABC + "\n"


def test_static_library(prefix, source):
    run("cc", "-o", source.with_suffix(""), "-I", prefix / "include", source, prefix / "lib/libnattizhu.a")
    assert run(source.with_suffix("")).stdout == ABC + "\n"


def test_static_library_with_musl(prefix, source):
    need("musl-gcc", "musl-tools")
    for text, printed in programs("docs/C.md", "c"):
        if "argv" not in text:
            source.write_text(text)
            run("musl-gcc", "-static", "-o", source.with_suffix(""), "-I", prefix / "include", source,
                prefix / "lib/libnattizhu.a")
            assert run(source.with_suffix("")).stdout == printed


# Processors of the plain level, of x86-64-v2 and of x86-64-v3, as qemu-user names them, and the build for each.
PROCESSORS = {"qemu64": "", "Nehalem": "", "Haswell": "glibc-hwcaps/x86-64-v3/"}


@pytest.mark.parametrize("processor", PROCESSORS)
def test_shared_library_by_processor(prefix, source, processor):
    need("qemu-x86_64", "qemu-user")
    emulator = ["qemu-x86_64", "-cpu", processor, "-E", f"LD_LIBRARY_PATH={prefix}/lib", "-E", "LD_DEBUG=libs"]
    for text, printed in programs("docs/C.md", "c"):
        if "argv" not in text:
            source.write_text(text)
            run("cc", "-o", source.with_suffix(""), "-I", prefix / "include", source, "-L", prefix / "lib", "-lnattizhu")
            ended = run(*emulator, source.with_suffix(""))
            assert ended.stdout == printed
            assert f"calling init: {prefix}/lib/{PROCESSORS[processor]}libnattizhu.so.0\n" in ended.stderr


@pytest.mark.parametrize("processor", PROCESSORS)
def test_program_by_processor(prefix, processor):
    need("qemu-x86_64", "qemu-user")
    emulator = ["qemu-x86_64", "-cpu", processor]
    assert run(*emulator, prefix / "bin/ripemd_sum", input="abc").stdout == ABC + "\n"
    ended = run(*emulator, "-d", "in_asm", prefix / "bin/rmdsum", input="abc")
    assert ended.stdout == ABC + "  -\n"
    assert ("main_x86_64_v3" in ended.stderr) == bool(PROCESSORS[processor])


@pytest.fixture(name="provider")
def fixture_provider(prefix):
    """What tells openssl where the provider is, and has it loaded."""
    if not (prefix / "lib/ossl-modules/nattizhu.so").exists():
        pytest.skip("there are no headers of OpenSSL 3 (Debian's libssl-dev)")
    need("openssl", "openssl")
    return {"OPENSSL_MODULES": prefix / "lib/ossl-modules", "OPENSSL_CONF": prefix / "share/nattizhu/openssl.cnf"}


@pytest.mark.parametrize("processor", PROCESSORS)
def test_provider_by_processor(prefix, provider, processor):
    need("qemu-x86_64", "qemu-user")
    ended = run("qemu-x86_64", "-cpu", processor, "-E", "LD_DEBUG=libs", shutil.which("openssl"), "dgst", "-ripemd160",
                input="abc", env=provider)
    assert ended.stdout == f"RIPEMD-160(stdin)= {ABC}\n"
    assert f"calling init: {prefix}/lib/ossl-modules/../{PROCESSORS[processor]}libnattizhu.so.0\n" in ended.stderr


def test_provider_in_another_folder(provider, tmp_path):
    """As in OpenSSL's own: the loader looks for the library."""
    words = [f"DESTDIR={tmp_path}", "PREFIX=/prefix", "MODULESDIR=/modules"]
    run("make", "install-library", *words)
    assert os.listdir(tmp_path / "modules") == ["nattizhu.so"]
    env = {**provider, "OPENSSL_MODULES": tmp_path / "modules", "LD_LIBRARY_PATH": tmp_path / "prefix/lib"}
    assert run("openssl", "dgst", "-ripemd160", input="abc", env=env).stdout == f"RIPEMD-160(stdin)= {ABC}\n"
    run("make", "uninstall", *words)
    assert os.listdir(tmp_path / "modules") == [] and not (tmp_path / "prefix/share/nattizhu").exists()


def test_uninstall(prefix, tmp_path):
    shutil.copytree(prefix, tmp_path / "prefix", symlinks=True)
    run("make", "uninstall", f"PREFIX={tmp_path / 'prefix'}", "DESTDIR=")
    assert [files for _, _, files in os.walk(tmp_path / "prefix") if files] == []
