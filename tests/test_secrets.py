"""Shows of what is made with the library for C that secrets do not steer the machine: of the package for Python, by
memcheck, which holds them to be undefined, with a control that they steer; and of ripemd_sum, which has to execute the
same for different texts. Of the library itself test_machine.py shows it, but not what its first call leaves."""
import hashlib
import subprocess
import sys

import pytest
from conftest import CRATE, ENVIRONMENT, NOTICED, SECRETS, memcheck, need, run, site

SEEDS = range(1, 6)


def executed(*command, **options):
    """How many blocks of instructions a program executes, and a digest of where they are, in order."""
    need("qemu-x86_64", "qemu-user")
    # With addresses that are not random. All is emulated but strings by which the C library would write byte after byte,
    # each one a block.
    command = ["setarch", "-R", "qemu-x86_64", "-cpu", "max,-erms", "-d", "exec,nochain", *map(str, command)]
    with subprocess.Popen(command, env=ENVIRONMENT, stdout=subprocess.DEVNULL, stderr=subprocess.PIPE,
                          **options) as running:
        count, places = 0, hashlib.sha256()
        for line in running.stderr:
            if line.startswith(b"Trace "):
                count += 1
                places.update(line.split(b"/", 2)[1])
    assert running.returncode == 0 and count > 10000
    return count, places.digest()


@pytest.mark.parametrize("number", range(3))
def test_first_call_leaves_nothing(library, once, number):
    """By a program that is linked statically, in which the loader still looks for the functions of the C library."""
    program = once("left", lambda file: run("cc", "-O2", "-Wall", "-Wextra", "-Werror", "-I", CRATE,
                                            SECRETS / "left.c", library / "libnattizhu.a", "-Wl,-z,lazy", "-o", file))
    assert run(program, number).stdout.split() == ["0"] * 3


@pytest.mark.parametrize("length", [1, 55, 64, 200, 5000])
def test_what_the_program_executes(program, tmp_path, length):
    """For texts of one length, under one key. Under a key of other digits it is something else."""
    seen = set()
    for seed in SEEDS:
        (tmp_path / "text").write_bytes(hashlib.shake_128(bytes([seed])).digest(length))
        with (tmp_path / "text").open("rb") as text:
            seen.add(executed(program, 160, "hmac", "0b" * 20, stdin=text))
    assert len(seen) == 1
    with (tmp_path / "text").open("rb") as text:
        assert executed(program, 160, "hmac", "b0" * 20, stdin=text) not in seen


@pytest.fixture(name="python", scope="module")
def fixture_python(prefix, marks):
    """Runs secrets.py under memcheck, by an interpreter of which memcheck itself reports nothing."""
    settings = {"PYTHONPATH": str(site(prefix)), "PYTHONMALLOC": "malloc"}
    if memcheck(sys.executable, "-c", "import ctypes", env=settings, status=None).returncode:
        pytest.skip(f"memcheck has something to report of {sys.executable} itself")
    return lambda *words, **options: memcheck(sys.executable, SECRETS / "secrets.py", marks / "marks.so", *words,
                                              env=settings, **options)


def test_calls_from_python(python):
    python()


def test_control_from_python(python):
    said = python("jump", status=NOTICED).stderr
    assert "Conditional jump or move depends on uninitialised value" in said
