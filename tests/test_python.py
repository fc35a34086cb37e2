"""Tries the package for Python: what `make install` copied with the package's own tests, those of CPython, and its stub,
and the wheel in a fresh environment with the examples of docs/PYTHON.md and of examples/."""
import json
import re
import shutil
import subprocess
import sys
import time

import pytest
from conftest import ABC, ROOT, programs, run, site

EXAMPLES = ROOT / "examples"
PAGE = [text for text, _ in programs("docs/PYTHON.md", "python")]


def test_installed_package(prefix):
    code = "import nattizhu; print(nattizhu.ripemd160(b'abc').hexdigest(), nattizhu.__file__)"
    printed = run("python3", "-c", code, env={"PYTHONPATH": site(prefix)}, cwd="/").stdout
    assert printed == f"{ABC} {site(prefix)}/nattizhu/__init__.py\n"


def test_tests_of_the_package(prefix):
    said = run(sys.executable, "-X", "dev", "-m", "pytest", "-q", "-p", "no:cacheprovider", ROOT / "python/tests",
               env={"PYTHONPATH": site(prefix), "PYTHONMALLOC": "debug"}).stdout
    assert int(said.split(" passed")[0].split()[-1]) >= 50


@pytest.fixture(name="cpython")
def fixture_cpython(tmp_path):
    """Runs CPython's tests over the package in a folder, and returns what tests/cpython.py prints."""
    code = "import sys, test.test_hashlib, test.test_hmac; sys.exit(sys.version_info[:2] != (3, 11))"
    if run("/usr/bin/python3", "-c", code, status=None).returncode:
        pytest.skip("there are no tests of CPython 3.11 (Debian's libpython3.11-testsuite)")
    return lambda folder: json.loads(run("/usr/bin/python3", ROOT / "tests/cpython.py", cwd=tmp_path,
                                         env={"PYTHONPATH": folder}).stdout)


def test_tests_of_cpython(prefix, cpython):
    """They pass but for those that the page names."""
    said = cpython(site(prefix))
    table = (ROOT / "docs/PYTHON.md").read_text("utf-8").split("## The tests of CPython")[1]
    assert set(said["failed"]) == set(re.findall(r"`(test_\w+)`", table)), said
    assert said["ran"] - len(said["skipped"]) >= 50, said


def test_tests_of_cpython_have_this_library(prefix, broken, cpython, tmp_path):
    """Those that compare digests and tags fail over a library that has wrong ones."""
    site(prefix)
    run("build/wheel", tmp_path / "wheel", broken)
    [wheel] = (tmp_path / "wheel").glob("*.whl")
    shutil.unpack_archive(wheel, tmp_path / "package", "zip")
    said = cpython(tmp_path / "package")
    digests = {f"test_case_ripemd{bits}_{number}" for bits in (128, 160, 256) for number in range(3)}
    assert digests | {"test_ripemd128_vectors", "test_sha_vectors", "test_withtext"} <= set(said["failed"]), said


def test_stub(prefix, tmp_path):
    pytest.importorskip("mypy", reason="there is no mypy (Debian's mypy)")
    run(sys.executable, "-m", "mypy.stubtest", "nattizhu", "--ignore-missing-stub", cwd=tmp_path,
        env={"PYTHONPATH": site(prefix), "MYPYPATH": site(prefix)})


@pytest.fixture(name="python", scope="session")
def fixture_python(prefix, once):
    """The interpreter of a fresh environment with the wheel and nothing else."""
    site(prefix)

    def make(folder):
        run("build/wheel", folder / "wheel")
        run("python3", "-m", "venv", folder / "venv")
        run(folder / "venv/bin/pip", "install", "--quiet", "--no-index", *(folder / "wheel").glob("*.whl"))

    if run("python3", "-c", "import ensurepip", status=None).returncode:
        pytest.skip("there is no ensurepip (Debian's python3-venv)")
    return once("python", make) / "venv/bin/python"


@pytest.mark.parametrize("number", range(len(PAGE)))
def test_example_of_the_page(python, tmp_path, number):
    (tmp_path / "example.py").write_text(PAGE[number])
    run(python, tmp_path / "example.py")


def test_address(python):
    key = "0279be667ef9dcbbac55a06295ce870b07029bfcdb2dce28d959f2815b16f81798"
    assert run(python, EXAMPLES / "address.py", key).stdout == "1BgGZ9tcN4rm9KBzDn7KprQz87SZ26SAMH\n"


@pytest.fixture(name="checker")
def fixture_checker(python, tmp_path):
    """Runs the checker of files on a list in a folder with a small file."""
    (tmp_path / "small").write_text("abc")

    def checks(text, **options):
        (tmp_path / "list").write_text(text)
        return run(python, EXAMPLES / "check_digests.py", "list", cwd=tmp_path, **options)

    return checks


def test_checker_stopped_and_going_on(python, checker, tmp_path):
    """It is stopped in 256 MiB of zeros, whose digest is OpenSSL's."""
    with (tmp_path / "big").open("wb") as file:
        file.truncate(2**28)
    text = f"{ABC}  small\n730cca2bafdc7f3d6bd0a304d8890271401b6b3e  big\n"
    (tmp_path / "list").write_text(text)
    with subprocess.Popen([python, EXAMPLES / "check_digests.py", "list"], cwd=tmp_path, stdout=subprocess.PIPE,
                          stderr=subprocess.PIPE, text=True) as running:
        assert running.stdout.readline() == "small: OK\n"
        time.sleep(0.05)
        running.terminate()
        out, error = running.communicate()
    assert (running.returncode, out) == (3, "")
    assert re.match("stopped at byte [0-9]+ of big", error)
    assert (tmp_path / "list.stopped").stat().st_size
    ended = checker(text)
    assert ended.stdout == "big: OK\n" and re.match("going on at byte [0-9]+ of big", ended.stderr)
    assert not (tmp_path / "list.stopped").exists()


def test_checker_of_wrong_digests(checker):
    ended = checker(f"{ABC} *small\n{ABC.replace('8', '9')}  small\n{ABC}  none\n", status=1)
    assert ended.stdout == "small: OK\nsmall: FAILED\nnone: FAILED (No such file or directory)\n"


def test_volume_keys(python, tmp_path):
    """OpenSSL derives these keys from this password, and a salt of the bytes 0 to 63."""
    (tmp_path / "volume").write_bytes(bytes(range(64)))
    printed = run(python, EXAMPLES / "volume_keys.py", "-r", "2000", tmp_path / "volume", input="correct horse\n").stdout
    assert printed == ("keys:        981eab473dfff90527f52ce66ed52e383bc1e3d3f164340c03763e37adc85c8a\n"
                       "second keys: 9d4f1a6349f601f5ca10e03dfb22344736ba9d55e95ef17eb2272a9d5af3d0b9\n")


def test_volume_keys_of_a_file_that_is_too_short(python, tmp_path):
    (tmp_path / "volume").write_text("abc")
    assert run(python, EXAMPLES / "volume_keys.py", tmp_path / "volume", input="password\n", status=None).returncode != 0
