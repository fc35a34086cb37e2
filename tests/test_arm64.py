"""Tries what is built for ARM64, under qemu-user: the libraries for C as in test_c.py, and the package for Python by
tests/vectors.py."""
import json
import shutil

import pytest
from conftest import ARM64, ARM64_COMPILER, CRATE, DIGESTS, ROOT, TAGS, lines, need, run
from test_c import CALLS, STRICT, assert_tried, test_page  # the last with the fixture `build` below

# Where Debian's libc6-arm64-cross has the C library.
EMULATOR = ["qemu-aarch64", "-L", "/usr/aarch64-linux-gnu"]
# An interpreter, over Debian's libpython3-dev:arm64.
INTERPRETER = "#include <Python.h>\nint main(int argc, char **argv) { return Py_BytesMain(argc, argv); }\n"


@pytest.fixture(name="build", params=["libnattizhu.a", "libnattizhu.so.0"])
def fixture_build(request, arm64, tmp_path):
    """Compiles a program with the static library or the shared one, and returns the command that runs it."""

    def build(source, *flags, **options):
        run(ARM64_COMPILER, "-std=c99", *STRICT, *flags, "-I", CRATE, "-x", "c", source, "-x", "none",
            arm64 / request.param, f"-Wl,-rpath,{arm64}", "-o", tmp_path / "program", **options)
        return [*EMULATOR, tmp_path / "program"]

    return build


def test_calls(build, values):
    """With shorter lists, since the emulator is slow."""
    assert_tried(2057000, *build(CALLS, "-DMOST=70"), values)


def test_vectors_from_python(arm64, tmp_path):
    need("pkg-config", "pkg-config")
    found = run("pkg-config", "--cflags", "--libs", "python3-embed", status=None,
                env={"PKG_CONFIG_LIBDIR": "/usr/lib/aarch64-linux-gnu/pkgconfig"})
    if found.returncode:
        pytest.skip("there is no Python for ARM64 (Debian's libpython3-dev:arm64)")
    run(ARM64_COMPILER, "-x", "c", "-", *found.stdout.split(), "-o", tmp_path / "python", input=INTERPRETER)
    made = run("build/wheel", tmp_path, arm64, ARM64, status=None)
    if made.returncode:
        pytest.skip(made.stderr.strip())
    for wheel in tmp_path.glob("nattizhu-*_aarch64.whl"):
        shutil.unpack_archive(wheel, tmp_path / "package", "zip")
    values = json.dumps([DIGESTS, TAGS, lines("keys.txt")])
    compared = run("qemu-aarch64", tmp_path / "python", ROOT / "tests/vectors.py", input=values,
                   env={"PYTHONPATH": tmp_path / "package"}).stdout
    assert int(compared) >= 1840
