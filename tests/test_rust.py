"""Tries the crates for Rust: their tests and the examples of their documentation, clippy, rustfmt and rustdoc, how the
build finds the library, the crates of tests/ripemd and tests/ripemd-0.1, which depend on `ripemd`, and the programs of
docs/RUST.md. Other crates are Debian's, which .ci/run unpacks: nothing is downloaded."""
import pathlib
import re
import shutil

import pytest
import textbook
from conftest import (DATA, DIGESTS, NOTICED, ROOT, SECRETS, TAGS, VARIANTS, counted, fences, lines, memcheck, need,
                      programs, run)

REGISTRY = pathlib.Path("/usr/local/share/cargo/registry")
MUSL = "x86_64-unknown-linux-musl"
PACKAGES = {"clippy": "rust-clippy", "fmt": "rustfmt"}
# The crates that depend on `ripemd`, and what their tests say over a library whose digests are wrong.
DEPENDENTS = {"tests/ripemd": "8 passed; 29 failed", "tests/ripemd-0.1": "0 passed; 20 failed"}
PAGE = "docs/RUST.md"
# What each program of the page prints.
PRINTED = {f"program-{number}": text for number, (_, text) in enumerate(programs(PAGE, "rust"), 1)}
# The one that keeps a state in a file.
PIECES = "program-2"


def need_cargo(package, *command):
    """As `need`, for cargo and its commands: rustup has their names, which then fail, where it did not install them."""
    need("cargo", package)
    if run("cargo", *command, "--version", status=None).returncode != 0:
        pytest.skip(f"there is no {' '.join(['cargo', *command])} (Debian's {package})")


@pytest.fixture(scope="module", name="cargo")
def fixture_cargo(once):
    """Runs cargo in a folder. All that it builds lies in one place, so that nothing is compiled twice. pkg-config
    finds nothing, unless it is told where."""
    need("cc", "gcc")
    need_cargo("cargo")
    found = re.search(r"1\.(\d+)", run("cargo", "--version").stdout)
    if int(found[1]) < 87:
        pytest.skip(f"cargo is {found[0]}, and the crates are for Rust from 1.87 on (Debian's cargo-web)")
    for crate in ("digest-0.10", "digest-0.11"):
        if not any(REGISTRY.glob(f"{crate}.*")):
            pytest.skip(f"there is no {crate} in {REGISTRY}, where .ci/run unpacks crates of Debian unstable")

    def configure(folder):
        folder.mkdir()
        (folder / "config.toml").write_text(
            f'net.offline = true\nsource.crates-io.replace-with = "debian"\nsource.debian.directory = "{REGISTRY}"\n')

    home = once("cargo", configure)
    settings = {"CARGO_HOME": str(home), "CARGO_TARGET_DIR": str(home / "target"), "CARGO_TERM_COLOR": "never",
                "RUSTDOCFLAGS": "-D warnings", "PKG_CONFIG_LIBDIR": str(home)}

    def runs(folder, *words, env=None, **options):
        return run("cargo", *words, cwd=folder, env={**settings, **(env or {})}, **options)

    return runs


def compact(number):
    """A number as the macros of `digest` read it."""
    written = [number % 128]
    while number := number // 128:
        number -= 1
        written.insert(0, 128 + number % 128)
    return bytes(written)


def write_blobs(file, rows, counted_first):
    """Writes rows of bytes as the macros of `digest` read them: behind the number of pieces that are stored once for
    several, which is 0, each piece, with its doubled length in front. From 0.11 on, the number of all comes first."""
    pieces = [bytes(piece) for row in rows for piece in row]
    file.write_bytes((compact(len(pieces)) if counted_first else b"") + b"\0"
                     + b"".join(compact(2 * len(piece)) + piece for piece in pieces))


def write_vectors(folder, counted_first):
    """Writes what the tests of a dependent read."""
    folder.mkdir()
    for bits in VARIANTS:
        for name, rows in [
                ("digests", [(counted(length), bytes.fromhex(digest))
                             for variant, length, digest in DIGESTS if variant == bits]),
                ("tags", [map(bytes.fromhex, row) for variant, *row in TAGS if variant == bits]),
                ("keys", [(counted(password, 1), counted(salt), int(rounds).to_bytes(4, "big"), bytes.fromhex(key))
                          for variant, password, salt, rounds, key in lines("keys.txt") if variant == bits])]:
            write_blobs(folder / f"{name}_{bits}.blb", rows, counted_first)
        # What `hash_serialization_test` saves.
        hasher = textbook.start_of(int(bits)), 0, []
        (folder / f"states_{bits}.bin").write_bytes(bytes(textbook.saved(int(bits), [hasher], [0x13] * 65)))
    streams = [(bits.encode(), bytes.fromhex(digest)) for bits, digest in lines("streams.txt")]
    write_blobs(folder / "streams.blb", streams, counted_first)


def copy_crate(folder):
    """Copies the crates into a folder, and returns where that over the library is."""
    return shutil.copytree(ROOT / "rust", folder / "rust", ignore=shutil.ignore_patterns("target", "Cargo.lock"))


@pytest.fixture(scope="module", name="crate")
def fixture_crate(library, once):
    """A copy of the crates, with the library where the repository has it."""

    def copy(folder):
        copy_crate(folder)
        shutil.copytree(DATA, folder / "tests/data")
        for name in DEPENDENTS:
            shutil.copytree(ROOT / name, folder / name, ignore=shutil.ignore_patterns("target", "Cargo.lock"))
            write_vectors(folder / name / "data", counted_first="0.1" not in name)
        (folder / "crates/ripemd_c/out").mkdir(parents=True)
        for archive in library.glob("*.a"):
            shutil.copy(archive, folder / "crates/ripemd_c/out")

    return once("crate", copy) / "rust"


@pytest.fixture(scope="module", name="page")
def fixture_page(cargo, prefix, once):
    """Runs a program of the page. Each Cargo.toml of the page begins a project with the programs below it, whose build
    asks pkg-config for the library."""
    need("pkg-config", "pkgconf")

    def write(folder):
        copy_crate(folder / "nattizhu")
        names = iter(PRINTED)
        for number, (language, text) in enumerate(fences(PAGE)):
            if language == "toml":
                project = folder / f"project-{number}"
                (project / "src/bin").mkdir(parents=True)
                (project / "Cargo.toml").write_text(
                    f'[package]\nname = "{project.name}"\nedition = "2021"\nversion = "0.1.0"\n\n{text}')
            elif language == "rust":
                (project / f"src/bin/{next(names)}.rs").write_text(text)

    projects = once("projects", write)

    def runs(name, *words, **options):
        [source] = projects.glob(f"*/src/bin/{name}.rs")
        return cargo(source.parent, "run", "--bin", name, "--", *words,
                     env={"PKG_CONFIG_PATH": str(prefix / "lib/pkgconfig")}, **options)

    return runs


# Without std, the crate calls the default build of the library alone.
@pytest.mark.parametrize("command", [
    "test", "test --all-features", "test --no-default-features --tests", "clippy --all-targets --all-features -- -D warnings",
    "clippy --all-targets --no-default-features -- -D warnings", "fmt --check", "doc --no-deps --all-features"])
@pytest.mark.parametrize("folder", ["rust", "rust/ripemd", "rust/ripemd-0.1"])
def test_crate(cargo, crate, folder, command):
    words = command.split()
    if words[0] in PACKAGES:
        need_cargo(PACKAGES[words[0]], words[0])
    cargo(crate.parent / folder, *words)


@pytest.mark.parametrize("command", [
    "test", "test --all-features", "clippy --all-targets --all-features -- -D warnings", "fmt --check"])
@pytest.mark.parametrize("folder", DEPENDENTS)
def test_dependent(cargo, crate, folder, command):
    """The crates that depend on `ripemd`, and on `hmac` and `pbkdf2` over it."""
    test_crate(cargo, crate, folder, command)


@pytest.mark.parametrize("folder, counts", DEPENDENTS.items())
def test_dependent_has_this_library(cargo, crate, broken, tmp_path, folder, counts):
    """Its tests fail over a library whose digests are wrong, all that see one."""
    said = cargo(crate.parent / folder, "test", status=101,
                 env={"NATTIZHU_LIB_DIR": str(broken), "CARGO_TARGET_DIR": str(tmp_path)}).stdout
    assert f"test result: FAILED. {counts}" in said


def test_dependent_on_the_crate_itself(cargo, crate, tmp_path):
    """Without the patch it passes over Debian's `ripemd` 0.1.3."""
    folder = shutil.copytree(crate.parent / "tests/ripemd-0.1", tmp_path / "dependent")
    manifest = (folder / "Cargo.toml").read_text().partition("[patch")[0]
    (folder / "Cargo.toml").write_text(manifest)
    cargo(folder, "test", "--all-features", env={"CARGO_TARGET_DIR": str(tmp_path)})


def test_dependent_on_the_old_name(cargo, crate, tmp_path):
    """The patch does not reach a crate `ripemd160`, as the page says."""
    registry, old = tmp_path / "registry", tmp_path / "registry/ripemd160-0.10.0"
    shutil.copytree(REGISTRY, registry)
    for folder, name, text in [(old, "ripemd160", ""), (tmp_path, "user", f"""[dependencies]
ripemd160 = "0.10"
[patch.crates-io]
ripemd.path = "{crate}/ripemd"
""")]:
        (folder / "src").mkdir(parents=True)
        (folder / "src/lib.rs").touch()
        (folder / "Cargo.toml").write_text(f'[package]\nname = "{name}"\nversion = "0.10.0"\n{text}')
    (old / ".cargo-checksum.json").write_text('{"files": {}}')
    ended = cargo(tmp_path, "tree", "--config", f'source.debian.directory="{registry}"')
    assert "ripemd160 v0.10.0\n" in ended.stdout and "ripemd v" in ended.stderr and "was not used" in ended.stderr
    assert "Crates over the old name `ripemd160` are not reached." in (ROOT / PAGE).read_text("utf-8")


def test_musl(cargo, crate):
    need("rustc", "rustc")
    if not pathlib.Path(run("rustc", "--print", "target-libdir", "--target", MUSL).stdout.strip()).exists():
        pytest.skip(f"there is no standard library of Rust for {MUSL}")
    cargo(crate, "test", "--tests", "--target", MUSL)


def test_named_folder_without_the_library(cargo, crate, tmp_path):
    """The library is not looked for elsewhere then, and the build says how to have it."""
    said = cargo(crate, "build", env={"NATTIZHU_LIB_DIR": str(tmp_path)}, status=101).stderr
    assert all(word in said for word in ("libnattizhu-dev", "make library", "NATTIZHU_LIB_DIR"))


def test_named_folder_with_the_library(cargo, library, tmp_path):
    cargo(copy_crate(tmp_path), "build", "--no-default-features", env={"NATTIZHU_LIB_DIR": str(library)})


def test_secrets_do_not_steer_the_crate(cargo, library, marks, tmp_path):
    """No jump and no address depends on a secret, by memcheck; the control is noticed. Nothing of a long key is left on
    the stack by `hmac_list`."""
    crate = copy_crate(tmp_path)
    (crate / "examples").mkdir()
    shutil.copy(SECRETS / "secrets.rs", crate / "examples")
    settings = {"NATTIZHU_LIB_DIR": str(library), "RUSTFLAGS": f"-C link-arg={marks}/marks.o",
                "CARGO_TARGET_DIR": str(tmp_path)}
    cargo(crate, "build", "--release", "--example", "secrets", env=settings)
    program = tmp_path / "release/examples/secrets"
    memcheck(program)
    memcheck(program, "jump", status=NOTICED)
    run(program, "left")


@pytest.mark.parametrize("name", [name for name in PRINTED if name != PIECES])
def test_program_of_the_page(page, name):
    assert page(name).stdout == PRINTED[name]


@pytest.mark.parametrize("kept", [b"abc", b"\xff" * 92])
def test_file_that_keeps_no_state(page, tmp_path, kept):
    (tmp_path / "kept").write_bytes(kept)
    assert "the file has to keep a state of RIPEMD-160: 92 bytes" in page(PIECES, tmp_path / "kept", input="a", status=1).stderr


@pytest.mark.parametrize("first, second", [("Rust", "Rust"), ("C", "Rust"), ("Rust", "C")])
def test_state_of_one_process_taken_up_by_another(page, prefix, tmp_path, first, second):
    """By the program of the page that keeps a state, and that of docs/C.md."""
    source, program, kept = tmp_path / "pieces.c", tmp_path / "pieces", tmp_path / "kept"
    source.write_text(programs("docs/C.md", "c")[1][0])
    run("cc", "-o", program, "-I", prefix / "include", source, prefix / "lib/libnattizhu.a")
    by = {"C": lambda piece: run(program, kept, input=piece), "Rust": lambda piece: page(PIECES, kept, input=piece)}
    assert by[first]("a").stdout + by[second]("bc").stdout == PRINTED[PIECES]
