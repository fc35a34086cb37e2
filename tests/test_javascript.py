"""Tries the package for JavaScript as npm installs it: its tests under Node.js, its types, the programs of
docs/JAVASCRIPT.md, and its sizes. Nothing is downloaded."""
import fcntl
import gzip
import json
import os
import select
import shutil
import subprocess

import pytest
from conftest import DATA, ROOT, fences, need, programs, run, site, version

TESTS = sorted(path.name for path in (ROOT / "js/test").glob("*.test.js"))
PAGE = programs("docs/JAVASCRIPT.md", "js")
# The program of the page that keeps a state in a file.
PIECES = 1

# Uses of all that the types have, and what they refuse.
USES = """
import { hmac, pbkdf2, pbkdf2Async, pieces, ripemd128, ripemd160, ripemd256, ripemd320, stream } from 'nattizhu';
import type { Hash, HashFunction, Hasher, Hmac, Input, Source } from 'nattizhu';
import { ripemd160 as alone } from 'nattizhu/ripemd160.js';
import { load, type Nattizhu } from 'nattizhu/load.js';

const text: Input = 'abc', bytes: Input = new Uint8Array(3);
const hashes: Hasher[] = [ripemd128, ripemd256, ripemd320, ripemd160];
for (const hash of hashes) {
  const digest: Uint8Array = hash(text), digests: Uint8Array[] = [...hash.each(bytes, 3), ...hash.list([text, bytes])];
  const pieces: Hash = hash.create().update(text).clone()._cloneInto();
  pieces.digestInto(digest);
  const size: number = hash.outputLen + hash.blockLen + pieces.outputLen + pieces.blockLen + digests.length;
  hash.load(pieces.save()).update(String(size)).destroy();
}
const some: HashFunction = alone, mac: Hmac = hmac.create(some, text).update(bytes).clone();
const good: boolean = mac.verify(hmac(ripemd160, text, bytes)) && hmac.verify(ripemd160, text, bytes, mac.digest());
hmac.load(ripemd160, mac.save()).verify(hmac.each(ripemd160, text, bytes, 3)[0]!);
hmac.list(ripemd160, text, new Set([text, bytes]));
pbkdf2(ripemd160, text, bytes, { c: 5 });
const signal: AbortSignal = new AbortController().signal;
const progress = (done: number, total: number | undefined): void => {};
async function uses(source: Source, module: WebAssembly.Module): Promise<Uint8Array> {
  await stream(ripemd160.create(), source, { signal, progress });
  await stream(mac, source);
  for await (const piece of pieces(new Blob([]), { progress })) mac.update(piece);
  const loaded: Nattizhu = await load(module);
  await load('nattizhu.wasm'), load(new URL('https://example.org')), load(fetch('nattizhu.wasm')), load(bytes);
  await loaded.pbkdf2Async(loaded.ripemd160, text, bytes, { c: 1, dkLen: 2 });
  return pbkdf2Async(ripemd160, text, bytes, { c: 5, dkLen: 16, asyncTick: 1 });
}
// @ts-expect-error
ripemd160(7);
// @ts-expect-error
ripemd160.create().digestInto('abc');
// @ts-expect-error
ripemd160.create().verify(bytes);
// @ts-expect-error
ripemd160.each(bytes);
// @ts-expect-error
ripemd160.list('abc');
// @ts-expect-error
hmac.list(ripemd160, text, 'abc');
// @ts-expect-error
ripemd160.create().digest('hex');
// @ts-expect-error
ripemd160.load(text);
// @ts-expect-error
ripemd160.outputLen = 7;
// @ts-expect-error
hmac(text, text, bytes);
// @ts-expect-error
hmac.verify(ripemd160, text, bytes);
// @ts-expect-error
pbkdf2(ripemd160, text, bytes);
// @ts-expect-error
pbkdf2(ripemd160, text, bytes, { c: 5, rounds: 7 });
// @ts-expect-error
stream(ripemd160.create(), 7);
// @ts-expect-error
stream(ripemd160, []);
// @ts-expect-error
load();
"""


@pytest.fixture(scope="session", name="archive")
def fixture_archive(javascript):
    """The package."""
    return javascript / f"nattizhu-{version()}.tgz"


@pytest.fixture(scope="session", name="project")
def fixture_project(archive, once):
    """A project in which the package is installed and nothing else, with the package's tests."""

    def install(folder):
        shutil.copytree(ROOT / "js/test", folder)
        (folder / "package.json").write_text('{"type": "module"}')
        shutil.copy(archive, folder)
        run("npm", "install", "--offline", "--no-audit", "--no-fund", f"./{archive.name}", cwd=folder,
            env={"npm_config_cache": str(folder / "cache")})

    return once("project", install)


def test_words_are_inlined(wasm):
    """The compiler does what build/crate tells it: a module without this is slower."""
    assert b"words_of_" not in (ROOT / "crates/ripemd_c/out/wasm64-unknown-unknown/libripemd_c.a").read_bytes()


def test_same_bytes_each_time(javascript, tmp_path):
    run("build/js", tmp_path)
    for archive in javascript.glob("*.tgz"):
        assert (tmp_path / archive.name).read_bytes() == archive.read_bytes()


def test_installed_package(project):
    package = json.loads((project / "node_modules/nattizhu/package.json").read_text())
    assert (package["version"], package.get("dependencies")) == (version(), None)
    files = {path.name for path in (project / "node_modules/nattizhu").iterdir()}
    assert files == {"LICENSE-APACHE", "LICENSE-MIT", "README.md", "index.d.ts", "index.js", "load.d.ts", "load.js",
                     "nattizhu.wasm", "package.json", "ripemd160.d.ts", "ripemd160.js", "ripemd160.wasm", "src"}


def tap(folder, name, **environment):
    """How many of the tests of a file pass, and how many fail."""
    said = run("node", "--test", "--test-reporter=tap", name, cwd=folder, status=None, timeout=300,
               env={"NATTIZHU_DATA": str(DATA), **environment}).stdout
    assert "# skipped 0\n" in said and "# cancelled 0\n" in said
    return [int(said.split(f"# {what} ")[1].split()[0]) for what in ("pass", "fail")]


@pytest.mark.parametrize("name", TESTS)
def test_tests_of_the_package(project, name):
    passed, failed = tap(project, name)
    assert passed >= 2 and not failed


def test_commands_of_the_page(archive, tmp_path):
    """They install the package, and run the first program under a name by which each Node.js takes it for a module."""
    shutil.copy(archive, tmp_path)
    text, printed = PAGE[0]
    (tmp_path / "program.mjs").write_text(text)
    commands = dict(fences("docs/JAVASCRIPT.md"))["sh"]
    offline = {"npm_config_offline": "true", "npm_config_cache": str(tmp_path / "cache")}
    assert run("sh", "-ec", commands, cwd=tmp_path, env=offline).stdout.endswith(printed)


def test_a_build_that_waits_says_so():
    lock = os.open(ROOT / "crates/ripemd_c", os.O_RDONLY)
    fcntl.flock(lock, fcntl.LOCK_EX)
    with subprocess.Popen([ROOT / "build/crate", "ripemd_c"], stderr=subprocess.PIPE, text=True) as build:
        told, _, _ = select.select([build.stderr], [], [], 60)
        os.close(lock)
        assert build.stderr.read() == "make: waiting for another build\n" and told
    assert build.returncode == 0


def test_a_library_that_changed_is_built_again(tmp_path):
    """Also where `rt ci` built it."""
    for name in ("build", "crates"):
        shutil.copytree(ROOT / name, tmp_path / name, ignore=shutil.ignore_patterns("out"))
    shutil.copy(ROOT / "crates.txt", tmp_path)
    for name in ("ripemd_block", "ripemd", "ripemd_mac"):
        (tmp_path / f"crates/{name}/out/rlib/{name}.rlib").mkdir(parents=True)
    changed = tmp_path / "crates/ripemd_block/src/padding.rt"
    changed.write_text("none")
    os.utime(changed, (2 ** 31, 2 ** 31))
    assert "padding.rt" in run("build/crate", "ripemd_sum", "x86-64", cwd=tmp_path, status=1).stdout


@pytest.mark.parametrize("resolution, module", [("node16", "node16"), ("node", "esnext")])
def test_types(project, tmp_path, resolution, module):
    need("tsc", "node-typescript")
    (tmp_path / "node_modules").symlink_to(project / "node_modules")
    (tmp_path / "uses.mts").write_text(USES)
    options = {"strict": True, "noUncheckedIndexedAccess": True, "noEmit": True, "target": "es2021", "types": [],
               "lib": ["es2021", "dom"], "module": module, "moduleResolution": resolution}
    (tmp_path / "tsconfig.json").write_text(json.dumps({"compilerOptions": options, "files": ["uses.mts"]}))
    run("tsc", cwd=tmp_path)


@pytest.mark.parametrize("number", [number for number in range(len(PAGE)) if number != PIECES])
def test_program_of_the_page(project, number):
    text, printed = PAGE[number]
    (project / f"program-{number}.js").write_text(text)
    assert run("node", f"program-{number}.js", cwd=project).stdout == printed


# What the program of the page does, in Python.
IN_PYTHON = """import nattizhu, pathlib, sys
kept = pathlib.Path(sys.argv[1])
hasher = nattizhu.from_state("ripemd160", kept.read_bytes()) if kept.exists() else nattizhu.ripemd160()
hasher.update(sys.stdin.buffer.read())
kept.write_bytes(hasher.state())
print(hasher.hexdigest())"""


@pytest.mark.parametrize("first, second", [("JavaScript", "JavaScript"), ("C", "JavaScript"), ("JavaScript", "C"),
                                           ("Python", "JavaScript"), ("JavaScript", "Python")])
def test_state_of_one_process_taken_up_by_another(project, library, prefix, tmp_path, first, second):
    """By the program of the page that keeps a state, and those in other languages."""
    kept = tmp_path / "kept"
    python = {"PYTHONPATH": str(site(prefix))} if "Python" in (first, second) else {}
    (tmp_path / "pieces.c").write_text(programs("docs/C.md", "c")[1][0])
    run("cc", "-o", tmp_path / "pieces", "-I", ROOT / "crates/ripemd_c", tmp_path / "pieces.c",
        library / "libnattizhu.a")
    text, printed = PAGE[PIECES]
    (project / "pieces.js").write_text(text)
    by = {"C": [tmp_path / "pieces"], "JavaScript": ["node", project / "pieces.js"], "Python": ["python3", "-c", IN_PYTHON]}
    said = [run(*by[each], kept, input=piece, env=python).stdout for each, piece in [(first, "a"), (second, "bc")]]
    assert "".join(said) == printed


def packed(bundle):
    """How many bytes a bundle has, packed by brotli."""
    code = "process.stdout.write(String(require('zlib').brotliCompressSync(require('fs').readFileSync(0)).length))"
    return int(run("node", "-e", code, input=bundle).stdout)


# What a bundle holds, and how many bytes it has at most, packed by brotli.
@pytest.mark.parametrize("entry, most", [("nattizhu/ripemd160.js", 5000), ("nattizhu", 20480)])
def test_size_of_a_bundle(project, entry, most):
    need("esbuild", "esbuild")
    bundle = run("esbuild", "--bundle", "--minify", "--format=esm", cwd=project, input=f"export * from '{entry}'").stdout
    print(f"{entry}: {len(bundle)} bytes, {len(gzip.compress(bundle.encode(), 9))} by gzip, {packed(bundle)} by brotli")
    assert packed(bundle) <= most
