"""Tries the package ripemd160 in place of npm's, below Debian's create-hash, create-hmac and pbkdf2: npm installs all of
them, unchanged, by the lines of docs/JAVASCRIPT.md. The suites of these packages come from Debian's sources."""
import contextlib
import hashlib
import json
import pathlib
import platform
import re
import shutil
import tarfile
import urllib.request

import pytest
from conftest import ABC, ROOT, fences, need, programs, run, version
from test_javascript import packed, tap

DEBIAN = pathlib.Path("/usr/share/nodejs")
DEPENDENTS = ("create-hash", "create-hmac", "pbkdf2")
TESTS = sorted(path.name for path in (ROOT / "js/ripemd160/test").glob("*.test.js"))
ENVIRONMENT = {"NODE_PATH": str(DEBIAN), "RIPEMD160_REPLACED": str(DEBIAN / "ripemd160")}

# The suite of each package, how many of its assertions pass at least, and how many fail at least with wrong digests.
SUITES = {"ripemd160": ("test/index.js", 392, 392), "create-hash": ("test.js", 6272, 1568),
          "create-hmac": ("test.js", 240, 30), "pbkdf2": ("test/index.js", 1284, 18)}

# What stands before a file's folder at Debian's mirror, and at Ubuntu's.
UBUNTU = ("deb.debian.org/debian/pool/main", "archive.ubuntu.com/ubuntu/pool/universe")

# Appended to a package, this makes each digest wrong.
BROKEN = """
const { _digest } = module.exports.prototype;
module.exports.prototype._digest = function () { return _digest.call(this).reverse(); };
"""

# What a program for browsers does.
PROGRAM = """
console.log(require('create-hash')('ripemd160').update('abc').digest('hex'));
console.log(require('create-hmac')('rmd160', 'Jefe').update('what do ya want for nothing?').digest('hex'));
console.log(require('pbkdf2').pbkdf2Sync('password', Buffer.from('12345678', 'hex'), 5, 16, 'ripemd160').toString('hex'));
"""
# RFC 2286, and the key of docs/JAVASCRIPT.md.
PRINTED = [ABC, "dda6c0213a485a9e24f4742064a7f033b43c4069", "7a3d7c03e7266bf83d78fb29d2641f56"]


def dependencies(name):
    """The package and all that it depends on."""
    package = DEBIAN / name / "package.json"
    if not package.exists():
        pytest.skip(f"there is no {package} (Debian's node-{name})")
    return {name}.union(*map(dependencies, json.loads(package.read_text("utf-8")).get("dependencies", {})))


@pytest.fixture(scope="session", name="archive")
def fixture_archive(javascript):
    """The package."""
    return javascript / f"nattizhu-ripemd160-{version()}.tgz"


@pytest.fixture(scope="session", name="project")
def fixture_project(archive, once):
    """A project with the dependents, and the tests of the package."""
    names = sorted(set().union(*map(dependencies, DEPENDENTS)))

    def install(folder):
        shutil.copytree(ROOT / "js/ripemd160/test", folder)
        shutil.copy(ROOT / "js/test/help.js", folder)
        shutil.copy(archive, folder)
        for name in names:
            with tarfile.open(folder / f"{name}.tgz", "w:gz", dereference=True) as file:
                file.add(DEBIAN / name, "package")
        # The other overrides are for want of a registry.
        files = {name: f"file:./{name}.tgz" for name in names}
        ours = json.loads(dict(fences("docs/JAVASCRIPT.md"))["json"])
        (folder / "package.json").write_text(json.dumps({
            "type": "module", "dependencies": {name: files[name] for name in DEPENDENTS} | ours["dependencies"],
            "overrides": files | ours["overrides"]}))
        run("npm", "install", "--offline", "--no-audit", "--no-fund", cwd=folder,
            env={"npm_config_cache": str(folder / "cache")})

    return once("dependents", install)


@pytest.fixture(name="broken")
def fixture_broken(project, tmp_path):
    """The same project with a package whose digests are wrong."""
    folder = shutil.copytree(project, tmp_path / "broken")
    with (folder / "node_modules/ripemd160/index.js").open("a") as file:
        file.write(BROKEN)
    return folder


@pytest.fixture(scope="session", name="sources")
def fixture_sources(once):
    """A folder with the archives of Debian's source packages, as far as they can be had."""
    need("apt-get")

    def fetch(folder):
        (folder / "lists/partial").mkdir(parents=True)
        keys = "/usr/share/keyrings/debian-archive-keyring.gpg"
        (folder / "list").write_text(f"deb-src [signed-by={keys}] http://deb.debian.org/debian {codename} main\n")
        settings = [f"Dir::Etc::SourceList={folder}/list", "Dir::Etc::SourceParts=-", f"Dir::State::Lists={folder}/lists",
                    f"Dir::Cache={folder}/cache", "APT::Sandbox::User=root", "Acquire::Retries=0", "Acquire::http::Timeout=20"]
        apt = ["apt-get", "-qq", *(word for setting in settings for word in ("-o", setting))]
        run(*apt, "update", cwd=folder, status=None)
        for name in SUITES:
            run(*apt, "source", "--tar-only", f"node-{name}", cwd=folder, status=None)
            # Where Debian's mirror lacks a file that its lists have, Ubuntu's may have it.
            listed = run(*apt, "--print-uris", "source", f"node-{name}", cwd=folder, status=None).stdout
            for url, file, digest in re.findall(r"^'(\S+)' (\S+\.orig\.tar\.\S+) \d+ SHA256:(\w+)", listed, re.MULTILINE):
                if (folder / file).exists():
                    continue
                with contextlib.suppress(OSError), urllib.request.urlopen(url.replace(*UBUNTU), timeout=20) as response:
                    content = response.read()
                    if hashlib.sha256(content).hexdigest() == digest:
                        (folder / file).write_bytes(content)

    codename = platform.freedesktop_os_release().get("VERSION_CODENAME", "stable")
    return once("sources", fetch)


def test_installed_packages(project):
    """There is one ripemd160, which is ours, and the dependents are Debian's to the byte."""
    modules = project / "node_modules"
    ours, = modules.glob("**/ripemd160")
    assert {path.name for path in ours.iterdir()} == {"LICENSE-APACHE", "LICENSE-MIT", "README.md", "index.js", "package.json"}
    package = json.loads((ours / "package.json").read_text())
    assert (package["name"], package["version"]) == ("ripemd160", version())
    for name in DEPENDENTS:
        files = [path.relative_to(DEBIAN) for path in (DEBIAN / name).glob("**/*") if path.is_file()]
        assert files and [file for file in files if (DEBIAN / file).read_bytes() != (modules / file).read_bytes()] == []


@pytest.mark.parametrize("name", TESTS)
def test_tests_of_the_package(project, name):
    passed, failed = tap(project, name, **ENVIRONMENT)
    assert passed and not failed


def test_program_of_its_readme(project):
    (text, _), = programs("js/ripemd160/README.md", "js")
    (project / "readme.cjs").write_text(text)
    assert run("node", "readme.cjs", cwd=project).stdout == ABC + "\n"


def test_dependents_use_it(broken):
    assert tap(broken, "dependents.test.js", **ENVIRONMENT) == [0, len(DEPENDENTS)]


@pytest.mark.parametrize("name", SUITES)
def test_suite(project, broken, sources, name, tmp_path):
    """It says the same as over the package that is replaced, and something else where digests are wrong."""
    file, passing, failing = SUITES[name]
    archive = next(sources.glob(f"node-{name}_*.orig.tar.*"), None)
    for lacks, what in [(not archive, f"source of node-{name}"), (not (DEBIAN / "tape").exists(), "node-tape"),
                        (not (DEBIAN / "hash-test-vectors").exists(), "node-hash-test-vectors")]:
        if lacks:
            pytest.skip(f"there is no {what} of Debian")
    ours = shutil.copytree(project, tmp_path / "ours")
    replaced = shutil.copytree(project, tmp_path / "replaced")
    shutil.copy(DEBIAN / "ripemd160/index.js", replaced / "node_modules/ripemd160")
    said = []
    for folder in (ours, replaced, broken):
        package = folder / "node_modules" / name
        run("tar", "-xf", archive, "-C", package, "--strip-components=1", "--wildcards", "*/test*")
        said.append(run("node", file, cwd=package, status=None, timeout=300, env=ENVIRONMENT).stdout)
    passed, failed = ([len(re.findall(f"^{how} [0-9]", text, re.MULTILINE)) for text in said] for how in ("ok", "not ok"))
    if not passed[1]:
        pytest.skip(f"the suite of {name} does not run here over the package that is replaced either")
    print(f"{name}: {passed[0]} pass, {failed[0]} fail; with wrong digests {failed[2]} fail")
    assert said[0] == said[1] and passed[0] >= passing and failed[2] >= failing


def test_bundle_for_browsers(project, broken, tmp_path):
    """It has what package.json of each dependent names for browsers, and no polyfills."""
    need("esbuild", "esbuild")
    for folder in (project, broken):
        (folder / "program.cjs").write_text(PROGRAM)
        run("esbuild", "--bundle", "--format=cjs", *(f"--external:{name}" for name in ("buffer", "events", "stream")),
            f"--outfile={tmp_path}/bundle.cjs", folder / "program.cjs", env=ENVIRONMENT)
        assert (run("node", tmp_path / "bundle.cjs").stdout.split() == PRINTED) == (folder == project)


def test_size_in_a_bundle(project):
    """Packed by brotli, without hash-base, beside the package that is replaced."""
    need("esbuild", "esbuild")
    sizes = []
    for folder in (project / "node_modules", DEBIAN):
        bundle = run("esbuild", "--bundle", "--minify", "--format=cjs", *(f"--external:{name}" for name in
                     ("buffer", "hash-base", "inherits")), folder / "ripemd160/index.js").stdout
        sizes.append(packed(bundle))
    print(f"{sizes[0]} bytes, in place of {sizes[1]}")
    assert sizes[0] <= 5100
