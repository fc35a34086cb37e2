"""Tries what `make dist` makes, and uses it in a fresh Debian that has a C compiler, pkg-config, cryptsetup, openssl,
python3 and nodejs, and no toolchain. Without root or debootstrap, the archive and the wheel are used on this machine."""
import concurrent.futures
import contextlib
import os
import platform
import re
import shutil

import pytest
from conftest import ABC, DATA, ROOT, need, need_arm64, programs, run, version
from test_openssl import PAGE
from test_rust import fixture_cargo  # noqa: F401 pylint: disable=unused-import

ARCHIVE = f"nattizhu-{version()}-linux-x86_64"
PAGES = {"x86_64": ["nattizhu.3", "ripemd_sum.1", "rmdsum.1"], "aarch64": ["nattizhu.3"]}
# The pages of the archives and of three Debian packages, which are where they are in the repository.
SHIPPED = ["SECURITY.md", "docs/C.md", "docs/OPENSSL.md", "docs/PACKAGES.md", "docs/PYTHON.md"]
# For each machine and file, the version of the C library that it needs by docs/PACKAGES.md.
OLDEST = [(machine, name, needed) for name, *versions in re.findall(
    r"^\| `([^`]+)`[^|]* \| ([0-9.]+) \| ([0-9.]*) ?\|$", (ROOT / "docs/PACKAGES.md").read_text("utf-8"), re.MULTILINE)
          for machine, needed in zip(PAGES, versions) if needed]
# For each build of the shared library, what the loader is told of the processor so that it takes this one.
BUILDS = {"x86-64": "-AVX2", "x86-64-v3": ""}


def bootstrap(folder):
    """Makes a fresh Debian in a folder."""
    if os.geteuid() != 0:
        pytest.skip("debootstrap needs root")
    need("debootstrap", "debootstrap")
    made = run("debootstrap", "--variant=minbase",
               "--include=cryptsetup-bin,gcc,libc6-dev,nodejs,openssl,pkg-config,python3,python3-venv",
               platform.freedesktop_os_release()["VERSION_CODENAME"], folder, status=None)
    if made.returncode != 0:
        pytest.skip("there is no fresh Debian: " + (made.stdout + made.stderr).strip().rpartition("\n")[2])


@pytest.fixture(name="debian", scope="session", autouse=True)
def fixture_debian(request, library, program, rmdsum, once):
    """The root of a fresh Debian, which is made while other tests run, if one of those that are to run uses it."""
    used = any("shell" in test.fixturenames for test in request.session.items)
    with concurrent.futures.ThreadPoolExecutor() as pool:
        root = used and pool.submit(once, "debian", bootstrap)
        yield root
    if used and not root.exception() and "PYTEST_XDIST_WORKER" not in os.environ:  # other workers may still use it
        run("rm", "-rf", "--one-file-system", root.result())


@pytest.fixture(name="dist", scope="module")
def fixture_dist(library, program, rmdsum, wasm, once):
    return once("dist", lambda folder: run("build/dist", folder))


@pytest.fixture(name="again", scope="module")
def fixture_again(dist, once):
    """What build/dist makes of the same tree and of what is built, copied to another folder."""
    copy = """mkdir -p "$0" && { git ls-files -z --cached --others --exclude-standard &&
      find .git crates/{ripemd_{c/out/{lib,glibc,ossl,aarch64,wasm64}*,sum/out/x86-64/ripemd_sum},rmdsum/out/rmdsum} \
        -type f -print0; } |
      xargs -0 cp --parents -t "$0"; "$0/build/dist" "$0/dist" """
    return once("again", lambda folder: run("bash", "-c", copy, folder)) / "dist"


@pytest.fixture(name="debs", scope="module")
def fixture_debs(dist):
    return list(dist.glob("*.deb")) or pytest.skip("there are no packages (Debian's dpkg-dev, debhelper, dh-python)")


@pytest.fixture(name="machine", scope="module", params=PAGES)
def fixture_machine(request):
    if request.param == "aarch64":
        need_arm64()
    return request.param


@pytest.fixture(name="files", scope="module")
def fixture_files(machine, dist, tmp_path_factory):
    """What is in the archive and in the wheel."""
    folder = tmp_path_factory.mktemp(machine)
    for archive in [dist / f"nattizhu-{version()}-linux-{machine}.tar.gz", *dist.glob(f"*_{machine}.whl")]:
        shutil.unpack_archive(archive, folder, "zip" if archive.suffix == ".whl" else "gztar")
    return [path for path in folder.rglob("*") if path.is_file() and not path.is_symlink()]


def test_same_bytes_from_another_folder(dist, again):
    run("diff", "-r", dist, again)


def test_digests_of_the_files(dist):
    run("sha256sum", "--quiet", "-c", "SHA256SUMS", cwd=dist)
    files = [str(path.relative_to(dist)) for path in dist.rglob("*") if path.is_file()]
    assert sorted(["SHA256SUMS", *(dist / "SHA256SUMS").read_text().split()[1::2]]) == sorted(files)
    assert f"nattizhu-{version()}.html" in files and not any("/" in name for name in files)


def test_crate_of_the_source(dist, cargo, tmp_path):
    """It is built with the libraries that lie beside it."""
    shutil.unpack_archive(dist / f"nattizhu-{version()}.tar.gz", tmp_path)
    cargo(tmp_path / f"nattizhu-{version()}/rust", "test", "--test", "many", env={"CARGO_TARGET_DIR": str(tmp_path)})


def test_lintian(debs):
    need("lintian", "lintian")
    run("lintian", "--fail-on", "error", "--allow-root", *debs)


def test_libraries_of_two_architectures_together(debs, tmp_path):
    """What their packages have under the same name is the same, so that dpkg installs both."""
    for deb in debs:
        if deb.name.startswith(("libnattizhu", "openssl-provider")):
            run("dpkg-deb", "-x", deb, tmp_path / deb.stem.rpartition("_")[2])
    if not (tmp_path / "arm64").exists():
        pytest.skip("there are no packages for arm64 (Debian's gcc-aarch64-linux-gnu, libpython3-dev:arm64)")
    printed = run("diff", "-rq", "--no-dereference", "amd64", "arm64", cwd=tmp_path, status=1).stdout
    assert [line for line in printed.splitlines() if not line.startswith("Only in")] == []


def test_names_of_programs_libraries_and_pages(files, machine):
    names = {path.name for path in files if ".so" in path.name or path.parent.name == "bin"}
    assert names | {"_nattizhu.abi3.so", "nattizhu.so"} == {name for of, name, _ in OLDEST if of == machine}
    assert sorted(path.name for path in files if path.parts[-3] == "man") == PAGES[machine]


@pytest.mark.parametrize("machine, name, needed", OLDEST, indirect=["machine"], scope="module")
def test_oldest_c_library(files, name, needed):
    need("objdump", "binutils")
    named = [path for path in files if path.name == name and path.parts[-2] != "completions"] or pytest.skip(f"there is no {name}")
    versions = re.findall(r"\bGLIBC_([0-9.]+)", run("objdump", "-T", *named).stdout)
    assert all([*map(int, text.split("."))] <= [*map(int, needed.split("."))] for text in versions)


def test_tag_of_the_wheel(dist, files, machine):
    """It names the oldest C library that has what the module needs; that needs no other library."""
    need("objdump", "binutils")
    modules = [path for path in files if path.name == "_nattizhu.abi3.so"] or pytest.skip("there is no wheel")
    said = run("objdump", "-p", *modules).stdout
    newest = max(map(int, re.findall(r"\bGLIBC_2\.(\d+)", said)))
    assert re.findall(r"NEEDED +\b(?!ld-linux)(.*)", said) == ["libc.so.6"]
    assert [path.name for path in dist.glob(f"*_{machine}.whl")] == [
        f"nattizhu-{version()}-cp311-abi3-manylinux_2_{newest}_{machine}.whl"]


def test_what_packages_are_built_from(files, machine, dist, debs, tmp_path):
    """Each names the tools for its own machine alone: others that are installed do not change it."""
    [built] = [path.read_text() for path in files if path.name == "BUILT-FROM"]
    parts = ["commit", "toolchain", *(f"{tool} for {machine}" for tool in ("compiler", "linker", "wheel"))]
    assert re.findall("^([^:]*): ", built, re.MULTILINE) == parts
    architecture = {"x86_64": "amd64", "aarch64": "arm64"}[machine]
    for deb in debs:
        if deb.stem.endswith(architecture):
            run("dpkg-deb", "-x", deb, tmp_path)
            [named] = (tmp_path / "usr/share/doc" / deb.name.split("_")[0]).glob("BUILT-FROM*")
            assert (named.name, named.read_text()) == (f"BUILT-FROM.{architecture}", built)
    whole = (dist / "BUILT-FROM").read_text().splitlines()
    assert set(built.splitlines()) < set(whole) and any(line.startswith("wasm: ") for line in whole) == any(dist.glob("*.tgz"))


def test_manual_pages(files):
    need("man", "man-db")
    for page in (path for path in files if path.parts[-3] == "man"):
        shown = run("man", "--warnings", "-l", page)
        assert shown.stderr == "" and f"nattizhu {version()}" in shown.stdout


def assert_pages(folder):
    """Each link of the pages in this folder leads to one of them."""
    places = {os.path.normpath(os.path.join(os.path.dirname(page), target or os.path.basename(page))) for page in SHIPPED
              for target in re.findall(r"\]\(([^)#]*)[^)]*\)", (folder / page).read_text("utf-8"))}
    assert "SECURITY.md" in places and places <= set(SHIPPED)


def assert_pages_of_the_programs(folder):
    """There are the pages to which the manual pages send their readers, and each link of them leads to a page."""
    for name, head in ("rmdsum", "Where it differs from coreutils"), ("ripemd_sum", "What is only tested"):
        named = re.search(r"^\.I (crates/.*)$", (ROOT / f"crates/{name}/{name}.1").read_text("utf-8"), re.MULTILINE)[1]
        assert f"\n## {head}\n" in (folder / named).read_text("utf-8")
    for page in (folder / "crates").rglob("*.md"):
        for target in re.findall(r"\]\(([^)#]+)[^)]*\)", page.read_text("utf-8")):
            assert target.startswith("https:") or (page.parent / target).exists(), (page, target)


def test_pages_of_the_archives(files, machine):
    [folder] = [path.parent for path in files if path.name == "SECURITY.md"]
    assert_pages(folder)
    if machine == "x86_64":
        assert_pages_of_the_programs(folder)


def test_pages_of_the_debian_packages(debs, tmp_path):
    for deb in debs:
        run("dpkg-deb", "-x", deb, tmp_path / deb.stem)
    folders = [path.parent for path in tmp_path.glob("*/usr/share/doc/*/SECURITY.md")]
    assert {path.name for path in folders} == {"libnattizhu-dev", "openssl-provider-nattizhu", "python3-nattizhu"}
    for folder in folders:
        assert_pages(folder)
    [deb] = [deb for deb in debs if deb.name.startswith("nattizhu_")]
    assert_pages_of_the_programs(tmp_path / deb.stem / "usr/share/doc/nattizhu")


@pytest.fixture(name="shell", scope="module")
def fixture_shell(debian, dist, broken, tmp_path_factory):
    """Runs a command in the fresh Debian, or here, beside the files of `dist`, the first programs of the pages and the
    folder of `broken`."""
    root = tmp_path_factory.mktemp("here") if debian.exception() else debian.result()
    folder = shutil.copytree(dist, root / f"a folder/{os.getpid()}", dirs_exist_ok=True)
    shutil.copytree(ROOT / "js/test", folder / "project")
    shutil.copytree(DATA, folder / "data")
    shutil.copytree(broken, folder / "broken")
    (folder / "first.c").write_text(programs("docs/C.md", "c")[0][0])
    (folder / "first.py").write_text(programs("docs/PYTHON.md", "python")[0][0] + "print(hasher.hexdigest())\n")
    enter = ["chroot", root, "env", "-i", "-C", f"/a folder/{os.getpid()}", "PATH=/usr/sbin:/usr/bin:/sbin:/bin",
             "HOME=/root", "LC_ALL=C.UTF-8", "DEBIAN_FRONTEND=noninteractive"] if not debian.exception() else []

    def inside(command, lacking=None):
        ended = run(*enter, "bash", "-c", command, cwd=folder, status=None if lacking else 0)
        return pytest.skip(f"there is no {lacking}") if ended.returncode else ended.stdout

    inside(f"tar -xf {ARCHIVE}.tar.gz")
    return inside


def newest():
    """The build that the loader takes on this processor."""
    said = run("/lib64/ld-linux-x86-64.so.2", "--help", status=None).stdout
    return "x86-64-v3" if "x86-64-v3 (supported" in said else "x86-64"


def uses_shared_library(shell, build, libraries, flags, environment=""):
    """The first program of docs/C.md, compiled with these flags, takes this build from this folder."""
    environment += f" GLIBC_TUNABLES=glibc.cpu.hwcaps={BUILDS[build]}"
    assert shell(f"eval cc -o first first.c {flags} && {environment} ./first") == ABC + "\n"
    taken = re.findall(r"calling init: (.*/libnattizhu\.so\.0.*)", shell(f"{environment} LD_DEBUG=libs ./first 2>&1"))
    place = {"x86-64": libraries, "x86-64-v3": f"{libraries}/glibc-hwcaps/x86-64-v3"}[build]
    assert len(taken) == 1 and taken[0].endswith(f"/{place}/libnattizhu.so.0")


def test_programs_of_the_archive(shell):
    assert shell(f"printf abc | {ARCHIVE}/bin/ripemd_sum") == ABC + "\n"
    assert shell(f"printf abc | {ARCHIVE}/bin/rmdsum") == ABC + "  -\n"


def test_static_library_of_the_archive(shell):
    assert shell(f"cc -o first -I {ARCHIVE}/include first.c {ARCHIVE}/lib/libnattizhu.a && ./first") == ABC + "\n"


@pytest.mark.parametrize("build", BUILDS)
def test_shared_library_of_the_archive(shell, build):
    if build > newest():
        pytest.skip(f"the loader takes no build for {build} here")
    shell("command -v pkg-config", lacking="pkg-config (Debian's pkg-config)")
    flags = f'$(PKG_CONFIG_PATH="$PWD/{ARCHIVE}/lib/pkgconfig" pkg-config --cflags --libs nattizhu)'
    uses_shared_library(shell, build, f"{ARCHIVE}/lib", flags, f'LD_LIBRARY_PATH="$PWD/{ARCHIVE}/lib"')


@pytest.fixture(name="provider", scope="module")
def fixture_provider(shell):
    """What has programs load the provider of the archive."""
    shell(f"test -e {ARCHIVE}/lib/ossl-modules/nattizhu.so", lacking="provider for OpenSSL (Debian's libssl-dev)")
    return f'OPENSSL_MODULES="$PWD/{ARCHIVE}/lib/ossl-modules" OPENSSL_CONF="$PWD/{ARCHIVE}/share/nattizhu/openssl.cnf"'


def test_provider_of_the_archive(shell, provider):
    shell("command -v openssl", lacking="openssl (Debian's openssl)")
    assert shell(f"printf abc | {provider} openssl dgst -ripemd160") == f"RIPEMD-160(stdin)= {ABC}\n"


# Programs of Debian that ask OpenSSL for RIPEMD-160: what makes a file by it, and prints it if it is the same each time; and
# what takes such a file, and fails where its own digests are others. In a header of LUKS the key and the salts are random.
CRYPTSETUP = ("cryptsetup luksFormat --type luks1 --hash ripemd160 --pbkdf-force-iterations 1000 --key-file key -q volume",
              "cryptsetup luksDump --dump-volume-key --key-file key -q volume")
PYTHON = """python3 -c 'import hashlib, hmac
print(hashlib.new("ripemd160", b"abc").hexdigest(), hmac.new(b"key", b"abc", "ripemd160").hexdigest(),
      hashlib.pbkdf2_hmac("ripemd160", b"abc", b"salt", 1000).hex())'"""
NODE = """node --openssl-shared-config -p 'const { createHash, createHmac, pbkdf2Sync } = crypto;
[createHash("ripemd160"), createHmac("ripemd160", "key")].map(of => of.update("abc").digest("hex")) +
pbkdf2Sync("abc", "salt", 1000, 20, "ripemd160").toString("hex")'"""
DEPENDENTS = {
    "cryptsetup": CRYPTSETUP,
    "cryptsetup with the configuration": [f"LD_PRELOAD=./reads.so {command}" for command in CRYPTSETUP],
    "openssl dgst": ("openssl dgst -ripemd160 -sign key first.c | tee made | base64",
                     "openssl dgst -ripemd160 -prverify key -signature made first.c"),
    "openssl cms": ("openssl cms -sign -md ripemd160 -noattr -nodetach -signer certificate -inkey key -in first.c | tee made",
                    "openssl cms -verify -noverify -in made"),
    "python3": (PYTHON + " | tee made", PYTHON + " | cmp - made"),
    "node": (NODE + " | tee made", NODE + " | cmp - made"),
}
# cryptsetup asks in a context of its own, for which it reads no configuration. Loaded before libcrypto, this reads it.
READS = """#define _GNU_SOURCE
#include <dlfcn.h>
#include <stddef.h>
int OSSL_LIB_CTX_load_config(void *context, const char *file);
void *OSSL_LIB_CTX_new(void) {
  void *context = ((void *(*)(void))dlsym(RTLD_NEXT, "OSSL_LIB_CTX_new"))();
  return OSSL_LIB_CTX_load_config(context, NULL) ? context : NULL;
}
"""


@pytest.fixture(name="environments", scope="module")
def fixture_environments(debian, shell, provider):
    """Without the provider, with it, and with it over a library whose digests are wrong."""
    debian.result()
    shell("cc -shared -o broken/libnattizhu.so.0 -Wl,-soname,libnattizhu.so.0 "
          "-Wl,--whole-archive broken/libnattizhu.a -Wl,--no-whole-archive")
    shell(f"cc -shared -fPIC -o reads.so -x c - <<'.'\n{READS}.\n")
    shell("openssl req -x509 -newkey rsa:2048 -nodes -keyout key -out certificate -subj /CN=name && truncate -s 4M volume")
    return {"without": "OPENSSL_CONF=/etc/ssl/openssl.cnf", "with": provider,
            "broken": f'{provider} LD_LIBRARY_PATH="$PWD/broken"'}


@pytest.mark.parametrize("name", DEPENDENTS)
def test_dependents(shell, environments, name):
    """What they make without the provider they take with it, and the other way round: they print the same. What they make
    over the broken library they take over that alone, and so they ask the provider; but cryptsetup by itself does not."""
    make, take = DEPENDENTS[name]
    made = {}
    for maker, environment in environments.items():
        made[maker] = shell(f"export {environment}; {make}")
        taken = {user: shell(f"export {other}; {take} || echo refused") for user, other in environments.items()}
        good = {user: printed for user, printed in taken.items() if not printed.endswith("refused\n")}
        assert len(set(good.values())) == 1
        assert [*good] == [user for user in environments
                           if name == "cryptsetup" or (user == "broken") == (maker == "broken")]
    assert made["with"] == made["without"]


@pytest.fixture(name="python", scope="module")
def fixture_python(shell):
    """The interpreter of the environment that the page makes, with the wheel and nothing else."""
    shell("ls *_x86_64.whl", lacking="wheel (Debian's python3-dev, python3-pip, python3-setuptools, python3-wheel)")
    shell("python3 -c 'import ensurepip'", lacking="ensurepip (Debian's python3-venv)")
    shell("export PIP_NO_INDEX=1 PIP_DISABLE_PIP_VERSION_CHECK=1\n" + programs("docs/PYTHON.md", "sh")[0][0])
    return "env/bin/python"


def test_first_program_with_the_wheel(shell, python):
    assert shell(f"{python} first.py") == ABC + "\n"


def test_build_that_the_wheel_takes(shell, python):
    assert shell(f"{python} -c 'import nattizhu._nattizhu as n; print(n._level)'") == newest() + "\n"


def test_javascript_package(shell):
    """Its tests, under Debian's Node.js."""
    archive = f"nattizhu-{version()}.tgz"
    shell(f"ls {archive}", lacking="package for JavaScript (Debian's nodejs, npm, binaryen, esbuild)")
    shell("command -v node", lacking="node (Debian's nodejs)")
    shell(f"mkdir project/node_modules && tar -xf {archive} -C project/node_modules --transform s/package/nattizhu/")
    shell("""echo '{"type": "module"}' >project/package.json""")
    assert "# fail 0\n# cancelled 0\n# skipped 0\n" in shell("cd project && NATTIZHU_DATA=../data node --test *.test.js")


@contextlib.contextmanager
def installed(shell, debs):
    """Installs packages, and removes them, after which nothing is left but what apt and dpkg note about themselves."""
    files = "find / -xdev -regextype awk -regex '/(a folder|tmp|proc|var/(cache|lib/(apt|dpkg)|log))' -prune -o -print"
    before = sorted(shell(files).split("\n"))
    shell("apt-get -y install " + " ".join(f"./{deb.name}" for deb in debs))
    try:
        yield
    finally:
        shell("apt-get -y purge " + " ".join(deb.name.split("_")[0] for deb in debs))
    assert sorted(shell(files).split("\n")) == before


def test_debian_packages(debian, shell, debs):
    debian.result()
    with installed(shell, [deb for deb in debs if deb.name.endswith("_amd64.deb")]):
        assert shell("printf abc | ripemd_sum") == ABC + "\n"
        assert shell("printf abc | rmdsum") == ABC + "  -\n"
        for build in sorted({"x86-64", newest()}):
            uses_shared_library(shell, build, "lib/x86_64-linux-gnu", "$(pkg-config --cflags --libs nattizhu)")
        assert shell("python3 first.py") == ABC + "\n"


def test_page_of_the_provider(debian, shell, debs):
    """The commands of docs/OPENSSL.md, with the package alone, which nothing loads by itself."""
    debian.result()
    needed = [deb for deb in debs if re.match("(libnattizhu0|openssl-provider-nattizhu)_.*_amd64", deb.name)]
    assert len(needed) == 2
    before = shell("cat /etc/ssl/openssl.cnf")
    with installed(shell, needed):
        assert "nattizhu" not in shell("openssl list -providers")
        for text, printed in PAGE:
            assert shell(text).rstrip() == printed.rstrip()
        assert shell("cat /etc/ssl/openssl.cnf") == before
