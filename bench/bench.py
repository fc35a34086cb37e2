#!/usr/bin/env python3
"""Prints the tables of docs/PERFORMANCE.md, as measured on this machine, for the default build and, where this one
has AVX2, for x86-64-v3. What the machine lacks is left out: other programs and libraries, a C compiler,
OpenSSL's headers, pip, cargo, node.

    bench/bench.py
"""
import datetime
import os
import pathlib
import platform
import re
import resource
import shutil
import subprocess
import sys
import tempfile

ROOT = pathlib.Path(__file__).resolve().parent.parent
MIB = 256
RUNS = 7
SMALL_FILES = 10000
DEFAULT = "x86-64"
ROUNDS = 400000

VARIANTS = ["128", "160", "256", "320"]

# What else hashes its standard input, by RIPEMD-160.
OTHERS = [["openssl", "dgst", "-rmd160"], ["rhash", "--ripemd160", "-"], ["gpg", "--print-md", "RIPEMD160"]]


def table(*rows):
    """Prints a table: its head, and the rows below."""
    head, *rows = [re.sub(r"\|  (?=\|)", "| ", f"| {' | '.join(cells)} |") for cells in rows]
    print("\n".join([head, "|---" * (head.count("|") - 1) + "|", *rows]), flush=True)


def title(words):
    print(f"\n{words}:\n", flush=True)


def machine():
    """Prints what is measured when, and on which processor."""
    print(f"Measured on {datetime.date.today()}, {platform.system()} {platform.release()}")
    text = pathlib.Path("/proc/cpuinfo").read_text("utf-8")
    print(*(re.search(rf"^{what}\s*: .*$", text, re.MULTILINE)[0] for what in ("model name", "flags")), sep="\n")


def build(name, levels):
    """A program of ours as built for each level, by what the tables call it."""
    subprocess.run([ROOT / "build/tell", ROOT / "build/crate", name, *levels], stdout=subprocess.DEVNULL, check=True)
    return {f"{name}, built for {level}": ROOT / "crates" / name / "out" / level / name for level in levels}


def timed(command, message=None, **options):
    """Seconds of processor time of a run with this file as standard input, and what it printed, if that is kept."""
    if message:
        message.seek(0)
    options = {"stdin": message or subprocess.DEVNULL, "stdout": subprocess.DEVNULL, "stderr": subprocess.DEVNULL, **options}
    before = resource.getrusage(resource.RUSAGE_CHILDREN)
    said = subprocess.run(command, text=True, check=True, **options).stdout
    after = resource.getrusage(resource.RUSAGE_CHILDREN)
    return after.ru_utime + after.ru_stime - before.ru_utime - before.ru_stime, said


def least(commands, message=None):
    """The least time of each command, of runs in turn."""
    return [min(times) for times in zip(*([timed(words, message)[0] for words in commands] for _ in range(RUNS)))]


def by_program(ours):
    """ripemd_sum beside other programs: the best of runs in turn."""
    commands = {(name, variant): [program, variant] for name, program in ours.items() for variant in VARIANTS}
    commands |= {(words[0], "160"): words for words in OTHERS if shutil.which(words[0])}
    with tempfile.NamedTemporaryFile(dir="/dev/shm") as message:
        for _ in range(MIB):
            message.write(b"a" * 2**20)
        message.flush()
        speeds = {cell: f"{MIB * 2**20 / time / 1e6:.0f}" for cell, time in zip(commands, least(commands.values(), message))}
    title(f"{MIB} MiB of standard input in memory, MB for each second of processor time")
    table(["", *VARIANTS], *([name, *(speeds.get((name, variant), "") for variant in VARIANTS)]
                             for name in dict.fromkeys(name for name, _ in commands)))


def by_files(ours):
    """rmdsum beside other programs, on files in memory: the least of runs in turn."""
    rows = [(name, [program]) for name, program in ours.items()]
    rows += [(words[0], words) for words in (["rhash", "--ripemd160"], ["openssl", "dgst", "-rmd160"], ["sha256sum"])
             if shutil.which(words[0])]
    with tempfile.TemporaryDirectory(dir="/dev/shm") as name:
        folder = pathlib.Path(name)
        small = [folder / f"{i:04}" for i in range(SMALL_FILES)]
        for i, path in enumerate(small):
            path.write_bytes(i.to_bytes(4, "little") * 1024)
        large = folder / "large"
        with large.open("wb") as file:
            for _ in range(1024):
                file.write(b"a" * 2**20)
        columns = [least([[*words, *paths] for _, words in rows]) for paths in (small, [large])]
    title("Files, RIPEMD-160, processor time in seconds")
    table(["", f"{SMALL_FILES:,} files of 4 KiB", "one file of 1 GiB"],
          *([name, f"{few:.3f}", f"{one:.2f}"] for (name, _), few, one in zip(rows, *columns)))


def by_c(levels, folder):
    """The functions of nattizhu.h beside those of other libraries."""
    libraries = {DEFAULT: folder / "libnattizhu.so.0", "x86-64-v3": folder / "glibc-hwcaps/x86-64-v3/libnattizhu.so.0"}
    # Loops begin at a multiple of 32 bytes, and no jump or call crosses or ends at one: processors from Skylake to Cascade
    # Lake decode such 32 bytes anew each time. So no library takes longer because of where its loop happens to lie.
    subprocess.run(["cc", "-O2", "-Wall", "-falign-loops=32",
                    "-Wa,-malign-branch-boundary=32,-malign-branch=jcc+fused+jmp+call+indirect+ret", "-o", folder / "linked",
                    ROOT / "bench/linked.c", ROOT / "bench/libraries.c", "-ldl"], check=True)
    subprocess.run([folder / "linked", *(f"{level}={libraries[level]}" for level in levels)], check=True)


def by_openssl(levels, folder):
    """The provider beside OpenSSL's own, by the program openssl: the best of runs in turn."""
    if not (folder / "ossl-modules/nattizhu.so").exists() or not shutil.which("openssl"):
        print("bench.py: there is no provider, or no openssl: no figures through OpenSSL", file=sys.stderr)
        return
    version = " ".join(subprocess.run(["openssl", "version"], capture_output=True, text=True, check=True).stdout.split()[:2])
    # The loader takes the build for x86-64-v3 unless it is told that there is no AVX2.
    rows = [(f"nattizhu, built for {level}", "nattizhu", "glibc.cpu.hwcaps=-AVX2" if level == DEFAULT else "")
            for level in levels] + [(version, "default", "")]
    speeds, rounds = {}, {}
    for _ in range(RUNS):
        for name, provider, tunables in rows:
            options = {"stdout": subprocess.PIPE, "env": {**os.environ, "OPENSSL_MODULES": str(folder / "ossl-modules"),
                                                          "GLIBC_TUNABLES": tunables}}
            words = ["-provider", "nattizhu", "-provider", "default"]
            _, said = timed(["openssl", "speed", *words, "-propquery", f"provider={provider}", "-mr", "-seconds", "1",
                             "-evp", "ripemd160"], **options)
            sizes = re.search(r"^\+H:(.*)$", said, re.MULTILINE)[1].split(":")
            speeds.setdefault(name, []).append([float(speed) / 1e6 for speed in said.split("+F:")[1].split(":")[2:]])
            time, _ = timed(["openssl", "kdf", *words, "-keylen", "20", "-kdfopt", "digest:RIPEMD-160",
                             "-kdfopt", f"properties:provider={provider}", "-kdfopt", "pass:password",
                             "-kdfopt", "salt:saltsalt", "-kdfopt", f"iter:{ROUNDS}", "PBKDF2"], **options)
            rounds.setdefault(name, []).append(ROUNDS / time / 1000)
    best = {name: [*map(max, zip(*speeds[name])), max(rounds[name])] for name in speeds}
    title("Through OpenSSL, RIPEMD-160: messages, MB/s; PBKDF2, thousands of rounds a second")
    table(["", *(f"{int(size):,} bytes" for size in sizes), "PBKDF2"],
          *([name, *(f"{figure:.4g}" + (f" ({figure / other:.2f})" if provider == "nattizhu" else "")
                     for figure, other in zip(best[name], best[version]))] for name, provider, _ in rows))


def by_python(folder):
    if subprocess.run([ROOT / "build/wheel", folder / "wheel", folder], stdout=subprocess.DEVNULL, check=False).returncode:
        return
    subprocess.run([sys.executable, "-m", "zipfile", "-e", *(folder / "wheel").glob("*.whl"), folder / "site"], check=True)
    title("From Python, RIPEMD-160")
    subprocess.run([sys.executable, ROOT / "bench/from_python.py"], check=True,
                   env={**os.environ, "PYTHONPATH": str(folder / "site"), "PYTHONDONTWRITEBYTECODE": "1"})


def by_rust(folder):
    registry = pathlib.Path("/usr/local/share/cargo/registry")
    if not shutil.which("cargo") or not any(registry.glob("ripemd-0.1.*")):
        print("bench.py: there is no cargo, or no crate ripemd, which .ci/run unpacks: no figures from Rust", file=sys.stderr)
        return
    shutil.copytree(ROOT / "bench/rust", folder / "bench/rust")
    shutil.copytree(ROOT / "rust", folder / "rust", ignore=shutil.ignore_patterns("target", "Cargo.lock"))
    for features, what in ([], "with the feature std"), (["--no-default-features"], "without it"):
        title(f"From Rust, RIPEMD-160, {what}")
        subprocess.run(["cargo", "run", "--release", "--quiet", "--offline", *features, "--config",
                        'source.crates-io.replace-with="debian"', "--config", f'source.debian.directory="{registry}"'],
                       cwd=folder / "bench/rust", env={**os.environ, "NATTIZHU_LIB_DIR": str(folder)}, check=True)


def by_javascript(folder):
    """The package for JavaScript in one process with others."""
    package, project = folder / "package", folder / "project"
    if (subprocess.run([ROOT / "build/crate", "ripemd_c", "wasm64-unknown-unknown"], stdout=sys.stderr, check=False).returncode
            or subprocess.run([ROOT / "build/js", package], check=False).returncode):
        return
    subprocess.run(["npm", "install", "--offline", "--silent", "--prefix", project, *package.glob("nattizhu-[0-9]*.tgz")],
                   stdout=subprocess.DEVNULL, check=True)
    replacing, = package.glob("nattizhu-ripemd160-*.tgz")
    shutil.unpack_archive(replacing, folder / "ripemd160", "gztar")
    said = subprocess.run(["node", "--version"], capture_output=True, text=True, check=True).stdout.strip()
    title(f"From JavaScript, RIPEMD-160, Node.js {said}")
    subprocess.run(["node", ROOT / "bench/javascript.mjs", project, folder / "ripemd160/package"],
                   env={**os.environ, "NODE_PATH": "/usr/share/nodejs"}, check=True)


def main():
    loader = subprocess.run(["/lib64/ld-linux-x86-64.so.2", "--help"], capture_output=True, text=True, check=True).stdout
    levels = ["x86-64-v3", DEFAULT] if "x86-64-v3 (supported" in loader else [DEFAULT]
    with tempfile.TemporaryDirectory() as name:
        folder = pathlib.Path(name)
        sums, files = build("ripemd_sum", levels), build("rmdsum", levels)
        if shutil.which("cc"):
            for command in ([ROOT / "build/crate", "ripemd_c", DEFAULT, "x86-64-v3"], [ROOT / "build/shared", folder, DEFAULT]):
                subprocess.run(command, stdout=sys.stderr, check=True)
        machine()
        if shutil.which("cc"):
            by_c(levels, folder)
            by_openssl(levels, folder)
            by_python(folder)
            by_rust(folder)
        by_javascript(folder)
        by_program(sums)
        by_files(files)


if __name__ == "__main__":
    main()
