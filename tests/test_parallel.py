"""Runs what docs/PARALLEL.md shows: files by xargs, records by threads, and files by a Dask cluster of which a worker is
ended in the middle. Each gives what one process gives."""
import contextlib
import os
import pathlib
import shutil
import signal
import socket
import subprocess
import sys
import time

import pytest
from conftest import ENVIRONMENT, ROOT, programs, run, site

PAGE = "docs/PARALLEL.md"
CORES, CLUSTER = (text for text, _ in programs(PAGE, "sh"))
# In place of rmdsum: it notes the worker that calls it. The sixth call does not end by itself.
NOTING = """#!/bin/sh
echo $PPID >>"$0.calls"
if [ "$(wc -l <"$0.calls")" -ge 6 ] && mkdir "$0.waits" 2>/dev/null; then
  echo $$ $PPID >"$0.waits/processes"
  exec sleep 600
fi
exec {} "$@"
"""


@pytest.fixture(name="tree", scope="module")
def fixture_tree(tmp_path_factory, rmdsum):
    """A folder with 10,000 files, and the lines of all, as one process prints them."""
    folder = tmp_path_factory.mktemp("room") / "tree"
    for number in range(10000):
        path = folder / str(number % 100) / (str(number) + (" back\\slash\n" if number % 100 == 0 else ""))
        path.parent.mkdir(parents=True, exist_ok=True)
        path.write_bytes(b"%d" % number * (number % 50))
    names = run("find", folder, "-type", "f", "-print0").stdout
    return folder, run(rmdsum, "--files0-from=-", input=names).stdout.splitlines()


def test_files_on_many_cores(tree, rmdsum):
    folder, lines = tree
    env = {"PATH": f"{rmdsum.parent}:{os.environ['PATH']}"}
    assert run("bash", "-e", "-c", CORES, cwd=folder, env=env).stdout == ""
    listed = (folder.parent / "LIST").read_text().splitlines()
    assert len(lines) == 10000 and sorted(line.replace("./", f"{folder}/") for line in listed) == sorted(lines)
    check = CORES.splitlines()[1]
    (folder / "7/7").write_text("changed")
    (folder / "8/8").unlink()
    said = run("bash", "-c", check, cwd=folder, env=env, status=123).stdout
    assert sorted(said.splitlines()) == ["./7/7: FAILED", "./8/8: FAILED open or read"]
    (folder / "7/7").write_bytes(b"7" * 7)
    (folder / "8/8").write_bytes(b"8" * 8)


def test_records_on_many_cores(prefix):
    [(text, _)] = programs(PAGE, "python")
    run(sys.executable, "-c", text, env={"PYTHONPATH": site(prefix)})


def until(condition):
    """Waits for it, at most some minutes."""
    end = time.monotonic() + 200
    while not condition():
        assert time.monotonic() < end
        time.sleep(0.05)


def test_files_on_a_cluster(tree, rmdsum, tmp_path):
    if run("/usr/bin/python3", "-c", "import distributed", status=None).returncode:
        pytest.skip("there is no Dask (Debian's python3-distributed)")
    folder, lines = tree
    noting = tmp_path / "rmdsum"
    noting.write_text(NOTING.format(rmdsum))
    noting.chmod(0o755)
    shutil.copy(ROOT / "examples/cluster.py", tmp_path)
    with socket.create_server(("127.0.0.1", 0)) as server:
        port = server.getsockname()[1]
    scheduler, worker, command = CLUSTER.replace("SCHEDULER:8786", f"127.0.0.1:{port}").replace("/srv", str(folder)).splitlines()
    env = {**ENVIRONMENT, "PATH": f"{tmp_path}:/usr/bin:{os.environ['PATH']}", "TMPDIR": str(tmp_path)}
    with contextlib.ExitStack() as stack:
        def start(text, log):
            process = subprocess.Popen(["bash", "-c", text], cwd=tmp_path, env=env, start_new_session=True,
                                       stdout=subprocess.DEVNULL, stderr=(tmp_path / log).open("w"))
            stack.callback(process.wait, 100)
            stack.callback(process.terminate)
            return process

        start(f"{scheduler} --host 127.0.0.1 --port {port} --no-dashboard", "scheduler")
        workers = [start(worker, f"worker{number}").pid for number in range(2)]
        until(lambda: all("Registered to" in (tmp_path / f"worker{number}").read_text() for number in range(2)))
        whole = start(command, "whole")
        waiting = pathlib.Path(f"{noting}.waits/processes")
        until(lambda: waiting.exists() and waiting.read_text())
        call, ended = map(int, waiting.read_text().split())
        nanny = os.getpgid(ended)  # which would start the worker again
        assert nanny in workers and whole.poll() is None
        for process in (nanny, ended, call):
            os.kill(process, signal.SIGKILL)
        assert whole.wait(200) == 0
        missing = start(command.replace(f"find {folder} -type f -print0", r"printf '%s\0' rmdsum none") + "2", "missing")
        assert missing.wait(200) == 1
    assert sorted((tmp_path / "LIST").read_text().splitlines()) == sorted(lines)
    assert len(pathlib.Path(f"{noting}.calls").read_text().splitlines()) > 10000 / 100 + 1
    assert (tmp_path / "LIST2").read_text().endswith("  rmdsum\n") and "none" in (tmp_path / "missing").read_text()
