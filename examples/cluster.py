#!/usr/bin/env python3
"""Prints the digests of files, as rmdsum does, by the workers of a Dask
cluster. Each runs rmdsum, and has the files under the same names.

    find FOLDER -type f -print0 | cluster.py SCHEDULER >LIST

Where a worker ends before its lines are here, another hashes its files.
It ends with 1 if a file can't be read, after the lines of all others.
"""

import subprocess
import sys

import distributed


def lines_of(names):
    """What rmdsum prints of some files, and what it complains of."""
    ended = subprocess.run(["rmdsum", "--", *names], stdin=subprocess.DEVNULL,
                           capture_output=True, check=False)
    return ended.stdout, ended.stderr, ended.returncode


def main():
    if len(sys.argv) != 2:
        sys.exit("usage: find FOLDER -type f -print0 | cluster.py SCHEDULER")
    names = sys.stdin.buffer.read().split(b"\0")[:-1]
    parts = [names[at:at + 100] for at in range(0, len(names), 100)]
    failed = False
    with distributed.Client(sys.argv[1]) as client:
        for part in client.map(lines_of, parts, pure=False):
            lines, complaints, status = part.result()
            sys.stdout.buffer.write(lines)
            sys.stderr.buffer.write(complaints)
            failed |= status != 0
    return int(failed)


if __name__ == "__main__":
    sys.exit(main())
