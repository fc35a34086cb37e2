#!/usr/bin/env python3
"""Checks the files of a list of digests.

    check_digests.py LIST

A line of the list has a digest in hexadecimal, a space, a space or `*`, and a
file's name, as `openssl dgst -r` and the like write them. The length says of
which RIPEMD variant the digest is. On a terminal it shows its progress. When
it is stopped (Ctrl-C, or SIGTERM), it keeps its place and the hash state in
LIST.stopped, and goes on from there when it is run again. Whoever can write
that file can make it say OK.

It ends with 0 if all files are as listed, 1 if one is not, 2 if the list can't
be used, and 3 if it was stopped.
"""

import json
import os
import signal
import sys

import nattizhu

NAMES = {32: "ripemd128", 40: "ripemd160", 64: "ripemd256", 80: "ripemd320"}
PIECE = 1 << 20


def entries_of(text):
    """The variant, the digest and the file's name of each line."""
    entries = []
    for line in text.splitlines():
        if not line.strip() or line.startswith("#"):
            continue
        digest, _, name = line.partition(" ")
        try:
            listed = bytes.fromhex(digest)
        except ValueError:
            listed = b""
        variant = NAMES.get(2 * len(listed))
        if variant is None or len(name) < 2 or name[0] not in " *":
            raise ValueError(f"no digest and name: {line}")
        entries.append((variant, listed, name[1:]))
    return entries


class Checker:
    """The checking of one list."""

    def __init__(self, path):
        self.stopped = False
        self.kept = path + ".stopped"
        with open(path, encoding="utf-8", errors="surrogateescape") as file:
            text = file.read()
        self.entries = entries_of(text)
        self.list = nattizhu.ripemd160(
            text.encode("utf-8", "surrogateescape")).hexdigest()

    def stop(self, *_):
        """Asks to stop after the piece that is being hashed."""
        self.stopped = True

    def kept_place(self):
        """Where this same list was stopped, or its beginning."""
        try:
            with open(self.kept, encoding="ascii") as file:
                place = json.load(file)
            if place["list"] == self.list:
                variant = self.entries[place["entry"]][0]
                nattizhu.from_state(variant, bytes.fromhex(place["state"]))
                return {key: place[key] for key in
                        ("entry", "failed", "file", "offset", "state")}
            print(f"the list has changed: {self.kept} is not used",
                  file=sys.stderr)
        except FileNotFoundError:
            pass
        except (ValueError, LookupError, TypeError):
            print(f"{self.kept} can't be used", file=sys.stderr)
        return {"entry": 0, "failed": 0}

    def keep(self, place):
        """Keeps the place, whole or not at all."""
        with open(self.kept + ".new", "w", encoding="ascii") as file:
            json.dump({"list": self.list, **place}, file)
        os.replace(self.kept + ".new", self.kept)

    def begin(self, file, place, variant, name):
        """The hasher for the file, which is put to where it goes on."""
        about = os.fstat(file.fileno())
        same = [about.st_size, about.st_mtime_ns]
        if "state" in place:
            if place["file"] == same:
                hasher = nattizhu.from_state(
                    variant, bytes.fromhex(place["state"]))
                file.seek(place["offset"])
                print(f"going on at byte {place['offset']} of {name}",
                      file=sys.stderr)
                return hasher
            print(f"{name} has changed: from its beginning", file=sys.stderr)
        place.update(file=same, offset=0)
        return nattizhu.new(variant)

    def digest(self, place, variant, name):
        """The digest of a file, or None when it is stopped."""
        shown = sys.stderr.isatty()
        with open(name, "rb", buffering=0) as file:
            hasher = self.begin(file, place, variant, name)
            buffer = memoryview(bytearray(PIECE))
            while not self.stopped:
                size = file.readinto(buffer)
                if size == 0:
                    return hasher.digest()
                hasher.update(buffer[:size])
                place["offset"] += size
                if shown:
                    whole = max(place["file"][0], place["offset"])
                    print(f"{name}: {100 * place['offset'] // whole} %",
                          end="\033[K\r", file=sys.stderr)
        place["state"] = hasher.state().hex()
        return None

    def run(self):
        """Checks what is left of the list; answers the status."""
        place = self.kept_place()
        while place["entry"] < len(self.entries):
            variant, listed, name = self.entries[place["entry"]]
            try:
                digest = self.digest(place, variant, name)
                found = "OK" if digest == listed else "FAILED"
            except OSError as error:
                digest = b""
                found = f"FAILED ({error.strerror})"
            if digest is None:
                self.keep(place)
                print(f"stopped at byte {place['offset']} of {name}; "
                      f"{self.kept} has the place", file=sys.stderr)
                return 3
            clear = "\033[K" if sys.stdout.isatty() else ""
            print(f"{name}: {found}{clear}", flush=True)
            place = {"entry": place["entry"] + 1,
                     "failed": place["failed"] + (found != "OK")}
        if os.path.exists(self.kept):
            os.remove(self.kept)
        return 1 if place["failed"] else 0


def main():
    if len(sys.argv) != 2:
        print("usage: check_digests.py LIST", file=sys.stderr)
        return 2
    try:
        checker = Checker(sys.argv[1])
    except (OSError, ValueError) as error:
        print(f"check_digests.py: {error}", file=sys.stderr)
        return 2
    for number in (signal.SIGINT, signal.SIGTERM):
        signal.signal(number, checker.stop)
    return checker.run()


if __name__ == "__main__":
    sys.exit(main())
