"""The speed of calls from Python beside those of hashlib and hmac, and of Cryptodome, as a table in Markdown."""
import hashlib
import hmac
import threading
import timeit

import nattizhu

try:
    from Cryptodome.Hash import HMAC, RIPEMD160
except ImportError:
    RIPEMD160 = None

KEY, SHORT, LONG = bytes(20), bytes(32), bytes(2**20)
RECORDS = SHORT * 8192
THERE = ["ripemd160" in hashlib.algorithms_available, RIPEMD160 is not None]


def least(calls, times, turns=300):
    """The least of many slices in turn, in ns a call, for each of some calls."""
    slices = [[timeit.timeit(call, number=times) for call in calls] for _ in range(turns)]
    return [min(each) / times * 1e9 for each in zip(*slices)]


def row(what, unit, times, ours, *others, scale=round):
    found = {place: call for place, call in enumerate(others) if THERE[place]}
    first, *rest = least([ours, *found.values()], times)
    cells = {place: f"{scale(time)} |" for place, time in zip(found, rest)}
    print(f"| {what}, {unit} | {scale(first)} |", *(cells.get(place, "|") for place in range(len(THERE))),
          f"{min(rest) / first:.2f} |" if rest else "|")


def speed(ns):
    return round(len(LONG) / ns * 1000)


def four_threads(make):
    """How many times as long four threads take as one, each on 64 MiB."""
    message = bytes(2**26)

    def work(number):
        threads = [threading.Thread(target=make, args=(message,)) for _ in range(number)]
        for thread in threads:
            thread.start()
        for thread in threads:
            thread.join()

    one, four = least([lambda: work(1), lambda: work(4)], 1, 40)
    return f"{four / one:.2f}"


ours = nattizhu.ripemd160()
theirs = [hashlib.new("ripemd160") if THERE[0] else None, RIPEMD160.new() if THERE[1] else None]
print("| | nattizhu | hashlib, hmac | Cryptodome | times as fast as the faster of these |")
print("|---|---|---|---|---|")
row("digest of 32 bytes", "ns", 500, lambda: nattizhu.ripemd160(SHORT).digest(),
    lambda: hashlib.new("ripemd160", SHORT).digest(), lambda: RIPEMD160.new(SHORT).digest())
row("tag of 32 bytes", "ns", 500, lambda: nattizhu.hmac_digest(KEY, SHORT, "ripemd160"),
    lambda: hmac.digest(KEY, SHORT, "ripemd160"), lambda: HMAC.new(KEY, SHORT, RIPEMD160).digest())
row("update of 1 byte", "ns", 5000, lambda: ours.update(b"x"), lambda: theirs[0].update(b"x"), lambda: theirs[1].update(b"x"))
row("digest of 1 MiB", "MB/s", 1, lambda: nattizhu.ripemd160(LONG).digest(),
    lambda: hashlib.new("ripemd160", LONG).digest(), lambda: RIPEMD160.new(LONG).digest(), scale=speed)
row("8,192 records of 32 bytes", "ns each", 1, lambda: nattizhu.digest_each("ripemd160", RECORDS, 32),
    scale=lambda ns: round(ns / 8192))
makers = [lambda data: hashlib.new("ripemd160", data), lambda data: RIPEMD160.new(data)]
print("| 64 MiB by each of four threads, of the time of one |", four_threads(nattizhu.ripemd160), "|",
      *(f"{four_threads(make)} |" if there else "|" for make, there in zip(makers, THERE)), "|")
