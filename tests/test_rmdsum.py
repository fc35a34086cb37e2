"""Compares the program rmdsum with sha256sum of coreutils. Over the same files, with digests and tags of RIPEMD
in place of those of SHA-256 in every list, it prints the same to both outputs and ends with the same status."""
import contextlib
import dataclasses
import hashlib
import itertools
import os
import random
import re
import select
import shutil
import signal
import subprocess
import threading

import pytest
from conftest import DIGESTS, PUBLISHED, VARIANTS, need, run, version

BYTES = bytes(range(256)) * 64
# The lengths of the contents of files, whose digests by RIPEMD other implementations gave.
LENGTHS = [*range(201), 4095, 4096, 4097, 8192, 12288]

UTF8 = {"LC_ALL": "C.UTF-8"}
UNWRITABLE = re.compile(rb": write error(: [A-Z][a-z ]*)?\n")


@dataclasses.dataclass
class Hash:
    """A hash: the tag that its lines have, all those that are read, the options that choose it, its digests by
    the lengths of the files, and those of another hash."""
    tag: str
    tags: list
    options: list
    digests: dict
    other: dict


# The digests of the bytes 0 to 255 again and again, by variant and length.
BY_LENGTH = {variant: {length: digest for bits, length, digest in DIGESTS if bits == variant} for variant in VARIANTS}
OTHER = {"128": "160", "160": "256", "256": "320", "320": "128"}


def sha_digests(name):
    return {length: hashlib.new(name, BYTES[:length]).hexdigest() for length in LENGTHS}


SHA256 = Hash("SHA256", ["SHA256"], [], sha_digests("sha256"), sha_digests("sha1"))
RIPEMD = {variant: Hash(f"RMD{variant}", [f"RMD{variant}", f"RIPEMD{variant}", f"RIPEMD-{variant}"],
                        ["-a", variant], BY_LENGTH[variant], BY_LENGTH[OTHER[variant]]) for variant in VARIANTS}


@pytest.fixture(scope="module", autouse=True)
def coreutils():
    need("sha256sum", "coreutils")
    if "(GNU coreutils) 9.1\n" not in run("sha256sum", "--version").stdout:
        pytest.skip("the messages are those of sha256sum of coreutils 9.1; this one is another")


@dataclasses.dataclass
class Ended:
    """The status of a program, and what it wrote to standard output and standard error."""
    status: int
    out: bytes
    error: bytes


def ended(program, words, room, **options):
    """A run of a program, which is called rmdsum whatever it is."""
    if "input" not in options:
        options.setdefault("stdin", subprocess.DEVNULL)
    options = {"stdout": subprocess.PIPE, "stderr": subprocess.PIPE, "env": UTF8} | options
    done = subprocess.run([b"rmdsum", *map(os.fsencode, words)], executable=program, cwd=room, check=False,
                          timeout=60, **options)
    return Ended(done.returncode, done.stdout, done.stderr)


def exchanged(text, hash_):
    """What sha256sum printed, with the digests and the tag of a hash."""
    text = text.replace(b"SHA256", hash_.tag.encode())
    return re.sub(rb"\b[0-9a-f]{64}\b", lambda found: BY_SHA256.get(found[0], {}).get(hash_.tag, found[0]), text)


BY_SHA256 = {SHA256.digests[length].encode(): {hash_.tag: hash_.digests[length].encode()
                                               for hash_ in RIPEMD.values()} for length in LENGTHS}


class Rooms:
    """Two folders with the same files, and with lists of SHA-256 in the one, of a variant of RIPEMD in the
    other."""

    def __init__(self, top, program, variant="256"):
        self.hash = RIPEMD[variant]
        self.program, self.room = program, top / "ripemd"
        self.sides = [(SHA256, top / "sha256", shutil.which("sha256sum")), (self.hash, self.room, program)]
        for _, room, _ in self.sides:
            room.mkdir(parents=True)

    def file(self, name, length):
        """Makes a file of so many bytes."""
        for _, room, _ in self.sides:
            (room / os.fsdecode(name)).write_bytes(BYTES[:length])

    def folder(self, name):
        for _, room, _ in self.sides:
            (room / os.fsdecode(name)).mkdir()

    def list(self, name, text):
        """Makes a list, which is a function of the hash."""
        for hash_, room, _ in self.sides:
            (room / os.fsdecode(name)).write_bytes(text(hash_))

    def own(self, words, **options):
        """A run of rmdsum alone."""
        return ended(self.program, words, self.room, **options)

    def run(self, words, text=None, pick=True, **options):
        """What sha256sum would say of RIPEMD, and what rmdsum does say. The text of standard input is a function
        of the hash."""
        results = []
        for hash_, room, program in self.sides:
            if text is not None:
                options["input"] = text(hash_)
            first = hash_.options if pick else []
            results.append(ended(program, [*first, *words], room, **options))
        wanted, found = results
        wanted.out = wanted.out and exchanged(wanted.out, self.hash)
        wanted.error = wanted.error and exchanged(wanted.error, self.hash)
        if not pick:  # each line may be of another variant
            wanted.error, found.error = (re.sub(rb"(improperly formatted) \w+", rb"\1", ended.error)
                                         for ended in (wanted, found))
        return wanted, found

    def run_alike(self, words, text, found, **options):
        """The same where each difference that a page names is taken away: sha256sum refuses the lines that rmdsum
        refuses, can't open the names that rmdsum can't open, and shows names as rmdsum does. Only such lines and
        names are changed."""
        room = self.sides[0][1]
        lists = {path: path.read_bytes() for path in room.glob("list*") if path.is_file()}
        for path, held in lists.items():
            path.write_bytes(refused(held))
        for name in re.findall(rb"^rmdsum: (.*): invalid filename$", found.error, re.MULTILINE):
            make_unopenable(room, unquoted(name))
        is_list = text is not None and not {"-c", "--check"}.isdisjoint(words)
        taken = (lambda hash_: refused(text(hash_)) if hash_ is SHA256 else text(hash_)) if is_list else text
        wanted, found = self.run(words, taken, **options)
        for path, held in lists.items():
            path.write_bytes(held)
        theirs, ours = (ended.error.splitlines(keepends=True) for ended in (wanted, found))
        if len(theirs) == len(ours):
            wanted.error = b"".join(map(as_shown, theirs, ours))
        return wanted, found

    def same(self, words, text=None, **options):
        """Runs both, which have to say the same but for the differences that a page names, and returns what rmdsum
        says."""
        wanted, found = self.run(words, text, **options)
        if wanted != found:
            wanted, found = self.run_alike(words, text, found, **options)
        if wanted != found:
            shown = "" if text is None else f"\nstandard input: {text(self.hash)!r}"
            lists = "".join(f"\n{path.name!r}: {path.read_bytes()!r}" for path in sorted(self.room.iterdir())
                            if path.is_file() and os.fsencode(path.name).startswith(b"list"))
            pytest.fail(f"{self.hash.options} {words}{shown}{lists}\nwanted: {wanted}\nfound: {found}", pytrace=False)
        return found


# Lines and lists, as functions of the hash.


def constant(text):
    return lambda _: text


def joined(*parts):
    return lambda hash_: b"".join(part if isinstance(part, bytes) else part(hash_) for part in parts)


def listed(*parts):
    """Each a line of its own."""
    return joined(*(joined(part, b"\n") for part in parts))


def tag_of(hash_):
    return hash_.tag.encode()


def untagged(name, length, separator=b"  ", mark=b""):
    return joined(mark, lambda hash_: hash_.digests[length].encode(), separator, name)


def tagged(name, length, mark=b""):
    return joined(mark, tag_of, b" (", name, b") = ", lambda hash_: hash_.digests[length].encode())


# The differences that the READMEs of rmdsum and ripemd_files name, and that drawn lists meet.

SAID = re.compile(rb"rmdsum: (.*): ([^:]*\n)", re.DOTALL)
# What a shell reads: quotes of three kinds, an escaped apostrophe, and what stands without quotes.
QUOTED = re.compile(rb"""\$'((?:[^'\\]|\\.)*)'|'([^']*)'|"([^"]*)"|\\(')|([^'"\\$]+)""", re.DOTALL)
LETTERS = dict(zip(b"abtnvfr\\", b"\a\b\t\n\v\f\r\\"))
# Characters that sha256sum escapes in a locale of UTF-8, and rmdsum shows.
HIDDEN = "\uffff\u2028\u0378\U0010ffff"


def unquoted(shown):
    """The name that a shell reads."""
    if QUOTED.sub(b"", shown):
        return None
    return b"".join(re.sub(rb"\\([0-7]{3}|.)", unescaped, escaped) + b"".join(others)
                    for escaped, *others in QUOTED.findall(shown))


def unescaped(found):
    return bytes([int(found[1], 8) if len(found[1]) == 3 else LETTERS[found[1][0]]])


def is_utf8(name):
    return not re.search("[\udc80-\udcff]", os.fsdecode(name))


def is_misquoted(name):
    """Whether sha256sum may show a name so that a shell reads another one: it has an apostrophe, and ends with an
    escaped byte."""
    return b"'" in name and re.search(rf"[\x01-\x1f\x7f-\x9f\udc80-\udcff{HIDDEN}]\Z", os.fsdecode(name))


def without_quotes(shown):
    """What is shown of a name, with escapes of what may be hidden."""
    for character in HIDDEN:
        shown = shown.replace(character.encode(), b"".join(b"%o" % byte for byte in character.encode()))
    return re.sub(rb"['\"$\\]", b"", shown)


def as_shown(wanted, found):
    """A message of sha256sum, with the name as rmdsum shows it, if that differs as named."""
    theirs, ours = SAID.fullmatch(wanted), SAID.fullmatch(found)
    if wanted == found or not (theirs and ours):
        return wanted
    name, shown, reason = unquoted(ours[1]), theirs[1], theirs[2]
    if ours[2] == b"invalid filename\n" and not is_utf8(name):
        reason = ours[2]
    may_differ = is_misquoted(name) or unquoted(shown) == name and re.search(f"[{HIDDEN}]", os.fsdecode(name))
    if may_differ and without_quotes(shown) == without_quotes(ours[1]):
        shown = ours[1]
    return b"rmdsum: " + shown + b": " + reason


def refused(text):
    """A list for sha256sum in which no line with a byte 0 is taken. It takes no marked one that is untagged."""
    return re.sub(rb"^(?!#)([ \t]*)\\?([^\n]*\0[^\n]*)", lambda found: b"no line" if found[2].startswith(b"SHA256")
                  else found[1] + b"\\" + found[2], text, flags=re.MULTILINE)


def make_unopenable(room, name):
    """Puts a link to itself in place of what has this name, which is not UTF-8."""
    assert not is_utf8(name)
    path = room / os.fsdecode(name)
    with contextlib.suppress(OSError):  # the name is too long
        if path.is_dir():
            path.rmdir()
        path.unlink(missing_ok=True)
        path.symlink_to(path.name)


@pytest.fixture(name="rooms")
def fixture_rooms(tmp_path, rmdsum):
    return Rooms(tmp_path, rmdsum)


# Files, by their names, with their lengths.
STOCK = {"a": 0, "b": 3, "c": 64, "two words": 200, "back\\slash": 5, "new\nline": 6, "return\r": 7, "-dash": 8, "*star": 9,
         " blank": 10, "é": 11, "it's": 12, "44": 13, " ": 14}


@pytest.fixture(name="stocked")
def fixture_stocked(rooms):
    """Rooms with some files, and a list of each kind."""
    for name, length in STOCK.items():
        rooms.file(name, length)
    rooms.folder("folder")

    good = [untagged(b"a", 0), untagged(b"b", 3), untagged(b"two words", 200)]
    wrong = untagged(b"c", 65)
    missing = untagged(b"missing", 1)
    no_line = constant(b"no line")
    rooms.list("list", listed(*good))
    rooms.list("list-wrong", listed(good[0], wrong, good[1], wrong))
    rooms.list("list-missing", listed(missing, good[0], missing))
    rooms.list("list-all-missing", listed(missing, missing))
    rooms.list("list-bad", listed(no_line, good[0], no_line, no_line))
    rooms.list("list-one-bad", listed(good[0], no_line))
    rooms.list("list-no", listed(no_line, no_line))
    rooms.list("list-each", listed(no_line, wrong, missing, *good, untagged(b"folder", 0)))
    rooms.list("list-empty", listed())
    rooms.list("list-tagged", listed(tagged(b"a", 0), tagged(b"b", 3)))
    rooms.list("list-reversed", listed(untagged(b"a", 0, b" "), untagged(b"b", 3, b" ")))
    return rooms


LISTS = ["list", "list-wrong", "list-missing", "list-all-missing", "list-bad", "list-one-bad", "list-no", "list-each",
         "list-empty", "list-tagged", "list-reversed", "no-list", "folder"]


# What is drawn.

PIECES = [b"a", b"b", b"name", b".txt", b" ", b"  ", b"\\", b"\\n", b"\n", b"\r", b"-", b"--", b"*", b"(", b")",
          b") = ", b"=", b"'", b'"', b"$", b"#", b"~", b":", b"\t", "é".encode(), "漢字".encode(), "😀".encode(),
          b"\x7f", b"\x1b", b"{", b"}", b"%", b"SHA", b"RMD", b"0123", b"!"]
RARE = [b"\xff", b"\xc3", b"\xe2\x82", b"\xed\xa0\x80", "\u0085".encode(), *map(str.encode, HIDDEN)]
# Digits that could be those of SHA-256 and of RIPEMD-256.
DIGITS = b"0123456789abcdef" * 4


def draw_name(rng, pieces):
    """A name for a file."""
    name = b"".join(rng.choice(RARE if rng.random() < 0.03 else pieces) for _ in range(rng.choice([1, 1, 2, 3, 4, 6])))
    # Behind a newline such digits could begin a line, and a digest would stand in its name.
    return name.replace(b"\n", b"") if DIGITS in name else name


def draw_files(rng, rooms):
    """Makes some files, and returns their names with the lengths; some names are of none."""
    pieces = [*PIECES, DIGITS, DIGITS + b"  ", b") = " + DIGITS] if rooms.hash is RIPEMD["256"] else PIECES
    names = sorted({draw_name(rng, rng.choice([pieces] * 19 + [[b"-"]])) for _ in range(rng.randint(1, 7))})
    files = [(name, rng.choice(LENGTHS)) for name in names]
    for name, length in files:
        if len(name) > 255:
            continue
        if rng.random() < 0.85:
            rooms.file(name, length)
        elif rng.random() < 0.2:
            rooms.folder(name)
    return files


def escaped(name):
    return name.replace(b"\\", b"\\\\").replace(b"\n", b"\\n").replace(b"\r", b"\\r")


def draw_spelling(rng, name):
    """A name as it stands in a line, with the mark in front of the line."""
    choice = rng.random()
    if choice < 0.75:
        return (b"\\", escaped(name)) if re.search(rb"[\\\n\r]", name) else (b"", name)
    if choice < 0.82:
        return b"", name
    if choice < 0.87:
        return b"\\", name
    if choice < 0.92:
        return b"\\", escaped(name)
    place = rng.randint(0, len(name))
    return rng.choice([b"\\", b"\\", b""]), name[:place] + rng.choice(
        [b"\\", b"\\x", b"\\\\", b"\\n", b"\\r", b"\\0", b"\\t", b"\\ ", b"\\'", b"\0", b"\0"]) + name[place:]


# What is made of a digest, by its digits and a place among them, with how often that is drawn.
CHANGES = [
    (60, lambda digits, place: digits),
    (5, lambda digits, place: digits.upper()),
    (5, lambda digits, place: digits[:place] + digits[place:].upper()),
    (8, lambda digits, place: digits[:place] + b"%x" % (int(digits[place:place + 1], 16) ^ 1) + digits[place + 1:]),
    *((1, lambda digits, place, byte=byte: digits[:place] + byte + digits[place + 1:])
      for byte in [b"g", b"G", b"/", b":", b"@", b"`", b"x", b" ", b"\0"]),
    (3, lambda digits, place: digits[:place]),
    (2, lambda digits, place: digits[:-1]),
    (2, lambda digits, place: digits[:-2]),
    (2, lambda digits, place: digits + b"0"),
    (2, lambda digits, place: digits + digits),
]


def draw_digest(rng, length):
    """The digest of a file, what was made of it, or another one, as a function of the hash."""
    kind, fraction = rng.choice(["own"] * 9 + ["next", "other"]), rng.random()
    change = rng.choices([change for _, change in CHANGES], [often for often, _ in CHANGES])[0]

    def digest(hash_):
        if kind == "other":
            return hash_.other[length].encode()
        if kind == "next":
            return hash_.digests[LENGTHS[LENGTHS.index(length) - 1]].encode()
        digits = hash_.digests[length].encode()
        return change(digits, int(fraction * len(digits)))

    return digest


def draw_line(rng, files, usual):
    """A line of a list, as a function of the hash."""
    name, length = rng.choice(files)
    digest = draw_digest(rng, length)
    mark, spelled = draw_spelling(rng, name)
    front = rng.choice([b"", b"", b"", b"", b"", b"", b" ", b"  \t", b"\t"])
    kind = usual if rng.random() < 0.85 else rng.choice(
        ["text", "binary", "tagged", "openssl", "reversed", "odd", "loose"])
    tag = rng.random()
    blanks = [rng.choice([b"", b" ", b"  ", b"\t", b" \t "]) for _ in range(2)]
    odd = rng.choice([b"", b"\t", b"\t ", b"\t*", b"\t\t", b"   ", b" \t", b" **", b"* ", b"-", b" -", b"\x0b ",
                      b"\xa0 ", b"\0", b" \0"])
    behind = rng.choice([b"", b"", b"", b"", b"", b" ", b"x", b")", b" =", b"\t", b"\0", b"\0x"])

    def line(hash_):
        parts = [front, mark]
        name_of_hash = hash_.tags[int(tag * len(hash_.tags))].encode()
        if kind in ("text", "binary", "reversed", "odd"):
            separator = {"text": b"  ", "binary": b" *", "reversed": b" ", "odd": odd}[kind]
            parts += [digest(hash_), separator, spelled]
        elif kind == "tagged":
            parts += [name_of_hash, b" (", spelled, b") = ", digest(hash_)]
        elif kind == "openssl":
            parts += [name_of_hash, b"(", spelled, b")= ", digest(hash_)]
        else:
            parts += [name_of_hash.lower() if odd == b"" else name_of_hash, odd, b"(", spelled, b")", blanks[0], b"=",
                      blanks[1], digest(hash_), behind]
        return b"".join(parts)

    return line


SHA224 = hashlib.sha224().hexdigest().encode()
OTHER_LINES = [b"", b"", b" ", b"\t", b"#", b"# a comment", b"#" + b"0" * 64 + b"  a", b" # no comment", b"\\",
               b"\\\\", b"-----BEGIN PGP SIGNED MESSAGE-----", b"Hash: SHA1", b"\xff\xfe", b"0", b"x" * 500, b"(",
               b") = ", b"SHA224 (a) = " + SHA224, SHA224 + b"  a", b"a", b"  ", b"\0", b"#\0"]


def draw_list(rng, files):
    """The text of a list, as a function of the hash."""
    usual = rng.choice(["text", "text", "binary", "tagged", "openssl", "reversed"])
    drawn = [(constant(rng.choice(OTHER_LINES)) if rng.random() < 0.15 else draw_line(rng, files, usual),
              b"\r\n" if rng.random() < 0.08 else b"\n") for _ in range(rng.choice([0, 1, 1, 2, 3, 4, 6, 9]))]
    returns, cut = rng.random() < 0.06, rng.random() < 0.15

    def text(hash_):
        whole = b"".join(line(hash_) + (b"\r\n" if returns else end) for line, end in drawn)
        return whole[:-1] if cut else whole

    return text


CHECK_OPTIONS = ["--ignore-missing", "--ign", "--quiet", "--q", "--status", "--sta", "--strict", "--str", "-w",
                 "--warn"]
PRINT_OPTIONS = ["-b", "-t", "--tag", "-z", "--zero", "--binary", "--text", "--ta", "-bz", "-tz"]


def mixed(rng, options, operands):
    """Options among operands, in some order."""
    words = [*options, *operands]
    if rng.random() < 0.5:
        rng.shuffle(words)
    return words


def protected(operands):
    """Operands that are read as no options."""
    return ["./" + os.fsdecode(name) if name[:1] == b"-" and name != b"-" else os.fsdecode(name) for name in operands]


@pytest.mark.parametrize("text", [
    untagged(b"\t'\t", 0), untagged(HIDDEN[0].encode(), 0), untagged(b"\xff", 0), untagged(b"a\0", 0),
    joined(tagged(b"a", 0), b"\0")], ids=["misquoted", "hidden", "not UTF-8", "0 in a name", "0 behind a digest"])
def test_named_differences(rooms, text):
    """A smallest list for each difference that drawn ones may have."""
    rooms.file(b"\xff", 0)
    rooms.file(b"a", 0)
    wanted, found = rooms.run(["-c"], text)
    assert wanted != found
    rooms.same(["-c"], text)


@pytest.mark.parametrize("seed", range(60))
def test_drawn_lists(tmp_path, rmdsum, seed):
    """Lists of all kinds, good and damaged, for some files: 4,800 checks. With DRAWN_FOLDERS=200 they are 48,000."""
    rng = random.Random(seed)
    for number in range(int(os.environ.get("DRAWN_FOLDERS", "20"))):
        rooms = Rooms(tmp_path / str(number), rmdsum, "256" if seed % 4 else rng.choice(VARIANTS))
        files = draw_files(rng, rooms)
        first, second = draw_list(rng, files), draw_list(rng, files)
        rooms.list("list", first)
        rooms.list("list2", second)
        for _ in range(4):
            options = rng.sample(CHECK_OPTIONS, rng.choice([0, 0, 1, 1, 2, 3]))
            lists = rng.choice([["list"], ["list"], ["list2"], ["list", "list2"], ["-"], [], ["list", "-"],
                                ["list2", "list", "list"]])
            rooms.same(mixed(rng, [rng.choice(["-c", "--check"]), *options], lists), rng.choice([first, second]))


@pytest.mark.parametrize("seed", range(30))
def test_drawn_files(tmp_path, rmdsum, seed):
    """Lines in each form for files of all names, also for those that are not there."""
    rng = random.Random(seed)
    for number in range(20):
        rooms = Rooms(tmp_path / str(number), rmdsum, "256" if seed % 4 else rng.choice(VARIANTS))
        names = [name for name, _ in draw_files(rng, rooms)]
        for _ in range(4):
            options = rng.sample(PRINT_OPTIONS, rng.choice([0, 0, 1, 1, 2, 3]))
            operands = rng.choices([*names, b"-", b"missing"], k=rng.randint(0, 5))
            words = mixed(rng, options, protected(operands))
            if rng.random() < 0.3:
                words = [*options, "--", *map(os.fsdecode, operands)]
            length = rng.choice(LENGTHS)
            rooms.same(words, constant(BYTES[:length]))


@pytest.mark.parametrize("seed", range(20))
def test_own_lists(tmp_path, rmdsum, seed):
    """What it prints, it checks."""
    rng = random.Random(seed)
    for number in range(20):
        rooms = Rooms(tmp_path / str(number), rmdsum, rng.choice(VARIANTS))
        names = [name for name in sorted({b"a", *(draw_name(rng, PIECES) for _ in range(5))} - {b"-"}) if is_utf8(name)]
        for name in names:
            rooms.file(name, rng.choice(LENGTHS))
        form = rng.choice([[], ["-b"], ["--tag"], ["-t"]])
        printed = rooms.own([*rooms.hash.options, *form, "--", *names])
        assert (printed.status, printed.error, printed.out.count(b"\n")) == (0, b"", len(names))
        for options in [rooms.hash.options, []]:
            checked = rooms.own([*options, "--check", "--strict"], input=printed.out)
            assert (checked.status, checked.error, checked.out.count(b": OK\n")) == (0, b"", len(names))
            assert rooms.own([*options, "-c", "--quiet"], input=printed.out) == Ended(0, b"", b"")


# Options.

TELLING = [list(order) for count in range(4)
           for order in itertools.permutations(["--quiet", "--status", "-w"], count)]


@pytest.mark.parametrize("name", LISTS)
def test_options_of_check(stocked, name):
    """Every choice and order of the options, with a list of each kind."""
    for telling in TELLING:
        for others in [[], ["--strict"], ["--ignore-missing"], ["--ignore-missing", "--strict"]]:
            stocked.same(["-c", *telling, *others, name])


@pytest.mark.parametrize("options", [[], ["--quiet"], ["--status"], ["-w"], ["--strict"], ["--ignore-missing"]],
                         ids=" ".join)
def test_several_lists(stocked, options):
    for names in itertools.permutations(LISTS, 2):
        stocked.same(["--check", *options, *names])


def test_options_of_printing(stocked):
    names = ["a", "missing", "two words", "new\nline", "back\\slash", "return\r", "folder", "-", "*star", " blank",
             "é"]
    for count in range(4):
        for options in itertools.product(["-b", "-t", "--tag", "-z"], repeat=count):
            stocked.same([*options, *names], constant(BYTES[:9]))


SWITCHES = ["-b", "-c", "-t", "-w", "-z", "--tag", "--quiet", "--status", "--strict", "--ignore-missing"]


@pytest.mark.parametrize("first", SWITCHES)
def test_options_that_exclude_one_another(stocked, first):
    for others in itertools.product(SWITCHES, repeat=2):
        stocked.same([first, *others], constant(b""))
        stocked.same([*others[:1], "a", first, *others[1:]], constant(b""))


WORDS = ["-b", "-c", "-t", "-w", "-z", "--tag", "--zero", "--check", "--text", "--binary", "--warn", "--quiet",
         "--status", "--strict", "--ignore-missing", "--", "-", "-x", "--x", "--s", "--st", "--sta", "--str",
         "--stx", "--t", "--ta", "--te", "--b", "--c", "--q", "--quiet=", "--quiet=1", "--ta=3", "--i", "--ig=",
         "--w", "--z", "-cb", "-bz", "-zt", "-tw", "-wx", "--x=1", "--texts", "a", "missing", "--s=4", "-c-",
         "--chec", "-b=", "-\\", "-é", b"-\xff", b"--\xff\n", "--tag ", "---", "--\\", "--CHECK", "-B", "-q"]


@pytest.mark.parametrize("seed", range(20))
def test_words(stocked, seed):
    """The rules of getopt_long, and its messages."""
    rng = random.Random(seed)
    for word in WORDS[seed::20]:
        stocked.same([word], constant(b""))
        stocked.same(["a", word], constant(b""))
    for _ in range(120):
        stocked.same(rng.choices(WORDS, k=rng.randint(2, 5)), constant(b""))


TRY = b"Try 'rmdsum --help' for more information.\n"


@pytest.mark.parametrize("words, text", [
    (["-a"], b"option requires an argument -- 'a'"),
    (["-ba"], b"option requires an argument -- 'a'"),
    (["--algorithm"], b"option '--algorithm' requires an argument"),
    (["--al"], b"option '--algorithm' requires an argument"),
    (["--files0-from"], b"option '--files0-from' requires an argument"),
    (["--progress=1"], b"option '--progress' doesn't allow an argument"),
    (["--files0-from=x", "a", "b"],
     b"extra operand 'a'\nfile operands cannot be combined with --files0-from"),
    (["it's", "--files0-from", "x"],
     b"extra operand \"it's\"\nfile operands cannot be combined with --files0-from"),
    *((words, b"invalid argument '" + name + b"' for '--algorithm'\nValid arguments are:\n"
       b"  - '128'\n  - '160'\n  - '256'\n  - '320'") for words, name in [
           (["-a", "512"], b"512"), (["-a512"], b"512"), (["--algorithm="], b""), (["--a", "16"], b"16"),
           (["-a", "-c"], b"-c"), (["-a", "0160"], b"0160"), (["-a", "ripemd160"], b"ripemd160"),
           (["-a", "160 "], b"160 "), (["-a", "it's\n\\"], b"it\\'s\\n\\\\"), (["-a", "é"], b"\\303\\251")]),
], ids=str)
def test_misuse(rooms, words, text):
    assert rooms.own(words) == Ended(1, b"", b"rmdsum: " + text + b"\n" + TRY)


@pytest.mark.parametrize("variant", VARIANTS)
def test_algorithm(rooms, variant):
    (rooms.room / "a").write_bytes(BYTES[:100])
    line = Ended(0, RIPEMD[variant].digests[100].encode() + b"  a\n", b"")
    for words in [["-a", variant, "a"], [f"-a{variant}", "a"], ["a", "-a", variant], ["--algorithm", variant, "a"],
                  [f"--algorithm={variant}", "a"], [f"--a={variant}", "--", "a"], ["-a", "160", "-a", variant, "a"],
                  [f"-ta{variant}", "a"]]:
        assert rooms.own(words) == line
    if variant == "160":
        assert rooms.own(["a"]) == line


@pytest.mark.parametrize("variant, message, digest", PUBLISHED)
def test_published(rooms, variant, message, digest):
    (rooms.room / "message").write_bytes(message)
    line = Ended(0, digest.encode() + b"  message\n", b"")
    assert rooms.own(["-a", variant, "message"]) == line


def test_help_and_version(rooms):
    for words in [["--help"], ["--h"], ["a", "--help", "-x"], ["--tag", "-c", "--help"]]:
        helped = rooms.own(words)
        assert (helped.status, helped.error) == (0, b"")
        assert helped.out.startswith(b"Usage: rmdsum [OPTION]... [FILE]...\n")
        for option in ["--algorithm", "--binary", "--check", "--tag", "--text", "--zero", "--ignore-missing",
                       "--quiet", "--status", "--strict", "--warn", "--files0-from", "--progress", "--help",
                       "--version", "-a", "-b", "-c", "-t", "-w", "-z"]:
            assert re.search(rb"(?<![\w-])%s\b" % option.encode(), helped.out), option
    for words in [["--version"], ["--v"], ["-b", "--version", "--help"]]:
        told = rooms.own(words)
        assert (told.status, told.error) == (0, b"")
        assert told.out.startswith(b"rmdsum ") and version().encode() in told.out.split(b"\n")[0]


# Lines of every variant.


def is_of_another(line, variant):
    """Whether a damaged line may be one of another variant, by the number of its digits."""
    counts = {len(digits) for digits in re.findall(rb"[0-9a-fA-F]+", line)}
    return any(counts & {len(BY_LENGTH[other][0])} for other in VARIANTS if other != variant)


@pytest.mark.parametrize("seed", range(20))
def test_lists_of_all_variants(tmp_path, rmdsum, seed):
    """Without -a, each line may be of another variant."""
    rng = random.Random(seed)
    for number in range(20):
        rooms = Rooms(tmp_path / str(number), rmdsum)
        files = draw_files(rng, rooms)
        usual = rng.choice(["text", "binary", "tagged", "openssl", "reversed"])
        drawn = [(draw_line(rng, files, usual), rng.choice(VARIANTS)) for _ in range(rng.randint(1, 8))]
        drawn = [(line, variant) for line, variant in drawn if not is_of_another(line(RIPEMD[variant]), variant)]

        def text(hash_, drawn=drawn):
            return b"".join(line(hash_ if hash_ is SHA256 else RIPEMD[variant]) + b"\n" for line, variant in drawn)

        rooms.list("list", text)
        options = rng.sample(CHECK_OPTIONS, rng.choice([0, 1, 2]))
        rooms.same(["-c", *options, "list"], pick=False)


def test_other_variants_are_no_lines(rooms):
    """With -a, lines of the other variants are improper."""
    (rooms.room / "a").write_bytes(BYTES[:7])
    for variant, other in itertools.permutations(VARIANTS, 2):
        for line in [untagged(b"a", 7), untagged(b"a", 7, b" *"), tagged(b"a", 7)]:
            alone = rooms.own(["-c", "-a", variant], input=line(RIPEMD[other]) + b"\n")
            assert alone == Ended(
                1, b"", b"rmdsum: 'standard input': no properly formatted checksum lines found\n")
            beside = rooms.own(["-c", "-w", "-a", variant],
                               input=line(RIPEMD[other]) + b"\n" + line(RIPEMD[variant]) + b"\n")
            assert beside == Ended(
                0, b"a: OK\n",
                b"rmdsum: 'standard input': 1: improperly formatted RMD%s checksum line\n"
                b"rmdsum: WARNING: 1 line is improperly formatted\n" % variant.encode())


# Lines of other programs.


@pytest.mark.parametrize("name", ["plain", "two words", "par(en)theses", ") = "])
def test_lines_of_openssl(rooms, name):
    need("openssl", "openssl")
    (rooms.room / name).write_bytes(BYTES[:150])
    for form in [[], ["-r"]]:
        printed = run("openssl", "dgst", *form, "-provider", "legacy", "-provider", "default", "-rmd160", name,
                      cwd=rooms.room, status=0 if form else None, text=False)
        if printed.returncode:
            pytest.skip("openssl has no RIPEMD-160 here")
        for options in [[], ["-a", "160"]]:
            assert rooms.own(["-c", "--strict", *options], input=printed.stdout) == Ended(
                0, os.fsencode(name) + b": OK\n", b"")


@pytest.mark.parametrize("name", ["plain", "two words", "par(en)theses"])
def test_lines_of_rhash(rooms, name):
    need("rhash", "rhash")
    (rooms.room / name).write_bytes(BYTES[:150])
    for words in [["--ripemd160", "--simple"], ["--ripemd160", "--bsd"], ["--ripemd160"]]:
        text = run("rhash", *words, name, cwd=rooms.room, text=False).stdout
        assert rooms.own(["-c"], input=text) == Ended(0, os.fsencode(name) + b": OK\n", b"")


def test_lines_are_read_by_rhash(rooms):
    need("rhash", "rhash")
    for name in ["plain", "two words"]:
        (rooms.room / name).write_bytes(BYTES[:150])
        for form in [[], ["-b"], ["--tag"]]:
            (rooms.room / "list").write_bytes(rooms.own([*form, name]).out)
            assert run("rhash", "--ripemd160", "--check", "list", cwd=rooms.room).stdout.count(" OK\n") == 1


# Names from a file.


def wc_message(room, words, **options):
    return ended(shutil.which("wc"), words, room, **options).error


@pytest.mark.parametrize("names", [
    b"a\0b\0", b"a\0b", b"a", b"", b"\0", b"a\0\0b\0", b"missing\0a\0", b"new\nline\0-dash\0*star\0", b"folder\0a\0",
    b"a\0--\0--tag\0b\0", b"\0\0", b"-\0",
], ids=repr)
def test_names_from_a_file(stocked, names):
    """Its messages are those of wc."""
    lengths = {b"a": 0, b"b": 3, b"new\nline": 6, b"-dash": 8, b"*star": 9}
    (stocked.room / "names").write_bytes(names)
    for source, options in [("names", {}), ("-", {"input": names})]:
        words = [f"--files0-from={source}"]
        counted = wc_message(stocked.room, words, **options)
        found = stocked.own([*words, "--tag"], **options)
        assert (found.error, found.status) == (counted, 1 if counted else 0)
        known = [name for name in names.split(b"\0") if name in lengths]
        wanted = b"".join(tagged(escaped(name), lengths[name], b"\\" if b"\n" in name else b"")(RIPEMD["160"]) + b"\n"
                          for name in known)
        if source == "names" and b"-\0" == names:
            wanted = tagged(b"-", 0)(RIPEMD["160"]) + b"\n"
        assert found.out == wanted


@pytest.mark.parametrize("source", ["no-names", "folder", "", "new\nline", "it's"])
def test_names_from_no_file(stocked, source):
    (stocked.room / "new\nline").unlink()
    (stocked.room / "it's").unlink()
    found = stocked.own(["--files0-from", source])
    assert found == Ended(1, b"", wc_message(stocked.room, [f"--files0-from={source}"]))


def test_lists_by_names_from_a_file(stocked):
    (stocked.room / "names").write_bytes(b"list\0list-wrong\0no-list\0")
    found = stocked.own(["-a", "256", "-c", "--files0-from=names"])
    assert found == stocked.own(["-a", "256", "-c", "list", "list-wrong", "no-list"])
    assert found.status == 1 and found.out.count(b": OK\n") == 5


def test_progress_is_for_terminals(stocked):
    for words in [["a", "b"], ["-c", "list"], ["-c", "list-each"], ["missing"]]:
        first, second = (stocked.own(["-a", "256", *options, *words]) for options in [[], ["--progress"]])
        assert first == second


@pytest.mark.parametrize("words", [["a", "c"], ["-c", "list"]], ids=" ".join)
def test_progress(stocked, words):
    """On a terminal standard output and the status stay the same."""
    plain = stocked.own(["-a", "256", *words])
    reader, terminal = os.openpty()
    found = stocked.own(["-a", "256", "--progress", *words], stderr=terminal)
    os.close(terminal)
    os.close(reader)
    assert (found.out, found.status) == (plain.out, plain.status)


# Files and outputs of other kinds.


@pytest.mark.parametrize("words", [
    ["a"], ["a", "b", "c"], ["-c", "list"], ["-c", "list-wrong"], ["-c", "list-bad"], ["-c", "--status", "list"],
    ["-c", "--status", "list-wrong"], ["-c", "--quiet", "list"], ["-c", "list-no"], ["missing"], ["-z", "a"], ["-x"]],
    ids=" ".join)
@pytest.mark.parametrize("kind", ["full", "closed", "read-only"])
def test_output_that_takes_nothing(stocked, words, kind):
    if kind == "closed":
        wanted, found = stocked.run(words, stdout=None, preexec_fn=lambda: os.close(1))
    else:
        path, mode = ("/dev/full", "wb") if kind == "full" else ("/dev/null", "rb")
        with open(path, mode) as output:
            wanted, found = stocked.run(words, stdout=output)
    # sha256sum goes on to its end, and has lost the cause by the time that it reports the error.
    wanted_error, found_error = (UNWRITABLE.sub(b": write error\n", ended.error) for ended in (wanted, found))
    if found_error == b"rmdsum: write error\n":
        wanted_error = wanted_error.splitlines(keepends=True)[-1]
    assert (found_error, found.status) == (wanted_error, wanted.status)


@pytest.mark.parametrize("words", [["--help"], ["--version"]], ids=" ".join)
def test_help_that_cannot_be_written(stocked, words):
    with open("/dev/full", "wb") as output:
        found = stocked.own(words, stdout=output)
    assert found.status == 1 and UNWRITABLE.fullmatch(found.error.removeprefix(b"rmdsum"))


@pytest.mark.parametrize("words, output", [
    (["a"], "stdout"), (["-z", "a", "missing"], "stdout"), (["-c", "list"], "stdout"), (["--help"], "stdout"),
    (["missing", "a"], "stderr"), (["-c", "list-each"], "stderr"), (["-c", "-w", "list-no"], "stderr"),
    (["-c", "no-list", "list"], "stderr"), (["-x"], "stderr")], ids=str)
def test_output_whose_reader_has_gone(stocked, words, output):
    """Where SIGPIPE ends sha256sum, rmdsum ends with the status that a shell shows then, and says nothing more."""
    reader, writer = os.pipe()
    os.close(reader)
    with os.fdopen(writer, "wb") as closed:
        wanted, found = stocked.run(words, **{output: closed})
    assert wanted.status == -signal.SIGPIPE
    wanted.status = 128 + signal.SIGPIPE
    assert wanted == found


@pytest.mark.parametrize("words", [
    ["a"], ["-c", "list"], ["-c", "list-each"], ["missing"], ["-x"], ["-c", "list-no"]], ids=" ".join)
def test_error_that_takes_nothing(stocked, words):
    with open("/dev/full", "wb") as error:
        wanted, found = stocked.run(words, stderr=error)
    assert (found.out, found.status) == (wanted.out, wanted.status)


@pytest.mark.parametrize("words", [
    [], ["-"], ["-", "a"], ["-c"], ["-c", "-"], ["-c", "list", "-"], ["a"], ["-c", "list"]], ids=" ".join)
def test_closed_input(stocked, words):
    wanted, found = stocked.run(words, preexec_fn=lambda: os.close(0), stdin=None)
    # sha256sum closes standard input at the end, and says once more that it can't.
    wanted.error = wanted.error.removesuffix(b"rmdsum: standard input: Bad file descriptor\n")
    assert wanted == found


@pytest.mark.parametrize("words", [
    [], ["-", "-"], ["-c"], ["-c", "--status"], ["-c", "-w", "--strict"]], ids=" ".join)
def test_input_that_is_a_folder(stocked, words):
    folder = os.open("/", os.O_RDONLY)
    stocked.same(words, stdin=folder)
    os.close(folder)


@pytest.mark.parametrize("words", [
    ["-", "-"], ["-", "a", "-"], ["-b", "-"], ["--tag", "-"], ["-z", "-"], []], ids=" ".join)
def test_standard_input(stocked, words):
    """The second time it is at its end."""
    for length in [0, 1, 64, 4096, 12288]:
        stocked.same(words, constant(BYTES[:length]))


def test_list_that_names_standard_input(stocked):
    stocked.list("list-input", listed(untagged(b"-", 33), untagged(b"a", 0)))
    for length in [33, 34]:
        stocked.same(["-c", "list-input"], constant(BYTES[:length]))
    stocked.same(["-c"], listed(untagged(b"-", 33), untagged(b"a", 0)))


def test_fifo(stocked):
    """What another process writes, in pieces."""
    def feed(path, pieces):
        with open(path, "wb", buffering=0) as pipe:
            for piece in pieces:
                pipe.write(piece)

    for words, pieces in [
        (["fifo"], constant([BYTES[:3], BYTES[3:150]])),
        (["-c", "fifo"], lambda hash_: [untagged(b"a", 0)(hash_) + b"\nno", b" line\n", untagged(b"b", 3)(hash_)]),
        (["-c", "list-of-fifo"], constant([BYTES[:5], BYTES[5:8192]])),
    ]:
        stocked.list("list-of-fifo", listed(untagged(b"fifo", 8192)))
        results = []
        for hash_, room, program in stocked.sides:
            os.mkfifo(room / "fifo")
            thread = threading.Thread(target=feed, args=(room / "fifo", pieces(hash_)))
            thread.start()
            results.append(ended(program, [*hash_.options, *words], room))
            thread.join()
            (room / "fifo").unlink()
        wanted, found = results
        wanted.out = exchanged(wanted.out, stocked.hash)
        assert wanted == found


class Talk:
    """A program that runs, what it is given, and what it has printed."""

    def __init__(self, program, words, room, stdin=subprocess.PIPE):
        self.running = subprocess.Popen([b"rmdsum", *map(os.fsencode, words)], executable=program, cwd=room,
                                        stdin=stdin, stdout=subprocess.PIPE, env=UTF8)
        self.room = room

    def give(self, text):
        os.write(self.running.stdin.fileno(), text)

    def feed(self, name, text):
        (self.room / name).write_bytes(text)

    def printed(self, count, end=b"\n"):
        """Waits until so many lines are printed."""
        text = b""
        while text.count(end) < count:
            assert select.select([self.running.stdout], [], [], 10)[0], f"after {text} comes nothing"
            text += os.read(self.running.stdout.fileno(), 1000)
        return text

    def ended(self):
        """Waits for the end, at which nothing more is printed."""
        assert self.running.communicate(timeout=10)[0] == b""
        return self.running.returncode


def talks(rooms, words, how, alone=False, **options):
    """What sha256sum would print of RIPEMD, each time that something is given, and what rmdsum does print; with
    `alone` only this."""
    results = []
    for hash_, room, program in rooms.sides[alone:]:
        talk = Talk(program, [*hash_.options, *words], room, **options)
        try:
            results.append([exchanged(text, rooms.hash) for text in how(talk, hash_)])
            assert talk.ended() == 0
        finally:
            talk.running.kill()
            talk.running.communicate()
    return results


@pytest.fixture(name="piped")
def fixture_piped(stocked):
    for _, room, _ in stocked.sides:
        os.mkfifo(room / "fifo")
    stocked.list("list-of-fifo", listed(untagged(b"a", 0), untagged(b"fifo", 64), untagged(b"b", 3)))
    return stocked


@pytest.mark.parametrize("words", [["a", "b", "fifo", "c"], ["-c", "list-of-fifo"]], ids=" ".join)
def test_no_line_waits_for_a_file_after_it(piped, words):
    def how(talk, _):
        yield talk.printed(len(words) - 2 if words[0] == "a" else 1)
        talk.feed("fifo", BYTES[:64])
        yield talk.printed(2)
    wanted, found = talks(piped, words, how)
    assert wanted == found


def test_no_line_that_ends_with_zero_waits(piped):
    """Those of sha256sum do."""
    def how(talk, _):
        yield talk.printed(1, b"\0")
        talk.feed("fifo", BYTES[:64])
        yield talk.printed(2, b"\0")
    [found] = talks(piped, ["-z", "a", "fifo", "b"], how, alone=True)
    names = [(b"a", 0), (b"fifo", 64), (b"b", 3)]
    assert b"".join(found) == b"".join(untagged(*name)(piped.hash) + b"\0" for name in names)


def test_no_line_waits_for_the_next_of_a_list(stocked):
    def how(talk, hash_):
        for text, count in [(listed(untagged(b"a", 0), untagged(b"b", 3)), 2), (listed(untagged(b"c", 64)), 1),
                            (joined(b"# not a line\n", untagged(b"b", 3)), 0), (constant(b"\n"), 1)]:
            talk.give(text(hash_))
            yield talk.printed(count)
    wanted, found = talks(stocked, ["-c"], how)
    assert wanted == found


def test_no_line_waits_for_the_next_name(stocked):
    def how(talk, _):
        for names, count in [(b"a\0b\0c", 2), (b"\0", 1), (b"a\0", 1)]:
            talk.give(names)
            yield talk.printed(count)
    [found] = talks(stocked, ["--files0-from=-"], how, alone=True)
    names = [(b"a", 0), (b"b", 3), (b"c", 64), (b"a", 0)]
    assert b"".join(found) == listed(*(untagged(*name) for name in names))(stocked.hash)


def test_lists_take_time_by_their_length(stocked):
    """Each 64 KiB have short lines and the beginning of a long one, which is not searched again for each of them: that
    would take longer than a program may."""
    (stocked.room / "list-quick").write_bytes((b"\n" * 40000 + b"x" * 25536) * 200)
    (stocked.room / "names").write_bytes((b"\0" * 40000 + b"x" * 25536) * 2)
    assert stocked.own(["-c", "list-quick"]).status == 1
    assert stocked.own(["--files0-from=names"]).error.count(b"\n") == 80001


def test_last_name(stocked):
    """It ends with the file, or has no byte 0: on a terminal no second end is waited for."""
    keyboard, terminal = os.openpty()

    def how(talk, _):
        os.write(keyboard, b"b\4\4")
        yield talk.printed(1)
    [found] = talks(stocked, ["--files0-from=-"], how, alone=True, stdin=terminal)
    os.close(keyboard)
    os.close(terminal)
    assert found == [untagged(b"b", 3)(stocked.hash) + b"\n"]


def test_no_line_waits_for_a_terminal(stocked):
    """Standard input is read twice: a line and the end, and the end."""
    keyboard, terminal = os.openpty()

    def how(talk, _):
        for text in [b"abc\n\4", b"\4"]:
            os.write(keyboard, text)
            yield talk.printed(1)
    wanted, found = talks(stocked, ["-", "-"], how, stdin=terminal)
    os.close(keyboard)
    os.close(terminal)
    # sha256sum's digest of these four bytes is none of those that are known.
    assert [text.count(b"  -\n") for text in wanted] == [text.count(b"  -\n") for text in found] == [1, 1]


@pytest.mark.parametrize("variables", [
    {}, {"LANG": "C.UTF-8"}, {"LANG": "C"}, {"LC_ALL": "C", "LANG": "C.UTF-8"}, {"LC_ALL": "", "LC_CTYPE": "C.utf8"},
    {"LC_ALL": "C.UTF-8", "LC_CTYPE": "C"}, {"LC_CTYPE": "POSIX", "LANG": "C.UTF-8"}, {"LC_MESSAGES": "C.UTF-8"}],
    ids=str)
def test_names_by_locale(stocked, variables):
    words = ["missing é", "é it's", "é:", "\x7fé", b"\xc3", "é", "no é", "漢字"]
    stocked.same(words, env=variables)
    stocked.same(["-c", *words], env=variables)


@pytest.mark.parametrize("words", [["a", "-b"], ["a", "--", "b"], ["-b", "a", "--tag"], ["--", "-b"], ["--x", "a"]],
                         ids=" ".join)
def test_operands_last(stocked, words):
    for value in "", "1":
        stocked.same(words, env=UTF8 | {"POSIXLY_CORRECT": value})


def test_own_name(stocked):
    """The name by which it is called stands in messages and in the help."""
    for words, text in [(["missing"], b"%s: missing: No such file or directory\n"),
                        (["-x"], b"%s: invalid option -- 'x'\nTry '%s --help' for more information.\n"),
                        (["--help"], b"Usage: %s [OPTION]... [FILE]...\n")]:
        for name in b"md", b"/bin/a name":
            done = subprocess.run([name, *words], executable=stocked.program, cwd=stocked.room, env=UTF8,
                                  stdout=subprocess.PIPE, stderr=subprocess.STDOUT, check=False, timeout=60)
            assert done.stdout.startswith(text.replace(b"%s", name))


def test_file_that_shrinks(tmp_path, rmdsum):
    """A file that is cut short while it is read ends with what was read."""
    need("openssl", "openssl")
    file = tmp_path / "zeros"
    file.touch()
    os.truncate(file, 2**30)
    with subprocess.Popen([rmdsum, "zeros"], cwd=tmp_path, stdout=subprocess.PIPE) as running:
        count = 0
        while count < 2**24:
            assert running.poll() is None
            count = position(running.pid, file)
        running.send_signal(signal.SIGSTOP)
        os.waitpid(running.pid, os.WUNTRACED)
        count = position(running.pid, file)
        os.truncate(file, 1000)
        running.send_signal(signal.SIGCONT)
        printed, _ = running.communicate(timeout=60)
    assert running.returncode == 0 and count < 2**30
    other = run("openssl", "dgst", "-r", "-provider", "legacy", "-provider", "default", "-rmd160", input=bytes(count),
                status=None, text=False)
    if other.returncode:
        pytest.skip("openssl has no RIPEMD-160 here")
    assert printed == other.stdout.split()[0] + b"  zeros\n"


def position(process, file):
    """How much of a file a process has read."""
    for number in os.listdir(f"/proc/{process}/fd"):
        with contextlib.suppress(FileNotFoundError):  # those of libraries are closed
            if os.readlink(f"/proc/{process}/fd/{number}") == os.path.realpath(file):
                with open(f"/proc/{process}/fdinfo/{number}", encoding="ascii") as about:
                    return int(about.readline().split()[1])
    return 0


@pytest.mark.skipif(os.geteuid() == 0, reason="root reads every file")
def test_unreadable(stocked):
    for _, room, _ in stocked.sides:
        (room / "a").chmod(0)
        (room / "list-wrong").chmod(0)
    for words in [["a", "b"], ["-c", "list"], ["-c", "--ignore-missing", "list"], ["-c", "--status", "list"],
                  ["-c", "list-wrong"], ["-c", "list-wrong", "list"]]:
        stocked.same(words)


@pytest.mark.parametrize("name", ["loop", "a/b", "missing/b", "folder", "n" * 300, ""], ids=lambda name: name[:9])
def test_files_that_cannot_be_opened(stocked, name):
    for _, room, _ in stocked.sides:
        (room / "loop").symlink_to("loop")
    stocked.list("list-of-it", listed(untagged(os.fsencode(name), 0), untagged(b"a", 0)))
    for words in [[name, "a"], ["-c", name], ["-c", "list-of-it"], ["-c", "--ignore-missing", "list-of-it"],
                  ["-c", "--status", "list-of-it"], ["-c", "--quiet", "list-of-it"]]:
        stocked.same(words)


def test_names_in_messages(rooms):
    """Each byte, and some names that a shell has to quote."""
    names = [bytes([byte]) for byte in range(1, 256) if bytes([byte]) not in b"/.-"]
    names += [b"x" + name for name in names] + [name + b"x" for name in names]
    names += [b"it's", b"it's a", b"'", b"''", b"'\"'", b"'$", b"a b", b"a:b", b"a\nb", b"\na", b"a\n\nb c", b"#'",
              b"~'", b"a#", b"a~", b"{}", b"{", b"a{", "é".encode(), "é'".encode(), "漢 字".encode(), b"\xc3",
              b"\xe2\x82", b"%s%n",
              "a\u0085b".encode(), "\u00a0".encode(), b"\xed\xa0\x80", b"a\x01'b"]
    for start in range(0, len(names), 50):
        rooms.same(["--", *names[start:start + 50]])


def test_names_that_are_not_utf8(rooms):
    """They can't be opened, also where there is such a file."""
    rooms.file(b"\xff", 3)
    rooms.file(b"a", 0)
    line = untagged(b"a", 0)(RIPEMD["256"])
    said = b"rmdsum: ''$'\\377': invalid filename\n"
    assert rooms.own(["-a", "256", b"\xff", "a"]) == Ended(1, line + b"\n", said)
    (rooms.room / "list").write_bytes(untagged(b"\xff", 3)(RIPEMD["256"]) + b"\n" + line)
    for options in [[], ["--ignore-missing"]]:
        assert rooms.own(["-c", *options, "list"]) == Ended(
            1, b"\xff: FAILED open or read\na: OK\n",
            said + b"rmdsum: WARNING: 1 listed file could not be read\n")


# Lists by hand.

A, B = untagged(b"a", 0), untagged(b"b", 3)


BY_HAND = [
    joined(b""),
    joined(b"\n\n\n"),
    joined(b"# only\n#a\n#comment\n"),
    joined(b"\r\n"),
    joined(b"\n", A, b"\n\n"),
    joined(A),
    joined(A, b"\r"),
    joined(A, b"\r\n", B, b"\r\n"),
    joined(A, b"\r\r\n"),
    joined(lambda hash_: hash_.digests[0].upper().encode(), b"  a\n"),
    listed(untagged(b"", 0)),
    listed(untagged(b"", 0, b" ")),
    listed(untagged(b"", 0, b"")),
    listed(tagged(b"", 0)),
    listed(untagged(b"a", 0, b" "), B),
    listed(A, untagged(b"b", 3, b" ")),
    listed(tagged(b"a", 0), untagged(b"b", 3, b" ")),
    listed(untagged(b"a", 0, b" "), tagged(b"b", 3)),
    listed(untagged(b"two words", 200, b" ")),
    listed(untagged(b"44", 13, b" "), untagged(b"44", 13, b"  ")),
    listed(untagged(b"44", 13, b"  "), untagged(b"44", 13, b" ")),
    listed(untagged(b" ", 14, b" "), untagged(b" ", 14, b"  ")),
    listed(untagged(b" ", 14, b"  "), untagged(b" ", 14, b" ")),
    listed(A, untagged(b"", 0, b"  ")),
    listed(A, untagged(b"", 0, b" *")),
    listed(untagged(b"", 0, b" *"), A),
    listed(untagged(b" blank", 10, b" ")),
    listed(untagged(b"a", 0, b" "), untagged(b" blank", 10, b" ")),
    listed(untagged(b"*star", 9, b" ")),
    listed(untagged(b"a", 0, b" "), untagged(b"*star", 9, b" ")),
    listed(untagged(b"*star", 9), untagged(b"*star", 9, b" *")),
    listed(untagged(b"a", 0, b"\t "), untagged(b"a", 0, b"\t*")),
    listed(untagged(b"back\\\\slash", 5, mark=b"\\"), untagged(b"back\\slash", 5)),
    listed(untagged(b"back\\slash", 5, mark=b"\\")),
    listed(untagged(b"new\\nline", 6, mark=b"\\"), untagged(b"new\\nline", 6)),
    listed(untagged(b"return\\r", 7, mark=b"\\"), untagged(b"return\r", 7)),
    listed(untagged(b"a\\", 0, mark=b"\\")),
    listed(untagged(b"a", 0, mark=b"\\"), tagged(b"a", 0, b"\\")),
    listed(untagged(b"a", 0, mark=b"\\\\")),
    listed(untagged(b"a", 0, mark=b" \\"), untagged(b"a", 0, mark=b"\\ ")),
    listed(tagged(b"new\\nline", 6, b"\\"), tagged(b"new\\nline", 6)),
    joined(tagged(b"a", 0), b" \n", tagged(b"a", 0), b"0\n", lambda hash_: tagged(b"a", 0)(hash_)[:-1], b"\n"),
    joined(tag_of, b"  (a) = ", lambda hash_: hash_.digests[0].encode(), b"\n"),
    joined(tag_of, b" a\n", tag_of, b"\n", tag_of, b" (\n", tag_of, b" (a\n", tag_of, b" (a)\n", tag_of, b" (a) =\n"),
    joined(lambda hash_: tag_of(hash_).lower(), b" (a) = ", lambda hash_: hash_.digests[0].encode(), b"\n"),
    joined(*[A, b"\n"] * 3000, b"no line"),
    joined(b"no line\n" * 3000, A, b"\n"),
    joined(untagged(b"a" * 5000, 0), b"\n" + b"x" * 100000 + b"\n", A, b"\n"),
    joined(b"\xef\xbb\xbf", A, b"\n"),
    listed(untagged(b"a ", 0), untagged(b"a", 0, b"   ")),
    listed(untagged(b"folder", 0), untagged(b"missing", 0)),
]


@pytest.mark.parametrize("text", BY_HAND)
def test_lists_by_hand(stocked, text):
    stocked.list("list-by-hand", text)
    for options in [[], ["-w"], ["--strict"], ["--status"], ["--quiet"], ["--ignore-missing"], ["-w", "--strict"],
                    ["--ignore-missing", "-w", "--strict"]]:
        stocked.same(["-c", *options, "list-by-hand"])
        stocked.same(["-c", *options], text)
