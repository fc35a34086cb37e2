"""Compares the worked lines and layouts of crates/ripemd_files with sha256sum of coreutils: with its digests and tag in
place of those of RIPEMD, it writes, takes and refuses the same lines, and takes the same layout for a list."""
import hashlib
import os
import re

import pytest
from conftest import ROOT, VARIANTS, need, run

WORKED = (ROOT / "crates/ripemd_files/specs/Worked.antt").read_text("utf-8")
# The facts of each record, by name.
FACTS = {(record, name): fact
         for record, facts in re.findall(r"^pub record (\w+) : Type 0 where\n((?:  pub .*\n)+)", WORKED, re.MULTILINE)
         for name, fact in re.findall(r"^  pub (\w+) : (.*)$", facts, re.MULTILINE)}
DIGITS = dict(re.findall(r'^digits_of (\w+) = codes "(.*)"$', WORKED, re.MULTILINE))
SHA256 = hashlib.sha256(b"abc").hexdigest()

TOKEN = re.compile(r'codes "(?:[^"\\]|\\.)*"|digits_of \w+|digits_then|\[\]|\+\+|∷|0x\w+|\d+|[()]')
OPTIONS = {"Text": [], "Binary": ["--binary"], "Tagged": ["--tag"]}


def value(text):
    """The bytes of a list of the definitions."""
    tokens = TOKEN.findall(text)
    assert "".join(tokens).replace(" ", "") == re.sub(r"\s", "", text)

    def factor():
        token = tokens.pop(0)
        if token == "(":
            inner = term()
            assert tokens.pop(0) == ")"
            return inner
        if token == "digits_then":
            return DIGITS["R160"].encode() + factor()
        if token.startswith("codes"):
            return token[7:-1].encode().decode("unicode_escape").encode()
        if token.startswith("digits_of"):
            return DIGITS[token.split()[1]].encode()
        return b"" if token == "[]" else bytes([int(token, 0)])

    def term():
        result = factor()
        while tokens and tokens[0] in ("++", "∷"):
            tokens.pop(0)
            result += factor()
        return result

    result = term()
    assert not tokens
    return result


def parts(words):
    """The words of a fact, each a name or a list, which may stand in parentheses."""
    found, depth = [], 0
    for token in re.findall(r'"(?:[^"\\]|\\.)*"|[()]|\s+|[^\s()"]+', words):
        depth -= token == ")"
        if depth or token == ")":
            found[-1] += token
        elif not token.isspace():
            found.append(token)
        depth += token == "("
    return found


def exchanged(line, tags=("160",)):
    """A line, with SHA-256 in place of RIPEMD."""
    for tag in tags:
        line = re.sub(rb"(?:RMD|RIPEMD-?)%s\b" % tag.encode(), b"SHA256", line)
        line = re.sub(rb"rmd%s\b" % tag.encode(), b"sha256", line)
    own = DIGITS["R160"]
    pairs = [*((digits, SHA256) for digits in DIGITS.values()), (own.upper(), SHA256.upper()),
             (own[1:], SHA256[1:]), (own[:-1], SHA256[:-1])]
    for digits, others in pairs:
        line = line.replace(digits.encode(), others.encode())
    return line


def check(room, lines):
    return run("sha256sum", "--check", "--strict", "-", cwd=room, status=None, text=False,
               input=b"".join(line + b"\n" for line in lines))


@pytest.fixture(scope="module", autouse=True)
def coreutils():
    need("sha256sum", "coreutils")
    if int(re.search(r"\(GNU coreutils\) (\d+)", run("sha256sum", "--version").stdout)[1]) < 9:
        pytest.skip("sha256sum of coreutils 9 escapes carriage returns; this one does not")


@pytest.mark.parametrize("fact", [key for key in FACTS if key[0] in ("WrittenLines", "EscapedLines")],
                         ids="-".join)
def test_written(fact, tmp_path):
    words, line = FACTS[fact].split(" ≡ ")
    _, ending, form, variant, name = parts(words)
    name = value(name)
    (tmp_path / os.fsdecode(name)).write_bytes(b"abc")
    options = [*OPTIONS[form], *(["--zero"] if ending == "Zero" else [])]
    written = run("sha256sum", *options, "--", os.fsdecode(name), cwd=tmp_path, text=False).stdout
    assert written == exchanged(value(line), (variant[1:],))


@pytest.mark.parametrize("fact", [key for key in FACTS if key[0].endswith("Lines") and "IsLine" in FACTS[key]],
                         ids="-".join)
def test_taken(fact, tmp_path):
    if FACTS[fact].startswith("IsLineOf"):
        layout = "Standard"
        _, name, line = parts(FACTS[fact])
    else:
        _, layout, line, _, _, name = parts(FACTS[fact])
    name, line = value(name), exchanged(value(line), VARIANTS)
    first = [SHA256.encode() + b" abc"] if layout == "Reversed" else []
    (tmp_path / "abc").write_bytes(b"abc")
    if not name:  # which no file has
        assert check(tmp_path, [line]).stdout == b": FAILED open or read\n"
        return
    (tmp_path / os.fsdecode(name)).write_bytes(b"abc")
    ended = check(tmp_path, [*first, line])
    assert (ended.returncode, ended.stdout.count(b": OK\n"), ended.stderr) == (0, len(first) + 1, b"")


@pytest.mark.parametrize("fact", [key for key in FACTS if FACTS[key].startswith("IsNoLine") and key[0] != "Zeros"],
                         ids="-".join)
def test_refused(fact, tmp_path):
    _, layout, line = parts(FACTS[fact])
    line = exchanged(value(line))
    (tmp_path / "abc").write_bytes(b"abc")
    first = SHA256.encode() + (b"  abc" if layout == "Standard" else b" abc")
    ended = check(tmp_path, [first, line])
    assert ended.stdout == b"abc: OK\n"
    # Empty lines and comments are passed over.
    improper = line[:1] not in (b"", b"#")
    assert (ended.returncode, b"1 line is improperly formatted" in ended.stderr) == (int(improper), improper)


@pytest.mark.parametrize("fact", [key for key in FACTS if FACTS[key].startswith("layout_in")], ids="-".join)
def test_layout(fact, tmp_path):
    """From a first line."""
    line, layout = re.fullmatch(r"layout_in (.*) ≡ (?:Some )?(\w+)", FACTS[fact]).groups()
    line = exchanged(value(line), VARIANTS)
    for name in ("next", " next"):
        (tmp_path / name).write_bytes(b"abc")
    one, two = (check(tmp_path, [line, SHA256.encode() + spaces + b"next"]).stdout.splitlines()
                for spaces in (b" ", b"  "))
    assert (b"next: OK" in one) == (layout != "Standard")
    assert (b" next: OK" if layout == "Reversed" else b"next: OK") in two
