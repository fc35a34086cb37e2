"""Tries the program ripemd_sum on what no proof covers: its digests and tags against those of other
implementations, its statuses, and what it prints to standard error."""
import os
import subprocess
import time

import pytest
from conftest import ABC, DIGESTS, PUBLISHED, VARIANTS, lines, run

USAGE = "usage: ripemd_sum [128|160|256|320]\n"
EMPTY = "9c1185a5c5e9fc54612808977ee8f548b2258d31"
KEY = "0b" * 20
BYTES = bytes(range(256)) * 64


@pytest.fixture(name="ends")
def fixture_ends(program):
    """Runs the program on words and an input: it has to end so, and to print nothing else."""

    def ends(*words, status=0, out="", error="", **options):
        ended = run(program, *words, status=status, text=False, **options)
        assert (ended.stdout, ended.stderr) == (out.encode(), error.encode())

    return ends


@pytest.mark.parametrize("variant, length, digest", DIGESTS)
def test_digest_of_a_file(ends, tmp_path, variant, length, digest):
    message = tmp_path / "message"
    message.write_bytes(BYTES[:length])
    with message.open("rb") as file:
        ends(variant, out=digest + "\n", stdin=file)


def test_lengths():
    for variant in VARIANTS:
        lengths = [length for bits, length, _ in DIGESTS if bits == variant]
        assert lengths[:201] == [*range(201)] and len(lengths) == 212


# Of up to 64 bytes, the longest that the program takes.
@pytest.mark.parametrize("variant, length, tag", [words for words in lines("tags.txt") if int(words[1]) <= 64])
def test_tag(ends, variant, length, tag):
    key = bytes(range(1, int(length) + 1)).hex()
    ends(variant, "hmac", key, out=tag + "\n", input=BYTES[:150])
    ends(variant, "hmac", key.upper(), out=tag + "\n", input=BYTES[:150])


@pytest.mark.parametrize("variant, message, digest", PUBLISHED)
def test_published(ends, variant, message, digest):
    ends(variant, out=digest + "\n", input=message)
    if variant == "160":
        ends(out=digest + "\n", input=message)


@pytest.mark.parametrize("words, pieces, line", [
    ([], [b"a", b"bc"], ABC),
    (["160", "hmac", KEY], [b"Hi ", b"There"], "24cb4bd67d20fc1a5d2ed7732dcc39377f0a5668"),  # RFC 2286
])
def test_pipe_in_pieces(program, words, pieces, line):
    with subprocess.Popen([program, *words], stdin=subprocess.PIPE, stdout=subprocess.PIPE, bufsize=0) as running:
        for piece in pieces:
            running.stdin.write(piece)
            time.sleep(0.2)
        running.stdin.close()
        assert running.stdout.read() == line.encode() + b"\n"
    assert running.returncode == 0


WRONG_KEYS = ["0", "0b0", "0g", "g0", "0b0b0b:b", " 00", "00 ", "0x00", "+1", "-1", "/0", ":0", "@0", "G0", "`0",
              "0\n", "é", "０0", "01" * 63 + "7", "01" * 64 + "7", "01" * 65, "01" * 200]


@pytest.mark.parametrize("words", [
    *([word] for word in ["512", "", "12", " 160", "160 ", "0160", "1600", "128160", "ripemd160", "-h", "--help"]),
    ["128", "160"], ["160", "hmac"], ["hmac", "00"], ["160", "00"], ["160", "00", "hmac"], ["hmac", "160", "00"],
    ["160", "hmac", "00", "00"],
    *([variant, "hmac", "00"] for variant in ["512", "", "hmac"]),
    *(["160", word, "00"] for word in ["mac", "HMAC", "hmac ", "", "hmac256"]),
    *(["160", "hmac", key] for key in WRONG_KEYS),
], ids=str)
def test_wrong_arguments(ends, tmp_path, words):
    """Nothing is read then."""
    message = tmp_path / "message"
    message.write_text("not read")
    with message.open("rb") as file:
        ends(*words, status=2, error=USAGE, stdin=file)
        assert os.lseek(file.fileno(), 0, os.SEEK_CUR) == 0


@pytest.mark.parametrize("words", [[], ["160", "hmac"]], ids=str)
def test_argument_that_is_not_utf8(ends, words):
    ends(*words, os.fsdecode(b"\xff"), status=3, error="ripemd_sum: out of memory\n")


@pytest.mark.parametrize("words", [[], ["160", "hmac", KEY]], ids=str)
def test_input_that_cannot_be_read(ends, words):
    folder = os.open("/", os.O_RDONLY)
    ends(*words, status=1, error="ripemd_sum: read error\n", stdin=folder)
    os.close(folder)


def shell(program, line, *words):
    """The status and the two outputs of the program in a line of a shell, where `"$@"` is the program."""
    ended = subprocess.run(["sh", "-c", line, "sh", program, *words], stdin=subprocess.DEVNULL, capture_output=True,
                           check=False)
    return ended.returncode, ended.stdout, ended.stderr


def test_closed_input(program):
    assert shell(program, '"$@" <&-') == (1, b"", b"ripemd_sum: read error\n")


@pytest.mark.parametrize("words", [[], ["160", "hmac", KEY]], ids=str)
@pytest.mark.parametrize("output", [">/dev/full", ">&-", "1</dev/null"])
def test_output_that_takes_nothing(program, words, output):
    assert shell(program, f'"$@" {output}', *words) == (1, b"", b"ripemd_sum: write error\n")


@pytest.mark.parametrize("words", [[], ["160", "hmac", KEY]], ids=str)
def test_output_whose_reader_has_gone(program, words):
    reader, writer = os.pipe()
    os.close(reader)
    with os.fdopen(writer, "wb") as output:
        ended = subprocess.run([program, *words], stdin=subprocess.DEVNULL, stdout=output, stderr=subprocess.PIPE,
                               check=False)
    assert (ended.returncode, ended.stderr) == (1, b"ripemd_sum: write error\n")


@pytest.mark.parametrize("line, words, status, out", [
    ('"$@" 2>/dev/full', ["512"], 2, b""),
    ('"$@" 2>&-', ["512"], 2, b""),
    ('"$@" 2>&-', [], 0, EMPTY.encode() + b"\n"),
    ('"$@" >&- 2>&-', [], 1, b""),
])
def test_error_that_takes_nothing(program, line, words, status, out):
    assert shell(program, line, *words) == (status, out, b"")
