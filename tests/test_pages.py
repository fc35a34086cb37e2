"""Compares the pages with what they speak of."""
import re
from xml.etree import ElementTree

import pytest
from conftest import ROOT, fences, lines, run, version

# The examples of these pages stand in files that are proved.
USES = "crates/ripemd_uses"
PROVED = {
    "CONTRIBUTING.md": ["crates/ripemd_mac/proofs/hmac/all_equal/Invariants.antt",
                        "crates/ripemd_block/proofs/textbook/left_constant/Answers.antt"],
    "crates/ripemd_block/README.md": [f"{USES}/src/block.rt"],
    "crates/ripemd/README.md": [f"{USES}/src/readme.rt", f"{USES}/src/calling.rt", f"{USES}/src/commands.rt",
                                f"{USES}/proofs/calling/digest_of_reader/Invariants.antt"],
    "crates/ripemd/BLOCK_FUNCTIONS.md": [f"{USES}/src/calling.rt"],
    "crates/ripemd_batch/README.md": [f"{USES}/src/batch.rt"],
    "crates/ripemd_mac/README.md": [f"{USES}/src/tags.rt"],
}

# What names the version beside nattizhu.h, from which everything else has it.
VERSIONS = {
    "crates/rmdsum/src/help.rt": r'"rmdsum \(Nattizhu\) (.*)$',
    "rust/Cargo.toml": r'^version = "(.*)"$',
    "js/package.json": r'^  "version": "(.*)",$',
    "js/ripemd160/package.json": r'^  "version": "(.*)",$',
    "CHANGELOG.md": r"^## (.*)$",
    "docs/JAVASCRIPT.md": r"^npm install \./nattizhu-(.*)\.tgz$",
    "debian/changelog": r"^nattizhu \((.*)-[0-9]*\) ",
}


@pytest.mark.parametrize("page", PROVED)
def test_examples_are_those_that_are_proved(page):
    examples = [text for language, text in fences(page) if language in ("rust", "antt")]
    proved = [(ROOT / file).read_text("utf-8") for file in PROVED[page]]
    assert examples
    assert [example for example in examples if not any(example in text for text in proved)] == []


@pytest.mark.parametrize("file", VERSIONS)
def test_version(file):
    assert re.search(VERSIONS[file], (ROOT / file).read_text("utf-8"), re.MULTILINE)[1] == version()


def test_manual_page_has_every_function_for_c():
    page = run("build/manual").stdout
    names = [words[1] for words in lines("interface.txt") if words[0] == "function"]
    assert names and [name for name in names if f"{name}(" not in page] == []


def test_figures_are_those_that_were_measured():
    measured = "\n".join(file.read_text("utf-8") for file in (ROOT / "docs/measured").iterdir()).split("\n")
    rows = re.findall(r"^\| .*", (ROOT / "docs/PERFORMANCE.md").read_text("utf-8"), re.MULTILINE)
    assert rows
    assert [row for row in rows if row not in measured] == []


def test_picture_is_that_of_the_tables():
    assert run("bench/picture", "docs/PERFORMANCE.md").stdout == (ROOT / "docs/speed.svg").read_text("utf-8")


def test_picture_says_what_was_measured():
    """It has a title, the date and the machine, and the fastest first; lists go by one call."""
    svg, space = ElementTree.parse(ROOT / "docs/speed.svg").getroot(), "{http://www.w3.org/2000/svg}"
    assert svg[0].tag == f"{space}title" and svg[0].text
    texts = [text.text for text in svg.iter(f"{space}text")]
    date, machine = re.search("on ([0-9-]{10}), on (.*?), Debian", (ROOT / "docs/PERFORMANCE.md").read_text("utf-8")).groups()
    assert f"{date}, {machine}" in texts
    panels = []
    for part in svg:
        if part.get("class") == "title":
            panels.append((part.text, []))
        elif part.tag == f"{space}rect":
            panels[-1][1].append(float(part.get("width")))
    assert len(panels) == 3 and all(len(bars) > 4 and bars == sorted(bars, reverse=True) for _, bars in panels)
    assert ["by one call" in title for title, _ in panels] == [False, False, True]
