"""Tries the calls that allocate, `replay` and `mac_collision`, with each of their allocations failing in turn,
by the program ripemd_allocations. A case for each allocation is a folder whose standard input has as many
bytes as the program is to allocate before its calls, so that the same allocation of the run fails, the one
with the number MOST, and another one of a call. The program tells which calls were answered, and which one
met the failure: such a call counts only if it gave the error of memory, and the same call then gave the
right answer."""
import re

import pytest
from conftest import ROOT, run

CRATE = ROOT / "crates/ripemd_allocations"
MOST = 40

pytestmark = pytest.mark.mutants


@pytest.fixture(name="said", scope="module")
def fixture_said(tmp_path_factory):
    """What the program printed where the first allocation of its calls fails, the second, and so on."""
    cases = tmp_path_factory.mktemp("cases")
    for number in range(1, MOST + 1):
        (cases / str(number)).write_bytes(bytes(MOST - number))
    printed = run("rt", "try", "--fail-alloc", MOST, "--cases", cases, cwd=CRATE).stdout
    return dict(re.findall(r"^== (\d+)\n(.*?)(?=^== |\Z)", printed, re.MULTILINE | re.DOTALL))


def test_each_allocation_fails_once_and_calls_are_answered(said):
    wanted = (CRATE / "stdout").read_text()
    runs = [said[str(number)] for number in range(1, MOST + 1)]
    refused = runs[:runs.index(wanted)]
    assert refused
    for text in refused:
        call = re.search(r"^(.*): refused$", text, re.MULTILINE)[1]
        assert text.replace(f"{call}: refused\n", f"{call}: answered\n") == wanted
