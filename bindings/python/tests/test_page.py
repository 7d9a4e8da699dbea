"""The programs of docs/PYTHON.md and of the section on Python in docs/LIBRARY_C.md run as they stand."""

import asyncio
import json
import os
import re
import subprocess
import sys
from pathlib import Path

import numpy as np
import pytest
from test_campaign import environment

import gomzelat as gz
from gomzelat.vectors import read

DOCS = Path(gz.__file__).parents[4] / "docs"


def programs(page: str, begins: str) -> list[str]:
    """The indented blocks whose first line begins so."""
    text = (DOCS / page).read_text(encoding="utf-8")
    blocks = re.findall(r"(?:^    .*\n|^\n(?=    ))+", text, re.MULTILINE)
    told = [re.sub(r"^    ", "", it, flags=re.MULTILINE).strip() for it in blocks]
    return [it for it in told if it.startswith(begins)]


@pytest.mark.parametrize("page, begins", [("PYTHON.md", "import numpy"), ("LIBRARY_C.md", "from gomzelat import")])
def test_a_block_that_is_sent_and_received(page, begins):
    [program] = programs(page, begins)
    ran = subprocess.run([sys.executable, "-c", program], env=environment(), capture_output=True, text=True, check=True)
    assert ran.stdout.startswith("b'One transport block.'")


def test_a_reception_call_by_call(good, capsys):
    [program] = programs("PYTHON.md", "harq = Harq(length)")
    values = np.where(gz.codeword(b"ab", good, bits=True) == 1, -40, 40).astype(np.int8)
    exec(program, {"Harq": gz.Harq, "length": 2, "arriving": [(good, values)]})
    assert capsys.readouterr().out.startswith("[97 98] [ True]")


def test_vectors_from_cocotb(tmp_path):
    """The coder that is tested is the library's: what it takes are the bits of a block, of which the fillers are known."""
    folder = tmp_path / "vectors"
    words = [sys.executable, "-m", "gomzelat.vectors", str(folder), "--only", "size_00*", "--quiet"]
    subprocess.run(words, env=environment(), check=True, capture_output=True)
    taken, cases = [], iter(json.loads((folder / "index.json").read_text(encoding="utf-8"))["cases"])

    async def send(dut, bit):
        taken.append(bit)

    async def receive(dut):
        case = next(cases)
        payload = read(folder / case["folder"] / case["payload"]).astype(np.uint8)
        assert taken == gz.code_block(payload, 0).tolist()
        taken.clear()
        return gz.streams(payload, 0).tolist()

    [program] = programs("PYTHON.md", "index = ")
    lines = "\n".join(f"    {line}" for line in program.splitlines())
    names = {"json": json, "Path": Path, "send": send, "receive": receive}
    exec(f"async def test(dut):\n{lines}", names)
    before = os.getcwd()
    os.chdir(tmp_path)
    try:
        asyncio.run(names["test"](None))
    finally:
        os.chdir(before)
    assert next(cases, None) is None
