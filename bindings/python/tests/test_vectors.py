"""The conformance suite: its cases, and that its files say what the calls say."""

import json
import re
import shutil
import subprocess
import sys
from pathlib import Path

import numpy as np
import pytest
from test_campaign import environment

import gomzelat as gz
from gomzelat.vectors import cases, corners, read, sizes


REPOSITORY = Path(gz.__file__).parents[4]


@pytest.fixture(scope="module")
def suite(tmp_path_factory):
    folder = tmp_path_factory.mktemp("vectors")
    words = [sys.executable, "-m", "gomzelat.vectors", str(folder), "--only", "[!s]*", "--quiet"]
    subprocess.run(words, env=environment(), check=True, capture_output=True)
    return folder, json.loads((folder / "index.json").read_text(encoding="utf-8"))


def test_each_size_and_each_corner_has_its_case():
    every = list(cases())
    assert len({it.name for it in every}) == len(every) == 188 + len(corners())
    assert [gz.plan(it.length).k_plus for it in every[:188]] == sizes()
    plans = [gz.plan(it.length) for it in corners()]
    sent = [told for it in corners() for told in it.transmissions]
    assert (
        {it.qm for it in sent} == {2, 4, 6}
        and {it.nl for it in sent} == {1, 2}
        and {it.rv for it in sent} == {0, 1, 2, 3}
    )
    assert any(it.c_minus and it.f for it in plans) and any(it.c_minus and not it.f for it in plans)
    told = [gz.piece(it.length, 0, it.transmissions[0], it.n_ir) for it in corners()]
    assert any(it.places < it.buffer for it in told) and any(it.bits > it.places for it in told)


def test_files_say_what_the_calls_say(suite):
    folder, index = suite
    assert set(index["proved"]) == {"commit", "kit"} and len(index["library"]) == 64
    for case in index["cases"]:
        place = folder / case["folder"]
        payload = read(place / case["payload"]).astype(np.uint8)
        told = [gz.Transmission(**it) for it in case["transmissions"]]
        words = [read(place / it).astype(np.uint8) for it in case["codewords"]]
        for sent, word, i in zip(told, words, range(len(told))):
            assert (gz.codeword(payload, sent, case["n_ir"]) == word).all()
            pieces = [read(place / block["sent"][i]) for block in case["code_blocks"]]
            assert np.concatenate(pieces).tolist() == gz.unpack(word, sent.g).tolist()
        softs = np.concatenate([read(place / it).astype(np.uint8).view(np.int8) for it in case["softs"]])
        outcome = gz.receive(case["bytes"], told, softs, case["n_ir"], **case["receiver"])
        wanted = case["outcome"]
        assert (outcome.delivered, outcome.transmissions, outcome.iterations) == tuple(wanted.values())


@pytest.mark.skipif(not shutil.which("iverilog"), reason="there is no iverilog")
def test_verilog_reads_them(suite, tmp_path):
    folder, index = suite
    case = next(it for it in index["cases"] if it["name"] == "versions")
    page = (REPOSITORY / "docs" / "PYTHON.md").read_text(encoding="utf-8")
    read_it = "\n".join(re.findall(r"^    (reg \[7:0\] payload.*|initial \$readmemh.*)$", page, re.MULTILINE))
    told = "integer i; initial #1 for (i = 0; i < 100; i = i + 1) $display(\"%h\", payload[i]);"
    bench = read_it.replace('"vectors/', f'"{folder}/')
    (tmp_path / "bench.v").write_text(f"module bench;\n{bench}\n{told}\nendmodule\n", encoding="utf-8")
    subprocess.run(["iverilog", "-o", tmp_path / "bench", tmp_path / "bench.v"], check=True)
    said = subprocess.run(["vvp", "-n", tmp_path / "bench"], check=True, capture_output=True, text=True).stdout
    wanted = read(folder / case["folder"] / case["payload"])
    assert [int(it, 16) for it in said.split()] == wanted.tolist() and wanted.size == 100


def test_some_are_delivered_late_and_some_are_lost(suite):
    outcomes = [it["outcome"] for it in suite[1]["cases"]]
    assert any(it["delivered"] and it["transmissions"] > 1 for it in outcomes) and not all(
        it["delivered"] for it in outcomes
    )


def test_it_is_the_same_each_time(suite, tmp_path):
    words = [sys.executable, "-m", "gomzelat.vectors", str(tmp_path), "--only", "limited*", "--quiet"]
    subprocess.run(words, env=environment(), check=True, capture_output=True)
    for file in tmp_path.glob("*/*.hex"):
        assert file.read_bytes() == (suite[0] / file.relative_to(tmp_path)).read_bytes()
