"""Which library is loaded, and what is said where it is another."""

import os
import re
import subprocess
import sys
from pathlib import Path

import pytest

import gomzelat as gz
from gomzelat import library


def said_with(file: Path) -> str:
    """What a process says whose library is this file."""
    words = {**os.environ, "GOMZELAT_LIBRARY": str(file), "PYTHONPATH": str(Path(gz.__file__).parents[1])}
    call = (
        "import gomzelat\n"
        "try: print(gomzelat.plan(1))\n"
        "except Exception as error: print(type(error).__name__, error)"
    )
    ran = subprocess.run([sys.executable, "-c", call], env=words, capture_output=True, text=True, check=True)
    return ran.stdout


def made(folder: Path, source: str) -> Path:
    file = folder / "libother.so"
    words = [os.environ.get("CC", "cc"), "-shared", "-fPIC", "-x", "c", "-", "-o", str(file)]
    subprocess.run(words, input=source, text=True, check=True)
    return file


def test_the_library_is_loaded():
    assert said_with(library.path()).startswith("Plan(c=1")


@pytest.mark.parametrize(
    "source, text",
    [
        ("unsigned gomzelat_version(void) { return 3; }", "is of edition 3, and this package calls edition 2"),
        ("int nothing;", "is of edition 1, and this package calls edition 2"),
        ("unsigned gomzelat_version(void) { return 2; }", "has no gomzelat_plan"),
    ],
)
def test_another_edition_is_refused(source, text, tmp_path):
    file = made(tmp_path, source)
    said = said_with(file)
    assert said.startswith("OSError") and text in said and str(file) in said


@pytest.mark.parametrize("answer, text", [(1, "MemoryError"), (99, "Refused the library answered 99")])
def test_answers_that_are_no_refusals(answer, text, tmp_path):
    source = f"unsigned gomzelat_version(void) {{ return 2; }} unsigned gomzelat_plan(void) {{ return {answer}; }}"
    assert said_with(made(tmp_path, source)).strip() == text


def test_what_is_no_library(tmp_path):
    assert "run bindings/build" in said_with(tmp_path / "none.so")
    (tmp_path / "text.so").write_text("no library")
    assert said_with(tmp_path / "text.so").startswith("OSError")


def test_each_call_of_the_header_is_declared_and_each_answer_known():
    header = (Path(gz.__file__).parents[3] / "c" / "gomzelat.h").read_text(encoding="utf-8")
    words = re.findall(r"^uint32_t (gomzelat_\w+)\(", header, re.MULTILINE)
    assert {f"gomzelat_{name}" for name in library._ARGUMENTS} == set(words)
    for it in gz.Answer:
        assert it == gz.Answer.OUT_OF_RANGE or f"GOMZELAT_{it.name} = {it.value}" in header
    assert header.count("GOMZELAT_BAD_") >= sum(it.name.startswith("BAD_") for it in gz.Answer)
    assert f"#define GOMZELAT_VERSION {library.VERSION}" in header
