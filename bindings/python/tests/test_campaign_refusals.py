"""What a campaign refuses, and that it arrives from another process."""

import math
import subprocess

import pytest
from conftest import refuses
from test_campaign import HALF, command, environment, measured

import gomzelat as gz
from gomzelat.campaign import Campaign, Curve, Here, Place, Point, Stop, executor, load, read, run_block, summed


@pytest.mark.parametrize(
    "curve, answer",
    [
        (Curve("", 0, 1600), gz.Answer.BAD_LENGTH),
        (Curve("", 100, 1601), gz.Answer.BAD_G),
        (Curve("", 100, 1600, 3), gz.Answer.BAD_QM),
        (Curve("", 100, 1600, versions=(0, 4)), gz.Answer.BAD_VERSION),
        (Curve("", 100, 1600, nl=3), gz.Answer.BAD_NL),
        (Curve("", 100, 1600, n_ir=1), gz.Answer.BAD_BUFFER),
        (Curve("", 100, 1600, windows=65), gz.Answer.BAD_WINDOWS),
        (Curve("", 100, 1600, limit=0), gz.Answer.BAD_LIMIT),
    ],
)
def test_of_a_curve(curve, answer):
    refuses(answer, measured, Here(), points=[Point(curve, -9.0)])


def test_what_is_refused_arrives_from_another_process():
    with executor("processes", 1) as (pool, _):
        refuses(gz.Answer.BAD_G, measured, pool, points=[Point(Curve("", 100, 1601), 0.0)])


def test_of_a_curve_and_a_point_at_once():
    refuses(gz.Answer.BAD_COUNT, Curve, "", 100, 1600, versions=())
    assert Curve("", 100, 1600, versions=[0, 2]) == Curve("", 100, 1600, versions=(0, 2))
    for amp in (0, 128, -1, 2**70):
        refuses(gz.Answer.BAD_AMP, Point, HALF, 0.0, amp=amp)
    for seed in (-1, 2**64):
        refuses(gz.Answer.OUT_OF_RANGE, Point, HALF, 0.0, seed=seed)
    for bad in ({"snr": math.nan}, {"snr": math.inf}, {"snr": 0.0, "channel": "fading"}):
        with pytest.raises(ValueError):
            Point(HALF, **bad)
    for block in (-1, 2**32):
        refuses(gz.Answer.OUT_OF_RANGE, run_block, Point(HALF, 0.0), block)


def test_of_stopping_and_running():
    for bad in ({"errors": 0}, {"blocks": 0}, {"errors": -1}):
        with pytest.raises(ValueError):
            Stop(**bad)
    for bad in ({"width": 0}, {"chunk": 0}, {"first": -1}):
        with pytest.raises(ValueError):
            Campaign(Here(), Stop(), **bad)
    assert list(Campaign(Here(), Stop()).run([])) == []


def test_of_files(tmp_path):
    bad = tmp_path / "bad.csv"
    bad.write_text("a,b\n1,2\n", encoding="utf-8")
    with pytest.raises(ValueError):
        read(bad)
    (tmp_path / "bad.json").write_text('[{"name": "a", "rate": 1}]', encoding="utf-8")
    with pytest.raises(TypeError):
        load(tmp_path / "bad.json")
    with pytest.raises(ValueError):
        summed([{Place(Point(HALF, 0.0)): gz.campaign.Counts(2)}] * 2)


def test_of_an_executor():
    with pytest.raises(ValueError), executor("somewhere"):
        pass


@pytest.mark.parametrize(
    "words, said",
    [
        ((), "--csv is missing"),
        (("--csv", "a.csv", "--chunk", 0), "one call and block at least"),
        (("--csv", "a.csv", "--errors", 0), "one error or block at least"),
        (("--csv", "a.csv", "--snr", 0, 2, 0), "a STEP above 0"),
        (("--csv", "a.csv", "--snr", 2, 0, 1), "a STEP above 0"),
        (("--csv", "a.csv", "--amp", 0), "an amplitude is 1 to 127"),
        (("--csv", "a.csv", "--executor", "somewhere"), "invalid choice"),
    ],
)
def test_of_the_command(words, said, tmp_path):
    ran = subprocess.run(command(*words), env=environment(), cwd=tmp_path, capture_output=True, text=True)
    assert ran.returncode == 2 and said in ran.stderr and "Traceback" not in ran.stderr


def test_the_command_tells_its_options_and_curves(tmp_path):
    file = tmp_path / "curves.json"
    told = subprocess.run(command("--help"), env=environment(), check=True, capture_output=True, text=True).stdout
    assert all(it in told for it in ("--csv", "--picture", "--executor", "--errors", "--floor", "--first"))
    subprocess.run(command("--dump-curves", file), env=environment(), check=True)
    assert load(file) == gz.campaign.DEFAULT
